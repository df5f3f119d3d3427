#!/usr/bin/env node
import { main } from "../src/cli/main.js";

// What cannot be written to standard error cannot be told.
process.stderr.on("error", () => {});
process.exitCode = await main(process.argv.slice(2), process);
