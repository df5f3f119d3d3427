/**
 * Runs Node.
 */
import { spawn } from "node:child_process";

const MAX_MILLISECONDS = 120_000;

/** What Node does with the words. */
export function runNode(words, { cwd, env = {}, input = "" } = {}) {
  return new Promise((resolve, reject) => {
    const child = spawn(process.execPath, words, { cwd, env: { ...process.env, ...env }, timeout: MAX_MILLISECONDS });
    const texts = { out: "", err: "" };
    child.stdout.on("data", (piece) => (texts.out += piece));
    child.stderr.on("data", (piece) => (texts.err += piece));
    child.stdin.on("error", () => {});
    child.on("error", reject);
    child.on("close", (status, signal) => resolve({ status: status ?? signal, ...texts }));
    child.stdin.end(input);
  });
}
