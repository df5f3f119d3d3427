/**
 * Runs the program. It takes one tree and ends; as many run at a time as there are cores.
 */
import { spawn, spawnSync } from "node:child_process";
import { availableParallelism } from "node:os";
import { OxtProgramError } from "../errors.js";

/**
 * What the program answered.
 *
 * @typedef {{ status: number | null, signal: string | null, out: string, err: string }} Answer
 */

/**
 * Runs the program on a text.
 *
 * @param {string} binary
 * @param {string[]} flags
 * @param {string} input
 * @returns {Promise<Answer>}
 */
export async function run(binary, flags, input) {
  await slots.take();
  try {
    return await ended(spawn(binary, flags, { stdio: ["pipe", "pipe", "pipe"] }), binary, input);
  } finally {
    slots.give();
  }
}

/**
 * The same, while everything else waits.
 *
 * @param {string} binary
 * @param {string[]} flags
 * @param {string} input
 * @returns {Answer}
 */
export function runSync(binary, flags, input) {
  const done = spawnSync(binary, flags, { input, maxBuffer: Number.POSITIVE_INFINITY });
  // A program that ends before it has read everything closes the pipe; its status tells why.
  if (done.error && done.error.code !== "EPIPE") throw cannotRun(binary, done.error);
  return { status: done.status, signal: done.signal, out: done.stdout.toString(), err: done.stderr.toString() };
}

function ended(child, binary, input) {
  return new Promise((resolve, reject) => {
    const out = [];
    const err = [];
    child.stdout.on("data", (piece) => out.push(piece));
    child.stderr.on("data", (piece) => err.push(piece));
    child.stdin.on("error", () => {});
    child.on("error", (error) => reject(cannotRun(binary, error)));
    child.on("close", (status, signal) => {
      resolve({ status, signal, out: Buffer.concat(out).toString(), err: Buffer.concat(err).toString() });
    });
    child.stdin.end(input);
  });
}

const cannotRun = (binary, error) => new OxtProgramError(`${binary} cannot be run: ${error.code ?? error.message}`);

/** How many may run at a time; the others wait in the order in which they came. */
class Slots {
  constructor(count) {
    this.free = count;
    this.waiting = [];
  }

  async take() {
    if (this.free > 0) this.free -= 1;
    else await new Promise((resolve) => this.waiting.push(resolve));
  }

  give() {
    const next = this.waiting.shift();
    if (next) next();
    else this.free += 1;
  }
}

/** The number of programs that run at a time. */
export const PROGRAMS_AT_A_TIME = availableParallelism();
const slots = new Slots(PROGRAMS_AT_A_TIME);
