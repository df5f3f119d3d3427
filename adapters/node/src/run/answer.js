/**
 * What the program's answer says of the source.
 */
import { OxtOptionError, OxtProgramError, OxtRefusal } from "../errors.js";
import { positionAt } from "../position.js";
import { firstDeeperThan, nodeAtPointer } from "./places.js";

/** How deep the JSON of a tree may nest. */
const MAX_LEVELS = 127;

const Status = { Done: 0, Diagnosed: 1, Refused: 2, Usage: 3, ReadFault: 4, WriteFault: 5, Memory: 6, TooLong: 7 };

const FAILURES = {
  [Status.ReadFault]: "could not read the tree",
  [Status.WriteFault]: "could not write the tree",
  [Status.Memory]: "ran out of memory",
  [Status.TooLong]: "takes trees of up to 16,777,216 bytes of JSON, and this one has more",
};

/**
 * A complaint of the program about a source that it has lowered all the same.
 *
 * @typedef {object} Diagnostic
 * @property {string | null} code
 * @property {string} message
 * @property {string} filename
 * @property {number | null} start in UTF-16 units, like `end`
 * @property {number | null} end
 * @property {number | null} line from 1 on, like `column`
 * @property {number | null} column
 */

/** The source that was given to the program, and how. */
export class Question {
  /**
   * @param {{ source: string, filename: string, tree: object, flags: string[], binary: string, isModule: boolean }} parts
   */
  constructor(parts) {
    Object.assign(this, parts);
  }

  /** The input of the program. */
  get input() {
    return JSON.stringify(this.tree);
  }

  positionOf(node) {
    return positionAt(this.source, this.filename, node?.start ?? 0);
  }

  /**
   * The lowered tree and the diagnostics.
   *
   * @param {import("./program.js").Answer} answer
   * @returns {{ tree: object, diagnostics: Diagnostic[] }}
   */
  read(answer) {
    if (answer.status !== Status.Done && answer.status !== Status.Diagnosed) throw this.fault(answer);
    const [tree, ...lines] = answer.out.trimEnd().split("\n");
    return { tree: parsed(tree, this.binary), diagnostics: lines.map((line) => this.diagnostic(line)) };
  }

  diagnostic(line) {
    const [, code, span, message] = /^(\S+) (\S+) (.*)$/.exec(line) ?? [undefined, "-", "-", line];
    const [start, end] = span === "-" ? [null, null] : span.split("..").map(Number);
    const place = start === null ? undefined : positionAt(this.source, this.filename, start);
    return {
      code: code === "-" ? null : code,
      message,
      filename: this.filename,
      start,
      end,
      line: place?.line ?? null,
      column: place?.column ?? null,
    };
  }

  /** Why there is no lowered tree. */
  fault({ status, signal, err }) {
    const reason = err.trimEnd().split("\n")[0];
    if (status === Status.Refused) return this.refusal(reason);
    if (status === Status.Usage) {
      return new OxtOptionError(`${this.binary} does not take the flags ${this.flags.join(" ")}`);
    }
    if (status in FAILURES) return new OxtProgramError(`${this.binary} ${FAILURES[status]}`, this.positionOf(this.tree));
    const how = status === null ? `was ended by ${signal}` : `ended with the status ${status}${reason && `: ${reason}`}`;
    return new OxtProgramError(`${this.binary} ${how}`, this.positionOf(this.tree));
  }

  /** The refusal that the line of the program tells, with the place that it names. */
  refusal(reason) {
    const [word, ...rest] = reason.split(" ");
    const { what, node, offset } = this.refused(word, rest);
    const position = offset === undefined ? this.positionOf(node) : positionAt(this.source, this.filename, offset);
    return new OxtRefusal(what, position, { reason, status: Status.Refused });
  }

  refused(word, rest) {
    switch (word) {
      case "json": {
        const node = firstDeeperThan(this.tree, MAX_LEVELS);
        return { what: node ? `nested deeper than ${MAX_LEVELS} levels` : "no JSON", node };
      }
      case "shape":
        return { what: "no tree of the grammar", node: nodeAtPointer(this.tree, rest[0] ?? "") };
      case "misplaced":
      case "captured":
        return { what: `${word} ${rest[0]}`, node: nodeAtPointer(this.tree, rest[1] ?? "") };
      case "wide":
        return { what: "wide", offset: Number.parseInt(rest[0], 10) };
      default:
        // The places of a failed certificate are those of the output.
        return { what: [word, ...rest].join(" "), node: this.tree };
    }
  }
}

function parsed(text, binary) {
  try {
    return JSON.parse(text);
  } catch {
    throw new OxtProgramError(`${binary} wrote no tree`);
  }
}
