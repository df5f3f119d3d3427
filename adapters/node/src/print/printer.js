/**
 * The text that is being written, with what has to be known of it.
 */
import { OxtPrintError } from "../errors.js";

const INDENT = "  ";

export class Printer {
  constructor() {
    this.chunks = [];
    this.length = 0;
    /** The last character written. */
    this.last = "";
    this.depth = 0;
    /** Whether a bare `in` would be read as that of the head of a loop. */
    this.isInHead = false;
    /** Where the text began to be what some expressions cannot begin with, by the name of that place. */
    this.starts = new Map();
  }

  write(text) {
    if (text === "") return;
    this.chunks.push(text);
    this.length += text.length;
    this.last = text[text.length - 1];
  }

  /** Writes words or signs that must not run together with those in front of them. */
  writeApart(text) {
    if (this.last === text[0]) this.write(" ");
    this.write(text);
  }

  line() {
    this.write("\n" + INDENT.repeat(this.depth));
  }

  /** Writes brackets around what the call writes; inside them a bare `in` means itself. */
  within(open, close, writeInside) {
    const { isInHead } = this;
    this.write(open);
    this.isInHead = false;
    writeInside();
    this.isInHead = isInHead;
    this.write(close);
  }

  /** Writes brackets in which a bare `in` means what it means around them. */
  withinAsHead(open, close, writeInside) {
    this.write(open);
    writeInside();
    this.write(close);
  }

  /** Writes what the call writes as the head of a loop. */
  inHead(writeHead) {
    this.isInHead = true;
    writeHead();
    this.isInHead = false;
  }

  /** Writes the items, each by the call, with a comma between them. */
  list(items, writeItem) {
    items.forEach((item, index) => {
      if (index > 0) this.write(", ");
      writeItem(item);
    });
  }

  /** Writes lines between braces. */
  lines(items, writeItem) {
    this.within("{", "}", () => {
      if (items.length === 0) return;
      this.depth += 1;
      for (const item of items) {
        this.line();
        writeItem(item);
      }
      this.depth -= 1;
      this.line();
    });
  }

  /** Notes that here begins what the name says. */
  begin(place) {
    this.starts.set(place, this.length);
  }

  /** Whether the text is still at the beginning of that. */
  isAtStart(place) {
    return this.starts.get(place) === this.length;
  }

  /** Writes a comment, which is no token: what begins in front of it begins behind it. */
  comment(text) {
    const before = this.length;
    this.write(text);
    for (const [place, start] of this.starts) {
      if (start === before) this.starts.set(place, this.length);
    }
  }

  toString() {
    return this.chunks.join("");
  }
}

/** Ends the printing at a node that the place cannot hold. */
export function unprintable(node, where) {
  throw new OxtPrintError(`${node?.type ?? JSON.stringify(node) ?? "nothing"} cannot be printed ${where}`, undefined, node);
}

/** The call for the node's kind. */
export function handlerOf(handlers, node, where) {
  const type = node?.type;
  return Object.hasOwn(handlers, String(type)) ? handlers[type] : unprintable(node, where);
}
