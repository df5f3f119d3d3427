/**
 * The faults that the adapter tells. Each has one line as its message, and where it is about a place in a source,
 * the file, line and column of that place.
 */

/** A fault that the caller can act on; its message is one line. */
export class OxtError extends Error {
  static code = "ERR_OXT";

  /**
   * @param {string} what what is wrong, without the place
   * @param {import("./position.js").Position} [position] where it is wrong
   */
  constructor(what, position) {
    super(position ? `${what} at ${position}` : what);
    this.name = new.target.name;
    this.code = new.target.code;
    this.what = what;
    this.filename = position?.filename;
    this.line = position?.line;
    this.column = position?.column;
    this.offset = position?.offset;
  }
}

/** The source is not written in the language that its name says, or holds what a tree has no place for. */
export class OxtSyntaxError extends OxtError {
  static code = "ERR_OXT_SYNTAX";
}

/** A tree cannot be printed: it is not plain JavaScript, or no tree of the grammar. */
export class OxtPrintError extends OxtError {
  static code = "ERR_OXT_PRINT";

  /**
   * @param {string} what what is wrong
   * @param {import("./position.js").Position} [position] where, if the source is known
   * @param {object} [node] the node that cannot be printed
   */
  constructor(what, position, node) {
    super(what, position);
    this.node = node;
  }
}

/** The program refused the tree. `reason` is the line that it wrote, `status` its status. */
export class OxtRefusal extends OxtError {
  static code = "ERR_OXT_REFUSED";

  /**
   * @param {string} what what is refused
   * @param {import("./position.js").Position | undefined} position where
   * @param {{ reason: string, status: number }} answer of the program
   */
  constructor(what, position, { reason, status }) {
    super(what, position);
    this.reason = reason;
    this.status = status;
  }
}

/** The program is not there, cannot be run, or ended as it never should. */
export class OxtProgramError extends OxtError {
  static code = "ERR_OXT_PROGRAM";
}

/** An option or a flag is not one of those that there are. */
export class OxtOptionError extends OxtError {
  static code = "ERR_OXT_OPTION";
}

/** Whether the value is a fault of the adapter, one that came out of another thread too. */
export const isOxtError = (error) => typeof error?.code === "string" && error.code.startsWith("ERR_OXT");
