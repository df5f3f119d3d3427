/**
 * Places in a source, as people name them.
 */

const LINE_BREAK = /\r\n?|[\n\u2028\u2029]/g;

/** A place in a file: the line and the column count from 1, the column in UTF-16 units. */
export class Position {
  /**
   * @param {string} filename
   * @param {number} line
   * @param {number} column
   * @param {number} offset in UTF-16 units from the start of the file
   */
  constructor(filename, line, column, offset) {
    this.filename = filename;
    this.line = line;
    this.column = column;
    this.offset = offset;
  }

  toString() {
    return `${this.filename}:${this.line}:${this.column}`;
  }
}

/**
 * The position of an offset.
 *
 * @param {string} text of the file
 * @param {string} filename
 * @param {number} offset
 * @returns {Position}
 */
export function positionAt(text, filename, offset) {
  const before = text.slice(0, offset);
  let line = 1;
  let lineStart = 0;
  for (const found of before.matchAll(LINE_BREAK)) {
    line += 1;
    lineStart = found.index + found[0].length;
  }
  return new Position(filename, line, offset - lineStart + 1, offset);
}
