/**
 * A line on a terminal that tells how far the work is.
 */
const CLEAR_LINE = "\r\x1b[K";

export class Progress {
  /**
   * @param {NodeJS.WriteStream} stream where the line is shown, if that is a terminal
   * @param {number} total
   */
  constructor(stream, total) {
    this.stream = stream;
    this.total = total;
    this.done = 0;
  }

  /** One more is done. */
  step(name) {
    this.done += 1;
    this.show(`[${this.done}/${this.total}] ${name}`);
  }

  /** Takes the line away. */
  end() {
    this.show("");
  }

  show(text) {
    if (!this.stream.isTTY) return;
    const columns = this.stream.columns || 80;
    this.stream.write(CLEAR_LINE + text.slice(0, columns - 1));
  }
}
