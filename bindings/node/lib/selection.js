// What is asked of lines, of a whole run or of one command.
export class Selection {
  /** The callbacks that started. */
  get calls() {
    return this.lines.filter((line) => line.kind === "call");
  }

  /** The constructors that started. */
  get constructs() {
    return this.lines.filter((line) => line.kind === "construct");
  }

  /** The texts of each line that a body logged. */
  get logs() {
    return this.lines.filter((line) => line.kind === "log").map((line) => line.texts);
  }

  /** The faults that were reported. */
  get reports() {
    return this.lines.filter((line) => line.kind === "report");
  }

  /** The callbacks that this element heard. */
  heard(element) {
    return this.calls.filter((call) => call.element === element);
  }

  /** The submissions, blocked ones among them: of this form, or of all. */
  submissions(form) {
    return this.lines.filter((line) => line.kind === "submit" && (form === undefined || line.form === form));
  }
}
