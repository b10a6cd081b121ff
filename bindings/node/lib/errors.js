// What goes wrong outside of a script.
import { STATUSES } from "./status.js";

const MOST_TOLD = 300;

/** The program or its library could not be used. */
export class CepageError extends Error {
  get name() {
    return this.constructor.name;
  }
}

/** What is said of a program that can't be started, and of a library that can't be called. */
export function unfit(what, { name, askedBy }, cause) {
  const why = cause.message.split("\n", 1)[0];
  return new CepageError(`the ${what} "${name}" of ${askedBy} could not be used: ${why}`, { cause });
}

/** There is no program of that name. */
export class ProgramMissing extends CepageError {
  constructor(name, askedBy) {
    super(`there is no program "${name}", which ${askedBy} names; say program, or set CEPAGE, to cepage`);
  }
}

/** The program ended as cepage does not: by a signal, or with another status. */
export class ProgramDied extends CepageError {
  constructor(name, ended, told = "") {
    super(`${name} ended ${howItEnded(ended)}${told && `: ${told}`}`);
  }
}

/** The session is over, so this line was not run. */
export class SessionEnded extends CepageError {
  constructor(why, status) {
    super(`the session has ended: ${why}`);
    this.status = status;
  }
}

/** How a process ended, in words: { code, signal }. */
export function howItEnded({ code, signal }) {
  if (signal) return `by the signal ${signal}`;
  return `with status ${code}${STATUSES[code] ? `, ${STATUSES[code]}` : ""}`;
}

/** A line of a script, as an error tells it: of a long one the beginning. */
export function cut(line) {
  const more = line.length - MOST_TOLD;
  return more <= 0 ? line : `${line.slice(0, MOST_TOLD)} … and ${more} characters more`;
}
