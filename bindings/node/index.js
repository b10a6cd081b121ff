// cepage in a test: a script in, what each line did out.
export { Command } from "./lib/command.js";
export { CepageError, ProgramDied, ProgramMissing, SessionEnded } from "./lib/errors.js";
export { Failure } from "./lib/failure.js";
export { readLine, readTranscript } from "./lib/reading.js";
export { Run, run } from "./lib/run.js";
export { entriesSent } from "./lib/sent.js";
export { Session } from "./lib/session.js";
export { STATUSES } from "./lib/status.js";
