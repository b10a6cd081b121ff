// The names of the program's exit statuses, by their numbers.
export const STATUSES = Object.freeze([
  "Done",
  "BadLines",
  "Usage",
  "Fuel",
  "ReadFault",
  "WriteFault",
  "NoMemory",
  "TooLong",
]);
