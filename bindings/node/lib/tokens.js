// The tokens of a transcript's line, and what each may be.
//
// A quoted text is { text }, a node { node }, and any other token { word }.

/** A token is not what stands at its place in a line. */
export class Unfit extends Error {}

// Numbers of more digits stand in no transcript, and a number of JavaScript could not hold them.
const NUMBER = "(?:0|[1-9][0-9]{0,14})";
const BARE = new RegExp(`#(${NUMBER})|([^ "#][^ "]*)`, "y");
// A piece of a quoted text. A pattern takes room for each run and each escape that it repeats, and a text has up to 16 million.
const PIECE = /(?:[^"\\\x00-\x1f\x7f]+|\\[\\"nrt]|\\u\{(?:[0-8bcef]|1[0-9a-f]|7f)\}){1,4096}/y;
const WHOLE_NUMBER = new RegExp(`^${NUMBER}$`);
const REPLY = new RegExp(`^(${NUMBER}):`);
const SIGNS = { n: "\n", r: "\r", t: "\t" };

/** The tokens of a line, with one space between them. */
export function tokensOf(line) {
  const tokens = [];
  let at = 0;
  for (;;) {
    const [token, end] = line[at] === '"' ? quotedAt(line, at) : bareAt(line, at);
    tokens.push(token);
    if (end === line.length) return tokens;
    if (line[end] !== " ") throw new Unfit();
    at = end + 1;
  }
}

// The token without quotes at this place, and where it ends.
function bareAt(line, place) {
  BARE.lastIndex = place;
  const found = BARE.exec(line);
  if (!found) throw new Unfit();
  const [, node, word] = found;
  return [word === undefined ? { node: Number(node) } : { word }, BARE.lastIndex];
}

// The quoted text that begins with this quote, and where it ends.
function quotedAt(line, quote) {
  const pieces = [];
  let end = quote + 1;
  PIECE.lastIndex = end;
  for (let found = PIECE.exec(line); found; found = PIECE.exec(line)) {
    pieces.push(unescaped(found[0]));
    end = PIECE.lastIndex;
  }
  if (line[end] !== '"') throw new Unfit();
  return [{ text: pieces.join("") }, end + 1];
}

function unescaped(piece) {
  return piece.replace(/\\(?:u\{([0-9a-f]+)\}|(.))/g, (_, code, sign) =>
    code ? String.fromCodePoint(parseInt(code, 16)) : (SIGNS[sign] ?? sign),
  );
}

/** The number of the script's line to which this line is the reply; null of other lines. */
export function replied(line) {
  const found = REPLY.exec(line);
  return found && Number(found[1]);
}

export function text(token) {
  return token?.text ?? fail();
}

export function node(token) {
  return token?.node ?? fail();
}

export function word(token) {
  return token?.word ?? fail();
}

export function number(token) {
  return WHOLE_NUMBER.test(word(token)) ? Number(token.word) : fail();
}

export function truth(token) {
  return oneOf("true", "false")(token) === "true";
}

export function orNull(reader) {
  return (token) => (token?.word === "null" ? null : reader(token));
}

export function oneOf(...names) {
  return (token) => (names.includes(word(token)) ? token.word : fail());
}

export function fail() {
  throw new Unfit();
}

/** What each token is, of as many as there are readers. */
export function readEach(readers, tokens) {
  if (tokens.length !== readers.length) throw new Unfit();
  return readers.map((reader, at) => reader(tokens[at]));
}
