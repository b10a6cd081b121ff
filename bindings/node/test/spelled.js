// A line's text, spelled from its values alone: what the reader has lost shows as a difference.
const ESCAPED = { '"': '\\"', "\\": "\\\\", "\n": "\\n", "\r": "\\r", "\t": "\\t" };

function text(value) {
  const escaped = value.replace(/["\\\x00-\x1f\x7f]/g, (it) => ESCAPED[it] ?? `\\u{${it.codePointAt(0).toString(16)}}`);
  return `"${escaped}"`;
}

const node = (value) => `#${value}`;
const orNull = (spell) => (value) => (value === null ? "null" : spell(value));
const fault = (it) => (it.text === null ? it.name : `${it.name} ${text(it.text)}`);
const bare = String;

const ARGUMENTS = {
  connected: [],
  disconnected: [],
  formReset: [],
  adopted: [node, node],
  attribute: [text, orNull(text), orNull(text)],
  formAssociated: [orNull(node)],
  formDisabled: [bare],
  formStateRestore: [text, bare],
};

const ANSWERS = {
  text,
  node,
  texts: (value) => value.map(text).join(" "),
  nodes: (value) => value.map(node).join(" "),
  truth: (value) => (value ? "yes" : "no"),
  flags: (value) => value.join(" ") || "valid",
  state: bare,
  throw: (value) => `throw ${fault(value)}`,
  bad: (value) => `bad ${value}`,
};

const answer = ({ what, value }) => (ANSWERS[what] ? ANSWERS[what](value) : what);

function submit(it) {
  const sent = [it.url, it.mediaType, it.body].filter((part) => part !== null).map(text);
  const parts = it.blocked === null ? sent : [it.blocked, ...it.invalid.map(node)];
  return ["submit", node(it.form), it.method, ...parts].join(" ");
}

function trace(it) {
  const parts = [it.reaction, it.element === null ? null : node(it.element), it.enqueued, it.queue];
  return ["~", it.event, ...parts.filter((part) => part !== null)].join(" ");
}

const SPELLED = {
  construct: (it) => `construct ${it.className}`,
  call: (it) => ["call", node(it.element), it.callback, ...ARGUMENTS[it.callback].map((spell, at) => spell(it.arguments[at]))].join(" "),
  log: (it) => ["log", ...it.texts.map(text)].join(" "),
  ask: (it) => `ask ${answer(it.answer)}`,
  submit,
  caught: (it) => `caught ${fault(it.fault)}`,
  report: (it) => `report ${fault(it.fault)}`,
  reply: (it) => `${it.command}: ${answer(it.answer)}`,
  fuel: () => "fuel",
  trace,
};

/** The text of a line of any kind but "other". */
export function spelled(line) {
  return SPELLED[line.kind](line);
}
