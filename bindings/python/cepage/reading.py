"""The reader of a transcript's lines.

It is total: a line that it does not know is an `Other`. It takes the lines that docs/transcript.md of cepage lists, as
they are written there, to the byte.
"""
import functools
import re
from typing import Any, Callable, Dict, List, NamedTuple, Optional, Tuple

from .lines import Answer, Ask, Call, Caught, Construct, Fault, Fuel, Line, Log, Node, Other, Reply, Report, Submit, Trace
from .script import next_command, source_lines
from .sent import entries_sent


class Word(NamedTuple):
    """A token of a line that is neither a quoted text, which is a str, nor a Node."""

    text: str


class Unfit(ValueError):
    """A token is not what stands at its place in a line."""


# Numbers of more digits stand in no transcript, and not every language could hold them.
NUMBER = r"(?:0|[1-9][0-9]{0,14})"
BARE = re.compile(rf'#({NUMBER})|([^ "#][^ "]*)')
# A piece of a quoted text. A pattern takes room for each run and each escape that it repeats, and a text has up to 16 million.
PIECE = re.compile(r'(?:[^"\\\x00-\x1f\x7f]+|\\[\\"nrt]|\\u\{(?:[0-8bcef]|1[0-9a-f]|7f)\}){1,4096}')
ESCAPE = re.compile(r"\\(?:u\{([0-9a-f]+)\}|(.))")
SIGNS = {"n": "\n", "r": "\r", "t": "\t"}
REPLY = re.compile(rf"({NUMBER}):")
WHOLE_NUMBER = re.compile(NUMBER)
CLASS_NAME = re.compile(r"[A-Z][A-Za-z0-9_]{0,31}")

Reader = Callable[[Any], Any]
CommandBehind = Callable[[int], Optional[int]]


def tokens_of(text: str) -> List[Any]:
    """The tokens of a line, with one space between them."""
    tokens: List[Any] = []
    at = 0
    while True:
        token, at = quoted_at(text, at) if text[at : at + 1] == '"' else bare_at(text, at)
        tokens.append(token)
        if at == len(text):
            return tokens
        if text[at] != " ":
            raise Unfit
        at += 1


def bare_at(text: str, at: int) -> Tuple[Any, int]:
    """The token without quotes at this place, and where it ends."""
    found = BARE.match(text, at)
    if not found:
        raise Unfit
    node, word = found.groups()
    return Word(word) if word else Node(int(node)), found.end()


def quoted_at(text: str, quote: int) -> Tuple[str, int]:
    """The quoted text that begins with this quote, and where it ends."""
    pieces: List[str] = []
    end = quote + 1
    while True:
        found = PIECE.match(text, end)
        if not found:
            break
        pieces.append(unescaped(found[0]))
        end = found.end()
    if text[end : end + 1] != '"':
        raise Unfit
    return "".join(pieces), end + 1


def unescaped(piece: str) -> str:
    if "\\" not in piece:
        return piece
    return ESCAPE.sub(lambda sign: chr(int(sign[1], 16)) if sign[1] else SIGNS.get(sign[2], sign[2]), piece)


def text(token: Any) -> str:
    if isinstance(token, str):
        return token
    raise Unfit


def node(token: Any) -> Node:
    if isinstance(token, Node):
        return token
    raise Unfit


def word(token: Any) -> str:
    if isinstance(token, Word):
        return token.text
    raise Unfit


def number(token: Any) -> int:
    if WHOLE_NUMBER.fullmatch(word(token)):
        return int(token.text)
    raise Unfit


def or_null(reader: Reader) -> Reader:
    return lambda token: None if token == Word("null") else reader(token)


def one_of(*names: str) -> Reader:
    return lambda token: word(token) if word(token) in names else fail()


def fail() -> Any:
    raise Unfit


def truth(token: Any) -> bool:
    return one_of("true", "false")(token) == "true"


def class_name(token: Any) -> str:
    return word(token) if CLASS_NAME.fullmatch(word(token)) else fail()


def read_each(readers: Tuple[Reader, ...], tokens: List[Any]) -> Tuple[Any, ...]:
    """What each token is, of as many as there are readers."""
    if len(tokens) != len(readers):
        raise Unfit
    return tuple(reader(token) for reader, token in zip(readers, tokens))


FAULTS = (
    "TypeError",
    "ReferenceError",
    "SyntaxError",
    "NotSupportedError",
    "HierarchyRequestError",
    "NotFoundError",
    "InvalidCharacterError",
)
STATES = ("undefined", "failed", "uncustomized", "precustomized", "custom")
FLAGS = (
    "valueMissing",
    "typeMismatch",
    "patternMismatch",
    "tooLong",
    "tooShort",
    "rangeUnderflow",
    "rangeOverflow",
    "stepMismatch",
    "badInput",
    "customError",
)
CALLBACKS: Dict[str, Tuple[Reader, ...]] = {
    "connected": (),
    "disconnected": (),
    "adopted": (node, node),
    "attribute": (text, or_null(text), or_null(text)),
    "formAssociated": (or_null(node),),
    "formDisabled": (truth,),
    "formReset": (),
    "formStateRestore": (text, one_of("restore", "autocomplete")),
}
BAD = ("long", "utf8", "quote", "escape", "word", "arity", "place")
CAUSES = ("disconnected", "dialog", "url", "scheme", "size", "boundary")
ENQUEUED = one_of("upgrade", *CALLBACKS)
TRACE: Dict[str, Tuple[Tuple[str, Reader], ...]] = {
    "open": (("queue", number),),
    "enq": (("reaction", number), ("element", node), ("enqueued", ENQUEUED), ("queue", number)),
    "drain": (("queue", number),),
    "start": (("reaction", number),),
    "finish": (("reaction", number),),
    "up": (("element", node),),
    "done": (("element", node),),
    "drop": (("reaction", number),),
    "threw": (("element", node),),
    "close": (("queue", number),),
}


def read_fault(tokens: List[Any]) -> Fault:
    if len(tokens) == 2 and tokens[0] == Word("user"):
        return Fault("user", text(tokens[1]))
    return Fault(*read_each((one_of(*FAULTS),), tokens))


def read_answer(tokens: List[Any]) -> Answer:
    """What was asked, behind `ask` or the number of a reply."""
    first, many = tokens[0], len(tokens) > 1
    if isinstance(first, str):
        return Answer("texts", tuple(map(text, tokens))) if many else Answer("text", first)
    if isinstance(first, Node):
        return Answer("nodes", tuple(map(node, tokens))) if many else Answer("node", first)
    if first.text in FLAGS:
        return Answer("flags", read_each((one_of(*FLAGS),) * len(tokens), tokens))
    return one_word(word(*tokens)) if not many else fail()


def one_word(said: str) -> Answer:
    """An answer of one word."""
    if said in STATES:
        return Answer("state", said)
    if said in ("yes", "no"):
        return Answer("truth", said == "yes")
    if said in ("null", "list"):
        return Answer(said)
    return Answer("empty", ()) if said == "empty" else Answer("flags", ()) if said == "valid" else fail()


def read_reply(tokens: List[Any]) -> Answer:
    first = tokens[0] if tokens else fail()
    if first in (Word("ok"), Word("ignored")) and len(tokens) == 1:
        return Answer(first.text)
    if first == Word("throw"):
        return Answer("throw", read_fault(tokens[1:]))
    if first == Word("bad"):
        return Answer("bad", *read_each((one_of(*BAD),), tokens[1:]))
    return read_answer(tokens)


def read_call(tokens: List[Any]) -> Dict[str, Any]:
    element, callback = read_each((node, one_of(*CALLBACKS)), tokens[:2])
    return {"element": element, "callback": callback, "arguments": read_each(CALLBACKS[callback], tokens[2:])}


def read_submit(tokens: List[Any]) -> Dict[str, Any]:
    form, method = read_each((node, one_of("get", "post", "blocked")), tokens[:2])
    parts: Dict[str, Any] = {"form": form, "method": method}
    if method == "blocked":
        if tokens[2:3] == [Word("invalid")]:
            return {**parts, "blocked": "invalid", "invalid": tuple(map(node, tokens[3:]))}
        return {**parts, "blocked": read_each((one_of(*CAUSES),), tokens[2:])[0]}
    names = ("url", "media_type", "body") if method == "post" else ("url",)
    parts.update(zip(names, read_each((text,) * len(names), tokens[2:])))
    return {**parts, "entries": entries_sent(parts["url"], parts.get("media_type"), parts.get("body"))}


def read_trace(tokens: List[Any]) -> Dict[str, Any]:
    event = one_of(*TRACE)(tokens[0] if tokens else None)
    row = TRACE[event]
    read = read_each(tuple(reader for _, reader in row), tokens[1:])
    return {"event": event, **dict(zip((name for name, _ in row), read))}


# By the first word of a line: its class, and what reads the tokens behind that word.
ROWS: Dict[str, Tuple[type, Callable[[List[Any]], Dict[str, Any]]]] = {
    "construct": (Construct, lambda tokens: {"class_name": read_each((class_name,), tokens)[0]}),
    "call": (Call, read_call),
    "log": (Log, lambda tokens: {"texts": tuple(map(text, tokens))}),
    "ask": (Ask, lambda tokens: {"answer": read_answer(tokens or fail())}),
    "submit": (Submit, read_submit),
    "caught": (Caught, lambda tokens: {"fault": read_fault(tokens)}),
    "report": (Report, lambda tokens: {"fault": read_fault(tokens)}),
    "fuel": (Fuel, lambda tokens: fail() if tokens else {}),
    "~": (Trace, read_trace),
}


def replied(line: str) -> Optional[int]:
    """The number of the script's line to which this line is the reply."""
    found = REPLY.match(line)
    return int(found[1]) if found else None


def read_line(line: str, place: int = 1, command: Optional[int] = None) -> Line:
    """The value of a line, without its line feed; its place in the transcript, and the line that it answers, are told."""
    try:
        first, *rest = tokens_of(line)
        if isinstance(first, Word) and first.text in ROWS:
            kind, read = ROWS[first.text]
            return kind(line, place, command, **read(rest))
        if isinstance(first, Word) and REPLY.fullmatch(first.text):
            return Reply(line, place, command, read_reply(rest))
    except Unfit:
        pass
    return Other(line, place, command)


def read_lines(transcript: str, command_behind: CommandBehind, place: int = 1) -> Tuple[Line, ...]:
    """The lines of a transcript, each with the number of the script's line that it answers.

    What stands before a reply answers the same line. What stands behind the last one answers the command behind that. A
    last line without a line feed was cut off; where its number is whole, it is that of the command.
    """
    *whole, cut = transcript.split("\n")
    read: List[Line] = []
    first = last = 0
    for index, line in enumerate(whole):
        reply = replied(line)
        if reply is not None:
            read += [read_line(it, place + first + k, reply) for k, it in enumerate(whole[first : index + 1])]
            first, last = index + 1, reply
    command = replied(cut)
    if command is None and (first < len(whole) or cut):
        command = command_behind(last)
    read += [read_line(it, place + first + k, command) for k, it in enumerate(whole[first:])]
    return (*read, Other(cut, place + len(whole), command)) if cut else tuple(read)


def read_transcript(transcript: str, script: str = "") -> Tuple[Line, ...]:
    """The lines of a transcript that was kept. The script tells to which command the last lines belong, where the fuel was
    spent in it.
    """
    return read_lines(transcript, functools.partial(next_command, source_lines(script.encode("utf-8"))))
