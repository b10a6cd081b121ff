"""The lines of a transcript as values: a class for each kind."""
from dataclasses import dataclass
from typing import ClassVar, Optional, Tuple, Union

Text = Optional[str]


@dataclass(frozen=True)
class Node:
    """A node, by its number; node 1 is the page's document."""

    number: int

    def __str__(self) -> str:
        return f"#{self.number}"


@dataclass(frozen=True)
class Fault:
    """What was thrown: the fault's name, which is `user` of one that a body threw itself, with its text."""

    name: str
    text: Text = None


Value = Union[None, bool, str, Node, Fault, Tuple[str, ...], Tuple[Node, ...]]


@dataclass(frozen=True)
class Answer:
    """What was found or replied.

    | what | value |
    |---|---|
    | `ok`, `ignored` | None: it was done, or the control does not take it |
    | `node`, `nodes` | the node, or a tuple of them |
    | `text`, `texts` | a str, or a tuple of them |
    | `null`, `list` | None: there is none, or there is a list of entries |
    | `empty` | (): no nodes, or no texts |
    | `truth` | True of `yes`, False of `no` |
    | `state` | the name of the custom element state |
    | `flags` | a tuple of the validity flags, which is empty of `valid` |
    | `throw` | the Fault |
    | `bad` | why the line was refused |
    """

    what: str
    value: Value = None


@dataclass(frozen=True)
class Line:
    """A line: as it stands, its number in the transcript, and that of the script's line which it answers.

    No command is told of the last lines of a transcript that was read without its script, and that has no reply to them.
    """

    kind: ClassVar[str] = ""
    text: str
    number: int
    command: Optional[int]


@dataclass(frozen=True)
class Other(Line):
    """A line that is none of the kinds below, or the last one, where it was cut off."""

    kind: ClassVar[str] = "other"


@dataclass(frozen=True)
class Construct(Line):
    """The constructor of a class starts."""

    kind: ClassVar[str] = "construct"
    class_name: str


@dataclass(frozen=True)
class Call(Line):
    """A callback of an element starts. The arguments are those of the callback:

    | callback | arguments |
    |---|---|
    | `connected`, `disconnected`, `formReset` | none |
    | `attribute` | the name, the old value and the new one; None where there is none |
    | `adopted` | the node document before, and since |
    | `formAssociated` | the form owner, or None |
    | `formDisabled` | whether it is disabled |
    | `formStateRestore` | the state's text, and `restore` or `autocomplete` |
    """

    kind: ClassVar[str] = "call"
    element: Node
    callback: str
    arguments: Tuple[Union[None, bool, str, Node], ...]


@dataclass(frozen=True)
class Log(Line):
    """A body logged these texts."""

    kind: ClassVar[str] = "log"
    texts: Tuple[str, ...]


@dataclass(frozen=True)
class Ask(Line):
    """A question in a body found this."""

    kind: ClassVar[str] = "ask"
    answer: Answer


@dataclass(frozen=True)
class Submit(Line):
    """A form is submitted by `get` or `post`, or its submission is `blocked`."""

    kind: ClassVar[str] = "submit"
    form: Node
    method: str
    url: Text = None
    media_type: Text = None
    body: Text = None
    blocked: Text = None
    """What blocks it: `disconnected`, `invalid`, `dialog`, `url`, `scheme`, `size` or `boundary`."""
    invalid: Tuple[Node, ...] = ()
    """The controls that are invalid, where that blocks it."""
    entries: Optional[Tuple[Tuple[str, str], ...]] = None
    """The names and values that were sent. None of one that is blocked, and of a plain text that tells no entries."""


@dataclass(frozen=True)
class Caught(Line):
    """A `try` of a body took the fault."""

    kind: ClassVar[str] = "caught"
    fault: Fault


@dataclass(frozen=True)
class Report(Line):
    """A callback ended with the fault, or an upgrade or a creation threw it."""

    kind: ClassVar[str] = "report"
    fault: Fault


@dataclass(frozen=True)
class Reply(Line):
    """The reply of a line of the script, the last line that it writes."""

    kind: ClassVar[str] = "reply"
    answer: Answer


@dataclass(frozen=True)
class Fuel(Line):
    """The fuel is spent."""

    kind: ClassVar[str] = "fuel"


@dataclass(frozen=True)
class Trace(Line):
    """A line of the trace: `open`, `enq`, `drain`, `start`, `finish`, `up`, `done`, `drop`, `threw` or `close`."""

    kind: ClassVar[str] = "trace"
    event: str
    reaction: Optional[int] = None
    element: Optional[Node] = None
    enqueued: Text = None
    """Of `enq`: the callback's name, or `upgrade`."""
    queue: Optional[int] = None
