"""One command, and what it wrote."""
from typing import TYPE_CHECKING, Any, Callable, List, Optional, Sequence, Tuple, Union

from .errors import CepageError
from .failure import Failure, block, differing, indented, place, told_from
from .lines import Answer, Line, Node, Reply
from .selection import Selection

if TYPE_CHECKING:
    from .running import Run


class Command(Selection):
    """A command of a script, or a line that was refused: its number, its text and the lines that it wrote.

    As a text it says what it wrote, and its trace; so it can stand as the message of any assertion.
    """

    def __init__(self, run: Callable[[], "Run"], number: int, source: str, lines: Tuple[Line, ...]) -> None:
        self._run = run
        self.number = number
        self.source = source
        self._lines = lines

    @property
    def run(self) -> "Run":
        """The run of which it is; of a session, what that was until then."""
        return self._run()

    @property
    def lines(self) -> Tuple[Line, ...]:
        """The lines that it wrote, the reply last. In a session those of the refused parts of classes before it come first."""
        return self._lines

    @property
    def texts(self) -> Tuple[str, ...]:
        """The lines as they stand in the transcript."""
        return tuple(line.text for line in self.lines)

    @property
    def reply(self) -> Optional[Answer]:
        """What it replied. None where the fuel was spent in it, and of a line that answers nothing."""
        last = self.lines[-1] if self.lines else None
        return last.answer if isinstance(last, Reply) else None

    @property
    def value(self) -> Any:
        """The value of the reply, as the text that was asked or the node that was made."""
        return self.reply.value if self.reply else None

    @property
    def node(self) -> Node:
        """The node that it gives."""
        if isinstance(self.value, Node):
            return self.value
        raise self.failure("a reply that gives a node", [self.replied])

    @property
    def replied(self) -> str:
        """The reply as it stands, without the number."""
        return self.texts[-1].partition(": ")[2] if self.reply else "no reply"

    def expect(self, *lines: str) -> None:
        """Fails unless it wrote just these lines; the reply may be said without its number."""
        expected = list(lines)
        if self.reply and expected and expected[-1] == self.replied:
            expected[-1] = self.texts[-1]
        if expected != list(self.texts):
            raise self.failed(differing(expected, self.texts))

    def expect_reply(self, reply: str) -> None:
        """Fails unless this is the reply, said without its number."""
        if self.replied != reply:
            raise self.failure(reply, [self.replied])

    def expect_heard(self, element: Union[int, Node], *callbacks: str) -> None:
        """Fails unless the element heard just these callbacks, said by their names, in this order."""
        calls = self.heard(element)
        heard = [call.callback for call in calls]
        if heard != list(callbacks):
            came = block("came:", [call.text for call in calls], told_from(place(callbacks, heard), heard))
            raise self.failed(block("expected:", [" ".join(callbacks) or "no callback"]) + came)

    def expect_sent(self, *entries: Tuple[str, str]) -> None:
        """Fails unless one form was submitted in it, and sent just these names and values, in this order."""
        submissions = self.submissions()
        if len(submissions) != 1 or submissions[0].entries != entries:
            came = [line for it in submissions for line in [it.text, *map(repr, it.entries or ())]]
            wanted = ["one submission with", *map(repr, entries)]
            first = told_from(1 + place(wanted[1:], came[1:]), wanted, came)
            raise self.failed(block("expected:", wanted, first) + block("came:", came, first))

    def failure(self, expected: str, came: Sequence[str]) -> Failure:
        """A failure of this command: the script's line, what was expected, what came, and the trace of the line."""
        return self.failed(block("expected:", [expected]) + block("came:", came))

    def failed(self, told: List[str]) -> Failure:
        return Failure("\n".join([self.title, *told, *self.trace]))

    @property
    def title(self) -> str:
        return f"line {self.number} of the script: {self.source}"

    @property
    def trace(self) -> List[str]:
        """The trace of the line, as an outline under its title. Where the run was without it, the script is run again."""
        try:
            traced = self.run.traced()
            lines = [it.text for it in traced.lines if it.command == self.number]
        except CepageError as error:
            return [f"no trace: {error}"]
        return block("trace of the line:", indented(lines))

    def __str__(self) -> str:
        return "\n".join([self.title, *block("it wrote:", self.texts), *self.trace])

    def __repr__(self) -> str:
        return f"<Command {self.number}: {self.source}>"
