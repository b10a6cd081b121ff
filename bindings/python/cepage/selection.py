"""What is asked of lines, of a whole run or of one command."""
from typing import Tuple, Union

from .lines import Call, Construct, Line, Log, Node, Report, Submit


def numbered(node: Union[int, Node]) -> Node:
    return node if isinstance(node, Node) else Node(node)


class Selection:
    """Lines, by their kinds."""

    @property
    def lines(self) -> Tuple[Line, ...]:
        """The lines, in their order."""
        raise NotImplementedError

    @property
    def calls(self) -> Tuple[Call, ...]:
        """The callbacks that started."""
        return tuple(line for line in self.lines if isinstance(line, Call))

    @property
    def constructs(self) -> Tuple[Construct, ...]:
        """The constructors that started."""
        return tuple(line for line in self.lines if isinstance(line, Construct))

    @property
    def logs(self) -> Tuple[Tuple[str, ...], ...]:
        """The texts of each line that a body logged."""
        return tuple(line.texts for line in self.lines if isinstance(line, Log))

    @property
    def reports(self) -> Tuple[Report, ...]:
        """The faults that were reported."""
        return tuple(line for line in self.lines if isinstance(line, Report))

    def heard(self, element: Union[int, Node]) -> Tuple[Call, ...]:
        """The callbacks that this element heard."""
        return tuple(call for call in self.calls if call.element == numbered(element))

    def submissions(self, form: Union[int, Node, None] = None) -> Tuple[Submit, ...]:
        """The submissions, blocked ones among them: of this form, or of all."""
        lines = (line for line in self.lines if isinstance(line, Submit))
        return tuple(line for line in lines if form is None or line.form == numbered(form))
