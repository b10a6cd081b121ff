"""What the text of a script tells before it is run: its lines, and which of them are answered."""
from typing import List, Optional, Union

CLASS_PARTS = frozenset(("class", "on", "observe", "has", "associate", "disable"))


def script_bytes(script: Union[str, bytes]) -> bytes:
    """The bytes of a script that was given as a text, or as they are."""
    if isinstance(script, str):
        return script.encode("utf-8")
    if isinstance(script, (bytes, bytearray, memoryview)):
        return bytes(script)
    raise TypeError(f"a script is a str or bytes, and not a {type(script).__name__}")


def source_lines(script: bytes) -> List[str]:
    """The lines of a script: it is cut at each line feed alone."""
    lines = script.decode("utf-8", "replace").split("\n")
    return lines if lines[-1] else lines[:-1]


def is_unanswered(line: str) -> bool:
    """Whether a line answers nothing where it is accepted: a blank one, a comment, and a part of a class."""
    rest = line.lstrip(" ")
    return rest == "" or rest.startswith("#") or rest.split(" ", 1)[0] in CLASS_PARTS


def next_command(lines: List[str], behind: int) -> Optional[int]:
    """The number of the first command behind a line: what a transcript has last, without a reply, belongs to it."""
    for number in range(behind + 1, len(lines) + 1):
        if not is_unanswered(lines[number - 1]):
            return number
    return None
