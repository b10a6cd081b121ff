"""What a form sent: the entries of a URL's query, or of a body."""
from typing import Optional, Tuple
from urllib.parse import parse_qsl

Entries = Tuple[Tuple[str, str], ...]

URLENCODED = "application/x-www-form-urlencoded"
MULTIPART = "multipart/form-data; boundary="
NAME = '\r\nContent-Disposition: form-data; name="'


def entries_sent(url: str, media_type: Optional[str], body: Optional[str]) -> Optional[Entries]:
    """The names and values, in order: of the query where there is no body. None where they can't be told."""
    if media_type is None or body is None:
        return urlencoded(url.partition("#")[0].partition("?")[2])
    if media_type == URLENCODED:
        return urlencoded(body)
    if media_type == "text/plain":
        return plain(body)
    return multipart(body, media_type[len(MULTIPART) :]) if media_type.startswith(MULTIPART) else None


def urlencoded(text: str) -> Entries:
    return tuple(parse_qsl(text, keep_blank_values=True))


def plain(body: str) -> Optional[Entries]:
    """A line for each entry. A name with `=`, or a line end in a name or a value, makes it the body of other entries, or
    of none.
    """
    *lines, rest = body.split("\r\n")
    cut = [line.partition("=") for line in lines]
    if rest or not all(sign for _, sign, _ in cut):
        return None
    return tuple((name, value) for name, _, value in cut)


def multipart(body: str, boundary: str) -> Optional[Entries]:
    """The parts between the boundaries. In a name `%22`, `%0D` and `%0A` stay as they were sent.

    The standard library's `email` drops a backslash in a name, so it does not fit.
    """
    first, *parts = f"\r\n{body}".split(f"\r\n--{boundary}")
    if first or not parts or parts.pop() != "--\r\n":
        return None
    cut = [part[len(NAME) :].partition('"\r\n\r\n') for part in parts]
    if not all(part.startswith(NAME) and sign for part, (_, sign, _) in zip(parts, cut)):
        return None
    return tuple((name, value) for name, _, value in cut)
