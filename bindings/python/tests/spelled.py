"""A line's text, spelled from its values alone: what the reader has lost shows as a difference."""
import re

from cepage import Ask, Call, Caught, Construct, Fuel, Log, Node, Reply, Report, Submit, Trace

ESCAPED = {'"': '\\"', "\\": "\\\\", "\n": "\\n", "\r": "\\r", "\t": "\\t"}


def token(value):
    if value is None:
        return "null"
    if isinstance(value, bool):
        return str(value).lower()
    if isinstance(value, Node):
        return f"#{value.number}"
    return '"' + re.sub(r'["\\\x00-\x1f\x7f]', lambda it: ESCAPED.get(it[0], f"\\u{{{ord(it[0]):x}}}"), value) + '"'


def fault(it):
    return it.name if it.text is None else f"{it.name} {token(it.text)}"


def answer(it):
    if it.what in ("text", "node"):
        return token(it.value)
    if it.what in ("texts", "nodes"):
        return " ".join(map(token, it.value))
    if it.what == "truth":
        return "yes" if it.value else "no"
    if it.what == "flags":
        return " ".join(it.value) or "valid"
    if it.what == "state":
        return it.value
    if it.what in ("throw", "bad"):
        return f"{it.what} {it.value if it.what == 'bad' else fault(it.value)}"
    return it.what


def call(it):
    words = [it.element, *it.arguments]
    spelled = [token(word) for word in words]
    if it.callback == "formStateRestore":
        spelled[-1] = it.arguments[-1]
    return " ".join(["call", spelled[0], it.callback, *spelled[1:]])


def submit(it):
    parts = [token(part) for part in (it.url, it.media_type, it.body) if part is not None]
    if it.blocked is not None:
        parts = [it.blocked, *map(token, it.invalid)]
    return " ".join(["submit", token(it.form), it.method, *parts])


def trace(it):
    parts = (it.reaction, it.element and token(it.element), it.enqueued, it.queue)
    return " ".join(["~", it.event, *(str(part) for part in parts if part is not None)])


SPELLED = {
    Construct: lambda it: f"construct {it.class_name}",
    Call: call,
    Log: lambda it: " ".join(["log", *map(token, it.texts)]),
    Ask: lambda it: f"ask {answer(it.answer)}",
    Submit: submit,
    Caught: lambda it: f"caught {fault(it.fault)}",
    Report: lambda it: f"report {fault(it.fault)}",
    Reply: lambda it: f"{it.command}: {answer(it.answer)}",
    Fuel: lambda it: "fuel",
    Trace: trace,
}


def spelled(line):
    """The text of a line of any kind but `other`."""
    return SPELLED[type(line)](line)
