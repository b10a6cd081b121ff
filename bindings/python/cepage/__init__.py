"""cepage in a test: a script in, what each line did out.

>>> from cepage import run
>>> script = '''class Card
... on Card connected : log in
... define x-card Card
... create $html html
... append doc $html
... create $card x-card
... append $html $card
... '''
>>> card = run(script)
>>> card.status
<Status.DONE: 0>
>>> card.command(7).texts
('call #3 connected', 'log "in"', '7: ok')
>>> [call.callback for call in card.heard(3)]
['connected']
"""
from .command import Command
from .errors import CepageError, ProgramDied, ProgramMissing, SessionEnded
from .failure import Failure
from .lines import (
    Answer,
    Ask,
    Call,
    Caught,
    Construct,
    Fault,
    Fuel,
    Line,
    Log,
    Node,
    Other,
    Reply,
    Report,
    Submit,
    Trace,
)
from .reading import read_line, read_transcript
from .running import Run, run
from .sent import entries_sent
from .session import Session
from .status import Status

__all__ = [
    "Answer",
    "Ask",
    "Call",
    "Caught",
    "CepageError",
    "Command",
    "Construct",
    "Failure",
    "Fault",
    "Fuel",
    "Line",
    "Log",
    "Node",
    "Other",
    "ProgramDied",
    "ProgramMissing",
    "Reply",
    "Report",
    "Run",
    "Session",
    "SessionEnded",
    "Status",
    "Submit",
    "Trace",
    "entries_sent",
    "read_line",
    "read_transcript",
    "run",
]
