"""The reader of a transcript's lines."""
import random
import tracemalloc
import unittest

from cepage import Answer, Fault, Node, read_line, read_transcript, run

from . import EXAMPLES
from .spelled import spelled

# A line, its kind, and what its parts are.
LINES = [
    ("construct Card", "construct", {"class_name": "Card"}),
    ("call #3 connected", "call", {"element": Node(3), "callback": "connected", "arguments": ()}),
    ("call #3 disconnected", "call", {"callback": "disconnected", "arguments": ()}),
    ('call #3 attribute "open" null ""', "call", {"callback": "attribute", "arguments": ("open", None, "")}),
    ("call #3 adopted #1 #7", "call", {"callback": "adopted", "arguments": (Node(1), Node(7))}),
    ("call #3 formAssociated #4", "call", {"callback": "formAssociated", "arguments": (Node(4),)}),
    ("call #3 formAssociated null", "call", {"callback": "formAssociated", "arguments": (None,)}),
    ("call #3 formDisabled true", "call", {"callback": "formDisabled", "arguments": (True,)}),
    ("call #3 formDisabled false", "call", {"callback": "formDisabled", "arguments": (False,)}),
    ("call #3 formReset", "call", {"callback": "formReset", "arguments": ()}),
    ('call #3 formStateRestore "s" autocomplete', "call", {"arguments": ("s", "autocomplete")}),
    ('log "a b" "" "é"', "log", {"texts": ("a b", "", "é")}),
    (r'log "\"\\\n\r\t\u{0}\u{7f}\\n"', "log", {"texts": ('"\\\n\r\t\0\x7f\\n',)}),
    ("log", "log", {"texts": ()}),
    ("ask null", "ask", {"answer": Answer("null")}),
    ("ask #1", "ask", {"answer": Answer("node", Node(1))}),
    ("caught TypeError", "caught", {"fault": Fault("TypeError")}),
    ('report user "no"', "report", {"fault": Fault("user", "no")}),
    ('submit #3 get "http://h/?a=b+c#d"', "submit", {"url": "http://h/?a=b+c#d", "entries": (("a", "b c"),)}),
    ('submit #3 post "http://h/" "text/plain" "a=b\\r\\n"', "submit", {"body": "a=b\r\n", "entries": (("a", "b"),)}),
    ("submit #3 blocked invalid #5 #4", "submit", {"blocked": "invalid", "invalid": (Node(5), Node(4))}),
    ("submit #3 blocked url", "submit", {"form": Node(3), "method": "blocked", "blocked": "url", "entries": None}),
    ("7: ok", "reply", {"command": 7, "answer": Answer("ok")}),
    ("7: ignored", "reply", {"answer": Answer("ignored")}),
    ("7: #12", "reply", {"answer": Answer("node", Node(12))}),
    ("7: #12 #9", "reply", {"answer": Answer("nodes", (Node(12), Node(9)))}),
    ('7: "ok"', "reply", {"answer": Answer("text", "ok")}),
    ('7: "a" "b"', "reply", {"answer": Answer("texts", ("a", "b"))}),
    ("7: null", "reply", {"answer": Answer("null")}),
    ("7: empty", "reply", {"answer": Answer("empty", ())}),
    ("7: list", "reply", {"answer": Answer("list")}),
    ("7: yes", "reply", {"answer": Answer("truth", True)}),
    ("7: no", "reply", {"answer": Answer("truth", False)}),
    ("7: precustomized", "reply", {"answer": Answer("state", "precustomized")}),
    ("7: valid", "reply", {"answer": Answer("flags", ())}),
    ("7: valueMissing customError", "reply", {"answer": Answer("flags", ("valueMissing", "customError"))}),
    ("7: throw NotFoundError", "reply", {"answer": Answer("throw", Fault("NotFoundError"))}),
    ('7: throw user "#2"', "reply", {"answer": Answer("throw", Fault("user", "#2"))}),
    ("7: bad place", "reply", {"answer": Answer("bad", "place")}),
    ("fuel", "fuel", {}),
    ("~ open 5", "trace", {"event": "open", "queue": 5}),
    ("~ enq 1 #3 upgrade 0", "trace", {"reaction": 1, "element": Node(3), "enqueued": "upgrade", "queue": 0}),
    ("~ enq 1 #3 formReset 0", "trace", {"event": "enq", "enqueued": "formReset"}),
    ("~ drain 0", "trace", {"event": "drain", "queue": 0}),
    ("~ start 2", "trace", {"event": "start", "reaction": 2}),
    ("~ finish 2", "trace", {"event": "finish", "reaction": 2}),
    ("~ up #3", "trace", {"event": "up", "element": Node(3)}),
    ("~ done #3", "trace", {"event": "done", "element": Node(3)}),
    ("~ drop 2", "trace", {"event": "drop", "reaction": 2}),
    ("~ threw #3", "trace", {"event": "threw", "element": Node(3)}),
    ("~ close 5", "trace", {"event": "close", "queue": 5}),
]

# Lines that no transcript has.
OTHERS = [
    "", " ", "construct", "construct card", "construct A B", "construct " + "A" * 33, "call", "call #3", "call 3 connected", "call #3 clicked",
    "call #3 connected ", "call  #3 connected", "call #03 connected", "call #3 adopted #1", "call #3 adopted #1 null", 'call #3 attribute "k" null',
    'call #3 attribute null null ""', "call #3 formDisabled yes", 'call #3 formStateRestore "s" other', "log a", 'log"a"',
    'log "a', 'log "a""b"', 'log "a"x"b"', r'log "\u{007f}"', r'log "\q"', r'log "\u{}"', r'log "\u{7F}"', r'log "\u{41}"', r'log "\u{a}"', r'log "\u{01}"', r'log "\u{80}"', 'log "\t"', "ask", "ask ok", "ask a", "caught",
    "caught Error", "caught user", "report TypeError x", "submit #3", "submit #3 get", "submit #3 get http://h/",
    'submit #3 post "u" "t"', "submit #3 blocked", "submit #3 blocked late", "submit #3 blocked invalid x", "7:", "7: ",
    "7 : ok", "07: ok", "x7: ok", "7: OK", "7: ok ok", "7: throw", "7: throw user", "7: bad", "7: bad later", "7: #1 x",
    '7: "a" #1', "7: valid valueMissing", "7: valueMissing valid", "1234567890123456: ok", "fuel ", "fuel 1", "~", "~ open",
    "~ open #1", "~ enq 1 #3 constructor 0", "~ enq 1 #3 upgrade", "~ up 3", "~open 5", "-7: ok", "٧: ok",
]  # fmt: skip


class Reading(unittest.TestCase):
    def test_each_kind_of_line_has_its_parts(self) -> None:
        for text, kind, parts in LINES:
            with self.subTest(text):
                line = read_line(text, 9, int(text[0]) if kind == "reply" else None)
                self.assertEqual((line.kind, line.text, line.number), (kind, text, 9))
                self.assertEqual({name: getattr(line, name) for name in parts}, parts)
                self.assertEqual(spelled(line), text)

    def test_what_no_transcript_has_is_other(self) -> None:
        for text in OTHERS:
            with self.subTest(text):
                self.assertEqual(read_line(text).kind, "other")

    def test_no_line_is_too_odd(self) -> None:
        signs = random.Random(7)
        texts = [text for text, _, _ in LINES]
        for _ in range(5000):
            text = list(signs.choice(texts))
            for _ in range(signs.randint(1, 3)):
                text[signs.randrange(len(text)) : signs.randrange(len(text) + 1)] = signs.choice('"\\ #~:u{}0a\n\u2028é')
            line = read_line("".join(text), 1, 7)
            self.assertIn(line.kind, {"other", *(kind for _, kind, _ in LINES)})

    def test_no_text_is_too_long(self) -> None:
        for written, said, times in (("a", "a", 1_000_000), (r'é\n\u{1f}\"', 'é\n\x1f"', 8193)):
            line = f'log "{written * times}" "b"'
            tracemalloc.start()
            came = read_line(line)
            peak = tracemalloc.get_traced_memory()[1]
            tracemalloc.stop()
            self.assertTrue(came.texts == (said * times, "b"))
            self.assertLess(peak, 16_000_000)
            self.assertEqual(read_line(line[:-5]).kind, "other")
            self.assertEqual(read_line(rf'log "{written * times}\q"').kind, "other")

    def test_the_examples_are_read_whole(self) -> None:
        kinds = set()
        for file in sorted(EXAMPLES.rglob("*.transcript")):
            for line in read_transcript(file.read_text(encoding="utf-8")):
                kinds.add(line.kind)
                self.assertEqual(spelled(line), line.text, file)
        self.assertEqual(kinds, {kind for _, kind, _ in LINES})


class Commands(unittest.TestCase):
    def test_a_line_belongs_to_the_reply_behind_it(self) -> None:
        lines = read_transcript('construct A\n5: #2\ncall #2 connected\nlog "k"\n16: ok\n')
        self.assertEqual([line.command for line in lines], [5, 5, 16, 16, 16])
        self.assertEqual([line.number for line in lines], [1, 2, 3, 4, 5])

    def test_what_the_fuel_cuts_off_belongs_to_the_next_command(self) -> None:
        script = "create $a p\n\n# a comment\n  class A\non A connected : log in\nask kids doc\nask kids doc\n"
        ended = run(script, fuel=2, trace=True)
        self.assertEqual(ended.lines[-1].kind, "fuel")
        self.assertEqual(ended.lines[-1].command, 6)

    def test_nothing_says_so_without_the_script(self) -> None:
        self.assertIsNone(read_transcript("~ open 1\nfuel\n")[0].command)

    def test_a_line_that_is_cut_off_is_other(self) -> None:
        lines = read_transcript("1: #2\n2: #1", "create $a p\ncreate $b p\n")
        self.assertEqual([(line.kind, line.command) for line in lines], [("reply", 1), ("other", 2)])
        lines = read_transcript("1: #2\n2: bad ar", "create $a p\nclass\ncreate $b p\n")
        self.assertEqual([(line.kind, line.command) for line in lines], [("reply", 1), ("other", 2)])

    def test_a_line_ends_at_a_line_feed_alone(self) -> None:
        self.assertEqual([line.kind for line in read_transcript('log "\u0085\u2028"\n1: ok\n')], ["log", "reply"])
