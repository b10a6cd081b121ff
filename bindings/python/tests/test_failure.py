"""Failures that read well."""
import unittest

from cepage import Failure, Session, Status, run

from . import example

CARD = """class Card
on Card connected : log in
define x-card Card
create $html html
append doc $html
create $card x-card
append $html $card
"""

TOLD = """line 7 of the script: append $html $card
expected:
      call #3 connected
    > log "out"
      7: ok
came:
      call #3 connected
    > log "in"
      7: ok
trace of the line:
    ~ open 5
      ~ enq 1 #3 connected 5
      ~ drain 5
      ~ start 1
        call #3 connected
        log "in"
      ~ finish 1
    ~ close 5
    7: ok"""


class Failures(unittest.TestCase):
    def setUp(self) -> None:
        self.card = run(CARD)

    def fails(self, call, *arguments) -> str:
        with self.assertRaises(Failure) as failed:
            call(*arguments)
        self.assertIsInstance(failed.exception, AssertionError)
        return str(failed.exception)

    def test_the_line_what_was_expected_what_came_and_the_trace(self) -> None:
        self.assertEqual(self.fails(self.card.command(7).expect, "call #3 connected", 'log "out"', "ok"), TOLD)

    def test_the_same_in_a_session_and_with_the_trace(self) -> None:
        with Session() as page:
            came = page.feed(CARD)[-1]
            page.command("detach $card")
            self.assertEqual(self.fails(came.expect, "call #3 connected", 'log "out"', "ok"), TOLD)
        traced = run(CARD, trace=True)
        self.assertIn("trace of the line:\n    ~ open 5\n", self.fails(traced.command(7).expect, "ok"))

    def test_what_is_as_expected_fails_nothing(self) -> None:
        self.card.expect_status(Status.DONE)
        last = self.card.command(7)
        last.expect("call #3 connected", 'log "in"', "ok")
        last.expect(*last.texts)
        last.expect_reply("ok")
        last.expect_heard(3, "connected")
        last.expect_heard(2)

    def test_a_line_too_few_or_too_many(self) -> None:
        last = self.card.command(7)
        for lines in (("call #3 connected", "ok"), ("call #3 connected", 'log "in"', 'log "in"', "ok"), (), ("7: ok", "ok"), (*last.texts[:2], "#9")):
            self.assertIn("expected:\n", self.fails(last.expect, *lines))
        self.assertIn("expected:\n    nothing\n", self.fails(last.expect))

    def test_a_reply(self) -> None:
        told = self.fails(self.card.command(7).expect_reply, "throw TypeError")
        self.assertIn("expected:\n    throw TypeError\ncame:\n    ok\ntrace", told)
        self.assertIn("came:\n    no reply\n", self.fails(run(CARD, fuel=1).commands[-1].expect_reply, "ok"))

    def test_what_an_element_heard(self) -> None:
        told = self.fails(self.card.command(7).expect_heard, 3, "disconnected", "connected")
        self.assertIn("expected:\n    disconnected connected\ncame:\n    call #3 connected\n", told)
        self.assertIn("expected:\n    no callback\n", self.fails(self.card.command(7).expect_heard, 3))

    def test_what_was_sent(self) -> None:
        review = run(example("review.script"))
        blocked, sent, _ = review.find("user press $publish")
        sent.expect_sent(("title", "Good tea"), ("stars", "4"), ("do", "publish"))
        told = self.fails(sent.expect_sent, ("title", "Good tea"), ("stars", "5"), ("do", "publish"))
        self.assertIn("    ('stars', '5')\n", told)
        self.assertIn("    ('stars', '4')\n", told)
        self.assertIn("came:\n    submit #3 blocked invalid #5\n", self.fails(blocked.expect_sent, ("title", "Good tea")))
        self.assertIn("came:\n    nothing\n", self.fails(review.command(46).expect_sent))

    def test_what_was_sent_twice(self) -> None:
        script = "class A\non A connected : submit $f\non A connected : submit $f\ndefine x-a A\ncreate $h html\nappend doc $h\n"
        twice = run(script + "create $f form\nappend $h $f\ncreate $a x-a\nappend $f $a\n").commands[-1]
        self.assertEqual([it.entries for it in twice.submissions()], [(), ()])
        self.assertIn("expected:\n    one submission with\ncame:\n    submit #3 get", self.fails(twice.expect_sent))

    def test_a_node(self) -> None:
        self.assertIn("a reply that gives a node", self.fails(lambda: self.card.command(7).node))

    def test_the_message_of_any_assertion(self) -> None:
        self.assertTrue(str(self.card.command(7)).startswith("line 7 of the script: append $html $card\nit wrote:\n"))
        with self.assertRaisesRegex(AssertionError, r"5 != 6 : line 7 of the script: append \$html \$card"):
            self.assertEqual(5, 6, self.card.command(7))

    def test_a_status(self) -> None:
        script = "frob\nclass A\non A x : y\ncreate $a p\n"
        told = self.fails(run(script).expect_status, Status.DONE)
        self.assertIn("came:\n    BAD_LINES\nsince:\n    line 1: bad word: frob\n    line 3: bad word: on A x : y", told)
        told = self.fails(run("create $a p\nclass A\n\ncreate $b p", fuel=3).expect_status, Status.DONE)
        self.assertIn("line 4, in which the fuel of 3 was spent: create $b p", told)

    def test_of_very_many_lines_the_first_are_told(self) -> None:
        script = "class A\nobserve A k\non A attribute : setattr this k v\ndefine x-a A\ncreate $a x-a\nsetattr $a k v\n"
        told = self.fails(run(script, fuel=1000).commands[-1].expect, "ok")
        self.assertRegex(told, "and [0-9]+ lines more")
        self.assertLess(told.count("\n"), 500)

    def test_of_very_many_lines_those_about_the_difference_are_told(self) -> None:
        script = "class A\n" + "on A connected : log in\n" * 300 + "define x-a A\ncreate $h html\nappend doc $h\ncreate $a x-a\nappend $h $a\n"
        last = run(script).commands[-1]
        told = self.fails(last.expect, *last.texts[:-2], 'log "out"', "ok")
        self.assertIn('    > log "out"\n      306: ok\ncame:\n    behind 200 lines\n', told)
        self.assertIn('    > log "in"\n      306: ok\ntrace', told)

    def test_of_many_lines_all_are_told(self) -> None:
        script = "class A\n" + "on A connected : log in\n" * 150 + "define x-a A\ncreate $h html\nappend doc $h\ncreate $a x-a\nappend $h $a\n"
        last = run(script).commands[-1]
        self.assertNotIn("behind", self.fails(last.expect, *last.texts[:-2], 'log "out"', "ok"))

    def test_of_very_many_callbacks_and_entries_those_about_the_difference_are_told(self) -> None:
        script = "class A\nobserve A k\nhas A attribute\n" + "on A connected : setattr this k v\n" * 300 + "define x-a A\ncreate $h html\n"
        last = run(script + "append doc $h\ncreate $a x-a\nappend $h $a\n").commands[-1]
        told = self.fails(last.expect_heard, 3, "connected", *["attribute"] * 299, "connected")
        self.assertIn('came:\n    behind 200 lines\n', told)
        self.assertEqual(told.partition("trace of")[0].count("    call #3 attribute"), 101)
        script = "create $h html\nappend doc $h\ncreate $f form\nappend $h $f\n"
        for k in range(300):
            script += f"create $i input\nsetattr $i name n\nsetattr $i value {k}\nappend $f $i\n"
        sent = [("n", str(k)) for k in range(300)]
        last = run(script + "submit $f\n").commands[-1]
        last.expect_sent(*sent)
        told = self.fails(last.expect_sent, *sent[:-1], ("n", "other"))
        self.assertIn("    ('n', 'other')\ncame:\n    behind 200 lines\n", told)
        self.assertIn("    ('n', '299')\ntrace", told)
