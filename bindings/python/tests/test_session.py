"""A session."""
import gc
import os
import signal
import threading
import time
import unittest

from cepage import Node, ProgramDied, Session, SessionEnded, Status

from . import example
from .test_running import program_of

CARD = "class Card\non Card connected : log in\n\n# the class is whole\ndefine x-card Card\n"


def is_running(process: int) -> bool:
    try:
        os.kill(process, 0)
    except ProcessLookupError:
        return False
    return True


class Sessions(unittest.TestCase):
    def test_a_command_gives_what_it_wrote(self) -> None:
        with Session() as page:
            page.feed(CARD + "create $html html\nappend doc $html\ncreate $card x-card\n")
            came = page.command("append $html $card")
            self.assertEqual(came.texts, ("call #3 connected", 'log "in"', "9: ok"))
            self.assertEqual([(line.number, line.command) for line in came.lines], [(6, 9), (7, 9), (8, 9)])
            self.assertEqual(page.command("ask parent $card").value, Node(2))
        self.assertIs(page.close().status, Status.DONE)

    def test_an_example_is_what_it_is_in_one_piece(self) -> None:
        for name, trace in (("review", True), ("faults", False), ("component", False), ("tabs", False)):
            with Session(trace=trace) as page:
                page.feed(example(f"{name}.script"))
            whole = page.close()
            self.assertEqual(whole.transcript, example(f"{name}.transcript"))
            self.assertEqual(whole.status, Status.BAD_LINES if name == "faults" else Status.DONE)

    def test_some_lines_are_not_waited_for(self) -> None:
        parts = ("class A", "on A connected : log in", "observe A k", " has A adopted", "associate A", "disable A shadow")
        with Session() as page:
            for line in ("", "  ", "# a comment", "  # another", *parts):
                came = page.command(line)
                self.assertEqual((came.lines, came.reply), ((), None))
            self.assertEqual(page.line, 10)
            self.assertEqual(page.command("define x-a A").texts, ("11: ok",))

    def test_a_refused_part_is_answered_with_the_next_command(self) -> None:
        with Session() as page:
            self.assertEqual(page.command("on A connected : user press this").texts, ())
            self.assertEqual(page.command("observe A k").texts, ())
            came = page.command("create $a p")
            self.assertEqual(came.texts, ("1: bad place", "2: throw TypeError", "3: #2"))
            self.assertEqual([line.command for line in came.lines], [1, 2, 3])
            self.assertEqual(came.node, Node(2))
            page.command("has B connected")
        self.assertEqual(page.close().transcript, "1: bad place\n2: throw TypeError\n3: #2\n4: throw TypeError\n")

    def test_a_refused_line_is_answered(self) -> None:
        with Session() as page:
            self.assertEqual(page.command("frob").texts, ("1: bad word",))
            self.assertEqual(page.command("text $t " + "x" * 5000).texts, ("2: bad long",))
            self.assertEqual(page.command("class\tA").texts, ("3: bad word",))

    def test_a_line_feed_is_refused(self) -> None:
        with Session() as page:
            with self.assertRaises(ValueError):
                page.command("create $a p\ncreate $b p")
            self.assertEqual(page.command("create $a p").texts, ("1: #2",))

    def test_the_options(self) -> None:
        with Session(trace=True, fuel=2) as page:
            self.assertEqual(page.command("create $a p").texts[0], "~ open 1")
            self.assertEqual(page.command("ask kids doc").texts, ("fuel",))

    def test_many_refused_parts_do_not_hang(self) -> None:
        with Session() as page:
            for _ in range(8_000):
                page.command("class a" + " " * 40)
            came = page.command("create $a p")
            self.assertEqual(len(came.lines), 8_001)
            self.assertEqual(came.node, Node(2))


class Ends(unittest.TestCase):
    def test_the_fuel_ends_it(self) -> None:
        with Session(fuel=1) as page:
            page.command("ask kids doc")
            spent = page.command("create $a p")
            self.assertEqual((spent.texts, spent.reply), (("fuel",), None))
            self.assertEqual(spent.lines[0].command, 2)
            self.assertFalse(is_running(page.process))
            with self.assertRaisesRegex(SessionEnded, r"the fuel was spent in line 2: create \$a p") as ended:
                page.command("create $a p")
            self.assertIs(ended.exception.status, Status.FUEL)
        self.assertIs(page.close().status, Status.FUEL)

    def test_the_fuel_ends_one_that_reads_on(self) -> None:
        page = Session(program=program_of("read line; echo fuel; cat > /dev/null; exit 3"))
        self.assertEqual(page.command("create $a p").texts, ("fuel",))
        with self.assertRaises(SessionEnded) as ended:
            page.command("create $b p")
        self.assertIs(ended.exception.status, Status.FUEL)

    def test_a_closed_one_takes_no_line(self) -> None:
        page = Session()
        self.assertIs(page.close().status, Status.DONE)
        self.assertIs(page.close().status, Status.DONE)
        with self.assertRaisesRegex(SessionEnded, "it was closed"):
            page.command("create $a p")

    def test_refused_options_end_it(self) -> None:
        with Session(boundary="a-b") as page:
            with self.assertRaisesRegex(SessionEnded, "with status 2, USAGE, at line 1: create") as ended:
                page.command("create $a p")
            self.assertIs(ended.exception.status, Status.USAGE)
        self.assertIs(page.close().status, Status.USAGE)

    def test_a_dead_program_is_told(self) -> None:
        with Session(program=program_of("read line; echo 'log \"in\"'; kill -9 $$")) as page:
            with self.assertRaisesRegex(SessionEnded, "by the signal SIGKILL, at line 1: create"):
                page.command("create $a p")
            with self.assertRaisesRegex(SessionEnded, "by the signal SIGKILL"):
                page.command("create $a p")
        with self.assertRaisesRegex(ProgramDied, "SIGKILL"):
            page.close()

    def test_a_program_that_is_killed_between_two_lines(self) -> None:
        page = Session()
        page.command("create $a p")
        os.kill(page.process, signal.SIGKILL)
        time.sleep(0.05)
        page.command("class A")
        with self.assertRaisesRegex(SessionEnded, "SIGKILL"):
            page.command("create $b p")

    def test_a_program_that_dies_behind_the_last_command(self) -> None:
        program = program_of("read line; echo '1: #2'; exit 42")
        with self.assertRaisesRegex(ProgramDied, "with status 42"), Session(program=program) as page:
            page.command("create $a p")
        with self.assertRaises(KeyError), Session(program=program) as page:
            page.command("create $a p")
            raise KeyError

    def test_what_comes_within_a_command_ends_it(self) -> None:
        class Late(Exception):
            pass

        def late(*_: object) -> None:
            raise Late

        before = signal.signal(signal.SIGALRM, late)
        self.addCleanup(signal.signal, signal.SIGALRM, before)
        for line in ("create $a p", "#" * 3_000_000):
            page = Session(program=program_of("head -c 9 > /dev/null; kill -ALRM $PPID; cat > /dev/null; echo '1: #2'"))
            with self.assertRaises(Late):
                page.command(line)
            with self.assertRaisesRegex(SessionEnded, "Late came within line 1: "):
                page.command("create $b p")
            self.assertEqual(page.close().transcript, "1: #2\n")

    def test_a_script_that_is_too_long(self) -> None:
        with Session() as page:
            with self.assertRaisesRegex(SessionEnded, "TOO_LONG"):
                for _ in range(20):
                    page.command("#" * 1_000_000)
                page.command("create $a p")
        with Session() as page:
            with self.assertRaisesRegex(SessionEnded, "TOO_LONG, at line 1: aaaa.* … and 16999700 characters more$") as ended:
                page.command("a" * 17_000_000)
            self.assertLess(len(str(ended.exception)), 500)
        self.assertIs(page.close().status, Status.TOO_LONG)

    def test_no_process_is_left(self) -> None:
        page = Session()
        process = page.process
        page.command("create $a p")
        del page
        gc.collect()
        self.assertFalse(is_running(process))
        with self.assertRaises(KeyError), Session() as page:
            process = page.process
            raise KeyError
        self.assertFalse(is_running(process))

    def test_one_that_does_not_end_is_killed(self) -> None:
        page = Session(program=program_of("exec sleep 600"))
        process = page.process
        del page
        gc.collect()
        self.assertFalse(is_running(process))

    def test_a_line_that_is_cut_off_is_kept(self) -> None:
        page = Session(program=program_of("read line; printf '1: #2\\n2: #'; exit 6"))
        self.assertEqual(page.command("create $a p").node, Node(2))
        whole = page.close()
        self.assertEqual((whole.status, whole.transcript), (Status.NO_MEMORY, "1: #2\n2: #"))

    def test_a_line_that_is_long_takes_no_time_that_grows_faster(self) -> None:
        program = program_of("read line; head -c 48000000 /dev/zero | tr '\\0' a; echo; echo '1: ok'; read line")
        with Session(program=program) as page:
            began = time.process_time()
            self.assertEqual(len(page.command("create $a p").texts[0]), 48_000_000)
            self.assertLess(time.process_time() - began, 8)

    def test_one_that_another_process_has_too(self) -> None:
        page = Session()
        child = os.fork()
        if child == 0:
            time.sleep(20)
            os._exit(0)
        page.command("create $a p")
        began = time.monotonic()
        self.assertIs(page.close().status, Status.DONE)
        self.assertLess(time.monotonic() - began, 10)
        os.kill(child, signal.SIGKILL)
        os.waitpid(child, 0)

    def test_one_that_another_process_leaves(self) -> None:
        with Session() as page:
            child = os.fork()
            if child == 0:
                try:
                    with page:
                        raise KeyError
                except KeyError:
                    del page
                finally:
                    os._exit(0)
            os.waitpid(child, 0)
            self.assertEqual(page.command("create $a p").texts, ("1: #2",))

    def test_two_sessions_at_once(self) -> None:
        wrote = {}

        def talk(name: str) -> None:
            with Session() as page:
                wrote[name] = [page.command(f"create ${name} p").texts for _ in range(200)]

        threads = [threading.Thread(target=talk, args=(name,)) for name in "abcd"]
        for thread in threads:
            thread.start()
        for thread in threads:
            thread.join()
        self.assertEqual([wrote[name] for name in "abcd"], [[(f"{k}: #{k + 1}",) for k in range(1, 201)]] * 4)
