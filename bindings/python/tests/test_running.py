"""A script that is run."""
import atexit
import contextlib
import os
import pickle
import shutil
import signal
import stat
import tempfile
import unittest
import warnings
from concurrent.futures import ThreadPoolExecutor
from unittest import mock

from cepage import CepageError, Node, ProgramDied, ProgramMissing, Session, SessionEnded, Status, run

from . import example

FIRST = example("first.script")


def program_of(text: str) -> str:
    """A program of the shell in a folder of its own."""
    folder = tempfile.mkdtemp()
    atexit.register(shutil.rmtree, folder)
    file = os.path.join(folder, "program")
    with open(file, "w", encoding="utf-8") as program:
        program.write(f"#!/bin/sh\n{text}\n")
    os.chmod(file, stat.S_IRWXU)
    return file


class Running(unittest.TestCase):
    def test_the_status_and_the_transcript(self) -> None:
        first = run(FIRST)
        self.assertIs(first.status, Status.DONE)
        self.assertEqual(first.transcript, example("first.transcript"))
        self.assertEqual(first.bytes, example("first.transcript").encode())

    def test_each_status_has_its_name(self) -> None:
        for name, said, status in [
            ("Done", {}, Status.DONE),
            ("BadLines", {"script": "frob"}, Status.BAD_LINES),
            ("Usage", {"fuel": 0}, Status.USAGE),
            ("Fuel", {"fuel": 1}, Status.FUEL),
            ("TooLong", {"script": (b"#" * 4096 + b"\n") * 4096}, Status.TOO_LONG),
        ]:
            with self.subTest(name):
                self.assertIs(run(**{"script": FIRST, **said}).status, status)

    def test_options_that_are_refused(self) -> None:
        for said in (
            {"fuel": -1}, {"fuel": 200_001}, {"fuel": 2**32 + 2}, {"fuel": 10**30}, {"url": "page.test"}, {"boundary": "a-b"},
            {"fuel": 10**5000}, {"fuel": -(10**5000)},
            {"url": "http://h/" + "a" * 300_000}, {"boundary": "B" * 300_000}, {"url": "http://h/\udcff"},
        ):  # fmt: skip
            for library in (None, False):
                refused = run(FIRST, library=library, **said)
                self.assertEqual((refused.status, refused.bytes), (Status.USAGE, b""))

    def test_what_no_option_can_be(self) -> None:
        for said, error in (({"fuel": "2"}, TypeError), ({"url": b"http://h/"}, TypeError), ({"url": "http://h/\0"}, ValueError)):
            with self.assertRaises(error):
                run(FIRST, **said)
        with self.assertRaises(TypeError):
            run(["class A"])

    def test_each_option_says_what_its_word_says(self) -> None:
        script = example("submission/boundaries.script")
        boundaries = run(script, boundary="0D", url="https://shop.test/")
        self.assertIn("boundary=0D", boundaries.transcript)
        self.assertIn('"https://shop.test/"', boundaries.transcript)
        self.assertEqual(run(FIRST, url="", boundary="").bytes, run(FIRST).bytes)
        self.assertIn("~ open 1\n", run(FIRST, trace=True).transcript)

    def test_a_script_of_bytes(self) -> None:
        self.assertEqual(run(b"\xff\ncreate $a p").transcript, "1: bad utf8\n2: #2\n")

    def test_a_transcript_that_is_long(self) -> None:
        script = "create $a p\n" + 'text $t "' + "é" * 2000 + '"\n' + "append $a $t\nclone $t $t\n" + "ask value $a\n" * 9_000
        self.assertEqual(run(script).bytes, run(script, library=False).bytes)
        self.assertGreater(len(run(script).bytes), 65_536)

    def test_eight_threads_at_once(self) -> None:
        script = example("review.script")
        wanted = [run(script, trace=trace).bytes for trace in (False, True)]
        with ThreadPoolExecutor(8) as threads:
            came = list(threads.map(lambda k: run(script, trace=bool(k % 2)).bytes, range(80)))
        self.assertEqual(came, wanted * 40)


class Asking(unittest.TestCase):
    def setUp(self) -> None:
        self.component = run(example("component.script"))

    def test_what_a_line_did(self) -> None:
        opened = self.component.command(13)
        self.assertEqual(opened.source, 'setattr $card open ""')
        self.assertEqual(opened.texts, ('call #3 attribute "open" null ""', 'log "open" "" ""', "13: ok"))
        self.assertEqual(opened.logs, (("open", "", ""),))
        self.assertEqual((opened.reply.what, opened.value), ("ok", None))

    def test_what_an_element_heard(self) -> None:
        card = self.component.find("create $card x-card")[0].node
        self.assertEqual(card, Node(3))
        heard = [call.callback for call in self.component.heard(card)]
        self.assertEqual(heard, ["connected", "attribute", "attribute", "disconnected"])
        self.assertEqual(self.component.heard(3), self.component.heard(card))
        self.assertEqual(self.component.heard(4), ())

    def test_what_a_form_sent(self) -> None:
        first, second, third = run(example("review.script")).submissions(3)
        self.assertEqual((first.blocked, first.invalid), ("invalid", (Node(5),)))
        self.assertEqual(second.entries, (("title", "Good tea"), ("stars", "4"), ("do", "publish")))
        self.assertEqual(third.entries, None)

    def test_a_line_that_answers_nothing(self) -> None:
        for line, told in ((2, "a part of a class: class Card"), (99, "no line 99"), (0, "no line 0")):
            with self.assertRaisesRegex(LookupError, told):
                self.component.command(line)

    def test_a_line_behind_the_end(self) -> None:
        with self.assertRaisesRegex(LookupError, "behind the end of the session: ask kids doc"):
            run("ask kids doc\nask kids doc\nask kids doc\n", fuel=1).command(3)


class Finding(unittest.TestCase):
    def test_the_argument_comes_before_the_environment_and_that_before_the_path(self) -> None:
        told = {name: program_of(f"cat > /dev/null; echo 'log \"{name}\"'") for name in ("argument", "environment")}
        path = os.path.dirname(program_of("exit 0"))
        os.rename(os.path.join(path, "program"), os.path.join(path, "cepage"))
        with mock.patch.dict(os.environ, {"CEPAGE": told["environment"], "PATH": f"{path}:{os.environ['PATH']}"}):
            self.assertEqual(run("", program=told["argument"]).transcript, 'log "argument"\n')
            self.assertEqual(run("", library=False).transcript, 'log "environment"\n')
            del os.environ["CEPAGE"]
            self.assertEqual(run("", library=False).transcript, "")

    def test_it_is_found_from_another_folder(self) -> None:
        before = os.getcwd()
        file = program_of("cat > /dev/null; echo '1: #2'")
        try:
            os.chdir(os.path.dirname(file))
            came = run("create $a p", program="./program")
        finally:
            os.chdir(before)
        self.assertEqual(came.traced().bytes, came.bytes)

    def test_a_program_that_is_not_there(self) -> None:
        with self.assertRaisesRegex(ProgramMissing, "no program '/nowhere/cepage', which program= names"):
            run("", program="/nowhere/cepage")
        with mock.patch.dict(os.environ, {"CEPAGE": "/nowhere/cepage"}):
            with self.assertRaisesRegex(ProgramMissing, "which CEPAGE names"):
                run("", library=False)

    def test_a_program_that_dies(self) -> None:
        for text, told in (("kill -9 $$", "by the signal SIGKILL"), ("echo no room >&2; exit 127", "with status 127: no room")):
            with self.assertRaisesRegex(ProgramDied, told):
                run("", program=program_of(text))

    def test_where_no_status_is_kept(self) -> None:
        before = signal.signal(signal.SIGCHLD, signal.SIG_IGN)
        try:
            for start in (lambda: run("frob", library=False), Session):
                with self.assertRaisesRegex(CepageError, "SIGCHLD is ignored"):
                    start()
        finally:
            signal.signal(signal.SIGCHLD, before)

    def test_an_error_is_told_to_another_process(self) -> None:
        for error in (ProgramMissing("cepage", "PATH"), ProgramDied("cepage", -9), SessionEnded("it was closed", Status.FUEL)):
            came = pickle.loads(pickle.dumps(error))
            self.assertEqual((type(came), str(came), vars(came)), (type(error), str(error), vars(error)))

    def test_a_program_that_does_not_start(self) -> None:
        file = program_of("")
        with open(file, "w", encoding="utf-8") as program:
            program.write("this is no program")
        for start in (run, lambda _, program: Session(program=program)):
            with self.assertRaisesRegex(CepageError, f"program '{file}' of program= could not be used: .*Exec format error"):
                start("", program=file)

    def test_a_status_that_somebody_else_takes_is_told(self) -> None:
        def take(*_: object) -> None:
            with contextlib.suppress(ChildProcessError):
                while os.waitpid(-1, os.WNOHANG)[0]:
                    pass

        before = signal.signal(signal.SIGCHLD, take)
        try:
            with warnings.catch_warnings(record=True) as warned:
                warnings.simplefilter("always")
                for _ in range(10):
                    with self.assertRaises(CepageError):
                        run("", program=program_of("cat > /dev/null; exit 42"))
                    page = Session(program=program_of("read line; exit 42"))
                    for _ in range(2):
                        with self.assertRaises(CepageError):
                            page.close()
                    with self.assertRaisesRegex(SessionEnded, "it was closed"):
                        page.command("create $a p")
            self.assertEqual(warned, [])
        finally:
            signal.signal(signal.SIGCHLD, before)

    def test_a_library_with_a_status_that_is_none(self) -> None:
        with mock.patch("cepage.library.call_of", return_value=lambda *_: 99):
            with self.assertRaisesRegex(ProgramDied, "^/lib.so ended with status 99$"):
                run("", library="/lib.so")

    def test_a_library_that_is_missing_or_another(self) -> None:
        for library, told in (("/nowhere/cepage.so", "No such file"), (__file__, "ELF"), ("libc.so.6", "undefined symbol")):
            with self.assertRaisesRegex(CepageError, f"library '{library}' of library= could not be used: .*{told}"):
                run("", library=library)
            with mock.patch.dict(os.environ, {"CEPAGE_LIBRARY": library}):
                with self.assertRaisesRegex(CepageError, f"library '{library}' of CEPAGE_LIBRARY could not be used"):
                    run("")
