"""Scripts and runs, by tables."""
import concurrent.futures
import contextlib
import io
import os
import stat
import subprocess
import sys
import tempfile
import time
import unittest
import unittest.mock

from common import STAND_IN, TOOLS
from uicc import process, terminal


class Scripts(unittest.TestCase):
    # a script, its lines before `start` and those after it
    TABLE = [
        (b"df 7F10\nstart\nreset\n", ["df 7F10"], ["reset"]),
        (b"# caf\xe9 \x85\r\nstart\r\nreset", ["# caf\xe9 \x85"], ["reset"]),
        (b"", [], []),
        (b"df 7F10", ["df 7F10"], []),
    ]

    def test_lines(self):
        with tempfile.TemporaryDirectory() as folder:
            path = os.path.join(folder, "script")
            for content, section, lines in self.TABLE:
                with open(path, "wb") as out:
                    out.write(content)
                self.assertEqual(process.card_section(process.lines_of(path)), (section, lines))


class Programs(unittest.TestCase):
    RUNS, FAILS = "#!/bin/sh\n", "#!/bin/sh\nexit 127\n"
    # what the environment names, what is built, what is released, and which of them is started, with its page
    TABLE = [
        ("named", None, None, "named", None),
        ("named", RUNS, RUNS, "named", "built"),
        (None, RUNS, RUNS, "built", "built"),
        (None, FAILS, RUNS, "built", "built"),
        (None, None, RUNS, "released", "released"),
        (None, None, FAILS, None, None),
        (None, None, "no program", None, None),
        (None, None, None, None, None),
    ]

    def test_order(self):
        for named, built, released, started, page in self.TABLE:
            with self.subTest(named=named, built=built, released=released), tempfile.TemporaryDirectory() as folder:
                places = {"BUILT": (built, "built"), "RELEASED": (released, "released"), "BUILT_PAGE": (built, "built.html"),
                          "RELEASED_PAGE": (released, "released.html")}
                environment = {"UICC_RUN": named} if named else {}
                with unittest.mock.patch.dict(os.environ, environment), contextlib.ExitStack() as patches:
                    if not named:
                        os.environ.pop("UICC_RUN", None)
                    for name, (content, file) in places.items():
                        path = os.path.join(folder, file)
                        patches.enter_context(unittest.mock.patch.object(process, name, path))
                        if content is not None:
                            with open(path, "w", encoding="ascii") as out:
                                out.write(content)
                            os.chmod(path, 0o700)
                    process.runs.cache_clear()
                    if started is None:
                        self.assertRaises(process.NotBuilt, process.program)
                    else:
                        self.assertEqual(os.path.basename(process.program()), started)
                        self.assertEqual(process.page(), page and os.path.join(folder, page + ".html"))
        process.runs.cache_clear()


class Runs(unittest.TestCase):
    SAID = "uicc_run: no space is left\n"

    def setUp(self):
        folder = tempfile.TemporaryDirectory()
        self.addCleanup(folder.cleanup)
        program = os.path.join(folder.name, "stand_in")
        with open(program, "w", encoding="ascii") as out:
            out.write(STAND_IN)
        os.chmod(program, stat.S_IRWXU)
        patch = unittest.mock.patch.dict(os.environ, {"UICC_RUN": program})
        patch.start()
        self.addCleanup(patch.stop)

    def test_what_is_said_on_standard_error_is_passed_on(self):
        with contextlib.redirect_stderr(io.StringIO()) as passed:
            self.assertEqual(process.run(["play"], ["worn"]), (["eeprom failed"], 6))
        self.assertEqual(passed.getvalue(), self.SAID)
        with contextlib.redirect_stderr(io.StringIO()) as passed:
            card = process.Simulator(["play"])
            card.say("worn")
            self.assertEqual(card.close(), 6)
        self.assertEqual(passed.getvalue(), self.SAID)


class Terminal(io.StringIO):
    def isatty(self):
        return True


class Progress(unittest.TestCase):
    def test_a_bar_on_a_terminal_alone(self):
        done = "\r[" + "." * 30 + "] 0 of 2 commands\x1b[K\r[" + "#" * 15 + "." * 15 + "] 1 of 2 commands\x1b[K"
        for stream, drawn in ((Terminal(), done), (io.StringIO(), "")):
            with contextlib.redirect_stderr(stream):
                progress = terminal.Progress(2, "commands")
                progress.last = 0.0
                progress.step()
            self.assertEqual(stream.getvalue(), drawn)

    def test_lines_in_a_pipe(self):
        """Where no bar can be shown, a line comes each so many seconds, where that is asked for."""
        for each, told in ((None, ""), (1000, ""), (0.0001, "  1 of 3 sequences\n  2 of 3 sequences\n")):
            with contextlib.redirect_stderr(io.StringIO()) as stream:
                progress = terminal.Progress(3, "sequences", each=each)
                for _ in range(3):
                    time.sleep(0.001)
                    progress.step()
                progress.end()
            self.assertEqual(stream.getvalue(), told)

    def test_many_threads_count_together(self):
        """Nothing is lost, and the last bar is the whole."""
        stream = Terminal()
        with contextlib.redirect_stderr(stream), concurrent.futures.ThreadPoolExecutor(8) as pool:
            progress = terminal.Progress(4000, "commands")
            list(pool.map(lambda _: progress.step(), range(4000)))
        self.assertEqual(progress.done, 4000)
        bars = [int(bar.split("] ")[1].split(" of ")[0]) for bar in stream.getvalue().split("\r[")[1:]]
        self.assertEqual((bars, bars[-1]), (sorted(bars), 4000))

    def test_how_long_the_rest_takes(self):
        progress = terminal.Progress(40, "commands")
        progress.done, progress.began = 10, time.monotonic() - 10
        self.assertEqual(progress._left(), ", some 30 s left")
        progress.done = 40
        self.assertEqual(progress._left(), "")


class ClosedPipes(unittest.TestCase):
    """A tool whose output nobody reads on ends with no more words."""

    EXAMPLES = os.path.join(process.TOP, "examples")
    # a tool, its words, and what it reads
    TOOLS = [
        ("explain", ["usim.trace"], ""), ("capture", ["usim.trace", "-"], ""), ("lint", ["bad.script"], ""), ("profile", ["tree", "usim.script"], ""),
        ("definitions", ["--word", "card"], ""), ("shell", ["usim.script"], "tree\ntree\n"), ("cuts", ["update.script"], ""),
        ("expect", ["update.script"], ""), ("cuts", ["--help"], ""), ("reader", ["--help"], ""), ("release", ["--help"], ""), ("check", ["--help"], ""),
        ("documents", ["--help"], ""), ("sequence", ["--words"], ""), ("sequence", ["polling.sequence"], ""),
        ("sequence", ["wrong.sequence", "--tap"], ""),
    ]

    def run_without(self, name, words, text="", **files):
        """Runs a tool; the warning that the sources are other ones than those of the program has no place here."""
        words = [os.path.join(self.EXAMPLES, "sequences" if word.endswith(".sequence") else "", word) if word[:1] != "/" and "." in word else word
                 for word in words]
        return subprocess.run([*files.pop("before", ()), sys.executable, "-B", os.path.join(TOOLS, name), *words], input=text, stderr=subprocess.PIPE,
                              text=True, timeout=300, check=False, env=os.environ | {"UICC_RUN": process.program()}, **files)

    def test_quietly(self):
        with tempfile.TemporaryDirectory() as folder:
            bad = os.path.join(folder, "bad.script")
            with open(bad, "w", encoding="ascii") as out:
                out.write("no such line\n" * 2000)
            for name, words, text in self.TOOLS:
                words = [bad if word == "bad.script" else word for word in words]
                reading, writing = os.pipe()
                os.close(reading)
                with self.subTest(tool=name, words=words):
                    done = self.run_without(name, words, text, stdout=writing)
                    # a page of help is passed over by Python's own parser where nobody reads it
                    self.assertIn(done.returncode, (0, terminal.NOT_READ_ON) if "--help" in words else (terminal.NOT_READ_ON,))
                    self.assertEqual(done.stderr, "")
                os.close(writing)

    # a tool without standard output, and the status that it ends with all the same
    MISSING = [
        ("lint", ["usim.script"], 0), ("lint", ["day.script"], 1), ("explain", ["usim.trace"], 0), ("capture", ["usim.trace", "-"], 0),
        ("profile", ["tree", "usim.script"], 0), ("cuts", ["update.script"], 0), ("sequence", ["--words"], 0), ("sequence", ["wrong.sequence"], 1),
        ("applet", ["list"], 0), ("cuts", ["--help"], 0), ("shell", ["usim.script"], 0),
    ]

    def test_standard_files_that_are_missing(self):
        """A tool that is started without standard output or standard input does its work all the same."""
        for name, words, status in self.MISSING:
            with self.subTest(tool=name, words=words):
                done = self.run_without(name, words, before=["sh", "-c", 'exec "$@" >&-', "sh"])
                self.assertEqual((done.returncode, done.stderr), (status, ""))
        done = self.run_without("lint", ["-"], before=["sh", "-c", 'exec "$@" <&-', "sh"], stdout=subprocess.PIPE)
        self.assertEqual((done.returncode, done.stdout.splitlines()[:1], done.stderr),
                         (1, ["-:1: the script ends, and no line `start` stands in it"], ""))


if __name__ == "__main__":
    unittest.main()
