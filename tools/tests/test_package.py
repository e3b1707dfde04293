"""The Debian package, unpacked into a folder, and the command `uicc` as it stands there."""
import gzip
import json
import os
import re
import shutil
import subprocess
import sys
import tempfile
import unittest

from common import TOOLS
from installing import changes, debian, manual, staging
from uicc import process

# carries out the words of each line of standard input, as the command `uicc` does, and prints what comes of it
ALL_IN_ONE = """
import contextlib, io, json, sys
from uicc import command
for line in sys.stdin:
    sys.argv[1:] = json.loads(line)
    out, err = io.StringIO(), io.StringIO()
    with contextlib.redirect_stdout(out), contextlib.redirect_stderr(err):
        status = command.main()
    print(json.dumps([status or 0, out.getvalue(), err.getvalue()]))
"""
USIM = os.path.join(process.TOP, "examples", "usim.script")
SECONDS = 600
NEEDS = ("dpkg-deb", "dpkg")


@unittest.skipUnless(all(map(shutil.which, NEEDS)) and process.runs(process.RELEASED), "dpkg isn't here, or the released program doesn't run")
class Packages(unittest.TestCase):
    @classmethod
    def setUpClass(cls):
        cls.folder = tempfile.mkdtemp(prefix="uicc-package-test-")
        cls.addClassCleanup(shutil.rmtree, cls.folder)
        cls.path = debian.make(os.path.join(cls.folder, "made"))
        cls.root = os.path.join(cls.folder, "root")
        subprocess.run(["dpkg-deb", "--extract", cls.path, cls.root], check=True)
        # the slowest of all, beside the others
        cls.lintian = None
        if shutil.which("lintian"):
            words = ["lintian", "--fail-on", "error,warning", cls.path]
            cls.lintian = subprocess.Popen(words, stdin=subprocess.DEVNULL, stdout=subprocess.PIPE, stderr=subprocess.DEVNULL, text=True)
            cls.addClassCleanup(cls.lintian.wait)

    def run_all(self, *each):
        """Carries out several lists of words in one process, each as the command `uicc` would, and answers what came of each."""
        module, programs = os.path.join(self.root, debian.MODULE), os.path.join(self.root, "usr", "bin")
        environment = {**os.environ, "PYTHONPATH": module, "PATH": programs + os.pathsep + os.environ["PATH"]}
        environment.pop("UICC_RUN", None)
        text = "".join(json.dumps(words) + "\n" for words in each)
        done = subprocess.run([sys.executable, "-B", "-c", ALL_IN_ONE], cwd=self.folder, env=environment, input=text, capture_output=True, text=True,
                              timeout=SECONDS, check=False)
        self.assertEqual((done.returncode, done.stderr), (0, ""))
        return [subprocess.CompletedProcess(words, *json.loads(line)) for words, line in zip(each, done.stdout.splitlines(), strict=True)]

    def run_installed(self, *words, text="", program="uicc", **environment):
        """Runs a program of the unpacked package, by this Python, in a folder that has nothing to do with the clone."""
        path = os.path.join(self.root, "usr", "bin", program)
        words = [sys.executable, "-B", path, *words] if program == "uicc" else [path, *words]
        module = os.path.join(self.root, debian.MODULE)
        environment = {**os.environ, "PYTHONPATH": module, "PATH": os.path.dirname(path) + os.pathsep + os.environ["PATH"], **environment}
        environment.pop("UICC_RUN", None)
        return subprocess.run(words, cwd=self.folder, env=environment, input=text, capture_output=True, text=True, timeout=SECONDS, check=False)

    def judge(self, done, status, shown="", said=""):
        self.assertEqual(done.returncode, status, done.stdout + done.stderr)
        self.assertIn(shown, done.stdout)
        self.assertIn(said, done.stderr)
        self.assertNotIn("Traceback", done.stderr)

    def test_same_bytes(self):
        """Another folder, another umask and another time make the same package."""
        before = os.umask(0o077)
        self.addCleanup(os.umask, before)
        with open(debian.make(os.path.join(self.folder, "again")), "rb") as again, open(self.path, "rb") as first:
            self.assertTrue(again.read() == first.read())

    def test_program(self):
        for program in ("uicc", "uicc_run"):
            with self.subTest(program=program):
                self.judge(self.run_installed("play", text="start\nreset\n", program=program), 0, "! reset")
                self.judge(self.run_installed("play", text="bad\n", program=program), 2, "line 1", "'uicc lint SCRIPT' says what is wrong")
                done = self.run_installed("open", "--image", "none", text="start\n", program=program)
                self.judge(done, 9, "", "none isn't there")
        self.judge(self.run_installed("--build", program="uicc_run"), 9, "", "the sources are not here")
        self.judge(self.run_installed("--source", "--help", program="uicc_run"), 9, "", "the sources are not here")
        self.judge(self.run_installed("--draft", "play", program="uicc_run"), 9, "", "the sources are not here")

    def test_words(self):
        """Each tool's help calls it as it is installed."""
        words = (*staging.WORDS, "check")
        for word, done in zip(words, self.run_all(*([word, "--help"] for word in words))):
            with self.subTest(word=word):
                self.judge(done, 0, f"uicc {word}")
                self.assertIsNone(re.search(r"(?<![\w/])tools/[a-z]", done.stdout.replace("tools/uicc/data", "")), done.stdout)
        # words, the status, and what is shown and said
        table = [
            (["--help"], 0, "lint      What is wrong with a script?", ""), (["help", "lint"], 0, "uicc lint", ""),
            (["lnt"], 2, "", "there is no word `lnt`; is it `lint`?"), ([], 2, "", "uicc WORD .."),
            (["--version"], 0, f"uicc {staging.version()}\nprogram: {self.root}", ""),
            (["--version"], 0, "formats: scripts 1, images of layouts 1 and 2\n", "")]
        for (words, *wanted), done in zip(table, self.run_all(*(row[0] for row in table))):
            with self.subTest(words=words):
                self.judge(done, *wanted)

    def test_tools(self):
        self.judge(self.run_installed("lint", USIM), 0)
        self.judge(self.run_installed("lint", "-", text="ef 2FE2 t 40000 2 -\nstart\n"), 1, "-:1: SIZE is 1 to 32767, not 40000")
        done = self.run_installed("shell", USIM, text="verify pin1 1234\nread EF.SPN\n")
        self.judge(done, 0, "Example Mobile")
        self.judge(self.run_installed("page", "--path"), 0, "uicc_run.html")

    def test_check(self):
        self.judge(self.run_installed("check"), 0, "7 of 7 are as they must be")

    def test_control(self):
        said = subprocess.run(["dpkg-deb", "--field", self.path], capture_output=True, text=True, check=True).stdout
        for line in (f"Version: {staging.version()}", "Architecture: amd64"):
            self.assertIn(line + "\n", said)
        self.assertRegex(said, r"Depends: libc6 \(>= 2\.\d+\), python3 \(>= 3\.11\)\n")

    def test_pages(self):
        """A page of man for each word, which troff sets without a complaint, and a completion that bash reads."""
        folder = os.path.join(self.root, debian.MAN)
        names = {"uicc", "uicc_run", "uicc-check", *(f"uicc-{word}" for word in staging.WORDS)}
        self.assertEqual(set(os.listdir(folder)), {name + ".1.gz" for name in names})
        with gzip.open(os.path.join(folder, "uicc-lint.1.gz"), "rt") as page:
            self.assertIn("uicc\\-lint \\- What is wrong with a script?", page.read())
        with gzip.open(os.path.join(folder, "uicc.1.gz"), "rt") as page:
            named = re.findall(r"^(\S+)  +\S", page.read(), re.MULTILINE)
        self.assertLessEqual({*staging.WORDS, "check", "page"}, set(named))
        script = os.path.join(self.root, "usr/share/bash-completion/completions/uicc")
        # bash looks for each command's completion under the command's name
        self.assertTrue(os.path.samefile(script, script + "_run"))
        typed = f'. {script}; COMP_WORDS=(uicc "$1" "$2"); COMP_CWORD=$3; _uicc; echo "${{COMPREPLY[@]}}"'
        for words, completed in ((("li", "", "1"), "lint"), (("lint", "--ph", "2"), "--phone"), (("play", "--st", "2"), "--store")):
            with self.subTest(words=words):
                done = subprocess.run(["bash", "-c", typed, "bash", *words], capture_output=True, text=True, check=True)
                self.assertEqual(done.stdout.strip(), completed)

    def test_lintian(self):
        if not self.lintian:
            self.skipTest("lintian isn't here")
        said = self.lintian.communicate()[0]
        self.assertEqual((self.lintian.returncode, said), (0, ""), said)


class Texts(unittest.TestCase):
    # a text of a clone, and as it is installed
    CALLED = [
        ("tools/lint SCRIPT", "uicc lint SCRIPT"),
        ("[`tools/lint`](#lint)", "[`uicc lint`](#lint)"),
        ("./uicc_run play < SCRIPT | tools/explain", "uicc_run play < SCRIPT | uicc explain"),
        ("tools/uicc/data/*.json", "tools/uicc/data/*.json"),
        ("tools/check", "uicc check"),
        ("for tools/capture.", "for uicc capture."),
        ("tools/lint.py", "tools/lint.py"),
        ("tools/page/check", "tools/page/check"),
        ("/work/tools/lint", "/work/tools/lint"),
        ("tools/release", "tools/release"),
    ]

    def test_called(self):
        for text, wanted in self.CALLED:
            self.assertEqual(staging.as_installed(text), wanted)

    # lines of a tool's text, and what a page of man has for them
    LINES = [
        ("says `it`\n--all", ["says \\fBit\\fP", "\\-\\-all"]),
        (".ending\n'quoted", ["\\&.ending", "\\&'quoted"]),
        ("one\n\n    set in\n\ntwo", ["one", ".PP", ".PP", ".nf", ".RS 4", "set in", ".sp", ".RE", ".fi", ".PP", "two"]),
    ]

    def test_lines(self):
        for text, wanted in self.LINES:
            self.assertEqual(list(manual.lines_of(text)), wanted)

    def test_images(self):
        """The page of the program has the table of what becomes of the file of an image."""
        text = "| the file | `play` | `open` |\n|---|---|---|\n| is empty | it is made | 9: it isn't |\n| is full | 6, `full` | 7 |\n\n| a | b |\n"
        self.assertEqual(manual.images_in(text), (["the file", "`play`", "`open`"], [["is empty", "it is made", "9: it isn't"],
                                                                                     ["is full", "6, `full`", "7"]]))
        page = manual.program_page("uicc_run plays.\n\nusage: uicc_run play\n", text, "1", "2026-01-01")
        self.assertIn(".SH FILES\n", page)
        self.assertIn(".TP\nthe file is full\n\\fBplay\\fP: 6, \\fBfull\\fP\n.br\n\\fBopen\\fP: 7\n", page)

    def test_versions(self):
        """The module's version is the last one of CHANGELOG.md, and each version says what changed."""
        found = changes.versions()
        self.assertEqual(found[0].number, staging.version())
        self.assertTrue(all(version.changes for version in found))
        self.assertEqual([version.day for version in found], sorted((version.day for version in found), reverse=True))
        self.assertRegex(changes.for_debian(), r"^uicc-run \([0-9.]+\) unstable; urgency=medium\n\n  \* ")

    def test_tools_of_the_source_are_left_out(self):
        """Each tool of this clone is installed, or is one that wants the sources."""
        here = {name for name in os.listdir(TOOLS) if "." not in name and os.path.isfile(os.path.join(TOOLS, name))}
        self.assertEqual(here - set(staging.WORDS), {"check", "definitions", "documents", "draft", "release"})


if __name__ == "__main__":
    unittest.main()
