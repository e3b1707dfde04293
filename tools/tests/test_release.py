"""tools/release, in a small tree of its own with stand-ins for the toolchain and the program."""
import gzip
import os
import re
import shutil
import stat
import subprocess
import sys
import tempfile
import unittest

from common import TOOLS, load

FILES = {
    "crates.txt": "# rows\nlow: std_thing\nother: low\nuicc_program: low\n",
    "crates/low/src/lib.rt": "low\n",
    "crates/low/specs/Lib.antt": "a definition\n",
    "crates/other/src/lib.rt": "other\n",
    "crates/uicc_program/src/main.rt": "main\n",
    "crates/run_cases/data/some.cases": "#case one\n#run play\nstart\nreset\n#! reset\n#status 0\n",
    "examples/first.script": "start\n",
    ".gitignore": "out/\nkit/\nbare/\nprogram\n__pycache__/\n",
}
LAUNCHER = """#!/bin/sh
cd "$(dirname "$0")" || exit 9
[ "$*" = --build ] && [ -e program ] || exit 9
mkdir -p crates/uicc_program/out
cp program crates/uicc_program/out/uicc_program
"""
PROGRAM = """#!/bin/sh
[ "$1" = --version ] && { echo uicc_run 0.0.0; exit; }
cat
"""
# the same in other bytes, and one that does something else
REWRITTEN = PROGRAM + "# more\n"
OTHER = PROGRAM.replace("cat", "exit 2")
RT = """#!/bin/sh
kit=$(dirname "$(dirname "$0")")
case $1 in doc) echo "$kit/START-HERE.md" ;; version) cat "$kit/name" ;; esac
"""
# an `rt` of one's own, which starts that of the kit
OWN_RT = """#!/bin/sh
exec "$(dirname "$0")/../kit/bin/rt" "$@"
"""
# each program of the kit copies the one module to where it is to write
WRITES = """#!/bin/sh
while [ "$1" != -o ]; do shift; done
cat "$KIT_MODULE" > "$2"
"""
PROGRAMS = ("sh", "cat", "cp", "mkdir", "dirname", "git")


def put(path, content, mode=stat.S_IRUSR | stat.S_IWUSR):
    os.makedirs(os.path.dirname(path), exist_ok=True)
    with open(path, "w", encoding="utf-8") as out:
        out.write(content)
    os.chmod(path, mode)


class Tree:
    """A repository with what tools/release wants of one."""

    def __init__(self, top):
        self.top = top

    def path(self, name):
        return os.path.join(self.top, name)

    def fill(self):
        for name, content in FILES.items():
            put(self.path(name), content)
        left_out = shutil.ignore_patterns("out", "tests", "__pycache__")
        for name in ("installing", "page", "uicc"):
            shutil.copytree(os.path.join(TOOLS, name), self.path("tools/" + name), ignore=left_out)
        shutil.copy(os.path.join(TOOLS, "release"), self.path("tools/release"))
        put(self.path("uicc_run"), LAUNCHER, stat.S_IRWXU)
        put(self.path("program"), PROGRAM, stat.S_IRWXU)
        put(self.path("kit/name"), "kit one\n")
        put(self.path("kit/module"), "module\n")
        put(self.path("kit/bin/rt"), RT, stat.S_IRWXU)
        for name in ("bin/rattle", "toolchain/bin/clang", "toolchain/bin/ld.lld"):
            put(self.path("kit/" + name), WRITES, stat.S_IRWXU)
        os.mkdir(self.path("bare"))
        for name in PROGRAMS:
            os.symlink(shutil.which(name), self.path("bare/" + name))
        self.git("init", "--quiet")
        self.commit()

    def git(self, *words):
        names = {f"GIT_{who}_{what}": "tests" for who in ("AUTHOR", "COMMITTER") for what in ("NAME", "EMAIL")}
        environment = {**os.environ, **names, "GIT_CONFIG_GLOBAL": os.devnull}
        return subprocess.run(["git", *words], cwd=self.top, env=environment, capture_output=True, text=True, check=True).stdout.strip()

    def commit(self):
        self.git("add", "--all")
        self.git("commit", "--quiet", "--message", "more")

    def run(self, *words, rt="kit/bin"):
        path = os.pathsep.join((self.path(rt), self.path("bare")))
        environment = {**os.environ, "PATH": path, "KIT_MODULE": self.path("kit/module")}
        words = [sys.executable, "-B", self.path("tools/release"), *words]
        return subprocess.run(words, env=environment, capture_output=True, text=True, timeout=60, check=False)

    def read(self, name):
        with open(self.path(name), "rb") as content:
            return content.read()

    def change(self, name, old, new):
        """Puts a text in the place of another; of none, at the end."""
        text = self.read(name).decode() if os.path.exists(self.path(name)) else ""
        assert old in text, name
        put(self.path(name), text.replace(old, new) if old else text + new, stat.S_IRWXU)


class Releases(unittest.TestCase):
    @classmethod
    def setUpClass(cls):
        """A tree whose release is made and committed; each test has a copy of it."""
        cls.folder = tempfile.mkdtemp(prefix="uicc-release-test-")
        cls.addClassCleanup(shutil.rmtree, cls.folder)
        cls.first = Tree(os.path.join(cls.folder, "first"))
        cls.first.fill()
        cls.made_from = cls.first.git("rev-parse", "HEAD")
        cls.made = cls.first.run()
        cls.first.commit()

    def tree(self):
        folder = tempfile.mkdtemp(dir=self.folder)
        self.addCleanup(shutil.rmtree, folder)
        tree = Tree(os.path.join(folder, "tree"))
        shutil.copytree(self.first.top, tree.top, symlinks=True)
        return tree

    def judge(self, done, status, said):
        self.assertEqual(done.returncode, status, done.stdout + done.stderr)
        self.assertIn(said, done.stderr if status else done.stdout)
        self.assertNotIn("Traceback", done.stderr)

    def test_made(self):
        self.judge(self.made, 0, "uicc_run 0.0.0 of commit " + self.made_from[:12])
        text = self.first.read("dist/release.txt").decode()
        for line in ("# version: uicc_run 0.0.0", "# commit: " + self.made_from, "# kit: kit one"):
            self.assertIn(line + "\n", text)
        named = re.findall("^[0-9a-f]{64}  (.*)$", text, re.M)
        program = ["crates.txt", "crates/low/src/lib.rt", "crates/uicc_program/src/main.rt"]
        self.assertEqual(named[:5], ["dist/uicc_program", "dist/uicc_run.html", *program])
        page = ("tools/page/making.py", "tools/page/page.css", "tools/page/scripts/page.js", "tools/uicc/data/files.json", "examples/first.script")
        self.assertLessEqual(set(page), set(named[5:]))
        self.assertFalse({"tools/page/check", "crates/other/src/lib.rt"} & set(named))
        words = ["sha256sum", "--check", "--strict", "--quiet", "dist/release.txt"]
        self.assertEqual(subprocess.run(words, cwd=self.first.top, capture_output=True, check=False).returncode, 0)
        self.assertEqual(self.first.read("dist/uicc_program").decode(), PROGRAM)
        self.assertTrue(os.access(self.first.path("dist/uicc_program"), os.X_OK))
        self.assertIn(f"Made from commit {self.made_from[:12]}, with kit one;", self.first.read("dist/uicc_run.html").decode())
        self.assertEqual(sorted(os.listdir(self.first.path("dist"))), ["release.txt", "uicc_program", "uicc_run.html"])

    def test_same_bytes(self):
        """After commits that touch no source, the release is made of the same bytes."""
        tree = self.tree()
        tree.change("crates/other/src/lib.rt", "", "more\n")
        tree.commit()
        self.judge(tree.run(), 0, self.made_from[:12])
        self.assertEqual(tree.git("status", "--porcelain"), "")
        tree.change("crates/low/specs/Lib.antt", "", "more\n")
        tree.commit()
        self.judge(tree.run(), 0, tree.git("rev-parse", "HEAD")[:12])

    # a file, the text in it that is replaced (none: more is added), what stands in its place, the status of the quick form, and what
    # it says
    QUICK = [
        ("crates/other/src/lib.rt", "", "more\n", 0, "of the sources that stand here"),
        ("crates/low/specs/Lib.antt", "", "more\n", 0, "of the sources that stand here"),
        ("tools/page/check", "", "# more\n", 0, "of the sources that stand here"),
        ("crates.txt", "", "# more\n", 2, "stand otherwise here: crates.txt"),
        ("crates/low/src/lib.rt", "", "more\n", 2, "stand otherwise here: crates/low/src/lib.rt"),
        ("crates/low/src/part/new.rt", "", "new\n", 2, "stand otherwise here: crates/low/src/part/new.rt"),
        ("tools/page/page.css", "", "/* more */\n", 2, "stand otherwise here: tools/page/page.css"),
        ("tools/uicc/data/status.json", "", "\n", 2, "stand otherwise here: tools/uicc/data/status.json"),
        ("examples/second.script", "", "start\n", 2, "stand otherwise here: examples/second.script"),
        ("dist/uicc_program", "", "# more\n", 1, "dist/uicc_program isn't the file that the list names"),
        ("dist/uicc_run.html", "Made", "made", 1, "dist/uicc_run.html isn't the file that the list names"),
        ("dist/release.txt", "# commit: ", "# by: ", 2, "doesn't say: commit"),
    ]

    def test_quick(self):
        for name, old, new, status, said in self.QUICK:
            with self.subTest(name=name, new=new):
                tree = self.tree()
                tree.change(name, old, new)
                self.judge(tree.run("--check", "--quick"), status, said)
                if name.startswith("crates/low/src"):
                    self.judge(tree.run("--check"), status, said)

    # what stands in a list in the place of something, and what is said of it
    LISTS = [
        ("# commit: ", "# by: ", "doesn't say: commit"),
        ("# kit: kit one", "# kit: ", "doesn't say: kit"),
        ("  dist/uicc_run.html", "  dist/another", "doesn't say: dist/uicc_run.html"),
        ("  crates.txt", " crates.txt", "line 12 of "),
        ("#\n", "\n", "line 6 of "),
    ]

    def test_lists(self):
        release, text = load("release"), self.first.read("dist/release.txt").decode()
        self.assertEqual(release.listing_of(text).text(), text)
        for old, new, said in self.LISTS:
            with self.subTest(new=new), self.assertRaises(release.Refused) as refused:
                release.listing_of(text.replace(old, new))
            self.assertIn(said, str(refused.exception))

    def test_missing(self):
        for name, status, said in (("uicc_program", 1, "is missing"), ("uicc_run.html", 1, "is missing"), ("release.txt", 2, "there is no release here")):
            with self.subTest(name=name):
                tree = self.tree()
                os.remove(tree.path("dist/" + name))
                self.judge(tree.run("--check", "--quick"), status, said)

    # what is changed of the toolchain and of what is built, the status, and what is said
    WHOLE = [
        ({}, 0, "the program and the page are the same bytes"),
        ({"program": REWRITTEN}, 1, "other bytes than dist/uicc_program"),
        ({"kit/module": "another\n"}, 1, "other bytes than dist/uicc_run.html"),
        ({"kit/name": "kit two\n"}, 0, "leave the same of 2 stored runs; the page isn't compared"),
        ({"kit/name": "kit two\n", "program": REWRITTEN}, 0, "built with kit one, and here is kit two"),
        ({"kit/name": "kit two\n", "program": OTHER}, 1, "something else of 2 of 2 stored runs"),
        ({"uicc_run": "#!/bin/sh\nexit 9\n"}, 2, "can't be proved and built"),
        ({"kit/bin/rattle": "#!/bin/sh\necho not proved\nexit 1\n"}, 2, "rattle ended with 1:\nnot proved"),
    ]

    def test_whole(self):
        for changes, status, said in self.WHOLE:
            with self.subTest(changes=changes):
                tree = self.tree()
                for name, content in changes.items():
                    put(tree.path(name), content, stat.S_IRWXU)
                self.judge(tree.run("--check"), status, said)

    def test_own_rt(self):
        tree = self.tree()
        put(tree.path("own/rt"), OWN_RT, stat.S_IRWXU)
        self.judge(tree.run("--check", rt="own"), 0, "the program and the page are the same bytes")

    def test_no_toolchain(self):
        tree = self.tree()
        os.remove(tree.path("kit/bin/rt"))
        self.judge(tree.run("--check", "--quick"), 0, "of the sources that stand here")
        for words in (["--check"], []):
            self.judge(tree.run(*words), 2, "the Rattle toolchain (rt) is not on the PATH")

    def test_packing(self):
        """Another compressor packs the module otherwise."""
        tree = self.tree()
        tree.change("tools/page/making.py", "gzip.compress(module, 9,", "gzip.compress(module, 0,")
        self.assertNotEqual(gzip.compress(b"module\n", 9, mtime=0), gzip.compress(b"module\n", 0, mtime=0))
        tree.commit()
        release = tree.read("dist/uicc_run.html")
        self.judge(tree.run(), 0, "uicc_run 0.0.0")
        self.assertNotEqual(tree.read("dist/uicc_run.html"), release)
        # the tool that unpacks stands still; the list is of this source, whose packing is then the other one's
        text = tree.read("dist/uicc_run.html").decode()
        packed = re.compile('packedModule = "([^"]*)"')
        other = text.replace(packed.search(text)[1], packed.search(release.decode())[1])
        listed = tree.read("dist/release.txt").decode()
        put(tree.path("dist/uicc_run.html"), other)
        sums = [subprocess.run(["sha256sum"], input=each.encode(), capture_output=True, check=True).stdout.decode()[:64] for each in (text, other)]
        put(tree.path("dist/release.txt"), listed.replace(*sums))
        self.judge(tree.run("--check"), 0, "but for the packing of its module")

    def test_refused(self):
        """A source with a change that is in no commit makes no release, and dist/ stays as it is."""
        for name in ("crates/low/src/lib.rt", "crates/low/specs/Lib.antt", "crates/low/proofs/new/Proof.antt", "examples/second.script"):
            with self.subTest(name=name):
                tree = self.tree()
                tree.change(name, "", "more\n")
                self.judge(tree.run(), 2, f"in no commit: {name}")
                self.assertEqual(tree.git("status", "--porcelain", "--", "dist"), "")

    def test_no_git(self):
        tree = self.tree()
        shutil.rmtree(tree.path(".git"))
        self.judge(tree.run(), 2, "git ended with 128")
        self.judge(tree.run("--check"), 0, "the same bytes")

    def test_the_page_alone(self):
        """The page is made anew over the module that it has, with no toolchain, and is what the whole release would be made of."""
        tree = self.tree()
        tree.change("tools/page/page.css", "", "/* more */\n")
        tree.change("examples/second.script", "", "start\n")
        self.judge(tree.run("--page"), 2, "these have a change that is in no commit")
        tree.commit()
        commit = tree.git("rev-parse", "HEAD")
        os.rename(tree.path("kit/bin/rt"), tree.path("kit/rt"))
        self.judge(tree.run("--page"), 0, f"uicc_run 0.0.0 of commit {commit[:12]}: dist/uicc_run.html has ")
        os.rename(tree.path("kit/rt"), tree.path("kit/bin/rt"))
        self.assertEqual(sorted(tree.git("status", "--porcelain").split()), ["M", "M", "dist/release.txt", "dist/uicc_run.html"])
        self.judge(tree.run("--check", "--quick"), 0, f"of commit {commit[:12]}: the files are those of the list")
        self.judge(tree.run("--check"), 0, "the program and the page are the same bytes")
        self.assertIn(f"Made from commit {commit[:12]}, with kit one;", tree.read("dist/uicc_run.html").decode())

    def test_the_page_alone_of_another_program(self):
        """Where the program is another one, or what makes the page's module, a whole release is asked for."""
        for name in ("crates/low/src/lib.rt", "crates.txt", "tools/page/host.c", "tools/page/wasm_clang"):
            with self.subTest(name=name):
                tree = self.tree()
                tree.change(name, "", "# more\n")
                tree.commit()
                self.judge(tree.run("--page"), 2, f"was made otherwise: {name}; 'tools/release' makes both anew")
                self.assertEqual(tree.git("status", "--porcelain"), "")

    def test_words(self):
        self.judge(self.tree().run("--quick"), 2, "--quick is for --check")


if __name__ == "__main__":
    unittest.main()
