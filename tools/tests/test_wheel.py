"""`pip install .` without a network: the wheel that the backend makes, and the module and the command that come of it."""
import base64
import hashlib
import importlib.util
import os
import shutil
import subprocess
import sys
import tarfile
import tempfile
import unittest
import venv
import zipfile

from common import TOOLS
from installing import backend, reference, staging
from uicc import process

SECONDS = 300
TEST = "from uicc import Card; card = Card.from_text('ef 2FE2 t 10 2 -'); print(card.select('2FE2')['size'], card.close())"


class Wheels(unittest.TestCase):
    def setUp(self):
        self.folder = tempfile.mkdtemp(prefix="uicc-wheel-test-")
        self.addCleanup(shutil.rmtree, self.folder)

    def test_contents(self):
        """Each file is in the list of the wheel with its sum, and the module, its types and data, the tools and examples are there."""
        name = backend.build_wheel(self.folder)
        self.assertRegex(name, rf"^uicc_run-{staging.version()}-py3-none-(linux_x86_64|any)\.whl$")
        with zipfile.ZipFile(os.path.join(self.folder, name)) as wheel:
            names = wheel.namelist()
            record = [line.rsplit(",", 2) for line in wheel.read(names[-1]).decode().splitlines()]
            self.assertEqual([path for path, _, _ in record], names)
            for path, said, size in record[:-1]:
                content = wheel.read(path)
                wanted = base64.urlsafe_b64encode(hashlib.sha256(content).digest()).rstrip(b"=").decode()
                self.assertEqual((said, int(size)), (f"sha256={wanted}", len(content)))
        wanted = {"uicc/card.py", "uicc/py.typed", "uicc/data/files.json", "uicc/tree/tools/lint", "uicc/tree/tools/check",
                  "uicc/tree/examples/usim.script", "uicc/tree/dist/uicc_run.html"}
        self.assertLessEqual(wanted, set(names))
        self.assertFalse([path for path in names if "__pycache__" in path or "tests" in path.split("/")])

    def test_same_bytes(self):
        made = []
        for part in ("one", "other"):
            folder = os.path.join(self.folder, part)
            os.mkdir(folder)
            with open(os.path.join(folder, backend.build_wheel(folder)), "rb") as content:
                made.append(content.read())
        self.assertTrue(made[0] == made[1])

    def test_source_distribution(self):
        """A wheel is made of it too."""
        name = backend.build_sdist(self.folder)
        with tarfile.open(os.path.join(self.folder, name)) as archive:
            archive.extractall(self.folder)
        top = os.path.join(self.folder, name.removesuffix(".tar.gz"))
        words = [sys.executable, "-B", "-c", f"from installing import backend; print(backend.build_wheel({self.folder!r}))"]
        done = subprocess.run(words, cwd=os.path.join(top, "tools"), capture_output=True, text=True, check=False, timeout=SECONDS)
        self.assertEqual((done.returncode, done.stderr), (0, ""))
        self.assertTrue(os.path.exists(os.path.join(self.folder, done.stdout.strip())))

    @unittest.skipUnless(importlib.util.find_spec("ensurepip"), "this Python has no pip to put into an environment")
    def test_installed(self):
        """In an environment of its own, with no index to ask: the module, the command, its tools and the program."""
        place = os.path.join(self.folder, "environment")
        venv.create(place, with_pip=True, symlinks=True)
        programs = os.path.join(place, "bin")
        environment = {name: value for name, value in os.environ.items() if name not in ("PYTHONPATH", "UICC_RUN")}

        def run(*words, text=""):
            words = [os.path.join(programs, words[0]), *words[1:]]
            return subprocess.run(words, cwd=self.folder, env=environment, input=text, capture_output=True, text=True, timeout=SECONDS, check=False)
        installed = run("python", "-m", "pip", "install", "--quiet", "--no-index", "--disable-pip-version-check", staging.TOP)
        self.assertEqual(installed.returncode, 0, installed.stderr)
        self.assertIn(f"uicc {staging.version()}\n", run("uicc", "--version").stdout)
        done = run("uicc", "lint", "-", text="ef 2FE2 t 40000 2 -\nstart\n")
        self.assertEqual((done.returncode, done.stderr), (1, ""))
        self.assertIn("SIZE is 1 to 32767", done.stdout)
        if backend.has_program() and process.runs(process.RELEASED):
            self.assertEqual(run("uicc", "play", text="start\nreset\n").stdout, "! reset\n")
            self.assertEqual(run("python", "-c", TEST).stdout, "10 bytes 0\n")


class References(unittest.TestCase):
    def test_page(self):
        """docs/MODULE.md is what the source says today."""
        with open(reference.PAGE, encoding="utf-8") as page:
            self.assertEqual(page.read(), reference.page(), "type: tools/installing/reference.py")

    def test_public_calls_are_typed_and_told(self):
        """Each public call of the card and the handset says what it does, and what types it takes and answers."""
        for kind in (reference.uicc.Card, reference.uicc.Terminal):
            for name, function, _ in reference.members(kind):
                with self.subTest(kind=kind.__name__, name=name):
                    self.assertTrue(reference.text_of(function))
                    parts = [part for part in reference.inspect.signature(function).parameters.values() if part.name not in ("self", "cls")]
                    self.assertFalse([part.name for part in parts if part.annotation is part.empty and part.kind is not part.VAR_KEYWORD])
                    self.assertIsNot(reference.inspect.signature(function).return_annotation, reference.inspect.Signature.empty)


if __name__ == "__main__":
    unittest.main()
