"""What carries out a line takes no memory: the cases again, with a C library that has none to give from the first line shown on."""
import os
import shutil
import subprocess
import tempfile
import unittest
import unittest.mock

from common import TOOLS
from uicc import carrying, cases, process

CASES = os.path.join(os.path.dirname(TOOLS), "crates", "run_cases", "data")
SOURCE = os.path.join(os.path.dirname(os.path.abspath(__file__)), "no_memory.c")
COMPILER = shutil.which("cc")
# a case is carried out with its plan at so many calls at most
MOST_TURNS = 2


def is_built():
    try:
        return bool(process.program())
    except process.NotBuilt:
        return False


def all_cases():
    for name in sorted(os.listdir(CASES)):
        with open(os.path.join(CASES, name), encoding=process.ENCODING) as text:
            yield from ((name, case) for case in cases.read(text.read(), name))


@unittest.skipUnless(COMPILER, "no C compiler is here")
@unittest.skipUnless(is_built(), "the program isn't built")
class NoMemory(unittest.TestCase):
    def setUp(self):
        folder = tempfile.TemporaryDirectory()
        self.addCleanup(folder.cleanup)
        library, self.log = os.path.join(folder.name, "no_memory.so"), os.path.join(folder.name, "log")
        subprocess.run([COMPILER, "-shared", "-fPIC", "-O1", "-o", library, SOURCE], check=True)
        with open(self.log, "w", encoding="ascii"):
            pass
        process.program()
        patched = unittest.mock.patch.dict(os.environ, {"LD_PRELOAD": library, "NO_MEMORY_LOG": self.log})
        patched.start()
        self.addCleanup(patched.stop)

    def asked(self):
        """Of each run so far: how often memory was given, and refused, and how often bytes were shown."""
        with open(self.log, encoding="ascii") as text:
            return [tuple(int(word) for word in line.split()) for line in text]

    def test_cases(self):
        """Each is as it must be, and asks for no memory once it has shown a line."""
        carried = 0
        for name, case in all_cases():
            carried += self.carried_out(case)
            self.assertEqual(self.asked()[-1][1], 0, f"{name}: {case.name}")
        runs = self.asked()
        self.assertEqual(len(runs), carried)
        self.assertEqual(sum(refused for _, refused, _ in runs), 0)
        # the lines are shown one by one, so that there is no memory while most of them are carried out
        self.assertGreater(max(shown for _, _, shown in runs), 100)

    def carried_out(self, case):
        """How many runs it came to."""
        if case.mistake or case.must_differ or case.beyond_program():
            return 0
        if case.plans:
            plans = [case.plans[0].replace("K", str(turn), 1) for turn in range(1, MOST_TURNS + 1)]
            return sum(len(carrying.carried_out(case, False, plan)) for plan in plans)
        done = carrying.verdict_of(case)
        self.assertIsNone(done.difference, case.name)
        return done.runs

    def test_long_run(self):
        """A long run shows its only line at its end: a thousand lines ask for as much memory as none."""
        for count in (0, 1000):
            self.assertEqual(process.played(["load", "2", str(count)], "")[1], 0)
        none, many = self.asked()
        self.assertEqual(none, many)

    def test_none_at_all(self):
        """What is refused reaches the program: with no memory to begin with a run ends with 5."""
        with unittest.mock.patch.dict(os.environ, {"NO_MEMORY_AT_ALL": "1"}):
            self.assertEqual(process.played(["play"], "start\nreset\n"), (["no memory"], 5, ""))
        self.assertEqual(self.asked()[0][0], 0)
        self.assertGreater(self.asked()[0][1], 0)


if __name__ == "__main__":
    unittest.main()
