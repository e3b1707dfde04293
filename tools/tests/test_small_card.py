"""What wants a card, over a stand-in with an image: the module, the prompt, cuts of all commands, and cases with a memory."""
import os
import tempfile
import unittest
import unittest.mock

import common
import small_card
from uicc import Card, NoSuchFile, PowerLost, StatusError, cutting, image, picture, process, terminal

SMALL_CARD = os.path.join(common.TOOLS, "tests", "small_card.py")
SCRIPT = """pin 01 31323334FFFFFFFF on 3132333435363738
ef 2FE2 t 10 2 -
fill 2FE2 0 989909010000103254F0
df 7F10
ef 7F106F3A l 28 3 1 -
rec 7F106F3A 1 416E6E61FFFFFFFFFFFFFFFFFFFF0791999910005505FFFFFFFFFFFF
start
apdu 00A40804047F106F3A
apdu 00DC02041C42FFFFFFFFFFFFFFFFFFFFFFFFFFFFFFFFFFFFFFFFFFFFFFFFFFFF
"""

CUT = """pin 01 31323334FFFFFFFF on 3132333435363738
ef 2FE2 t 10 2 -
start
apdu 002000010831323334FFFFFFFF
cut 2
apdu 00D6820002CCDD
reset
apdu 00B0820002
"""

PHONE = "ef 2FE2 t 4 2 -\nstart\nuser ok\n"


class SmallCards(unittest.TestCase):
    """Whole runs are played in this process, and dialogues by a stand-in of their own; `runs` has the words of the former."""

    def setUp(self):
        folder = tempfile.TemporaryDirectory()
        self.addCleanup(folder.cleanup)
        self.folder, self.script = folder.name, os.path.join(folder.name, "small.script")
        self.put("small.script", SCRIPT)
        self.runs = []
        for patch in (unittest.mock.patch.dict(os.environ, {"UICC_RUN": SMALL_CARD}), unittest.mock.patch.object(process, "played", self.played)):
            patch.start()
            self.addCleanup(patch.stop)

    def played(self, words, text):
        self.runs.append(" ".join(words))
        return small_card.played(words, text)

    def put(self, name, text):
        path = os.path.join(self.folder, name)
        with open(path, "w", encoding="ascii") as out:
            out.write(text)
        return path

    def tool(self, name, *words, text=""):
        return common.in_process(name, *words, text=text)

    # the module

    def test_files_and_pins(self):
        with Card(self.script) as card:
            self.assertEqual(card.select("MF/DF.TELECOM/EF.ADN")["file descriptor"], "linear fixed EF, 3 records of 28 bytes")
            self.assertEqual(card.current, ("7F10", "6F3A"))
            self.assertEqual(card.read_record(1)[:4], b"Anna")
            card.update_record(2, b"Bob".ljust(28, b"\xFF"))
            self.assertEqual(card.read_record(2)[:3], b"Bob")
            with self.assertRaises(StatusError) as refused:
                card.verify(1, "0000")
            self.assertEqual((refused.exception.status, card.tries(1)), ("63C2", 2))
            self.assertIn("tries left: 2", str(refused.exception))
            card.verify(1, "1234")
            self.assertEqual(card.tries(1), 3)
            with self.assertRaises(NoSuchFile):
                card.select("EF.NONE")

    def test_faults(self):
        with Card(self.script) as card:
            card.select("EF.ICCID")
            for write in range(1, 5):
                card.cut(write, 0, 0x00)
                with self.assertRaises(PowerLost):
                    card.update_binary("AABB")
                with self.assertRaises(PowerLost):
                    card.read_binary(2)
                card.reset()
                card.select("EF.ICCID")
                self.assertEqual(card.read_binary(2), b"\x98\x99" if write < 3 else b"\xAA\xBB")
            card.fail(1)
            with self.assertRaises(StatusError) as failed:
                card.update_binary("CCDD")
            self.assertEqual(failed.exception.status, "6581")
            self.assertEqual(card.trace[-1], "< 6581")

    def test_an_image(self):
        path = os.path.join(self.folder, "card.img")
        with Card(self.script, path) as card:
            card.select("EF.ICCID")
            card.update_binary("AABB")
        with Card(image=path) as card:
            self.assertEqual(bytes(card.holds.files[("2FE2",)].content[:3]), b"\xAA\xBB\x09")
            card.select("EF.ICCID")
            self.assertEqual(card.read_binary(2), b"\xAA\xBB")

    def test_the_prompt(self):
        done = self.tool("shell", self.script, text="select EF.ADN\nverify pin1 1234\nread 1\nread EF.ICCID\nupdate EF.ADN 3 42\nread 3\n"
                         "apdu 00 A4 00 04 02 3F 00\ncut 1\nupdate EF.ADN 2 43\nreset\nls\ntree\ntrace\n")
        self.assertEqual(done.returncode, 1, done.stderr)
        for part in ("linear fixed EF, 3 records of 28 bytes", "Anna: +999901005550", "8999901000000123450", "   3: 42FFFF",
                     "SELECT by identifier 3F00", "file descriptor: DF", "the power was lost in the command", "7F10 DF.TELECOM", "! cut"):
            self.assertIn(part, done.stdout)
        self.assertEqual(self.tool("shell", self.script, text="no such word\n").returncode, 1)
        self.assertEqual(self.tool("shell", self.script, text="select EF.ICCID\nread\n").returncode, 0)

    # cuts

    def outcomes(self):
        script = cutting.read_script(self.put("cut.script", CUT), "play")
        return cutting.all_outcomes(["play"], script, 2, terminal.Progress(0, ""))

    def test_each_command_is_cut(self):
        found = [(one.step.number, len(one.writes), {state: count for state, count in one.counts.items() if count}) for one in self.outcomes()]
        # A commit has four writes: five of twelve ways leave what was before, as the gate is opened by its second write where that is
        # whole. VERIFY makes two commits: a try is gone between them. The script's own plan is left out for its command alone.
        self.assertEqual(found, [(4, 8, {"same": 12, "between": 12}), (6, 4, {"before": 5, "after": 7}), (7, 0, {}), (8, 0, {})])

    def test_what_is_torn_is_told(self):
        os.environ["SMALL_CARD_TEARS"] = "1"
        done = self.tool("cuts", self.put("cut.script", CUT), "--all")
        self.assertEqual(done.returncode, 1)
        # The tries of a PIN are one byte, which is whole where it is half written; of two bytes FF half of them is new then.
        self.assertIn("5 leave NEITHER", done.stdout.splitlines()[-1])

    def test_the_tables(self):
        svg = os.path.join(self.folder, "cuts.svg")
        done = self.tool("cuts", self.put("cut.script", CUT), "--all", "--picture", svg)
        self.assertEqual(done.returncode, 0, done.stderr)
        self.assertEqual(done.stdout.splitlines()[-1], "4 commands and resets; 12 writes, 36 runs: 12 leave what was before and is after, "
                         "5 leave what was before, 12 leave what is between, 7 leave what is after")
        with open(svg, encoding="utf-8") as text:
            drawn = text.read()
        self.assertTrue(drawn.startswith("<svg"))
        self.assertEqual(drawn.count("<title>"), 36)
        # a stripe for each run, and one of each colour below the heading
        counted = {state: drawn.count(f'fill="{colour}"') - 1 for state, colour in picture.COLOURS.items()}
        self.assertEqual(counted, {"same": 12, "before": 5, "between": 12, "after": 7, "NEITHER": 0})

    def test_the_last_command_alone(self):
        """By what reads it back."""
        done = self.tool("cuts", self.script)
        self.assertEqual(done.returncode, 0, done.stderr)
        self.assertIn("read back by  SELECT", done.stdout)
        self.assertIn("4 writes, 12 runs: 5 leave what was before, 7 leave what is after", done.stdout)

    def test_help_has_back(self):
        told = self.tool("cuts", "--help").stdout
        for part in ("tools/cuts SCRIPT [--back SCRIPT]", "--back SCRIPT ", "a script whose `apdu` lines read back"):
            self.assertIn(part, told)

    # the words of cuts, and those that begin the runs of the program
    WORDS = [
        ([], "play"),
        (["--store", "pages"], "play --store pages"),
        (["--all"], "play --image"),
        (["--all", "--store", "pages"], "play --store pages --image"),
        (["--all", "--phone", "--store", "pages"], "phone --store pages --image"),
        (["--phone"], "phone --image"),
    ]

    def test_the_words_of_the_runs(self):
        for words, begins in self.WORDS:
            self.runs.clear()
            self.tool("cuts", self.put("few.script", "ef 2FE2 t 4 2 -\nstart\napdu 00D6820002AABB\n" if "--phone" not in words else PHONE), *words)
            with self.subTest(words=words):
                runs = [line for line in self.runs if not line.startswith("open")]
                self.assertGreater(len(runs), 0)
                self.assertEqual([line for line in runs if not line.startswith(begins)], [])

    # the last lines of a script, and what is told: where nothing reads back what the last command changes, the image tells it; what
    # the script plans for it is left out, and what stands after it passed over
    LAST = [
        ("apdu 00A4000C022FE2\n", "by the image of the memory", "0 writes"),
        ("apdu 00A4000C022FE2\n# a comment\ncut 2\napdu 00D6000001AA\nreset\napdu 00A4000C022FE2\n", "by the image of the memory"),
        ("cut 1\napdu 00D6820001AA\n", "before        98 9000", "4 writes, 12 runs: 5 leave what was before, 7 leave what is after"),
        ("apdu 00D6820001AA\nreset\n", "before        98 9000", "4 writes, 12 runs: 5 leave what was before, 7 leave what is after"),
    ]

    def test_scripts_as_they_are(self):
        for text, *parts in self.LAST:
            done = self.tool("cuts", self.put("last.script", SCRIPT.partition("start\n")[0] + "start\n" + text))
            with self.subTest(text=text):
                self.assertEqual(done.returncode, 0, done.stderr)
                for part in parts:
                    self.assertIn(part, done.stdout)

    def test_back_says_what_is_read(self):
        back = self.put("back.script", "apdu 00A4000C022FE2\napdu 00B0000002\n")
        done = self.tool("cuts", self.script, "--back", back)
        self.assertEqual(done.returncode, 0, done.stderr)
        self.assertIn("before        9000, 9899 9000", done.stdout)

    def test_a_bad_script_is_told(self):
        path = self.put("bad.script", "# a comment\nef 2FE2 t 40000 2 -\nstart\napdu 00A4000C022FE2\n")
        for words in ([], ["--all"]):
            done = self.tool("cuts", path, *words)
            self.assertEqual(done.returncode, 2)
            self.assertIn("bad.script: line 2: SIZE is 1 to 32767, not 40000", done.stderr)

    # cases

    CASES = """#case the memory stays from run to run
#run play
ef 2FE2 t 4 2 -
start
apdu 00D6820002AABB
#< 9000
#status 0
#shows 3968 AABBFFFF
#run open
start
apdu 00B0820004
#< AABBFFFF9000
#status 0
#bytes 3969 CC
#run open
start
apdu 00B0820004
#< AACCFFFF9000
#status 0
#blank
#run open
start
#= not a card 0
#status 7

#case wherever an update is cut, the file has its old bytes or its new ones
#each cut K 0 00 | cut K 1 FF
#at-least 4
#run play
ef 2FE2 t 4 2 -
start
#plan
apdu 00D6820002AABB
#met ! cut
#< 9000
reset
#! reset
apdu 00B0820002
#< FFFF9000 | < AABB9000
#status 0
"""

    def test_cases_with_a_memory(self):
        done = self.tool("expect", self.put("a.cases", self.CASES))
        self.assertEqual((done.returncode, done.stdout), (0, "2 cases, 14 runs, 0 differ\n"), done.stderr)

    def test_a_plan_that_is_met_too_seldom(self):
        done = self.tool("expect", self.put("a.cases", self.CASES.replace("#at-least 4", "#at-least 5")))
        self.assertEqual(done.returncode, 1)
        self.assertIn("with cut 5 0 00", done.stdout)
        self.assertIn("the plan was met at 4 calls, expected at least 5", done.stdout)

    def test_a_plan_that_tears(self):
        os.environ["SMALL_CARD_TEARS"] = "1"
        done = self.tool("expect", self.put("a.cases", self.CASES), "--case", "wherever")
        self.assertEqual(done.returncode, 1)
        self.assertIn("00009000", done.stdout)

    def test_an_image_becomes_a_tree(self):
        path = os.path.join(self.folder, "card.img")
        with Card(self.script, path) as card:
            card.select("EF.ADN")
            card.update_record(2, b"Bob".ljust(28, b"\xFF"))
        with open(path, "rb") as content:
            self.assertEqual(image.card_in(content.read()).files[("7F10", "6F3A")].record(2)[:3], b"Bob")
        shown = self.tool("profile", "tree", path).stdout
        for part in ("6F3A EF.ADN", "1: Anna: +999901005550", "2: Bob: no number", "PIN 1: 1234, enabled, 3 tries left"):
            self.assertIn(part, shown)


if __name__ == "__main__":
    unittest.main()
