"""Results are written over results alone: over nothing that they are made of, and over no other file."""
import os
import tempfile
import unittest

from common import in_process
from test_card import USIM, is_built
from uicc import mistaken, process, replacing, stored

SCRIPT = "ef 6F01 t 2 - -\nstart\napdu 00A4000C026F01\napdu 00D60000020102\n"
OPENED = "start\napdu 00A4000C026F01\napdu 00D60000020102\n"
CASES = "start\napdu 00A4000C023F00\n#< 9000\n"


@unittest.skipUnless(is_built(), "the program isn't built")
class Results(unittest.TestCase):
    def setUp(self):
        place = tempfile.TemporaryDirectory()
        self.addCleanup(place.cleanup)
        self.folder = place.name

    def path(self, name, content=None):
        path = os.path.join(self.folder, name)
        if content is not None:
            with open(path, "wb") as out:
                out.write(content if isinstance(content, bytes) else content.encode())
        return path

    def refused(self, path, why, *words, text=""):
        """Nothing is written at a path, which the refusal names."""
        before = stored.read(path)
        done = in_process(*words, text=text)
        self.assertEqual((done.returncode, done.stdout), (2, ""))
        self.assertIn(f"nothing is written: {path} is {why}", done.stderr)
        self.assertEqual(stored.read(path), before)

    def test_pictures(self):
        image = self.path("card.img")
        process.played(["play", "--image", image], "ef 6F01 t 2 - -\nstart\n")
        script, opened, profile = self.path("card.script", SCRIPT), self.path("pic.script", OPENED), self.path("card.toml", 'like = "usim"\n')
        self.refused(image, "what this is made of", "cuts", opened, "--image", image, "--all", "--picture", image)
        self.refused(opened, "what this is made of", "cuts", opened, "--image", image, "--again", "--picture", opened)
        self.refused(script, "what this is made of", "cuts", script, "--all", "--picture", script)
        self.refused(profile, "a profile, and would be lost", "cuts", script, "--all", "--picture", profile)
        picture = self.path("made.svg", "")
        for _ in range(2):
            self.assertEqual(in_process("cuts", script, "--all", "--picture", picture).returncode, 0)
            self.assertTrue(stored.read(picture).startswith(b"<svg"))

    def test_captures(self):
        trace, profile = self.path("run.trace", "> 00A4000C023F00\n< 9000\n"), self.path("card.toml", 'like = "usim"\n')
        self.refused(trace, "what this is made of", "capture", trace, trace)
        self.refused(profile, "a profile, and would be lost", "capture", "-", profile, text="> 00A4000C023F00\n< 9000\n")
        self.refused(self.path("run.pcapng", "mine"), "no earlier result", "capture", trace)
        made = self.path("other.pcapng")
        for _ in range(2):
            self.assertEqual(in_process("capture", trace, made).returncode, 0)

    def test_reports(self):
        script, profile = self.path("one.script", CASES), self.path("card.toml", 'like = "usim"\n')
        self.refused(profile, "a profile, and would be lost", "expect", script, "--junit", profile)
        self.refused(script, "what this is made of", "expect", script, "--junit", script)
        self.refused(profile, "a profile, and would be lost", "sequence", os.path.join(process.TOP, "examples", "sequences", "timers.sequence"), "--junit", profile)
        made = self.path("report.xml")
        for _ in range(2):
            self.assertEqual(in_process("expect", script, "--junit", made).returncode, 0)

    def test_traces(self):
        """Those of tools/modem and tools/reader, before either opens a line."""
        script, earlier = self.path("card.script", stored.read(USIM)), self.path("run.trace", "> 00A4000C023F00\n< 9000\n")
        self.refused(script, "what this is made of", "modem", script, "--stdio", "--trace", script)
        for path in (earlier, self.path("empty", ""), self.path("none"), None):
            replacing.expect_result(path, None, script)
        with self.assertRaises(mistaken.Mistaken):
            replacing.expect_result(self.path("list.csv", "iccid,imsi\n"), None)


if __name__ == "__main__":
    unittest.main()
