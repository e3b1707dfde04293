"""A file of another kind than the one that a tool takes: a line says which it is, and what takes it."""
import contextlib
import os
import tempfile
import unittest

from common import in_process
from uicc import image, mistaken


class Kinds(unittest.TestCase):
    TABLE = [
        (b"# a card\n\ndf 7F10\nef 2FE2 t 10 2 -\nstart\n", mistaken.SCRIPT), (b"start\napdu 00\n", mistaken.SCRIPT),
        (b"pin 01 3131313131313131 on 3232323232323232\n", mistaken.SCRIPT), (b'# mine\nlike = "usim"\n', mistaken.PROFILE),
        (b"[EF_IMSI]\n", mistaken.PROFILE), (b'["7F20/EF_LI"]\n', mistaken.PROFILE), (b"> 00A4\n< 9000\n", mistaken.TRACE),
        (b"! reset\n", mistaken.TRACE), (b"@ 1764497000.123456\n", mistaken.TRACE), (b"iccid,imsi\n1,2\n", mistaken.LIST),
        (b"# texts\nsequence DISPLAY TEXT, seen\n", mistaken.SEQUENCE), (b"sequence = 1\n", mistaken.PROFILE),
        (b"\xEF\xBB\xBFIMSI;ICCID\r\n", mistaken.LIST), (b"UICC", mistaken.IMAGE), (bytes(image.JOURNAL_SIZE), mistaken.IMAGE),
        (b"select MF/EF.ICCID\nupdate_binary 00\n", None), (b'like "usim"\n', None), (b"", None), (b"{}", None), (b"imsi,spn\n", None),
    ]
    # a tool with its words, and what is said of a file of which kind
    TOLD = [
        (["profile", "build", "card.script"], "card.script is a script: uicc_run plays it"),
        (["profile", "build", "card.img"], "card.img is the image of a card: tools/profile tree shows it"),
        (["profile", "import", "card.toml"], "card.toml is a profile: tools/profile build"),
        (["profile", "batch", "card.toml", "card.script", "-o", "made"], "card.script is a script: "),
        (["profile", "tree", "list.csv"], "list.csv is a list of cards: tools/profile batch"),
        (["lint", "card.img"], "card.img is the image of a card: "), (["cuts", "card.toml"], "card.toml is a profile: "),
        (["explain", "card.img"], "card.img is the image of a card: "), (["explain", "card.script"], "card.script is a script: "),
        (["explain", "card.trace", "--script", "card.img"], "card.img is the image of a card: "),
        (["profile", "build", "none.toml"], "none.toml: no file is there"), (["lint", "none.script"], "none.script: no file is there"),
        (["capture", "card.toml", "out.pcapng"], "card.toml is a profile: "), (["expect", "card.toml"], "card.toml is a profile: "),
        (["sequence", "card.script"], "card.script is a script: "), (["sequence", "none.sequence"], "none.sequence: no file is there"),
        (["modem", "card.trace"], "card.trace is a trace: tools/explain shows it"), (["modem", "a.sequence"], "a.sequence is a file of sequences: "),
        (["modem", "none.script"], "none.script: no file is there"),
        (["sequence", "a.sequence", "--card", "list.csv"], "list.csv is a list of cards: "),
        (["sequence", "a.sequence", "--card", "none.script"], "none.script: no file is there"),
        (["reader", "none.script"], "none.script: no file is there"), (["reader", "."], ". is a folder, and a file is wanted"),
        (["lint", "a.sequence"], "a.sequence is a file of sequences: tools/sequence plays it to a terminal"),
        (["explain", "a.sequence"], "a.sequence is a file of sequences: "), (["shell", "a.sequence"], "a.sequence is a file of sequences: "),
        (["sequence", "a.sequence", "--on", "none.py:X"], "none.py: no file is there"),
        (["sequence", "a.sequence", "--on", "a.sequence:X"], "a.sequence is no file of Python"),
        (["reader", "list.csv"], "list.csv is a list of cards: "), (["reader", "card.img"], "card.img is the image of a card: "),
        (["lint", "any.pcapng"], "any.pcapng is no text: a byte 00 stands in line 2"), (["expect", "any.pcapng"], "any.pcapng is no text: "),
        (["explain", "any.pcapng"], "any.pcapng is no text: "), (["sequence", "any.pcapng"], "any.pcapng is no text: "),
        (["cuts", "card.script", "--again"], "card.script has no line after `start` that sends a command or resets the card"),
    ]
    FILES = {"card.script": b"df 7F10\nstart\n", "card.toml": b'like = "usim"\n', "card.img": b"UICC" + bytes(image.JOURNAL_SIZE - 4),
             "a.sequence": b"sequence one\ncommand MORE TIME\nresponse result 00\n", "card.trace": b"! reset\n", "list.csv": b"iccid\n8999901000000000005\n",
             "any.pcapng": b"\n\r\r\0\n"}

    def test_kinds(self):
        for content, kind in self.TABLE:
            self.assertEqual(mistaken.kind_of(content), kind, content[:40])

    def test_faults_of_the_system(self):
        """A file that is missing, a folder in the place of a file, and a file in that of a folder are told in words."""
        with tempfile.TemporaryDirectory() as folder:
            path = os.path.join(folder, "card.img")
            with open(path, "wb"):
                pass
            for act, said in ((lambda: open(os.path.join(folder, "x"), "rb"), f"{folder}/x: no file is there"),
                              (lambda: open(os.path.join(folder, "none", "x"), "w"), f"{folder}/none/x: the folder {folder}/none isn't there"),
                              (lambda: open(folder, "rb"), f"{folder} is a folder, and a file is wanted"),
                              (lambda: os.makedirs(path, exist_ok=True), f"{path} is a file, and a folder is wanted")):
                with self.assertRaises(OSError) as caught:
                    act()
                self.assertEqual(mistaken.told(caught.exception), said)

    def test_a_script_without_a_card(self):
        """A script for `open`, cut as one for `play`: its commands find no file, and that is said."""
        with tempfile.TemporaryDirectory() as folder, contextlib.chdir(folder):
            for lines, said in (("start\napdu 00A40004023F00\n", "cuts: open.script describes no card before `start`"),
                                ("df 7F10\nstart\napdu 00A40004027F10\n", "")):
                with open("open.script", "w", encoding="ascii") as out:
                    out.write(lines)
                done = in_process("cuts", "open.script")
                self.assertEqual(done.returncode, 0)
                self.assertEqual(done.stderr.startswith(said), True, done.stderr)
                self.assertEqual(bool(done.stderr), bool(said), done.stderr)

    def test_tools(self):
        with tempfile.TemporaryDirectory() as folder:
            for name, content in self.FILES.items():
                with open(os.path.join(folder, name), "wb") as out:
                    out.write(content)
            for words, said in self.TOLD:
                with self.subTest(words=words), contextlib.chdir(folder):
                    done = in_process(*words)
                    self.assertEqual((done.returncode, done.stdout, len(done.stderr.splitlines())), (2, "", 1), done.stderr)
                    self.assertIn(f": {said}", done.stderr)


if __name__ == "__main__":
    unittest.main()
