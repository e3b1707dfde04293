"""tools/shell: what is typed, what is told, and what the card holds then."""
import os
import tempfile
import unittest

from common import in_process, load
from uicc import Card, contents, image, process, texts

USIM = os.path.join(process.TOP, "examples", "usim.script")
ADM = "verify adm 88888888\n"


def is_built():
    try:
        return bool(process.program())
    except process.NotBuilt:
        return False


def shell(text, *words):
    return in_process("shell", *words, text=text)


@unittest.skipUnless(is_built(), "the program isn't built")
class Shell(unittest.TestCase):
    # lines, the status, and parts of what is told
    TABLE = [
        (ADM + "update EF.SPN text Nord licht\nread EF.SPN\n", 0, ["014E6F7264206C69636874", "Nord licht (the network's name is shown too)"]),
        (ADM + "select EF.SPN\nupdate text Foo\ntree\n", 0, ["Foo (the network's name is shown too)"]),
        ("verify pin1 1234\nupdate EF.ADN 3 text Berta\nread EF.ADN 3\ntree\n", 0, ["Berta: +999901005550", "3: Berta: +999901005550"]),
        ("verify PIN1 1234\n", 0, ["9000"]), ("verify pin1 0000\ntree\n", 1, ["63C2", "PIN 1: 1234, enabled, 2 tries left"]),
        ("verify PIN3 1234\n", 1, ["no PIN is called `PIN3`: pin1, pin2 and adm are"]),
        ("verify CHV1 1234\n", 1, ["no PIN is called `CHV1`: pin1, pin2 and adm are, of which `pin1` is meant"]),
        ("cd 7F20\n", 1, ["no word `cd` is known: is `select` meant? help lists them"]),
        (ADM + "update EF.SPN text \"Foo Bar\"\nread EF.SPN\n", 1, ["nothing is written: the quotes would be a part of the text, which is written "
                                                                   "as it stands: text Foo Bar", "Example"]),
        (ADM + "update EF.SPN text 3\" disk\nread EF.SPN\n", 0, ['3" disk']),
        ("verify pin1 12\n", 1, ["a PIN is four to eight digits, or eight bytes as 16 hexadecimal digits, and not `12`"]),
        ("verify pin1 abcd\n", 1, ["and not `abcd`"]),
        ("change PIN1 1234 4321\nverify PIN1 4321\ntree\n", 0, ["  9000\n3F00 MF> ", "PIN 1: 4321, enabled"]),
        ("change pin1 1111 4321\ntree\n", 1, ["63C2", "PIN 1: 1234, enabled, 2 tries left"]),
        ("disable PIN1 1234\ntree\nread EF.IMSI\n", 0, ["PIN 1: 1234, disabled", "0809"]),
        ("disable pin1 1234\nenable pin1 1234\ntree\n", 0, ["  9000\n3F00 MF> ", "PIN 1: 1234, enabled"]),
        ("verify pin1 1111\n" * 3 + "unblock PIN1 12345678 5555\nverify pin1 5555\ntree\n", 1,
         ["63C0", "  9000\n3F00 MF> ", "PIN 1: 5555, enabled, 3 tries left"]),
        ("unblock PIN1 87654321 5555\n", 1, ["63C9"]), ("change ADM1 88888888 77777777\nverify ADM1 77777777\n", 0, ["  9000\n3F00 MF> "]),
        ("unblock ADM1 12345678 1234\n", 1, ["ADM1 has no UNBLOCK PIN: nothing unblocks it"]),
        ("verify pin1 1234\nwrite EF.ADN 4 entries = [{ name = \"Ö\", number = \"110\" }]\nread EF.ADN 4\nsay EF.ADN\nsay EF.ADN 4\n", 0,
         ["Ö: 110", "that is record 1 of 50: say EF.ADN N says another one"]),
        ("verify pin1 1234\nwrite EF.ADN 4 entries = [{ name = \"A\" }, { name = \"B\" }]\n", 1, ["entries has 2 entries, and record 4 holds one"]),
        ("change pin1 1234\n", 1, ["change pin1|pin2|adm VALUE NEW"]), ("enable pin9 1234\n", 1, ["no PIN is called `pin9`"]),
        ("unblock pin1 12345678 12\n", 1, ["and not `12`"]),
        ("update EF.SPN xyz\n", 1, ["`xyz` is no HEX"]), ("update EF.IMSI text abc\n", 1, ["this file holds no text"]),
        (ADM + "update EF.SPN text A name that is too long\n", 1, ["has 23 bytes, and there is room for 16"]),
        ("update\n", 1, ["update [FILE] [RECORD] HEX, or update [FILE] [RECORD] text TEXT"]), ("update text\n", 1, ["no EF is selected"]),
        ("resize 6F46 x\n", 1, ["SIZE is a number, and not `x`"]), ("pick one\n", 1, ["N is a number, and not `one`"]),
        ("respond zz\n", 1, ["RESULT is a number, and not `zz`"]), ("cut 0\n", 1, ["K is 1 to"]), ("apdu 0\n", 1, ["`0` is no HEX"]),
        ("read EF.IMSI\n", 1, ["rule 2F06:2 asks for PIN 1 to read; PIN 1 isn't verified"]),
        ("apdu 00A4080C047F206F07\napdu 00B0000009\n", 0, ["6982  the security status isn't satisfied: rule 2F06:2 asks for PIN 1 to read"]),
        (ADM + "deactivate EF.SPN\nread EF.SPN\nactivate EF.SPN\nread EF.SPN\n", 1, ["9000", "Example Mobile"]),
        ("verify pin1 1234\nread EF.LND\n", 0, ["records are empty"]),
        ("select A0000000871002\n", 1, ["a card here has no ADF"]),
        ("increase EF.LND x\n", 1, ["AMOUNT is a number, and not `x`"]), ("increase\n", 1, ["increase [FILE] AMOUNT"]),
        (ADM + "create ef 6F50 t 4 - -\nselect MF\ndelete 6F50\ntree\n", 0, ["9000"]),
    ]

    def test_lines_of_standard_input_are_shown(self):
        """Each before what comes of it, as it would stand at the prompt; comments and empty lines aren't."""
        done = shell("select EF.ICCID\n\n# a comment\nfoo\n", USIM)
        lines = done.stdout.splitlines()
        self.assertEqual((lines[0], lines[-2:]), ("3F00 MF> select EF.ICCID", ["2FE2 EF.ICCID> foo", "no word `foo` is known: help lists them"]))
        self.assertNotIn("comment", done.stdout)

    def test_help(self):
        """All words, each with what it does; or one of them."""
        done = shell("help\nhelp ls\nhelp foo\ntre\n", USIM)
        lines = done.stdout.splitlines()
        for word in (name.removeprefix("do_") for name in dir(load("shell").Shell) if name.startswith("do_")):
            self.assertTrue(any(line.startswith((word, f"quit, or {word}")) and ": " in line for line in lines[1:]), word)
        self.assertEqual(lines[-6:], ["3F00 MF> help ls", "ls: the files of the current DF", "3F00 MF> help foo", "no word `foo` is known: help lists them",
                                      "3F00 MF> tre", "no word `tre` is known: is `tree` meant? help lists them"])

    def test_lines(self):
        for text, status, parts in self.TABLE:
            with self.subTest(text=text):
                done = shell(text, USIM)
                self.assertEqual((done.returncode, done.stderr), (status, ""), done.stdout)
                for part in parts:
                    self.assertIn(part, done.stdout)

    def test_an_image_in_the_place_of_a_card(self):
        """It is said that it is opened and written; a profile is taken too, and a list isn't."""
        with tempfile.TemporaryDirectory() as folder:
            path, profile, listed = (os.path.join(folder, name) for name in ("card.img", "card.toml", "list.csv"))
            for name, text in ((profile, 'like = "usim"\n'), (listed, "iccid\n")):
                with open(name, "w", encoding="utf-8") as out:
                    out.write(text)
            self.assertEqual(shell("ls\n", profile, "--image", path).stderr, "")
            self.assertEqual(shell("ls\n", profile, "--image", path).stderr, f"shell: {path} is there: its card is taken, and not that of {profile}\n")
            done = shell("ls\n", path)
            self.assertEqual((done.returncode, done.stderr), (0, f"shell: {path} is the image of a card, and is written: what is done here stays in it\n"))
            done = shell("ls\n", listed)
            self.assertEqual((done.returncode, done.stdout), (2, ""))
            self.assertIn("is a list of cards: ", done.stderr)

    def test_the_tree_is_what_is_held_now(self):
        """Also after a loss of power, which leaves what was before or what is after."""
        done = shell(ADM + "select EF.SPN\ncut 1\nupdate EF.SPN text Foo\nreset\ntree\n", USIM)
        self.assertIn("Example Mobile", done.stdout)
        with Card(USIM) as card:
            card.verify(1, "1234")
            card.select("EF.ADN")
            card.update_record(5, b"Eve".ljust(28, b"\xFF"))
            with self.assertRaises(Exception):
                card.verify(1, "4321")
            held = card.now
            self.assertEqual((held.files[card.current].record(5)[:3], held.pins[1].tries), (b"Eve", 2))
            path = card._image
        self.assertFalse(os.path.exists(path))

    # the content of an image, the words after --image, and what is said
    IMAGES = [
        (None, [], "isn't there: name a script or a profile too, and its card is put into it"), (b"", [], "it has 0 bytes"),
        (b"ef 2FE2 t 4 2 -\nstart\n", [], "it is no image of a card: it has 22 bytes"), (b"#" * 65_536, [], "it holds no card: it begins with 23 23 23 23"),
        (b"\xFF" * 65_536, [], "the memory is blank: all its bytes are FF, and no card was made in it"),
        (b"UICC\x02\x00".ljust(image.JOURNAL_SIZE, b"\xFF"), ["--store", "pages"], "is opened without --store pages"),
        (b"UICC\x02\x01".ljust(image.PAGES_SIZE, b"\xFF"), [], "--store pages opens it"),
    ]

    def test_images_that_hold_no_card(self):
        """They are refused, and stay as they are."""
        with tempfile.TemporaryDirectory() as folder:
            path = os.path.join(folder, "card.img")
            for content, words, why in self.IMAGES:
                with self.subTest(why=why):
                    if content is not None:
                        with open(path, "wb") as out:
                            out.write(content)
                    done = shell("tree\n", "--image", path, *words)
                    self.assertEqual((done.returncode, done.stdout), (2, ""))
                    self.assertIn(why, done.stderr)
                    self.assertEqual(os.path.exists(path), content is not None)
                    if content is not None:
                        with open(path, "rb") as left:
                            self.assertEqual(left.read(), content)


class Texts(unittest.TestCase):
    # the kind of a content, its bytes, a text, and the bytes with that
    TABLE = [
        ("spn", "FF" * 8, "Foo", "01466F6FFFFFFFFF"), ("spn", "00" + "41" * 7, "Foo", "00466F6FFFFFFFFF"), (None, "AABBCCDD", "Hi", "4869FFFF"),
        ("dialling", "41FFFF" + "FF" * 14, "Bob", "426F62" + "FF" * 14), ("spn", "01" + "FF" * 7, "\u00e4", "017BFFFFFFFFFFFF"),
        ("spn", "01" + "FF" * 7, "\u0161", "01800161FFFFFFFF"),
    ]

    def test_texts(self):
        for kind, content, text, written in self.TABLE:
            self.assertEqual(texts.with_text(kind, bytes.fromhex(content), text).hex().upper(), written)
        for kind, content, text in (("imsi", "FF" * 9, "x"), ("spn", "FF" * 4, "Foobar")):
            self.assertRaises(contents.BadContent, texts.with_text, kind, bytes.fromhex(content), text)


if __name__ == "__main__":
    unittest.main()
