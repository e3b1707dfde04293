"""What is wrong with lines and scripts, by tables."""
import os
import tempfile
import unittest

from common import in_process
from uicc import cases, grammar, lint, process, stored

EXAMPLES = os.path.join(process.TOP, "examples")


class Lines(unittest.TestCase):
    # lines in form, and what they say
    GOOD = [
        ("", None),
        ("# anything\t at  all ", None),
        ("start", grammar.Start()),
        ("df 7f10", grammar.Df(("7F10",))),
        ("ef 7F106F3C t 32767 30 2F06:254", grammar.Ef(("7F10", "6F3C"), "t", 32767, 1, 30, ("2F06", 254))),
        ("ef 6F3A l 255 254 - -", grammar.Ef(("6F3A",), "l", 255, 254, None, None)),
        ("ef 6F3A c 1 1 1 3F00:1", grammar.Ef(("6F3A",), "c", 1, 1, 1, ("3F00", 1))),
        ("fill 2FE2 65535 aB", grammar.Fill(("2FE2",), 65535, b"\xAB")),
        ("rec 6F3A 0 00", grammar.Rec(("6F3A",), 0, b"\0")),
        ("pin 0a 3131313131313131 on 3232323232323232", grammar.Pin(0x0A, b"1" * 8, True, b"2" * 8)),
        ("row 255 1 0000", grammar.Row(255, 1, b"\0\0")),
        ("apdu 00", grammar.Apdu(b"\0")),
        ("apdu " + "00" * 261, grammar.Apdu(bytes(261))),
        ("tpdu 00a4", grammar.Tpdu(b"\0\xA4")),
        ("tpdu " + "00" * 261, grammar.Tpdu(bytes(261))),
        ("cut 999999999", grammar.Plan("cut", 999_999_999)),
        ("cut 1 64 5a", grammar.Plan("cut", 1, 64, 0x5A)),
        ("fail 3 00", grammar.Plan("fail", 3, 0, 0)),
        ("readfail 1", grammar.Plan("readfail", 1)),
        ("user type ", grammar.Handset("user", "type", "")),
        ("user type a  b", grammar.Handset("user", "type", "a  b")),
        ("user dial 007", grammar.Handset("user", "dial", "007")),
        ("net place 00", grammar.Handset("net", "place", b"\0")),
        ("net poll", grammar.Handset("net", "poll")),
        ("net echo 1 1", grammar.Echo(1, 1)),
        ("net echo 7 4096", grammar.Echo(7, 4096)),
        ("net drop 7", grammar.Drop(7)),
        ("cmd d0", grammar.Proactive(b"\xD0")),
        ("cmd " + "00" * 255, grammar.Proactive(bytes(255))),
        ("time 0", grammar.Handset("time", "", 0)),
    ]
    # lines in no form, and a part of what is said of them
    BAD = [
        ("ef 2FE2 t 40000 2 -", "SIZE is 1 to 32767, not 40000"),
        ("ef 2FE2 t 0 2 -", "SIZE is 1 to 32767, not 0"),
        ("ef 2FE2 t 007 2 -", "no leading zero: 7, not 007"),
        ("ef 2FE2 t -1 2 -", "a decimal number, not -1"),
        ("ef 2FE2 t 10 31 -", "SHORT (or -) is 1 to 30"),
        ("ef 2FE2 t 10 2", "RULE is missing: ef PATH t SIZE SHORT RULE"),
        ("ef 2FE2 t 10 2 - -", "`-` is too much"),
        ("ef 2FE2 t 10 2 2F06", "a colon"),
        ("ef 2FE2 t 10 2 2F06:0", "the record in RULE is 1 to 254, not 0"),
        ("ef 2FE2 x 10 2 -", "the structure is t, l or c"),
        ("ef 6F3A l 256 3 - -", "LENGTH is 1 to 255, not 256"),
        ("ef 6F3A l 255 255 - -", "COUNT is 1 to 254, not 255"),
        ("ef  2FE2 t 10 2 -", "two spaces stand before PATH"),
        ("ef\t2FE2 t 10 2 -", "a tab"),
        (" start", "a space stands at the beginning"),
        ("start ", "not even a space"),
        ("start\r", "a carriage return"),
        ("df 3F007F10", "without the MF's own"),
        ("df 7FFF", "no file may have it"),
        ("df 7F1", "an even number of digits"),
        ("df 7F10" + "6F00" * 8, "at most 16 bytes"),
        ("df 7F1G", "no `G`"),
        ("fill 2FE2 65536 00", "OFFSET is 0 to 65535"),
        ("rec 6F3A 256 00", "NUMBER is 0 to 255"),
        ("pin 02 3131313131313131 on 3131313131313131", "KEY is 01, 81 or 0A, not 02"),
        ("pin 1 3131313131313131 on 3131313131313131", "KEY is 01, 81 or 0A, not 1"),
        ("pin pin1 3131313131313131 on 3131313131313131", "KEY is 01, 81 or 0A, not PIN1"),
        ("\xEF\xBB\xBFdf 7F10", "a byte order mark, EF BB BF, stands before `df`: a script is saved without one"),
        ("cut 1 0 1", "XX is 1 byte, which is 2 digits, and not 1"),
        ("pin 0A 3131313131313131 off 3131313131313131", "the PIN 0A is always on"),
        ("pin 01 31 on 3131313131313131", "VALUE is 8 bytes, which is 16 digits, and not 2"),
        ("pin 01 1234 on 3131313131313131", "VALUE is 8 bytes, which is 16 digits, and not 4: the PIN 1234 is 31323334FFFFFFFF"),
        ("pin 01 31323334FFFFFFFF on 12345678", "UNBLOCK is 8 bytes, which is 16 digits, and not 8: the PIN 12345678 is 3132333435363738"),
        ("row 0 0 0000", "PRIORITY is 1 to 255, not 0"),
        ("apdu", "HEX is missing"),
        ("apdu 00 A4", "HEX is one word"),
        ("apdu " + "00" * 262, "HEX has at most 261 bytes, and not 262"),
        ("tpdu", "HEX is missing: tpdu HEX"),
        ("tpdu 00 C0", "HEX is one word"),
        ("tpdu 0", "an even number of digits"),
        ("tpdu " + "00" * 262, "HEX has at most 261 bytes, and not 262"),
        ("cut 0", "K is 1 to 999999999"),
        ("cut 1000000000", "K is 1 to 999999999"),
        ("cut 1 0", "XX is missing"),
        ("cut 1 65 00", "N is 0 to 64"),
        ("user type", "stands after a second space"),
        ("user type " + "x" * 31, "TEXT has at most 30 characters"),
        ("user type \x7f", "printable characters"),
        ("user dial ", "DIGITS"),
        ("user pick 256", "N is 1 to 255"),
        ("user picks 1", "`picks` is nothing that a user does"),
        ("net place " + "00" * 33, "HEX has at most 32 bytes"),
        ("net place", "HEX is missing: net place HEX"),
        ("net poll 1", "`1` is too much: net poll"),
        ("net pole", "`pole` is nothing that a network does: net place HEX or net poll; for `bip` net echo C N or net drop C"),
        ("net echo", "C is missing: net echo C N"),
        ("net echo 1", "N is missing: net echo C N"),
        ("net echo 0 1", "C is 1 to 7, not 0"),
        ("net echo 8 1", "C is 1 to 7, not 8"),
        ("net echo 1 0", "N is 1 to 4096, not 0"),
        ("net echo 1 4097", "N is 1 to 4096, not 4097"),
        ("net echo 1 01", "no leading zero: 1, not 01"),
        ("net echo 1 1 1", "`1` is too much: net echo C N"),
        ("net echo  1 1", "two spaces stand before C"),
        ("net drop", "C is missing: net drop C"),
        ("net drop 8", "C is 1 to 7, not 8"),
        ("net drop 1 ", "not even a space: net drop C"),
        ("net Drop 1", "`Drop` is nothing that a network does"),
        ("cmd", "HEX is missing: cmd HEX"),
        ("cmd ", "an even number of digits, at least two, and not 0"),
        ("cmd D00", "an even number of digits"),
        ("cmd D0 09", "HEX is one word"),
        ("cmd " + "00" * 256, "HEX has at most 255 bytes, and not 256"),
        ("cmds 00", "no line begins with `cmds`: cmd HEX"),
        ("tpdus 00", "no line begins with `tpdus`: tpdu HEX"),
        ("time -1", "a decimal number"),
        ("adpu 00", "no line begins with `adpu`: apdu HEX"),
        ("#" + "x" * 600, "a line has at most 600 bytes, also a comment"),
    ]

    def test_good(self):
        for line, said in self.GOOD:
            with self.subTest(line=line):
                self.assertEqual(grammar.read_line(line), said)

    def test_bad(self):
        for line, why in self.BAD:
            with self.subTest(line=line), self.assertRaises(grammar.Wrong) as caught:
                grammar.read_line(line)
            self.assertIn(why, str(caught.exception))


CARD = "df 7F10\nef 2FE2 t 10 2 -\nef 7F106F3A l 4 3 1 2F06:1\n"


class Scripts(unittest.TestCase):
    # a script, the word that it is for, and for each finding its line, its kind and a part of its reason
    TABLE = [
        ("start\n", "play", []),
        ("", "play", [(1, "bad", "no line `start`")]),
        ("df 7F10", "play", [(2, "bad", "no line `start`")]),
        ("reset\nstart\n", "play", [(1, "bad", "no `start` stands before")]),
        ("start\nstart\n", "play", [(2, "bad", "`start` stands once")]),
        ("start\ndf 7F10\n", "play", [(2, "bad", "stands before `start`")]),
        ("start\nuser ok\napdu 00\n", "play", [(2, "bad", "for a handset"), (3, "warning", "1 byte, and a command has at least 4")]),
        ("start\nuser ok\napdu 00\n", "phone", [(3, "bad", "a handset sends all commands itself")]),
        ("start\nuser ok\ntpdu 00\n", "phone", [(3, "bad", "itself: `tpdu` is for `play` and `open`")]),
        ("start\ntpdu 00\n", "open", []),
        ("tpdu 00\nstart\ntpdu 00C0000014\n", "play", [(1, "bad", "no `start` stands before")]),
        ("# uicc_run script 1\nstart\n", "play", []),
        ("start\napdu 00A40004033F00\napdu 00A4000C023F00\n", "play",
         [(2, "warning", "no command, which the card answers 6700: Lc says 3, and 2 bytes follow")]),
        ("# uicc_run script 2\nstart\n", "play", [(1, "warning", "of version 2 of the language of scripts, and this is version 1")]),
        (CARD + "start\n", "play", [(3, "warning", "2F06 is neither in its own DF nor in one above")]),
        ("ef 6F07 t 1 - 2F06:3\nef 2F06 l 4 2 - -\nstart\n", "play", [(1, "warning", "has 2 records, and no record 3")]),
        ("ef 6F07 t 1 - 2F06:2\nef 2F06 l 4 2 - -\nstart\n", "play", [(1, "warning", "record 2 of 2F06 is no rule: it is empty")]),
        ("ef 6F07 t 1 - 2F06:1\nef 2F06 t 4 - -\nstart\n", "play", [(1, "warning", "is no linear fixed file")]),
        ("ef 7F106F3A t 1 - -\nstart\n", "play", [(1, "bad", "`df 7F10` has to stand before")]),
        ("ef 2FE2 t 1 2 -\nef 2F05 t 1 2 -\nstart\n", "play", [(2, "bad", "the SFI 2 is taken by 2FE2 (line 1)")]),
        ("ef 2FE2 t 1 - -\nef 2FE26F07 t 1 - -\nstart\n", "play", [(2, "bad", "2FE2 is an EF, and no DF (line 1)")]),
        ("df 7F10\ndf 7F10\nstart\n", "play", [(2, "bad", "7F10 is there already (line 1)")]),
        ("ef 2FE2 t 2 - -\nfill 2FE2 1 0000\nstart\n", "play", [(2, "bad", "would end after byte 3")]),
        ("ef 2FE2 t 2 - -\nfill 2FE2 0 0000\nrec 2FE2 1 00\nstart\n", "play", [(3, "bad", "is transparent")]),
        ("ef 6F3A l 2 3 - -\nrec 6F3A 3 0000\nrec 6F3A 4 00\nrec 6F3A 0 00\nrec 6F3A 1 000000\nstart\n", "play",
         [(3, "bad", "NUMBER is 1 to 3"), (4, "bad", "not 0"), (5, "bad", "has 2 bytes")]),
        ("df 7F10\nfill 7F10 0 00\nstart\n", "play", [(2, "bad", "is a DF")]),
        ("pin 01 3131313131313131 on 3131313131313131\n" * 2 + "start\n", "play", [(2, "bad", "is there already")]),
        ("row 1 1 00044D65\nstart\n", "play", [(1, "bad", "4 bytes are to come, and 2 are there")]),
        ("row 1 1 014300\nstart\n", "play", [(1, "bad", "43 is no event")]),
        ("row 1 1 02404000\nstart\n", "play", [(1, "bad", "stands there twice")]),
        ("row 1 1 000B" + "41" * 11 + "\nstart\n", "play", [(1, "bad", "at most 10 bytes, and not 11")]),
        ("row 1 1 0000" + "41" * 65 + "\nstart\n", "play", [(1, "bad", "keeps at most 64 bytes")]),
        ("row 32 1 0000\nstart\n", "play", [(1, "bad", "SHELF is 0 to 31, not 32")]),
        ("row 1 1 0000\nrow 1 2 0000\nstart\n", "play", [(2, "bad", "on shelf 1 already (line 1)")]),
        ("row 4 1 014500\nrow 11 1 014500\nstart\n", "play", [(2, "bad", "one applet at most has call control")]),
        ("".join(f"row {n} 1 000141\n" for n in range(17)) + "start\n", "play", [(17, "bad", "at most 16 applets have an entry")]),
        ("".join(f"df {n:04X}\n" for n in range(0x4000, 0x4080)) + "start\n", "play", [(128, "no room", "at most 128 files")]),
        ("ef 0001 t 30784 - -\nef 0002 t 30784 - -\nef 0003 t 1 - -\nstart\n", "play", [(3, "no room", "61,568 bytes together")]),
        ("row 16 1 0000\nef 0001 t 29760 - -\nef 0002 t 29760 - -\nef 0003 t 1 - -\nstart\n", "play",
         [(4, "no room", "with the applet on shelf 16 (line 1)")]),
        ("ef 0001 t 29760 - -\nef 0002 t 29761 - -\nrow 0 1 0000" + "00" * 33 + "\nrow 0 1 0000\nstart\n", "play",
         [(3, "no room", "keeps at most 32 bytes")]),
        # lines are not blamed for a bad line before them
        ("df 7F1\ndf 7F20x\nef 7F206F07 t 1 - -\nfill 7F206F07 0 00\nstart\n", "play",
         [(1, "bad", "even number"), (2, "bad", "no `x`"), (3, "bad", "7F20 isn't there")]),
        ("ef 2FE2 t 40000 2 -\nfill 2FE2 0 00\nstart\n", "play", [(1, "bad", "SIZE")]),
        (CARD + "start \nreset\n\napdu 00B0000000\ncut 0\n", "play",
         [(3, "warning", "2F06"), (4, "bad", "nothing may stand after the last word, not even a space: start"), (8, "bad", "K is 1 to")]),
        ("df 7F10\nStart\nreset\nuser ok\n", "play", [(2, "bad", "no line begins with `Start`: start"), (4, "bad", "for a handset")]),
        ("start now\nuser ok\napdu 00\n", "phone", [(1, "bad", "`now` is too much"), (3, "bad", "a handset sends all")]),
        (" start\nreset\nstart\nreset\nstart\n", "play", [(1, "bad", "a space stands at the beginning"), (5, "bad", "`start` stands once")]),
        ("start\r\nreset\r\n", "play", []),
        ("start\nreset\r", "play", [(2, "bad", "a carriage return")]),
    ]

    OF_TERMINAL = [
        ("# one\n\nstart\n# two\ncmd D009810301440082028182\nnet echo 1 3\r\nnet drop 1\n", "bip", []),
        ("", "bip", [(1, "bad", "no line `start`")]),
        ("# one\n", "bip", [(2, "bad", "no line `start`")]),
        ("cmd D0\nstart\n", "bip", [(1, "bad", "no `start` stands before")]),
        ("net echo 1 1\nstart\n", "bip", [(1, "bad", "no `start` stands before")]),
        ("start\nstart\n", "bip", [(2, "bad", "`start` stands once")]),
        ("ef 2FE2 t 1 - -\nrow 1 1 00\nstart\n", "bip", [(1, "bad", "over no card"), (2, "bad", "over no card")]),
        ("start\ndf 7F10\napdu 00\ntpdu 00\nreset\ncut 1\nfail 1 00\nreadfail 1\nuser ok\nnet poll\nnet place 00\ntime 1\n", "bip",
         [(number, "bad", "after `start` stand `cmd HEX`, `net echo C N` and `net drop C` alone") for number in range(2, 13)]),
        ("start\ncmd D0\nnet echo 8 1\nnet drop 1 1\n", "bip", [(3, "bad", "C is 1 to 7"), (4, "bad", "is too much")]),
        ("start\ncmd D0\nnet echo 1 1\nnet drop 1\n", "play", [(number, "bad", "for `bip`") for number in (2, 3, 4)]),
        ("start\ncmd D0\nnet echo 1 1\nnet drop 1\n", "phone", [(number, "bad", "for `bip`") for number in (2, 3, 4)]),
        ("cmd D0\nstart\nnet drop 1\n", "open", [(1, "bad", "for `bip`"), (3, "bad", "for `bip`")]),
    ]

    def test_scripts(self):
        for text, mode, findings in self.TABLE + self.OF_TERMINAL:
            with self.subTest(text=text[:80], mode=mode):
                found = lint.read(text, mode).findings
                self.assertEqual([(one.line, one.kind) for one in found], [one[:2] for one in findings], found)
                for one, (_, _, why) in zip(found, findings):
                    self.assertIn(why, one.reason)

    def test_open_describes_no_card(self):
        self.assertIsNone(lint.read("# a comment\nstart\n", "open").first())
        self.assertEqual(lint.read("df 7F10\nstart\n", "open").first().line, 1)

    def test_stored_cases_of_a_terminal(self):
        """The first bad line is the one at which the stored cases say that the run ends."""
        found = [case.runs[0] for case in cases.read(stored.read(os.path.join(stored.CASES, "bip.cases")).decode(process.ENCODING), "bip")
                 if case.beyond_program() is None]
        runs = [run for run in found if run.words == ["bip"] and run.status in (0, 2)]
        self.assertEqual({run.status for run in runs}, {0, 2})
        for run in runs:
            with self.subTest(script=run.script[:200]):
                first = lint.read(run.script, "bip").first()
                shown = [one.lines[0] for one in run.expectations if one.lines and one.lines[0].startswith("line ")]
                self.assertEqual([] if first is None else [f"line {first.line}"], shown)

    def test_the_most_bytes(self):
        """The line that holds the byte after the last one is bad, its end counted with it."""
        comment = "#" + "x" * 511 + "\n"
        count = lint.MOST_BYTES // len(comment) - 1
        text = "start\n" + comment * count
        rest = lint.MOST_BYTES - len(text)
        self.assertIsNone(lint.read(text + "#" * (rest - 1) + "\n").first())
        self.assertEqual(lint.read(text + "#" * rest + "\n").first().line, count + 2)
        self.assertIsNone(lint.read(text + "#" * rest).first())

    def test_examples(self):
        for name in os.listdir(EXAMPLES):
            if name.endswith(".script"):
                script = stored.read(os.path.join(EXAMPLES, name))
                self.assertIsNone(lint.read(script.decode(process.ENCODING), stored.mode_of(script)).first(), name)


class Tool(unittest.TestCase):
    def test_tables_of_applets(self):
        """Bytes that are passed over at the end of a table are told, and of another kind they are what it keeps."""
        rows = ("row 6 1 0140004009", "row 13 1 014000400955FF", "row 20 1 014000400955", "row 5 1 0140004009", "row 27 1 014000")
        with tempfile.TemporaryDirectory() as folder:
            path = os.path.join(folder, "a.script")
            with open(path, "w", encoding="ascii") as out:
                out.write("".join(row + "\n" for row in rows) + "start\n")
            done = in_process("lint", path)
        self.assertEqual((done.returncode, done.stderr), (0, ""))
        self.assertEqual([line for line in done.stdout.splitlines() if not line.startswith("    ")], [
            f"{path}:1: warning: the table of the applet on shelf 6 ends with 2 bytes of a triple, which has 3: passed over",
            f"{path}:2: warning: the table of the applet on shelf 13 ends with 1 byte of a triple, which has 3: passed over"])


if __name__ == "__main__":
    unittest.main()
