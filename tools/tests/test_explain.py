"""tools/explain: traces by their parts, which file is current, and what is shown."""
import os
import stat
import subprocess
import sys
import tempfile
import unittest
import unittest.mock

from common import STAND_IN, TOOLS, in_process
from uicc import cases, decode, follow, lint, process, stored, trace

EXAMPLES = os.path.join(process.TOP, "examples")


class Traces(unittest.TestCase):
    TABLE = [
        (["> 00B0000001", "< AA9000"], [("00B0000001", "AA9000", None)]),
        (["> 00B0000001", "! cut", "! reset"], [("00B0000001", None, "! cut"), "! reset"]),
        (["> 00B0000001", "! off"], [("00B0000001", None, "! off")]),
        (["* menu 1", "line 4"], ["* menu 1", "line 4"]),
        (["> 00B0000001"], [("00B0000001", None, None)]),
        (["> 00", "! reset"], [("00", None, None), "! reset"]),
    ]

    def test_parts(self):
        for lines, parts in self.TABLE:
            found = [(part.command.hex().upper(), part.answer and part.answer.hex().upper(), part.mark)
                     if isinstance(part, trace.Exchange) else part.text for part in trace.parts(lines)]
            self.assertEqual(found, parts)

    def test_no_traces(self):
        for lines in (["< 9000"], ["> 0"], ["> 00B0", "< XX"], ["hello"], ["start"], ["! reset", "\x00\x01"]):
            with self.assertRaises(trace.NoTrace):
                list(trace.parts(lines, is_strict=True))

    def test_places(self):
        script = lint.read("ef 2FE2 t 1 - -\nstart\n# one\napdu 00\ncut 1\nreset\n\napdu 01\ntpdu 02\n")
        self.assertEqual(trace.places(script), [4, 4, 6, 8, 8, 9, 9])


class Terminals(unittest.TestCase):
    # objects of channels: the tag, the value, whether they are those of a command, and what is said of them
    OBJECTS = [
        (0x01, "014001", True, "OPEN CHANNEL, number 1, immediate link establishment"),
        (0x01, "024300", True, "SEND DATA, number 2, store data in Tx buffer"),
        (0x01, "034301", True, "SEND DATA, number 3, send data immediately"),
        (0x01, "044200", True, "RECEIVE DATA, number 4"),
        (0x02, "8127", True, "card to channel 7"),
        (0x03, "3A01", False, "3A bearer independent protocol error, 01 no channel available"),
        (0x03, "3A7F", False, "3A bearer independent protocol error, 7F"),
        (0x03, "2000", False, "20 terminal currently unable to process command, 00 no specific cause"),
        (0x03, "219D", False, "21 network currently unable to process command, 9D facility rejected"),
        (0x06, "8121F3", True, "123"), (0x06, "911032042143651C2C", True, "+012340123456p1p2"), (0x06, "A121F3", True, "123 type A1"),
        (0x03, "02", False, "02 done, with missing information"),
        (0x35, "03", True, "03 default bearer"),
        (0x35, "0300", True, "03 default bearer, 00"),
        (0x35, "", True, "nothing (not of the form that it should have)"),
        (0x36, "414243", True, "414243 `ABC`"),
        (0x36, "00FF", True, "00FF"),
        (0x36, "", False, "none"),
        (0x37, "FF", True, "255 bytes"),
        (0x37, "FF", False, "255 bytes or more"),
        (0x37, "0D", False, "13 bytes"),
        (0x38, "8100", False, "channel 1, its link is up"),
        (0x38, "0705", False, "channel 7, its link is down: it was dropped"),
        (0x38, "0000", False, "no channel is open"),
        (0x38, "81", False, "81 (not of the form that it should have)"),
        (0x39, "05DC", True, "1500 bytes"),
        (0x39, "10", True, "10"),
    ]
    # a command and an answer, and whether they are a terminal's
    KINDS = [
        ("D009810301440082028182", "810301440082028281830100B8020000", True),
        ("00", "810300000082028281830132", True),
        ("D009810308410082028128", "81030841008202828183023A03", True),
        ("00B000000A", "810300000082028281839000", False),
        ("00B000000A", "810300000082028281836282", False),
        ("D009810301440082028182", "6E00", False),
        ("D009810301440082028182", None, False),
    ]
    TITLES = [("D009810301440082028182", "GET CHANNEL STATUS"), ("D0058103014400", "GET CHANNEL STATUS"), ("00", "no proactive command"),
              ("D109810301440082028182", "no proactive command"),
              ("D0088102014482028182", "no proactive command"), ("D009810309350182028182", "LANGUAGE NOTIFICATION"), ("D009810309780082028182", "type 78")]

    def test_objects(self):
        for tag, value, is_command, text in self.OBJECTS:
            with self.subTest(tag=tag, value=value):
                self.assertEqual(decode.object_text(tag, bytes.fromhex(value), is_command), text)

    def test_kinds(self):
        for command, answer, is_terminal in self.KINDS:
            found = decode.is_of_terminal(bytes.fromhex(command), answer and bytes.fromhex(answer))
            self.assertEqual(found, is_terminal, (command, answer))

    def test_titles(self):
        for command, title in self.TITLES:
            self.assertEqual(decode.title_proactive(bytes.fromhex(command)), title)

    def test_stored_cases(self):
        """All exchanges of the stored cases are a terminal's, and all that they show can be told."""
        with open(os.path.join(stored.CASES, "bip.cases"), encoding=process.ENCODING) as text:
            found = [one.lines[0] for case in cases.read(text.read(), "bip") for run in case.runs for one in run.expectations if one.lines]
        exchanges = [part for part in trace.parts(found) if isinstance(part, trace.Exchange) and part.answer is not None]
        self.assertTrue(exchanges)
        for part in exchanges:
            self.assertTrue(decode.is_of_terminal(part.command, part.answer), part)
            self.assertNotIn("bad", decode.response(part.answer)[0].label)


CARD = "df 7F10\nef 7F106F3A l 28 2 1 -\nef 7F106F44 c 28 2 - -\ndf 7F20\nef 7F206F07 t 9 7 -\nef 2FE2 t 10 2 -\nstart\n"


class Following(unittest.TestCase):
    # commands with their statuses, and the file that the last one works on
    TABLE = [
        ([("00A40004023F00", "9000"), ("00B082000A", "9000")], ("2FE2",)),
        ([("00A4080C047F206F07", "9000"), ("00B0000009", "9000")], ("7F20", "6F07")),
        ([("00A4000C027F20", "9000"), ("00B0870009", "9000")], ("7F20", "6F07")),
        ([("00A4000C027F20", "9000"), ("00B0870009", "9000"), ("00D6000001AA", "9000")], ("7F20", "6F07")),
        ([("00A4000C027F20", "9000"), ("00A4000C027F10", "9000"), ("00B2010C00", "9000")], ("7F10", "6F3A")),
        ([("00A4000C027F20", "9000"), ("00A4000C026FFF", "6A82"), ("00B0870009", "9000")], ("7F20", "6F07")),
        ([("00A4000C027F20", "9000"), ("00A4030C", "9000"), ("00B082000A", "9000")], ("2FE2",)),
        ([("00A4090C047F206F07", "9000"), ("00B0000001", "9000")], ("7F20", "6F07")),
        ([("00A4000C027F20", "9000"), ("00B0000001", "6986")], None),
        ([("01A4080C047F206F07", "9000"), ("01B0000001", "9000")], ("7F20", "6F07")),
        ([("01A4080C047F206F07", "9000"), ("00B0000001", "6986")], None),
        # a file that is made is the current one, found by what it was made with, and gone where it is deleted
        ([("00E0000010620E8202412183026F50800200048800", "9000"), ("00B0000004", "9000")], ("6F50",)),
        ([("00E0000010620E8202412183026F50800200048800", "6A89"), ("00B0000004", "6986")], None),
        ([("00E000000A62088202782183025F3A", "9000"), ("00E0000011620F8202412183026F5080020004880128", "9000"), ("00A4000C023F00", "9000"), ("00A4000C025F3A", "9000"),
          ("00B0850004", "9000")], ("5F3A", "6F50")),
        ([("00A4000C022FE2", "9000"), ("01A4000C022FE2", "9000"), ("01E40000022FE2", "9000"), ("00B0000001", "6986")], None),
        ([("00A4000C022FE2", "9000"), ("F0E40002", "9000"), ("80D40000042FE20003", "9000"), ("00B0000001", "9000")], ("2FE2",)),
    ]

    def test_files(self):
        for commands, path in self.TABLE:
            follower = follow.Follower(lint.read(CARD).card)
            for command, status in commands[:-1]:
                follower.take(decode.Apdu(bytes.fromhex(command)), status)
            with self.subTest(commands=commands):
                self.assertEqual(follower.target(decode.Apdu(bytes.fromhex(commands[-1][0]))), path)

    def test_a_file_that_is_resized(self):
        follower = follow.Follower(lint.read(CARD).card)
        follower.take(decode.Apdu(bytes.fromhex("00A4000C027F20")), "9000")
        follower.take(decode.Apdu(bytes.fromhex("80D40000046F070008")), "6982")
        self.assertEqual(follower.card.files[("7F20", "6F07")].size, 9)
        follower.take(decode.Apdu(bytes.fromhex("80D40000046F07000C")), "9000")
        self.assertEqual(follower.card.files[("7F20", "6F07")].content, b"\xFF" * 12)

    def test_a_part_of_a_file_is_not_decoded(self):
        follower = follow.Follower(lint.read(CARD).card)
        self.assertIsNone(follower.meaning(("7F20", "6F07"), bytes.fromhex("0809")))
        self.assertEqual(follower.meaning(("7F20", "6F07"), bytes.fromhex("080910101032547698")), "001010123456789")
        self.assertIn("parity", follower.meaning(("7F20", "6F07"), bytes.fromhex("080110101032547698")))


class Explain(unittest.TestCase):
    def explain(self, *words, text="", **more):
        """In this process, but where a trace comes by standard input."""
        if text:
            words = [sys.executable, "-B", os.path.join(TOOLS, "explain"), *words]
            return subprocess.run(words, input=text, capture_output=True, text=True, timeout=60, check=False, env={**os.environ, **more})
        with unittest.mock.patch.dict(os.environ, more):
            return in_process("explain", *words)

    def test_examples(self):
        """Each line of each example's trace is shown, plainly, with its meaning."""
        for name in sorted(os.listdir(EXAMPLES)):
            if not name.endswith(".trace"):
                continue
            done = self.explain(os.path.join(EXAMPLES, name), "--full")
            self.assertEqual(done.returncode, 0, done.stderr)
            self.assertNotIn("\x1b", done.stdout)
            with open(os.path.join(EXAMPLES, name), encoding="ascii") as lines:
                shown = [line.split("  ")[0] for line in done.stdout.splitlines() if not line.startswith(" ")]
                self.assertEqual(shown, lines.read().splitlines(), name)

    def test_names(self):
        usim = os.path.join(EXAMPLES, "usim")
        done = self.explain(usim + ".trace", "--script", usim + ".script")
        for part in ("   94  > 00B0000009", "READ BINARY from byte 0, 9 bytes (7F20/6F07 EF.IMSI)", "EF.IMSI: 001010123456789",
                     "EF.ADN: Voicemail: +99990100100", "6982 the security status isn't satisfied: rule 2F06:2 asks for PIN 1 to read; PIN 1 isn't verified", "found in records: 3",
                     "READ RECORD 1 by SFI 30 (2F00 EF.DIR)", "SEARCH RECORD forward from record 1 for 416E6E61 (7F10/6F3A EF.ADN)",
                     "   83  # EF_IMSI asks for PIN 1", "value: 1234"):
            self.assertIn(part, done.stdout)

    def test_the_file_that_is_selected(self):
        """Where several standard files have an identifier, its control parameters have the name of the one that was selected."""
        answer = "621782024121830{}8A01058B032F060280020009880138"
        for select, name in (("00A40804047F206F07", "6F07 EF.IMSI"), ("00A40804047FF26F07", "6F07 EF.IST")):
            for text in (f"> {select}\n< {answer.format('26F07')}9000\n", f"> {select}\n< 6119\n> 00C0000019\n< {answer.format('26F07')}9000\n"):
                with self.subTest(text=text):
                    self.assertIn(f"  identifier: {name}\n", self.explain(text=text).stdout)
        self.assertEqual(decode.fcp(bytes.fromhex("620483026F07"))[1].text, "6F07 EF.IST or EF.IMSI")

    def test_an_update_that_is_refused(self):
        """What wasn't written isn't told as what the file holds."""
        update = "> 00D6820009080910101032547698\n< {}\n"
        select = "> 00A40804047F206F07\n< 9000\n"
        for status, is_told in (("9000", True), ("6982", False)):
            text = select + update.format(status).replace("D682", "D600")
            self.assertEqual("EF.IMSI: 001010123456789" in self.explain(text=text).stdout, is_told, status)

    def test_terminal(self):
        done = self.explain(os.path.join(EXAMPLES, "bip.trace"), "--full")
        for part in ("> D00C810304420082028121B70102              RECEIVE DATA\n", "channel data length: 2 bytes\n",
                     "02 done, with missing", "* event D60E99010982028281B8028100B70103\n", "  event list: 09 data available\n",
                     "event list: 0A channel status\n", "channel status: channel 1, its link is down: it was dropped\n", "3A bearer independent protocol error", "card to channel 1\n"):
            self.assertIn(part, done.stdout)
        done = self.explain(text="> D00981\n< 810300000082028281830132\n* event D6\n> D009810301440082028182\n")
        self.assertEqual(done.returncode, 0)
        for part in ("no proactive command", "32 command data not understood", "bad envelope", "GET CHANNEL STATUS"):
            self.assertIn(part, done.stdout)

    def test_script_of_a_terminal(self):
        """Its lines stand between those of the trace, each above what it shows."""
        with tempfile.TemporaryDirectory() as folder:
            program, script = os.path.join(folder, "stand_in"), os.path.join(folder, "bip.script")
            for path, text in ((program, STAND_IN), (script, "start\n# one\ncmd D009810301440082028182\nnet drop 1\n")):
                with open(path, "w", encoding="ascii") as out:
                    out.write(text)
            os.chmod(program, stat.S_IRWXU)
            shown = "> D009810301440082028182\n< 810301440082028281830100B8020000\n* event D60B99010A82028281B8020105\n"
            done = self.explain("--script", script, "--bip", text=shown, UICC_RUN=program)
        parts = ("    2  # one\n", "    3  > D0098103", "       < 81030144", "    4  net drop 1\n", "* event")
        places = [done.stdout.find(part) for part in parts]
        self.assertEqual(done.returncode, 0, done.stderr)
        self.assertNotIn(-1, places)
        self.assertEqual(places, sorted(places))

    def test_image(self):
        """The trace of a script that goes on with a card has the names of that card's files, and its refusals their causes."""
        card = ("pin 01 31323334FFFFFFFF on 3132333435363738\nef 2F06 l 11 1 - -\nrec 2F06 1 800101A406830101950108\n"
                "df 7F10\nef 7F106F3A l 28 2 1 -\nrec 7F106F3A 1 416E6E61" + "FF" * 10 + "0791947110325476FFFFFFFFFFFF\nef 2FE2 t 10 2 2F06:1\nstart\n")
        going_on = "start\napdu 00A40004027F10\napdu 00B2010C1C\napdu 00A40004023F00\n# by its short identifier\napdu 00B0820004\n"
        with tempfile.TemporaryDirectory() as folder:
            path, script = os.path.join(folder, "card.img"), os.path.join(folder, "on.script")
            with open(script, "w", encoding="ascii") as out:
                out.write(going_on)
            for options in ([], ["--store", "pages"]):
                self.assertEqual(process.played(["play", *options, "--image", path], card)[1], 0)
                shown = process.played(["open", *options, "--image", path], going_on)[0]
                done = self.explain("--image", path, text="".join(line + "\n" for line in shown))
                for part in ("READ RECORD 1 by SFI 1 (7F10/6F3A EF.ADN)", "EF.ADN: Anna: +4917012345",
                             "6982 the security status isn't satisfied: rule 2F06:1 asks for PIN 1 to read; PIN 1 isn't verified"):
                    self.assertIn(part, done.stdout)
                os.remove(path)
            self.assertEqual(process.played(["play", "--image", path], card)[1], 0)
            shown = process.played(["open", "--image", path], going_on)[0]
            done = self.explain("--image", path, "--script", script, text="".join(line + "\n" for line in shown))
            self.assertEqual((done.returncode, done.stderr), (0, ""))
            for part in ("    3  > 00B2010C1C", "    5  # by its short identifier\n    6  > 00B0820004", "(2FE2 EF.ICCID)", "rule 2F06:1 asks for PIN 1"):
                self.assertIn(part, done.stdout)
            done = self.explain("--image", script, text="> 00\n< 9000\n")
            self.assertEqual((done.returncode, done.stderr), (2, f"explain: {script}: it is no image of a card\n"))
            self.assertEqual(self.explain("--image", path, "--phone").returncode, 2)

    def test_no_trace(self):
        self.assertEqual(self.explain(text="< 9000\n").returncode, 1)
        self.assertEqual(self.explain("/no/such/file").returncode, 2)
        done = self.explain(text="hello\x01\n")
        self.assertEqual((done.returncode, done.stdout, done.stderr), (1, "", "explain: line 1 is no line of a trace: hello?\n"))
        for content, why in ((b"\n\n\xFF\n", "the file is no text in UTF-8: the byte FF stands in line 3, at 1"), (b"\n\0\xFF\n", "a byte 00 stands in line 2")):
            with tempfile.NamedTemporaryFile() as file:
                file.write(content)
                file.flush()
                done = self.explain(file.name)
            self.assertEqual((done.returncode, done.stdout), (2, ""))
            self.assertIn(why, done.stderr)

    def test_script_of_a_handset(self):
        day = os.path.join(EXAMPLES, "day")
        done = self.explain(day + ".trace", "--script", day + ".script", "--phone")
        self.assertEqual((done.returncode, done.stderr), (0, ""))

    def test_a_file_that_is_made(self):
        """CREATE FILE names a file by its place alone: 6F50 is EF.CBMIR in 7F20, and nothing in the MF."""
        with tempfile.TemporaryDirectory() as folder:
            for df, name in (("7F20", "6F50 EF.CBMIR"), ("7F66", "6F50")):
                path = os.path.join(folder, df + ".script")
                with open(path, "w", encoding="ascii") as out:
                    out.write(f"df {df}\nstart\napdu 00A4000C02{df}\napdu 00E0000010620E8202412183026F50800200048800\n")
                trace = os.path.join(folder, "trace")
                with open(trace, "w", encoding="ascii") as out:
                    out.write(f"> 00A4000C02{df}\n< 9000\n> 00E0000010620E8202412183026F50800200048800\n< 6982\n")
                shown = self.explain(trace, "--script", path).stdout
                self.assertIn(f"identifier: {name}\n", shown)

    def test_another_script(self):
        """The script of another trace is told, and none of its lines is shown with this one."""
        done = self.explain(os.path.join(EXAMPLES, "pins.trace"), "--script", os.path.join(EXAMPLES, "usim.script"))
        self.assertEqual(done.returncode, 1)
        self.assertRegex(done.stderr, r"usim\.script: it is none of this trace, which shows [0-9A-F]+ where line \d+ is `apdu .*`; its card is taken all the "
                                      "same\n")

    def test_a_trace_with_times(self):
        """Of a trace that the tools kept the script says what the card holds: its lines after `start` are other ones."""
        lines = ["@ 1764497000.123456", "! reset", "> 00A4080C047F206F07", "< 9000", "> 00B0000009", "< 6982"]
        for words in ((), ("--phone",)):
            done = self.explain("--script", os.path.join(EXAMPLES, "usim.script"), *words, text="".join(line + "\n" for line in lines))
            self.assertEqual((done.returncode, done.stderr), (0, ""))
            self.assertIn("rule 2F06:2 asks for PIN 1 to read; PIN 1 isn't verified", done.stdout)
            self.assertNotIn("VERIFY", done.stdout)

    def test_a_script_with_a_wrong_line(self):
        """It shows nothing after that line: where the trace doesn't end there, it is another one's."""
        with tempfile.TemporaryDirectory() as folder:
            path = os.path.join(folder, "wrong.script")
            with open(path, "w", encoding="ascii") as out:
                out.write("ef 2FE2 t 4 2 -\nstart\napdu 00B0820004\napdu 00 B0\napdu 00B0820001\n")
            shown = "> 00B0820004\n< FFFFFFFF9000\n"
            own = self.explain("--script", path, text=shown + "line 4\n")
            other = self.explain("--script", path, text=shown + "> 00B0820001\n< FF9000\n")
        self.assertEqual((own.returncode, own.stderr), (0, ""))
        self.assertEqual(other.returncode, 1)
        self.assertIn("wrong.script: it is none of this trace, since its line 4 is wrong: HEX is one word", other.stderr)
        self.assertNotIn("    5  > 00B0820001", other.stdout)

    def test_script_played_otherwise(self):
        """Where a handset's script plays to another trace, the program that it was played by is named."""
        day = os.path.join(EXAMPLES, "day")
        done = self.explain(os.path.join(EXAMPLES, "pins.trace"), "--script", day + ".script", "--phone")
        self.assertEqual(done.returncode, 1)
        self.assertIn(f"day.script: it is none of this trace: played, it shows another one (by {process.told_of_program()})\n", done.stderr)


if __name__ == "__main__":
    unittest.main()
