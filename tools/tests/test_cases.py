"""Cases, read and judged, by tables; and what tools/expect makes of them, with a stand-in for the program."""
import os
import stat
import tempfile
import unittest
import unittest.mock

from common import STAND_IN, in_process, load
from uicc import carrying, cases, line_objects, stored


def run_of(text):
    """The run of a case with these lines below `#run`."""
    case = cases.read(f"#case one\n#run play\n{text}\n", "name")[0]
    assert case.mistake is None, case.mistake
    return case.runs[0]


class Reading(unittest.TestCase):
    # lines below `#run play`, and what must be shown: when, and the lines of which one is
    EXPECTED = [
        ("apdu 00b0\n#< 9000", [("always", ["> 00B0"]), ("always", ["< 9000"])]),
        ("apdu 00b0\n#> 00B0\n#< 9000", [("always", ["> 00B0"]), ("always", ["< 9000"])]),
        ("apdu 00B0\n#! cut", [("always", ["> 00B0"]), ("always", ["! cut"])]),
        ("apdu 00B0\n# a remark\n#< 9000 | ! cut", [("always", ["> 00B0"]), ("always", ["< 9000", "! cut"])]),
        ("apdu 00B0\n#< 9000 | * busy", [("always", ["< 9000", "* busy"])]),
        ("apdu 00B0\n#..", [("always", None)]),
        ("reset\n#! reset\n#= line 3", [("always", ["! reset"]), ("always", ["line 3"])]),
        ("apdu 00B0\n#met ! cut\n#< 9000\nreset\n#! reset",
         [("always", ["> 00B0"]), ("met", ["! cut"]), ("unmet", ["< 9000"]), ("always", ["! reset"])]),
        ("user ok\n#> 80\n#< 9000", [("always", ["> 80"]), ("always", ["< 9000"])]),
    ]
    # lines of a run, and its script
    SCRIPTS = [
        ("start\n#< 9000\n# remark\n#..", "start\n#< 9000\n# remark\n#..\n"),
        ("#repeat 2 reset\n#chars 3 x\n#raw 0A41\n#crlf start", "reset\nreset\nxxx\n\nAstart\r\n"),
        ("start\n#end\n#< 9000", "start\n"),
        ("start\n\nreset", "start\n\nreset\n"),
    ]
    MISTAKES = [
        ("#case a\n#run play\nstart\n", "a run has no #status"),
        ("#case a\n", "it has no run"),
        ("#case a\n#runs play\n", "line 2 of the file: no word of a case"),
        ("#case a\n#run play\n#> 9000\n#word\n#status 0\n", "line 4 of the file: no word of a script"),
        ("#case a\n#run play\n#status x\n", "line 3 of the file: a number is wanted"),
        ("#case a\n#run play\n#status 4294967296\n", "a number is wanted"),
        ("#case a\n#blank it\n#run play\n#status 0\n", "no word of a case"),
        ("#case a\n more\n#run play\n#status 0\n", "no word of a case"),
        ("#case\n#run play\n#status 0\n", "line 1 of the file: no word of a case"),
        ("#case a\n#run play\n#end\nstart\n#status 0\n", "the script has ended"),
        ("#case a\n#each cut 1\n", "a plan has K"),
        ("#case a\n#shows 0 00\n", "no run stands before it"),
        ("start\n#case a\n", "line 1 of the file: no word of a case"),
        *((f"start\n{line}\n", f"line 2 of the file: {why}") for line, why in (
            ("#< 9111 | 9000", "a further alternative is a whole line of the trace: `< 9111 | < 9000`"),
            ("#< 91??", "`?` is no pattern here: `..` stands for any bytes"), ("#< 911x", "bytes are hexadecimal digits without spaces, two for each, and not `911x`"),
            ("#< 9110|9000", "alternatives stand with a space on each side of `|`"), ("#< 9110 or 9000", "bytes are hexadecimal digits without spaces, two for each, and not `9110 or 9000`"),
            ("#< 69", "an answer ends with a status of two bytes, and `69` is none"), ("#< D0..4869 9000", "bytes are hexadecimal digits without spaces"),
            ("#< 9f10", "a trace has its hexadecimal digits in capital letters: `9F10`"),
            ("#<9110", "a space stands between `#<` and what is shown: `#< 9110`"))),
    ]

    def test_what_must_be_shown(self):
        for text, expected in self.EXPECTED:
            with self.subTest(text=text):
                run = run_of(text + "\n#status 0")
                self.assertEqual([(one.when, one.lines) for one in run.expectations], expected)

    def test_scripts(self):
        for text, script in self.SCRIPTS:
            self.assertEqual(run_of(text + "\n#status 0").script, script)

    def test_mistakes(self):
        for text, why in self.MISTAKES:
            with self.subTest(text=text):
                self.assertIn(why, cases.read(text, "name")[0].mistake)

    def test_words_of_a_case(self):
        case = cases.read("#case it\n#stores both\n#each cut K 0 00 | fail K 5A\n#at-least 4\n#must differ\n#bytes 2 AABB\n#blank\n"
                          "#run play --store pages\nstart\n#plan\nreset\n#status 0 met 6\n#shows 0 55\n#run open\n#status 2\n", "name")[0]
        self.assertEqual((case.name, case.both_stores, case.plans, case.least, case.must_differ),
                         ("it", True, ["cut K 0 00", "fail K 5A"], 4, True))
        first, second = case.runs
        self.assertEqual((first.words, first.setup.patches, first.setup.blank, first.status, first.met_status, first.shows),
                         (["play", "--store", "pages"], [(2, b"\xAA\xBB")], True, 0, 6, [(0, b"\x55")]))
        self.assertEqual(carrying.script_of(first, "cut 3 0 00"), "start\ncut 3 0 00\nreset\n")
        self.assertEqual((second.words, second.status, second.setup.blank), (["open"], 2, False))

    def test_a_case_may_have_no_name(self):
        found = cases.read("# a remark\n\n#run play\nstart\n#status 0\n#case b\n#run open\n#status 7\n", "name")
        self.assertEqual([(case.name, case.mistake, case.runs[0].words) for case in found],
                         [("a case without a name", None, ["play"]), ("b", None, ["open"])])
        self.assertEqual([case.name for case in cases.read("# a remark\n#case b\n#run open\n#status 7\n", "name")], ["b"])

    def test_a_script_alone(self):
        case = cases.read("start\nreset\n#! reset\n", "name", ["phone"])[0]
        self.assertTrue(case.plain)
        self.assertEqual((case.runs[0].words, case.runs[0].status), (["phone"], 0))
        self.assertEqual(cases.read("start\n#status 2\n", "name")[0].runs[0].status, 2)

    # what only a library can be given
    BEYOND = ["#boxes none\n#run play\n#status 0\n", "#source 1\n#run play\n#status 3\n", "#sink 1\n#run play\n#status 4\n",
              "#power off\n#run play\n#status 6\n", "#plan\n#run play\n#status 0\n", "#run play\n#status 0\n#calls 1 2\n"]

    def test_beyond_the_program(self):
        for text in self.BEYOND:
            self.assertIsNotNone(cases.read("#case a\n" + text, "name")[0].beyond_program(), text)
        self.assertIsNone(cases.read("#case a\n#boxes all\n#run play\n#status 0\n", "name")[0].beyond_program())


MET, UNMET, FIRST = cases.Turn(2, True, False), cases.Turn(3, False, False), cases.Turn(1, True, False)


class Judging(unittest.TestCase):
    # lines below `#run play`, a trace with its status, the turn, and the place of the first difference (None: there is none)
    TABLE = [
        ("start\n#status 0", [], 0, None, None),
        ("start\n#status 0", [], 2, None, 0),
        ("reset\n#! reset\n#status 0", ["! reset"], 0, None, None),
        ("reset\n#! reset\n#status 0", [], 0, None, 0),
        ("reset\n#! reset\n#status 0", ["! reset", "! reset"], 0, None, 1),
        ("apdu 00\n#< *\n#status 0", ["> 00", "< 6700"], 0, None, None),
        ("apdu 00\n#< *\n#status 0", ["> 00", "! cut"], 0, None, 1),
        ("apdu 00\n#< 9000 | < 6700\n#status 0", ["> 00", "< 6700"], 0, None, None),
        ("apdu 00\n#< 9000 | < 6700\n#status 0", ["> 00", "< 6D00"], 0, None, 1),
        ("#..\n#! reset\n#status 0", ["a", "! reset", "b", "! reset"], 0, None, None),
        ("#..\n#! reset\n#..\n#= b\n#status 0", ["a", "! reset", "c", "b"], 0, None, None),
        ("#..\n#! reset\n#..\n#= b\n#status 0", ["a", "b", "! reset"], 0, None, 3),
        ("#..\n#..\n#= b\n#status 0", [], 0, None, 0),
        ("#= a\n#..\n#= a\n#status 0", ["a"], 0, None, 1),
        ("#..\n#status 0", ["a", "b"], 0, None, None),
        # a plan that is met, and one that isn't
        ("apdu 00\n#met ! cut\n#< 9000\n#status 0 met 6", ["> 00", "! cut"], 6, MET, None),
        ("apdu 00\n#met ! cut\n#< 9000\n#status 0 met 6", ["> 00", "< 9000"], 0, UNMET, None),
        ("apdu 00\n#met ! cut\n#< 9000\n#status 0 met 6", ["> 00", "< 9000"], 0, MET, 1),
        ("apdu 00\n#met ! cut\n#< 9000\n#status 0 met 6", ["> 00", "! cut"], 0, MET, 2),
        # alternatives in order: the first at first, the last where the plan isn't met, any between
        ("#= old | new\n#status 0", ["old"], 0, FIRST, None),
        ("#= old | new\n#status 0", ["new"], 0, FIRST, 0),
        ("#= old | new\n#status 0", ["new"], 0, MET, None),
        ("#= old | new\n#status 0", ["old"], 0, UNMET, 0),
        ("#= old | new\n#status 0", ["new"], 0, UNMET, None),
    ]

    def test_traces(self):
        for text, trace, status, turn, place in self.TABLE:
            with self.subTest(text=text, trace=trace, turn=turn):
                found = cases.difference(run_of(text), trace, status, None, turn)
                self.assertEqual(found and found.place, place)

    def test_the_memory(self):
        run = run_of("start\n#status 0\n#shows 1 AABB")
        self.assertIsNone(cases.difference(run, [], 0, b"\0\xAA\xBB\0", None))
        self.assertIn("AACC", cases.difference(run, [], 0, b"\0\xAA\xCC\0", None).what)

    # words of a command line, and their options (None: they are in no form)
    WORDS = [
        (["play"], {}), (["open", "--store", "pages"], {"--store": "pages"}), (["load", "0", "5", "--image", "x"], {"--image": "x"}),
        (["play", "--image", "x", "--store", "journal"], {"--image": "x", "--store": "journal"}),
        ([], None), (["play", "more"], None), (["play", "--store"], None), (["play", "--store", "disk"], None), (["load", "0"], None),
        (["bip"], None), (["bip", "--store", "pages"], None),
        (["phone", "--store", "pages", "--link", "t0"], {"--store": "pages", "--link": "t0"}), (["phone", "--link"], None),
        (["phone", "--link", "t1"], None), (["phone", "--link", "t0", "--link", "t0"], None), (["play", "--link", "t0"], None),
        (["load", "00", "1"], None), (["load", "0", "1000001"], None), (["play", "--store", "pages", "--store", "pages"], None),
    ]

    def test_words(self):
        for words, options in self.WORDS:
            self.assertEqual(carrying.parsed_words(words), options, words)


class Patterns(unittest.TestCase):
    # what must be shown, a line of the trace, and whether it is one
    TABLE = [
        ("< *", "< 9000", True), ("< *", "> 00", False), ("< 9000", "< 9000", True),
        ("> 8014..81030121..", "> 801400000C810301218082028281830100", True), ("> 8014..81030121..", "> 80140000810301", False),
        ("> 8014..81030122..", "> 801400000C810301218082028281830100", False), ("< ..9000", "< 9000", True), ("< ..9000", "< AABB9000", True),
        ("< ..9000", "< 6982", False), ("< ..", "< 91AA", True), ("< ..aa", "< 91AA", True), ("< ..1A", "< 91A0", False),
        ("< 9..", "< 9000", None), ("< 90*", "< 9000", None), ("> *", "> 00", None), ("< **", "< 9000", None), ("< ...", "< 9000", None),
        ("* text ..", "* text ..", True), ("* text ..", "* text Hi", False), ("* text *", "* text *", True),
    ]

    def test_lines(self):
        for wanted, line, fits in self.TABLE:
            with self.subTest(wanted=wanted, line=line):
                if fits is None:
                    self.assertRaises(cases.Mistake, cases.understood, wanted)
                else:
                    self.assertEqual(cases.is_shown(line, [cases.understood(wanted)]), fits)

    def test_none_is_in_the_stored_cases(self):
        """Which the library's own runner reads too, and takes as they stand."""
        for name in stored.names_in(stored.CASES, ".cases"):
            for line in stored.read(os.path.join(stored.CASES, name)).decode("latin-1").splitlines():
                self.assertFalse(any(cases.is_pattern(wanted) for wanted in line[1:].split(" | ") if line[:2] in ("#<", "#>")), f"{name}: {line}")


class Objects(unittest.TestCase):
    """What differs between two lines, object by object."""

    FETCH = "> 8012000012"
    # the command before, what is expected, what is shown, and what differs
    TABLE = [
        (None, "> 801400000C810301218082028281830111", "> 801400000C810302218082028281830100",
         [("command details", "DISPLAY TEXT, number 1, normal priority, cleared by the user",
           "DISPLAY TEXT, number 2, normal priority, cleared by the user"),
          ("result", "11 backward move requested by the user", "00 done")]),
        (FETCH, "< D00E81030121008202818283034869219000", "< D00B8103012100820281829000", None),
        (FETCH, "< D00F810301210082028182" + "8D04044869219000", "< D0098103012100820281829100",
         [("status", "9000 done", "9100 done; the card has a command of 256 bytes to be fetched"), ("text", "`Hi!`", None)]),
        ("> 00B0000004", "< AABBCCDD9000", "< 6982", [("status", "9000 done", "6982 the security status isn't satisfied"), ("data", "AABBCCDD", "none")]),
        ("> 00B000000A", "< 00112233445566778899" + "9000", "< 0011223344FF66778899" + "9000",
         [("data", "byte 6: 5566778899", "byte 6: FF66778899")]),
        (None, "> 00A4000C023F00", "> 00A4000C027F10",
         [("command", "SELECT by identifier 3F00, no data returned", "SELECT by identifier 7F10, no data returned")]),
        (None, "> 00A4000C023F00", "! reset", []),
        (None, "* text a", "* text b", []),
        (None, "> 00A4zz", "> 00A4", []),
    ]

    def test_objects(self):
        for command, wanted, shown, expected in self.TABLE:
            with self.subTest(wanted=wanted, shown=shown):
                found = line_objects.differences(wanted, shown, command, False)
                if expected is None:
                    self.assertTrue(found)
                else:
                    self.assertEqual(found, expected)


FILE = """#case a reset
#run play
start
reset
#! reset
#status 0

#case another answer
#run play
start
apdu 00A4000C023F00
#< 6A82
#status 0

#case it must differ
#must differ
#run play
start
reset
#! cut
#status 0

#case for the library
#boxes none
#run play
start
#status 0
"""


class Expect(unittest.TestCase):
    """tools/expect as it is started, where a stand-in answers 9000 to each command."""

    def setUp(self):
        folder = tempfile.TemporaryDirectory()
        self.addCleanup(folder.cleanup)
        self.folder = folder.name
        self.program = self.put("stand_in", STAND_IN)
        os.chmod(self.program, stat.S_IRWXU)

    def put(self, name, text):
        path = os.path.join(self.folder, name)
        with open(path, "w", encoding="ascii") as out:
            out.write(text)
        return path

    def expect(self, *words):
        with unittest.mock.patch.dict(os.environ, {"UICC_RUN": self.program}):
            return in_process("expect", *words)

    def test_what_differs_is_told(self):
        done = self.expect(self.put("a.cases", FILE))
        self.assertEqual(done.returncode, 1, done.stderr)
        for part in ("a.cases:8: another answer", "a.cases:12: this line", "< 6A82", "< 9000", "6A82 file not found", "9000 done",
                     "4 cases, 3 runs, 1 differ, 1 skipped"):
            self.assertIn(part, done.stdout)

    def test_a_faulty_line_is_told(self):
        """What `line N` says, and by which word the script would be played to its end."""
        with open(self.program, "w", encoding="ascii") as out:
            out.write("#!/bin/sh\ncat > /dev/null\necho line 2\nexit 2\n")
        for text, told in (("start\nuser ok\n#* menu 1\n", ["`line 2` says that the script ends there, at a faulty line: this line is for a handset",
                                                           "as a script for `phone` it has no faulty line: --phone\n"]),
                           ("start\naapdu 00A4000C02\n#< 9000\n", ["at a faulty line: no line begins with `aapdu`: apdu HEX\n"])):
            with self.subTest(text=text):
                done = self.expect(self.put("script", text))
                self.assertEqual(done.returncode, 1)
                for part in told:
                    self.assertIn(part, done.stdout)
                self.assertEqual("--phone" in done.stdout, len(told) > 1)

    def test_comments_that_look_like_what_is_expected(self):
        path = self.put("script", "start\n# < 5 items\n# ..\napdu 00A4000C02\n# < 9110\n#< 9000\n")
        done = self.expect(path)
        self.assertEqual((done.returncode, done.stderr.splitlines()), (0, [
            f"expect: {path}:3: `# ..` is a comment, and expects nothing: `#..` does",
            f"expect: {path}:5: `# < 9110` is a comment, and expects nothing: `#< 9110` does"]))

    def test_reports(self):
        report = os.path.join(self.folder, "report.xml")
        done = self.expect(self.put("a.cases", FILE), "--tap", "--junit", report)
        self.assertEqual([line.split(" - ")[0] for line in done.stdout.splitlines() if "ok " in line], ["ok 1", "not ok 2", "ok 3", "ok 4"])
        self.assertIn("# SKIP", done.stdout)
        with open(report, encoding="utf-8") as text:
            self.assertIn('tests="4" failures="1" skipped="1"', text.read())

    def test_a_report_that_cannot_be_written(self):
        """It is refused before anything is played."""
        done = self.expect(self.put("a.cases", FILE), "--junit", os.path.join(self.folder, "none", "x.xml"))
        self.assertEqual((done.returncode, done.stdout), (2, ""))
        self.assertIn("x.xml", done.stderr)

    def test_a_profile_is_not_repeated(self):
        done = self.expect(self.put("script", "start\napdu 80100000082900BF6171000013\n#< 9110\n"))
        self.assertIn("the command: TERMINAL PROFILE\n", done.stdout)
        self.assertNotIn("the terminal knows", done.stdout)

    def test_answers_are_written(self):
        path = self.put("script", "start\n# a comment\napdu 00A4000C023F00\n#< 6A82\nreset\napdu 00B0000001\n")
        self.assertEqual(self.expect(path).returncode, 1)
        self.assertEqual(self.expect(path, "--write").returncode, 0)
        with open(path, encoding="ascii") as text:
            self.assertEqual(text.read(), "start\n# a comment\napdu 00A4000C023F00\n#< 9000\nreset\n#! reset\napdu 00B0000001\n#< 9000\n")
        self.assertEqual(self.expect(path).returncode, 0)

    def test_a_terminal(self):
        path = self.put("script", "start\n# a comment\ncmd D009810301440082028182\n#< 9000\nnet drop 1\n")
        done = self.expect(path, "--bip")
        self.assertEqual(done.returncode, 1)
        for part in ("  > D009810301440082028182", "shown: GET CHANNEL STATUS"):
            self.assertIn(part, done.stdout)
        self.assertEqual(self.expect(path, "--bip", "--write").returncode, 0)
        with open(path, encoding="ascii") as text:
            self.assertEqual(text.read(), "#case script\n#run bip\nstart\n# a comment\ncmd D009810301440082028182\n#> D009810301440082028182\n"
                                          "#< 810301440082028281830100B8020000\nnet drop 1\n#* event D60B99010A82028281B8020105\n#status 0\n")
        self.assertEqual(self.expect(path).returncode, 0)
        case = self.put("a.cases", "#case one\n#run bip\nstart\ncmd D0\n#> D0\n#< 810301440082028281830132\n#status 0\n"
                                   "#shows 0 FF\n#run bip\nstart\n#status 0\n")
        done = self.expect(case)
        self.assertEqual(done.returncode, 1)
        for part in ("the command: no proactive command", "result: expected 32 command data not understood, shown 00 done",
                     "channel status: expected nothing, shown no channel is open"):
            self.assertIn(part, done.stdout)
        self.assertEqual(self.expect(path, "--bip", "--store", "pages").returncode, 2)

    def test_a_faulty_script_is_not_written(self):
        """Its line and the reason are told, and the file stays as it is; unless it says itself that it ends so."""
        # a stand-in says `line 1` and ends with 2 at a line `bad`
        table = [("start\nreset\nbad\n", "line 3 of its script: no line begins with `bad`"),
                 ("#case one\n#run play\nstart\nbad\n#status 0\n", "line 2 of its script"), ("reset\nbad\n", "line 1 of its script: no `start`")]
        for text, why in table:
            with self.subTest(text=text):
                path = self.put("script", text)
                done = self.expect(path, "--write")
                self.assertEqual((done.returncode, done.stdout), (1, ""))
                self.assertIn(why, done.stderr)
                with open(path, encoding="ascii") as left:
                    self.assertEqual(left.read(), text)
        path = self.put("script", "start\nbad\n#status 2\n")
        self.assertEqual(self.expect(path, "--write").returncode, 0)
        with open(path, encoding="ascii") as left:
            self.assertEqual(left.read(), "start\nbad\n#= line 1\n#status 2\n")

    def test_the_words_of_a_script_are_kept(self):
        """The file is run by them ever after, with no more words; nothing is written where a line of it is faulty."""
        for words in (["--phone"], ["--phone", "--store", "pages"], ["--open"]):
            with self.subTest(words=words):
                path = self.put("day.script", "start\nreset\n")
                self.assertEqual(self.expect(path, *words, "--write").returncode, 0)
                with open(path, encoding="ascii") as left:
                    said = " ".join(words).removeprefix("--")
                    self.assertEqual(left.read(), f"#case day\n#run {said}\nstart\nreset\n#! reset\n#status 0\n")
                self.assertEqual(self.expect(path).returncode, 0)
        path = self.put("bad.script", "start\nbad\n")
        self.assertEqual(self.expect(path, "--phone", "--write").returncode, 1)
        with open(path, encoding="ascii") as left:
            self.assertEqual(left.read(), "start\nbad\n")

    def test_what_is_left_open_stays_so(self):
        """Where another line of the script is written anew."""
        path = self.put("script", "start\napdu 00A4000C023F00\n#< ..00\nreset\n")
        self.assertEqual(self.expect(path, "--write").returncode, 0)
        with open(path, encoding="ascii") as left:
            self.assertEqual(left.read(), "start\napdu 00A4000C023F00\n#< ..00\nreset\n#! reset\n")

    # a script, and what it is when what it shows was written into it: each `#..` and each line that is met stays. The stand-in answers 9000
    OPEN = [
        ("start\napdu 00A4000C02\n#< 9001\napdu 00B0000001\n#..\nreset\n#! reset\n", "start\napdu 00A4000C02\n#< 9000\napdu 00B0000001\n#..\nreset\n#! reset\n"),
        # the difference stands after it, and below the same line
        ("start\napdu 00A4000C02\n#..\n#< 9001\nreset\n", "start\napdu 00A4000C02\n#..\n#< 9000\nreset\n#! reset\n"),
        # it stands for what several lines show
        ("start\nreset\n#! off\n#..\napdu 00A4000C02\napdu 00B0000001\nreset\n#! reset\n",
         "start\nreset\n#! reset\n#..\napdu 00A4000C02\napdu 00B0000001\nreset\n#! reset\n"),
        # what is met after it stays, and what stands in no line comes below its own
        ("start\n#..\n#> 00B0000001\n#< 9000\napdu 00A4000C02\napdu 00B0000001\nreset\napdu 00C0000001\n",
         "start\n#..\n#> 00B0000001\n#< 9000\napdu 00A4000C02\napdu 00B0000001\nreset\n#! reset\napdu 00C0000001\n#< 9000\n"),
        # a line that nothing is shown in the place of is taken away
        ("start\n#..\nreset\n#! reset\n#! reset\n#! reset\n", "start\n#..\nreset\n#! reset\n"),
    ]

    def test_gaps_stay(self):
        for text, wanted in self.OPEN:
            with self.subTest(text=text):
                path = self.put("script", text)
                self.assertEqual(self.expect(path, "--write").returncode, 0)
                with open(path, encoding="ascii") as left:
                    self.assertEqual(left.read(), wanted)
                self.assertEqual(self.expect(path).returncode, 0)

    def test_a_star_that_is_not_understood(self):
        done = self.expect(self.put("script", "start\napdu 00A4000C023F00\n#< 90*\n"))
        self.assertEqual(done.returncode, 1)
        self.assertIn("a mistake in the case: line 3 of the file: `*` stands for any answer alone", done.stdout)
        told = "what is noted is compared as it stands: `*` and `..` are characters of it"
        for note, is_told in (("text H*", True), ("text H..", True), ("text Ho", False)):
            done = self.expect(self.put("script", f"start\nuser ok\n#* {note}\n"), "--phone")
            self.assertEqual((done.returncode, told in done.stdout), (1, is_told), note)

    def test_what_fits_is_left(self):
        text = "start\napdu 00A4000C023F00\n#< 6A82 | < 9000\n"
        path = self.put("script", text)
        self.assertEqual(self.expect(path, "--write").returncode, 0)
        with open(path, encoding="ascii") as left:
            self.assertEqual(left.read(), text)


class Stored(unittest.TestCase):
    # a script, and the word that it is played by
    MODES = [
        (b"# cmd\nstart\ncmd D0\n", "bip"), (b"start\nnet drop 1\n", "bip"), (b"start\nnet echo 1 1\n", "bip"),
        (b"start\napdu 00\n", "open"), (b"df 7F10\nstart\nuser ok\n", "phone"), (b"df 7F10\nstart\nnet poll\n", "phone"),
        (b"df 7F10\nstart\nreset\n", "play"),
    ]

    def test_modes(self):
        for script, mode in self.MODES:
            self.assertEqual(stored.mode_of(script), mode, script)

    def test_a_terminal_has_no_image(self):
        with tempfile.TemporaryDirectory() as folder:
            program = os.path.join(folder, "program")
            with open(program, "w", encoding="ascii") as out:
                out.write("#!/bin/sh\necho $#\n")
            os.chmod(program, stat.S_IRWXU)
            for words, count in ((["bip"], b"1\n"), (["play"], b"3\n"), (["play", "--store", "pages"], b"5\n")):
                self.assertEqual(stored.left_by(program, words, b"start\n", b"kept"), (count, 0, b"kept"))


if __name__ == "__main__":
    unittest.main()
