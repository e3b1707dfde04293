"""tools/cuts, by tables; a stand-in for the program has files of records."""
import contextlib
import io
import threading
import types
import unittest
import unittest.mock

import common  # noqa: F401 (the path)
from uicc import cutting, lint, picture, terminal


class RecordCard:
    """Stands in for the program with files of records in the MF, whose pointer moves as ETSI TS 102 221 (11.1.5, 11.1.6, 11.1.8)
    has it. A record is written by two memory writes: up to the first all is as before, from the second on all is carried out.

    `spoilt`: a failure of the second leaves the record in its place in a cyclic file, without making it the first one."""

    def __init__(self, spoilt=False, unread=()):
        self.spoilt, self.unread = spoilt, unread
        self.files, self.shorts = {}, {}
        self.current = self.pointer = None

    def run(self, _, lines):
        trace, plan, power = [], None, True
        for line in lines:
            word, _, rest = line.partition(" ")
            words = rest.split()
            if word == "ef":
                self.files[words[0]] = (words[1], [b"\xFF" * int(words[2])] * int(words[3]))
                self.shorts[words[4]] = words[0]
            elif word == "rec":
                self.files[words[0]][1][int(words[1]) - 1] = bytes.fromhex(words[2])
            elif word == "reset":
                self.current, self.pointer, power = None, None, True
                trace.append("! reset")
            elif word in ("cut", "fail"):
                plan = (word, int(words[0]))
            elif word == "apdu":
                shown = self.tried(bytes.fromhex(rest), plan) if power else "! off"
                trace += ["> " + rest, shown]
                plan, power = None, power and shown != "! cut"
        return trace, 0

    def tried(self, command, plan):
        before = {name: (kind, list(records)) for name, (kind, records) in self.files.items()}
        self.wrote = False
        answer = self.answer(command)
        if not plan or not self.wrote or plan[1] > 2:
            return "< " + answer
        if plan[1] == 1:
            self.files = before
        elif self.spoilt:
            self.files = before
            before[self.current][1][-1] = self.wrote
        return "! cut" if plan[0] == "cut" else "< 6581"

    def answer(self, command):
        ins, p1, p2, content = command[1], command[2], command[3], command[5:]
        if ins == 0xA4:
            self.current, self.pointer = content.hex().upper(), None
            return "9000"
        if ins == 0x20:
            return "9000" if content == b"1234" else "63C2"
        short = (p1 & 0x1F if p1 & 0x80 else 0) if ins == 0x32 else p2 >> 3
        if short:
            self.current, self.pointer = self.shorts[str(short)], None
        if self.current is None:
            return "6986"
        kind, records = self.files[self.current]
        if ins == 0x32:
            total = (int.from_bytes(records[0], "big") + int.from_bytes(content, "big")).to_bytes(len(records[0]), "big")
            self.write(records, 1, total, True)
            return total.hex().upper() + content.hex().upper() + "9000"
        number = self.number(p1, p2 & 7, kind, len(records))
        if number is None:
            return "6A83"
        if ins == 0xB2:
            return "6982" if self.current in self.unread else records[number - 1].hex().upper() + "9000"
        self.write(records, number, content, kind == "c")
        return "9000"

    def number(self, p1, mode, kind, count):
        if mode == 4:
            number = p1 or self.pointer
            return number if number and number <= count else None
        number = (self.pointer or (0 if mode == 2 else count + 1)) + (1 if mode == 2 else -1)
        if not 1 <= number <= count:
            number = (1 if mode == 2 else count) if kind == "c" else None
        self.pointer = number or self.pointer
        return number

    def write(self, records, number, content, cyclic):
        self.wrote = content
        if cyclic:
            records[:] = [content, *records[:-1]]
            self.pointer = 1
        else:
            records[number - 1] = content


class Cuts(unittest.TestCase):
    # a command, and what reads what it changes, as far as its bytes tell
    TABLE = [
        ("00D6820004AABBCCDD", ["00B0820004"]),
        ("01D600000411223344", ["01B0000004"]),
        ("00DC010402AABB", ["00B2010402"]),
        ("00DC022C02AABB", ["00B2022C02"]),
        ("00DC000302AABB", None),
        ("00DC002B02AABB", None),
        ("00DC000202AABB", None),
        ("00DC000402AABB", None),
        ("803200000101", None),
        ("002000010831323334FFFFFFFF", ["00200001"]),
        ("0024008110" + "31" * 8 + "32" * 8, ["00200081", "0020008108" + "32" * 8]),
        ("0026000108" + "31" * 8, ["00200001", "00A40004023F00"]),
        ("002C000110" + "31" * 8 + "32" * 8, ["002C0001", "0020000108" + "32" * 8]),
        ("00E0000010620E8202412183026F50800200048800", ["00A40904026F50"]),
        ("01E000000A62088202782183027F20", ["01A40904027F20"]),
        ("00E40000026F50", ["00A40904026F50"]),
        ("82D40000046F500006", ["02A40904026F50", "02B0000000"]),
        ("F0E40006", None),
        ("00E0000001FF", None),
        ("00A4000C023F00", None),
        ("00", None),
    ]
    # commands whose bytes don't tell it: how many reads of all records of the file, and the first of them
    EVERY = [
        ("00DC000302AABB", 254, "00B2010400"),
        ("01DC002A02AABB", 254, "01B2012C00"),
        ("00DC000402AABB", 254, "00B2010400"),
        ("803200000101", 254, "00B2010400"),
        ("823287000101", 254, "02B2013C00"),
        ("00DC010402AABB", 0, None),
        ("00D6820004AABBCCDD", 0, None),
    ]
    # what is before a command, with its answers, and what is sent to read back what it changes
    SCRIPTS = [
        ([("00A4000C022FE2", "9000")], "00D6000001AA", ["00A4000C022FE2", "00B0000001"]),
        ([], "00D6820001AA", ["00B0820001"]),
        ([("00A4000C022FE2", "9000"), ("00B0000001", "FF9000")], "00040000", ["00A40004022FE2"]),
        ([("002000010831323334FFFFFFFF", "9000"), ("00A4000C026F3A", "9000")], "00DC010401AA",
         ["002000010831323334FFFFFFFF", "00A4000C026F3A", "00B2010401"]),
        # a value that is wrong takes no second try; a file that isn't found isn't selected
        ([("002000010831313131FFFFFFFF", "63C2"), ("00A4000C026F3A", "6A82")], "00D6820001AA", ["00B0820001"]),
        # by TPDUs: data wait for GET RESPONSE, and a warning comes with them
        ([("00A40004022FE2", "6114"), ("00C0000014", "62006283"), ("00C0000014", "6985")], "0044000000", ["00A40004022FE2"]),
        # what was made is the current one again, and is deleted from there
        ([("0020000A083838383838383838", "9000"), ("00E000000A62088202782183027F20", "9000"), ("00E40000026F51", "6A82")], "00E0000010620E8202412183026F50800200048800",
         ["0020000A083838383838383838", "00A4090C027F20", "00A40904026F50"]),
        # a deactivated file is selected, and channels are opened again
        ([("0070000001", "019000"), ("01A40004022FE2", "62006283")], "01440000", ["0070000001", "01A40004022FE2"]),
        # the current EF by a short identifier
        ([("00B0820004", "AABB6282"), ("00D6830001AA", "9000")], "00D6000001AA", ["00B0820001", "00B0830001", "00B0000001"]),
        ([("00DC013C01AA", "9000"), ("8032880001AA", "9100"), ("00A2014C01AA", "6282"), ("00B2015401", "6982")], "00DC010401AA",
         ["00B2013C00", "00B2014400", "00B2014C00", "00B2010401"]),
    ]

    def test_what_reads_back(self):
        for command, reading in self.TABLE:
            found = cutting.readings_of(bytes.fromhex(command))
            self.assertEqual(found and [known.hex().upper() for known in found], reading)

    def test_reads_of_all_records(self):
        for command, count, first in self.EVERY:
            found = cutting.records_of(bytes.fromhex(command)) or []
            self.assertEqual((len(found), found[0].hex().upper() if found else None), (count, first))

    def test_lines_that_read_back(self):
        for known, command, back in self.SCRIPTS:
            pairs = [(bytes.fromhex(sent), answer) for sent, answer in known]
            found = cutting.reading_back(pairs, bytes.fromhex(command), "9000", None)
            self.assertEqual([sent.hex().upper() for sent in found], back)

    LINEAR = ["ef 6F3A l 1 4 7 -", "rec 6F3A 1 01", "rec 6F3A 2 02", "rec 6F3A 3 03"]
    CYCLIC = ["ef 6F39 c 1 3 9 -", "rec 6F39 1 05", "rec 6F39 2 04", "rec 6F39 3 03"]
    EMPTY = ["ef 6F39 c 1 3 9 -"]
    SELECTED, COUNTER = "00A4000C026F3A", "00A4000C026F39"
    # a card, what is sent to it, the reads of records in the end, what they tell before and after, and whether that is the same
    RECORDS = [
        # next: the first one without a pointer, then the one after it
        (LINEAR, [SELECTED, "00DC000201AA"], ["00B2010400"], "01 9000", "AA 9000", False),
        (LINEAR, [SELECTED, "00B2000200", "00B2000200", "00DC000201AA"], ["00B2030400"], "03 9000", "AA 9000", False),
        # previous: the last one without a pointer, and the one in front of it
        (LINEAR, [SELECTED, "00DC000301AA"], ["00B2040400"], "FF 9000", "AA 9000", False),
        (LINEAR, [SELECTED, "00B2000300", "00DC000301AA"], ["00B2030400", "00B2040400"], "03 9000", "AA 9000", False),
        # at the pointer, which a reset takes away; and by a short identifier
        (LINEAR, [SELECTED, "00B2000200", "00B2000200", "00DC000401AA"], ["00B2020400"], "02 9000", "AA 9000", False),
        (LINEAR, ["00DC003A01AA"], ["00B2013C00"], "01 9000", "AA 9000", False),
        (LINEAR, ["00B2003A00", "00DC000201AA"], ["00B2013C00", "00B2020400"], "02 9000", "AA 9000", False),
        # what is there already is written again
        (LINEAR, [SELECTED, "00DC00020101"], ["00B2010400"], "9000, 01 9000", "9000, 01 9000", True),
        # a cyclic file: record 1 and the oldest
        (CYCLIC, [COUNTER, "00DC000301AA"], ["00B2010400", "00B2030400"], "05 9000, 03 9000", "AA 9000, 04 9000", False),
        (CYCLIC, [COUNTER, "00DC00030105"], ["00B2020400", "00B2030400"], "04 9000, 03 9000", "05 9000, 04 9000", False),
        (CYCLIC, [COUNTER, "803200000102"], ["00B2010400", "00B2030400"], "05 9000, 03 9000", "07 9000, 04 9000", False),
        (CYCLIC, ["803289000102"], ["00B2014C00", "00B2034C00"], "05 9000, 03 9000", "07 9000, 04 9000", False),
        (CYCLIC, [COUNTER, "803200000100"], ["00B2020400", "00B2030400"], "04 9000, 03 9000", "05 9000, 04 9000", False),
        (EMPTY, [COUNTER, "803200000100"], ["00B2010400", "00B2030400"], "9000, FF 9000", "9000, FF 9000", True),
    ]

    def trial(self, section, sent, **how):
        program = types.SimpleNamespace(**vars(cutting.simulator))
        program.run = lambda words, lines: RecordCard(**how).run(words, lines)
        patch = unittest.mock.patch.object(cutting, "simulator", program)
        patch.start()
        self.addCleanup(patch.stop)
        return cutting.Trial(section, ["apdu " + command for command in sent], None)

    def test_the_record_that_is_written(self):
        for section, sent, reads, before, after, same in self.RECORDS:
            with self.subTest(sent=sent):
                trial = self.trial(section, sent)
                self.assertEqual([line[5:] for line in trial.back if line[5:9] == "00B2" and line[9:11] != "00"], reads)
                self.assertEqual((trial.told(trial.old), trial.told(trial.new)), (before, after))
                states = {trial.state(answers) for *_, answers in trial.rows()}
                self.assertEqual(states, {"same"} if same else {"before", "after"})

    def test_half_a_turn_is_neither(self):
        for sent in (["803200000102"], ["00DC000301AA"]):
            trial = self.trial(self.CYCLIC, [self.COUNTER, *sent], spoilt=True)
            self.assertEqual({trial.state(answers) for *_, answers in trial.rows()}, {"before", "NEITHER"})

    # what can't be told
    UNTOLD = [
        ([SELECTED, "00B2000300", "00DC000201AA"], (), "the command is answered 6A83"),
        (["00DC000401AA"], (), "the command is answered 6986"),
        ([SELECTED, "00DC000201AA"], ("6F3A",), "the first one is read with 6982"),
        ([SELECTED, "00DC010401AA"], ("6F3A",), "it is read with 6982"),
    ]

    def test_what_cant_be_told(self):
        for sent, unread, why in self.UNTOLD:
            with self.subTest(sent=sent), self.assertRaisesRegex(Exception, why + ".*: name a script after --back"):
                self.trial(self.LINEAR, sent, unread=unread)


PIN, OTHER = ("pin", 0x01), ("pin", 0x81)
ROW, RECORD = ("row", 6), ("file", ("7F10", "6F3A"))


def pin(tries, value="1", unblock_tries=10):
    return (value, True, "u", tries, unblock_tries)


class States(unittest.TestCase):
    """What a run leaves of a card's entries, against those before and after."""

    UPDATE, VERIFY, ENVELOPE = "00D6820001AA", "002000010831323334FFFFFFFF", "80C2000009D30782020181900102"
    # a command, the entries before, after and found, and what that is
    TABLE = [
        (UPDATE, {RECORD: "old"}, {RECORD: "new"}, {RECORD: "old"}, "before"),
        (UPDATE, {RECORD: "old"}, {RECORD: "new"}, {RECORD: "new"}, "after"),
        (UPDATE, {RECORD: "old"}, {RECORD: "old"}, {RECORD: "old"}, "same"),
        (UPDATE, {RECORD: "old"}, {RECORD: "new"}, {RECORD: "ne?"}, "NEITHER"),
        (UPDATE, {RECORD: "old"}, {RECORD: "new"}, {}, "NEITHER"),
        (UPDATE, {RECORD: "old"}, {RECORD: "new"}, None, "NEITHER"),
        (UPDATE, {RECORD: "old", ROW: (1, 1)}, {RECORD: "new", ROW: (2, 2)}, {RECORD: "new", ROW: (1, 1)}, "NEITHER"),
        # a PIN command takes a try first
        (VERIFY, {PIN: pin(3)}, {PIN: pin(3)}, {PIN: pin(2)}, "between"),
        (VERIFY, {PIN: pin(2)}, {PIN: pin(3)}, {PIN: pin(1)}, "between"),
        (VERIFY, {PIN: pin(3)}, {PIN: pin(3)}, {PIN: pin(1)}, "NEITHER"),
        (VERIFY, {PIN: pin(3)}, {PIN: pin(3, "2")}, {PIN: pin(2, "?")}, "NEITHER"),
        (VERIFY, {PIN: pin(0)}, {PIN: pin(3, "2")}, {PIN: pin(0, "1", 9)}, "between"),
        (VERIFY, {PIN: pin(3), OTHER: pin(3)}, {PIN: pin(3), OTHER: pin(3)}, {PIN: pin(2), OTHER: pin(0)}, "NEITHER"),
        # applets that run commit what they keep one after the other
        (ENVELOPE, {ROW: (1, 1)}, {ROW: (2, 2)}, {ROW: (2, 1)}, "between"),
        (ENVELOPE, {ROW: (1, 1)}, {ROW: (2, 2)}, {ROW: (3, 1)}, "NEITHER"),
        (ENVELOPE, {ROW: (1, 1), RECORD: "a"}, {ROW: (2, 2), RECORD: "a"}, {ROW: (1, 1), RECORD: "b"}, "NEITHER"),
    ]

    def test_states(self):
        for command, old, new, found, state in self.TABLE:
            step = types.SimpleNamespace(said=cutting.Apdu(bytes.fromhex(command)))
            outcome = cutting.Outcome(step)
            outcome.old, outcome.new = types.SimpleNamespace(entries=old), types.SimpleNamespace(entries=new)
            with self.subTest(command=command, old=old, new=new, found=found):
                self.assertEqual(outcome.state(found), state)


class Together(unittest.TestCase):
    def test_commands_are_cut_in_parallel_and_counted(self):
        """Each waits until another one is tried too."""
        script, meeting = lint.read("start\nreset\napdu 00A4000C023F00\n"), threading.Barrier(2)
        progress = terminal.Progress(2, "commands")

        def tried(outcome):
            meeting.wait(20)
            return outcome.step.number
        with unittest.mock.patch.object(cutting.Outcome, "try_all", tried), contextlib.redirect_stderr(io.StringIO()):
            self.assertEqual(cutting.all_outcomes(["play"], script, 2, progress), [2, 3])
        self.assertEqual(progress.done, 2)


class Pictures(unittest.TestCase):
    WAYS = [cutting.Left("cut, all its bytes FF", "! cut", "before", ""), cutting.Left("cut half way, then 5A", "! cut", "after", ""),
            cutting.Left("fails, all its bytes FF", "< 6581", "NEITHER", "")]
    # the answer to a command as it is told and as it is drawn, its writes, the stripes of each colour, and whether it is drawn as refused
    TABLE = [
        ("< 9000", "9000", [WAYS, WAYS], {"before": 2, "after": 2, "NEITHER": 2}, False),
        ("< AABB9000", "9000", [], {}, False),
        ("< 6282", "6282", [], {}, False),
        ("< 6982", "6982", [], {}, True),
        ("! reset", "reset", [], {}, False),
        ("! off", "off", [], {}, False),
    ]

    def test_rows(self):
        for answer, shown, writes, stripes, refused in self.TABLE:
            step = types.SimpleNamespace(number=7, title=lambda: "READ <BINARY>")
            drawn = picture.of_cuts("a.script", [types.SimpleNamespace(step=step, answer=answer, writes=writes)])
            # each colour has one more below the heading
            found = {state: drawn.count(f'fill="{colour}"') - 1 for state, colour in picture.COLOURS.items()}
            with self.subTest(answer=answer, writes=len(writes)):
                self.assertEqual({state: count for state, count in found.items() if count}, stripes)
                self.assertIn(f">{shown}</text>", drawn)
                self.assertEqual((">refused<" in drawn, "READ &lt;BINARY&gt;" in drawn), (refused, True))


if __name__ == "__main__":
    unittest.main()
