"""tools/sequence: how files are read, how a terminal is judged, and that one that is wrong fails just the sequences that it must."""
import contextlib
import os
import random
import re
import subprocess
import sys
import tempfile
import threading
import time
import unittest
import unittest.mock
import xml.etree.ElementTree

from common import TOOLS, in_process, load
import able_terminal
from uicc import Answer, Card, PowerLost, decode, handset, names, process, sequence, tlv, undertest, verdict, wording
from uicc.player import BOTH, CARD, PLAYER, Player
from uicc.sequence import Act, BadSequence, Give, Quiet, Respond, Restart, Shown, Tell

EXAMPLES = os.path.join(process.TOP, "examples")
IN_THE_BOX = os.path.join(EXAMPLES, "sequences")
USIM = os.path.join(EXAMPLES, "usim.script")


def tool(*words):
    return in_process("sequence", *words)


def in_the_box():
    for name in sorted(os.listdir(IN_THE_BOX)):
        with open(os.path.join(IN_THE_BOX, name), encoding="utf-8") as text:
            yield from sequence.read(text.read(), name)


def open_lines(path):
    with open(path, encoding="utf-8") as text:
        return text.read().splitlines()


# what is put into lines
ODD = ("\"", "'", "\\", " ", "#", "|", "*", "?", "0", "FF", "-1", "99999", "\x00", "Ж", "😀", "any", " optional ", " more ", " object ", " object 8D ",
       " text ", " item ", " events ", " bytes ", " without ", "\t", "then ", "command ")


def read(*lines):
    return sequence.read("".join(line + "\n" for line in ("sequence one", *lines)), "a.sequence")


class Files(unittest.TestCase):
    # a line of a command, and its bytes
    COMMANDS = [
        ("DISPLAY TEXT qualifier 80 text \"Toolkit Test 1\"", "D01A8103012180820281028D0F04546F6F6C6B697420546573742031"),
        ("DISPLAY TEXT qualifier 80 text ucs2 \"ЗД\"", "D0108103012180820281028D050804170414"),
        # 3GPP TS 23.038: eight letters are seven bytes
        ("DISPLAY TEXT qualifier 80 text gsm7 \"Toolkit \"", "D0138103012180820281028D0800D4F79BBD4ED341"),
        ("DISPLAY TEXT qualifier 80 text \"A\" icon 01 2", "D0118103012180820281028D0204419E020102"),
        ("SET UP MENU title \"T\" item 1 \"A\" item 2 \"BC\"", "D0158103012500820281828501548F0201418F03024243"),
        ("SET UP MENU title \"T\" item none", "D00E8103012500820281828501548F00"),
        ("GET INPUT qualifier 01 text \"?\" length 1 20 default \"x\"", "D0158103012301820281828D02043F9102011497020478"),
        ("TIMER MANAGEMENT qualifier 00 timer 2 time 12:34:56", "D011810301270082028182A40102A503214365"),
        ("PLAY TONE tone 10 duration 5 tenths", "D010810301200082028103" "8E011084020205"),
        ("SET UP EVENT LIST events location,user-activity,0A", "D00E8103010500820281829903" "03040A"),
        ("SET UP EVENT LIST events none", "D00B8103010500820281829900"),
        ("SET UP CALL address +012340123456 title \"Go\"", "D0168103011000820281838607911032042143658502476F"),
        ("OPEN CHANNEL qualifier 01 bearer 03 size 1000 transport 021F90 other-address 21C0000201",
         "D01C810301400182028182B50103B90203E8BC03021F90BE0521C0000201"),
        ("SEND DATA qualifier 01 to channel3 data 0102", "D00D810301430182028123B6020102"),
        ("MORE TIME number 254", "D0098103FE020082028182"),
        ("FE qualifier 07 from network to keypad", "D009810301FE0782028301"),
        ("DISPLAY TEXT text \"A\" without devices", "D0098103012100" "8D020441"),
        ("DISPLAY TEXT text \"A\" without details object 7E FF", "D00B820281028D0204417E01FF"),
        ("bytes D00981030102008202", "D00981030102008202"),
    ]

    def test_commands_by_their_fields(self):
        for text, raw in self.COMMANDS:
            with self.subTest(text=text):
                self.assertEqual(decode.hexed(read("command " + text)[0].steps[0].raw), raw)

    # the standard's names for objects, and what is shorter
    NAMES = [
        ("SET UP CALL address 123 alpha-identifier \"Go\"", "SET UP CALL address 123 alpha \"Go\"", "SET UP CALL address 123 title \"Go\""),
        ("GET INPUT text-string A response-length 1 2 default-text B", "GET INPUT text A length 1 2 default B"),
        ("RECEIVE DATA channel-data-length 5", "RECEIVE DATA count 5"), ("SEND DATA channel-data 41", "SEND DATA data 41"),
        ("OPEN CHANNEL bearer-description 03 buffer-size 5 transport-level 021F90", "OPEN CHANNEL bearer 03 size 5 transport 021F90"),
        ("TIMER MANAGEMENT timer-identifier 1 timer-value 00:05:00", "TIMER MANAGEMENT timer 1 time 00:05:00"),
        ("SET UP EVENT LIST event-list location", "SET UP EVENT LIST events location"), ("LANGUAGE NOTIFICATION language de", "35 language de"),
    ]

    def test_names_of_objects(self):
        for texts in self.NAMES:
            with self.subTest(texts=texts):
                self.assertEqual(len({read("command " + text)[0].steps[0].raw for text in texts}), 1)

    def test_numbers_are_read_back(self):
        """A number in a sequence is as tools/explain shows it, of whatever type it is."""
        for value in ("911032042143651C2C", "8121F3", "A121F3", "912143", "FF1A2BDC", "80214365", "91E1"):
            shown = decode.object_text(0x06, bytes.fromhex(value), True)
            with self.subTest(value=value, shown=shown):
                raw = read("command SET UP CALL address " + shown)[0].steps[0].raw
                self.assertEqual(tlv.first(tlv.template(raw)[1], 0x06).hex().upper(), value)

    def test_comments(self):
        for text in ("SET UP CALL address *21# alpha \"#1\"", "SET UP CALL address *21# alpha '#1' # a call", "SET UP CALL address '*21#' alpha \"#1\"  #"):
            with self.subTest(text=text):
                self.assertEqual(decode.hexed(read("command " + text)[0].steps[0].raw), "D012810301100082028183" "8603812AB1" "85022331")

    def test_commands_are_numbered(self):
        found = read("command MORE TIME", "response result 00", "command MORE TIME", "response result 00")[0].commands()
        self.assertEqual([one.details[0] for one in found], [1, 2])

    def test_what_is_needed(self):
        for text, needed in (("DISPLAY TEXT text A", "DISPLAY TEXT"), ("TIMER MANAGEMENT qualifier 02 timer 1", "TIMER MANAGEMENT get"),
                             ("PROVIDE LOCAL INFORMATION qualifier 04", "PROVIDE LOCAL INFORMATION: language")):
            self.assertEqual(read("command " + text)[0].needs, [needed])
        self.assertEqual(read("needs UCS2 display", "command MORE TIME")[0].needs, ["UCS2 display", "MORE TIME"])
        self.assertEqual(read("command FE")[0].needs, [])
        # one that is written by its type, and a bit of the profile
        self.assertEqual(read("command 35 language de")[0].needs, ["LANGUAGE NOTIFICATION"])
        self.assertEqual(read("command 34")[0].needs, ["RUN AT COMMAND"])
        self.assertEqual(read("command GET READER STATUS qualifier 01")[0].needs, ["GET READER STATUS: identifier"])
        self.assertEqual(read("command COMMAND CONTAINER")[0].needs, ["COMMAND CONTAINER and ENCAPSULATED SESSION CONTROL"])
        # what a command says: events, letters, yes or no
        for text, needed in (("SET UP EVENT LIST events location,0A,FE", ["SET UP EVENT LIST", "event location status", "event channel status"]),
                             ("GET INKEY qualifier 04 text A", ["GET INKEY", "GET INKEY: yes or no"]), ("GET INKEY qualifier 03 text A", ["GET INKEY", "UCS2 entry"]),
                             ("GET INPUT qualifier 03 text ucs2 A length 0 1", ["GET INPUT", "UCS2 entry", "UCS2 display"]),
                             ("GET INPUT qualifier 01 text A length 0 1 default-text ucs2 A", ["GET INPUT", "UCS2 display"]),
                             ("SELECT ITEM alpha ucs2 A item 1 B", ["SELECT ITEM", "UCS2 display"]), ("SELECT ITEM alpha A item 1 ucs2 B", ["SELECT ITEM", "UCS2 display"]),
                             ("SELECT ITEM alpha A item 1 B", ["SELECT ITEM"])):
            self.assertEqual(read("command " + text)[0].needs, needed)
        self.assertEqual(read("needs byte 9 bit 6", "command MORE TIME")[0].needs, ["byte 9 bit 6", "MORE TIME"])
        profile = bytes(8) + b"\x20"
        self.assertEqual([sequence.has(profile, need) for need in ("byte 9 bit 6", "byte 9 bit 5", "byte 10 bit 1", "DISPLAY TEXT")],
                         [True, False, False, False])

    def test_a_time_that_is_left_open(self):
        left = read("command TIMER MANAGEMENT qualifier 02 timer 1", "response result 00 timer 1 time any")[0].steps[1].objects[-1]
        self.assertEqual([left.fits(True, bytes.fromhex(value)) for value in ("503214", "5032")], [True, False])

    def test_commands_without_a_response(self):
        """They are refused: whatever the terminal answered, such a sequence would pass."""
        lines = ("command MORE TIME", "command MORE TIME", "response result 00", "command REFRESH qualifier 04", "restart")
        self.assertEqual([(one.line, one.text) for one in sequence.forgotten(read(*lines))], [(2, "command MORE TIME")])
        self.assertEqual(sequence.forgotten(read("command MORE TIME", "response any")), [])

    # what a line is, and why it is bad
    BAD = [
        ("commend MORE TIME", "no line begins with `commend`: sequence, section, needs, command"),
        ("command", "the command is missing"),
        ("command SHOW TEXT", "`SHOW` is no command"), ("command DISPLAY TXT", "is `DISPLAY TEXT` or `DISPLAY MULTIMEDIA MESSAGE` meant?"),
        ("command SELECT", "`SELECT` is no command: is `SELECT ITEM` meant?"), ("command GET text A", "`GET text"),
        ("command LANGUAGE NOTIFY", "is `LANGUAGE NOTIFICATION` meant?"), ("command display text text A", "is `DISPLAY TEXT` or `DISPLAY MULTIMEDIA MESSAGE` meant?"),
        ("command DISPLAY TXT text \"A\"", "`DISPLAY TXT` is no command"), ("command GET CHANNEL STATUT text A", "`GET CHANNEL STATUT` is no command"),
        ("response 00", "`00` is no object: each begins with its name, as `result 00`"),
        ("command DISPLAY TEXT txt \"A\"", "`txt` is no object: is `text` meant?"),
        ("response from network result 00", "`from` is no object: `from DEVICE` stands before the objects"),
        ("envelope event events 04 from keypad", "as in `envelope event from display events idle-screen`"),
        ("response devices 8381 result 00", "`devices` is no object: device identities are `object 82 8281`"),
        ("command TIMER MANAGEMENT qualifier 00 timer 1 time any", "a command is given as it is"),
        ("command DISPLAY TEXT alpha-id \"A\"", "`alpha-id` is no object: is `alpha"),
        ("command DISPLAY TEXT text \"A", "quotes come in pairs"),
        ("command DISPLAY TEXT text", "the text is missing"),
        ("command DISPLAY TEXT text \"Ж\"", "`Ж` is no character of eight bits: write `ucs2`"),
        ("command DISPLAY TEXT text gsm7 \"Ж\"", "`Ж` is no character of the GSM 7-bit default alphabet"),
        ("command DISPLAY TEXT text any", "a command is given as it is: text has no"),
        ("command DISPLAY TEXT optional text \"A\"", "a command is given as it is"),
        ("command DISPLAY TEXT qualifier 8", "a qualifier is two hexadecimal digits, not 8"),
        ("command DISPLAY TEXT to screen", "`screen` is no device: keypad, display"),
        ("command DISPLAY TEXT without text", "`text` is no part that a command may be without"),
        ("command SET UP MENU item 0 \"A\"", "the number of an item is 1 to 255, not 0"),
        ("command PLAY TONE duration 1 hours", "a duration is in minutes, seconds or tenths, not in hours"),
        ("command TIMER MANAGEMENT time 1:00", "a time is HH:MM:SS, or any, not 1:00"),
        ("command SET UP EVENT LIST events rain", "`rain` is no event, nor a code of two digits"),
        ("command SET UP CALL address 12a", "a number that is dialled is"),
        ("command PROVIDE LOCAL INFORMATION language EN", "a language is two letters, not EN"),
        ("command DISPLAY TEXT object 00 41", "00 is no tag of one byte"),
        ("command DISPLAY TEXT object 8D 4", "hexadecimal digits are wanted for a value, two for each byte"),
        ("command DISPLAY TEXT text \"" + "x" * 250 + "\"", "a command has 1 to 256 bytes, and this one 267"),
        ("command DISPLAY TEXT text " + "x" * 70000, "the objects of this one are longer"),
        ("command MORE TIME number " + "9" * 5000, "the number of a command is 0 to 255, not 999"),
        ("command bytes", "the bytes of a command is missing"),
        ("command bytes D0 00", "`00` is too much"),
        ("command bytes D", "hexadecimal digits are wanted for the bytes of a command"),
        ("then MORE TIME", "no command stands before this one"),
        ("response result 00", "no command stands before this response"),
        ("needs PAY", "`PAY` is no name in a terminal profile"),
        ("section", "the section of 3GPP TS 31.124 is missing"),
        ("shown", "what is shown is missing"), ("shown foo", "no terminal shows `foo`: shown text T, ask T"),
        ("user dance", "and in a sequence help and refuse"),
        ("needs LANGUAGE", "is `LANGUAGE NOTIFICATION` meant?"), ("needs PAY", "a bit is written as `byte 9 bit 6`"),
        ("response any result 00", "after `response any` stands nothing"), ("command GET INPUT length 1", "the greatest length is missing"),
        ("user dance", "`dance` is nothing that a user does"),
        ("net echo 1 1", "this is for `bip`"),
        ("time", "N is missing"),
        ("envelope", "the envelope is missing"),
        ("envelope letter", "`letter` is no envelope"),
        ("no response", "after `no` stands `envelope`"),
        ("within 1000", "N, in seconds, is 0 to 999, not 1000"), ("within 5 now", "`now` is too much"),
        ("within 5", "nothing stands below it that may take so long"),
        ("status nonsense here", "`nonsense` is too much"), ("restart within 5", "`within` is too much"),
        ("section abc", "a section of 3GPP TS 31.124 is numbers with points between them, as `27.22.4.1`, and not `abc`"),
        ("command SET UP CALL ussd bytes 00", "between alternatives, not bytes"),
        ("sequence one", "a sequence of this name stands above"),
        ("sequence", "the name of the sequence is missing"),
    ]

    def test_bad_lines(self):
        for line, why in self.BAD:
            with self.subTest(line=line), self.assertRaises(BadSequence) as refused:
                read(line)
            self.assertEqual(refused.exception.line, 2)
            self.assertIn(why, str(refused.exception))
        for text, why in (("", "has no line `sequence NAME`"), ("command MORE TIME\n", "no line `sequence NAME` stands before"),
                          ("sequence one\nsection 1\n", "the sequence has no step"), ("# nothing\n", "has no line `sequence NAME`")):
            with self.assertRaisesRegex(BadSequence, why):
                sequence.read(text, "a.sequence")
        with self.assertRaisesRegex(BadSequence, "a response has a result"):
            read("command MORE TIME", "response duration 1 seconds")

    def test_all_bad_lines_are_told(self):
        with self.assertRaises(BadSequence) as refused:
            read("command SHOW TEXT", "command MORE TIME", "shown", "sequence two", "sequence two")
        self.assertEqual([(one.line, one.text) for one in refused.exception.lines], [(2, "command SHOW TEXT"), (4, "shown"), (6, "sequence two")])
        for part in ("a.sequence:2: `SHOW` is no command", "a.sequence:4: what is shown is missing", "a.sequence:6: a sequence of this name stands above"):
            self.assertIn(part, str(refused.exception))
        # those that belong to a bad line aren't bad for that
        with self.assertRaises(BadSequence) as refused:
            read("command SHOW TEXT", "response result 00", "then MORE TIME", "response result")
        self.assertEqual([one.line for one in refused.exception.lines], [2, 5])
        with self.assertRaises(BadSequence) as refused:
            sequence.read("shown text A\n" * 30, "a.sequence")
        self.assertEqual(len(refused.exception.lines), 1)
        with self.assertRaises(BadSequence) as refused:
            read(*["shown"] * 30)
        self.assertEqual(str(refused.exception).count("what is shown is missing"), 30)

    def test_bad_files(self):
        """Of several files the bad lines of all are told."""
        with tempfile.TemporaryDirectory() as folder:
            for name in "ab":
                with open(os.path.join(folder, name + ".sequence"), "w", encoding="utf-8") as out:
                    out.write("sequence one\nshown\n")
            done = tool(folder)
        self.assertEqual(done.returncode, 2)
        self.assertEqual(done.stderr.count("what is shown is missing"), 2)

    def test_lines_at_random(self):
        """Whatever stands in a file, it is read, or refused with a reason."""
        rng, refused = random.Random(0), 0
        lines = [line for name in sorted(os.listdir(IN_THE_BOX)) for line in open_lines(os.path.join(IN_THE_BOX, name))]
        for _ in range(3000):
            some = ["sequence one"] + [rng.choice(lines) for _ in range(4)]
            at = rng.randrange(len(some))
            place = rng.randint(0, len(some[at]))
            some[at] = some[at][:place] + rng.choice(ODD) + some[at][place + rng.randint(0, 3):]
            try:
                sequence.read("\n".join(some), "a.sequence")
            except BadSequence as fault:
                refused += 1
                self.assertTrue(fault.why)
        self.assertGreater(refused, 1000)

    def test_those_in_the_box(self):
        """There are many, each has a section, and each kind of command that they should be about is in one."""
        found = list(in_the_box())
        self.assertGreaterEqual(len(found), 60)
        self.assertTrue(all(one.section.startswith("27.22.") for one in found))
        names = {step.name for one in found for step in one.commands()}
        for name in ("DISPLAY TEXT", "GET INKEY", "GET INPUT", "SELECT ITEM", "SET UP MENU", "PLAY TONE", "REFRESH", "SET UP IDLE MODE TEXT",
                     "PROVIDE LOCAL INFORMATION", "TIMER MANAGEMENT", "SET UP EVENT LIST", "POLL INTERVAL", "MORE TIME", "SET UP CALL",
                     "SEND SHORT MESSAGE", "OPEN CHANNEL", "CLOSE CHANNEL", "SEND DATA", "RECEIVE DATA", "GET CHANNEL STATUS"):
            self.assertIn(name, names)
        codings = {value[:1] for one in found for step in one.commands() for tag, _, value in handset.objects_of(step.raw) or () if tag == 0x0D}
        self.assertLessEqual({b"\x00", b"\x04", b"\x08"}, codings)


class Players(unittest.TestCase):
    """What a player answers by itself, and what it hands on. The card has an applet that shows Hi when it is told the profile."""
    OWN = bytes.fromhex("D009810301020082028182")
    SELECT, PROFILE, STATUS = "00A4000C023F00", "80100000082900BF6171000013", "80F2000C"

    def setUp(self):
        self.folder = tempfile.TemporaryDirectory()
        self.addCleanup(self.folder.cleanup)
        path = os.path.join(self.folder.name, "greets.script")
        with open(path, "w", encoding="ascii") as out:
            out.write("ef 2FE2 t 2 - -\nfill 2FE2 0 ABCD\nrow 0 1 014000\nstart\n")
        self.card = Card(path)
        self.addCleanup(self.card.close)
        self.player = Player(self.card)

    def said(self):
        """Whose each answer was, and what it was."""
        return [(one.whose, str(one.answer)) for one in self.player.exchanges]

    def test_nothing_of_its_own(self):
        """A player that gives nothing changes nothing: the card's own command too is fetched and answered as it is."""
        for command in (self.SELECT, self.PROFILE, "80120000" + "10", "801400000C810301218082028281830100", self.STATUS, "00A4000C022FE2",
                        "00B0000002", "00B0000003", "80120000" + "10", "801400000C810301218082028281830100", "FFFF", "80C2000003D60199"):
            self.player.transmit(command)
        self.assertEqual(self.player.trace, self.card.trace)
        self.assertEqual({whose for whose, _ in self.said()}, {CARD})
        self.assertIn((CARD, "D00E8103012180820281028D03044869 9000"), self.said())

    def test_a_command_of_its_own(self):
        self.player.transmit(self.SELECT)
        self.player.give(self.OWN)
        self.player.transmit("00A4000C026FFF")
        self.player.transmit(self.SELECT)
        self.player.transmit("8012000002")
        self.player.transmit("801200000B")
        self.player.transmit("801400000C810301020082028281830100")
        self.player.transmit("801400000C810301020082028281830100")
        self.assertEqual(self.said(), [
            (CARD, "9000"), (CARD, "6A82"), (BOTH, "910B"), (PLAYER, "6C0B"), (PLAYER, decode.hexed(self.OWN) + " 9000"), (PLAYER, "9000"),
            # the second response is none of its own: the card refuses it
            (CARD, "6985")])
        self.assertEqual([one.kind for one in self.player.heard], ["fetch of a wrong length", "fetch", "response", "stray response"])

    def test_the_length_of_a_fetch(self):
        """By the card and by the player: Le is the length of the command, or 00, which stands for 256 bytes; for another one both answer 6CXX."""
        self.player.card = self.enterContext(Card.from_text("row 0 1 014000\nstart\n"))
        given = [str(self.player.transmit(self.PROFILE).status)]
        for length in (0x05, 0x00):
            given.append(str(self.player.transmit(f"80120000{length:02X}"))[-4:])
        self.player.give(self.OWN)
        given.append(str(self.player.transmit("801400000C810301218082028281830100").status))
        for length in (0x05, 0x00):
            given.append(str(self.player.transmit(f"80120000{length:02X}"))[-4:])
        self.assertEqual(given, ["9110", "6C10", "9000", "910B", "6C0B", "9000"])

    def test_data_are_handed_on_with_its_status(self):
        self.player.transmit("00A4000C022FE2")
        self.player.give(self.OWN)
        self.assertEqual(str(self.player.transmit("00B0000002")), "ABCD 910B")

    def test_one_command_at_a_time(self):
        """While the card's command is out the player's waits, and the other way about."""
        self.player.give(self.OWN)
        self.player.transmit("00A4000C026FFF")
        self.player.transmit(self.PROFILE)
        self.assertEqual(self.said()[-1], (CARD, "9110"))
        self.player.transmit("8012000010")
        self.player.transmit(self.STATUS)
        self.assertEqual(self.said()[-1], (CARD, "9000"))
        self.player.transmit("801400000C810301218082028281830100")
        self.assertEqual(self.said()[-1], (BOTH, "910B"))
        # and now the player's own is out, and the card has another one
        self.player.transmit("801200000B")
        self.player.transmit(self.PROFILE)
        self.assertEqual(self.said()[-1], (BOTH, "9000"))
        self.player.transmit("801400000C810301020082028281830100")
        self.assertEqual(self.said()[-1], (PLAYER, "9110"))
        self.player.transmit("8012000010")
        self.assertEqual(self.said()[-1], (CARD, "D00E8103022180820281028D03044869 9000"))

    def test_a_reset_takes_its_commands_away(self):
        self.player.transmit(self.SELECT)
        self.player.give(self.OWN)
        self.player.transmit(self.STATUS)
        self.player.reset()
        self.player.transmit(self.SELECT)
        self.assertEqual(self.said()[-1], (CARD, "9000"))
        self.assertIn("! reset", self.player.trace)

    def test_power_that_is_lost(self):
        """It is the card's, and the trace shows it as the card's does."""
        self.player.transmit("00A4000C022FE2")
        self.card.cut(1)
        with self.assertRaises(PowerLost):
            self.player.transmit("00D60000021234")
        self.assertEqual(self.player.trace, self.card.trace)
        self.assertEqual((self.player.exchanges[-1].whose, self.player.exchanges[-1].answer), (CARD, None))
        self.player.reset()
        self.assertEqual(self.player.trace[-2:], ["! cut", "! reset"])


# terminals that are wrong

class Link:
    """Stands between a terminal and the player. `change` says what is sent in the place of a command: none, one or several."""

    def __init__(self, player, change):
        self.player, self.change, self.trace = player, change, player.trace

    def transmit(self, command):
        answers = [self.player.transmit(one) for one in self.change(bytes(command))]
        return next((answer for answer in answers if answer.status.sw1 != 0x6C), answers[0]) if answers else Answer(b"", "9000")

    def reset(self):
        self.player.reset()


def on_response(kind, change):
    """Changes the objects of the responses to a kind of command; to any, where it is None."""
    def changed(command):
        if command[1] != decode.RESPONSE:
            return [command]
        found = list(tlv.objects(command[5:]))
        if kind is not None and found[0][2][1] != kind:
            return [command]
        data = b"".join(tlv.written(tag, value, flag) for tag, flag, value in change(found))
        return [command[:4] + bytes((len(data),)) + data]
    return changed


def on_envelope(change):
    """Changes the tag and the objects of envelopes."""
    def changed(command):
        if command[1] != decode.ENVELOPE:
            return [command]
        tag, content = tlv.template(command[5:])
        tag, found = change(tag, list(tlv.objects(content)))
        data = tlv.written(tag, b"".join(tlv.written(one, value, flag) for one, flag, value in found))
        return [command[:4] + bytes((len(data),)) + data]
    return changed


def with_value(tag, change, more=lambda found: True):
    """The same objects, but for the value of those with a tag."""
    return lambda found: [(one, flag, change(value) if one == tag and more(found) else value) for one, flag, value in found]


def without(tag):
    return lambda found: [one for one in found if one[0] != tag]


def in_envelope(template, change):
    return on_envelope(lambda tag, found: (tag, change(found) if tag == template else found))


def responses(one, *kinds):
    """The responses of a sequence, each with its command; to these kinds alone, where some are given."""
    given = None
    for step in one.steps:
        given = step if isinstance(step, Give) else given
        if isinstance(step, Respond) and (not kinds or given.details[1] in kinds):
            yield given, step


def wanted(step, tag):
    return next((one.pattern for one in step.objects if one.tag == tag and not one.optional), None)


def has_response(*kinds):
    return lambda one: any(responses(one, *kinds))


def has_result(code):
    return lambda one: any(wanted(step, 0x03) == code for _, step in responses(one))


def has_envelope(tag, *patterns):
    """Whether an envelope must come, which has one of these values in its first object after the devices."""
    return lambda one: any(isinstance(step, Tell) and step.tag == tag and (not patterns or step.objects[1].pattern in patterns)
                           for step in one.steps)


def has_text(one):
    """Whether a response must hold a text of some letters."""
    return any(len(wanted(step, 0x0D) or "|") > 2 and wanted(step, 0x0D)[0] != "|" for _, step in responses(one, 0x22, 0x23))


def has_quiet_after(*acts):
    """Whether nothing must be told after something that happens."""
    def has(one):
        return any(isinstance(step, Quiet) and isinstance(before, Act) and before.said.act in acts for before, step in zip(one.steps, one.steps[1:]))
    return has


class TellsAll(able_terminal.AbleTerminal):
    """Tells the user's activity, whether it is in the list or not."""

    def _tell_once(self, code, device):
        self.events.add(code)
        return super()._tell_once(code, device)


class TellsAgain(able_terminal.AbleTerminal):
    """Tells what is to be told once again and again."""

    def _tell_once(self, code, device):
        is_listed = code in self.events
        answer = super()._tell_once(code, device)
        if is_listed:
            self.events.add(code)
        return answer


class KeepsItsMenu(able_terminal.AbleTerminal):
    """The first menu stays."""

    def _menu(self, command):
        before = self.menu
        answer = super()._menu(command)
        self.menu = before or self.menu
        return answer


class ShowsNothing(able_terminal.AbleTerminal):
    """Answers DISPLAY TEXT, and shows nothing."""

    def _note(self, text):
        if not text.startswith("text"):
            super()._note(text)


class HidesWhatStandsThere(able_terminal.AbleTerminal):
    """Doesn't show the default text of GET INPUT."""

    def _note(self, text):
        if not text.startswith("default"):
            super()._note(text)


class DropsWhatStandsThere(able_terminal.AbleTerminal):
    """Shows it, and answers with no letter of it."""

    def _accept(self):
        if self._holds(handset.INPUT):
            return self._respond(handset.Reply(b"\x00", tlv.written(0x0D, b"\x04")))
        return super()._accept()


class NeverResets(able_terminal.AbleTerminal):
    """Says of a REFRESH that asks for a reset that it was done."""

    def _refresh(self, command):
        return self._respond(handset.DONE)


class TakesAnyLength(able_terminal.AbleTerminal):
    """Takes a text of any length."""

    def _type(self, text):
        if self._holds(handset.INPUT):
            return self._respond(handset.Reply(b"\x00", tlv.written(0x0D, b"\x04" + text)))
        return super()._type(text)


class ForgetsTimers(able_terminal.AbleTerminal):
    """Stops a timer, and says that it didn't run."""

    def _timer(self, command):
        if command.qualifier == handset.DEACTIVATE:
            self.timers.clear()
        return super()._timer(command)


class ReadsAnyTag(able_terminal.AbleTerminal):
    """Passes over what has to be understood."""

    def understood(self, raw):
        return super().understood(raw.replace(b"\xFE\x01", b"\x7E\x01"))


def shows_too_much(one):
    return any(isinstance(step, Give) and step.name == "DISPLAY TEXT" for step in one.steps) and any(
        isinstance(step, Shown) and step.note.startswith("text") for step in one.steps)


def is_long(one):
    return any(len(step.raw) > 0x60 for step in one.commands())


def has_menu_twice(one):
    """Whether a menu takes the place of another one, and then is picked from, or is there no more."""
    return sum(step.name == "SET UP MENU" for step in one.commands()) > 1


def able(change):
    return lambda player: able_terminal.AbleTerminal(Link(player, change))


def not_for(ins):
    return lambda command: [] if command[1] == ins else [command]


def no_long_fetch(command):
    return [] if command[1] == decode.FETCH and (command[4] or 256) > 0x60 else [command]


def twice(kind):
    return lambda command: [command] * (2 if command[1] == decode.RESPONSE and command[8] == kind else 1)


def swapped(value):
    return value[::-1]


# what is wrong with a terminal, how it is made so, and which sequences it must fail
FAULTS = [
    ("a wrong number in the details", able(on_response(0x21, with_value(0x01, lambda value: bytes((value[0] + 1,)) + value[1:]))),
     has_response(0x21)),
    ("details without their flag", able(on_response(0x25, lambda found: [(found[0][0], False, found[0][2]), *found[1:]])), has_response(0x25)),
    ("the details of another command", able(on_response(0x22, with_value(0x01, lambda value: bytes((value[0], 0x23, value[2]))))),
     has_response(0x22)),
    ("details without the qualifier", able(on_response(None, with_value(0x01, lambda value: value[:2] + b"\x00"))),
     lambda one: any(given.details[2] for given, _ in responses(one))),
    ("devices that are swapped", able(on_response(0x24, with_value(0x02, swapped))), has_response(0x24)),
    ("no devices", able(on_response(0x03, without(0x02))), has_response(0x03)),
    ("no result", able(on_response(0x20, without(0x03))), has_response(0x20)),
    ("gone back told as done", able(on_response(None, with_value(0x03, lambda value: b"\x00" if value == b"\x11" else value))), has_result("11")),
    ("no response told as ended", able(on_response(None, with_value(0x03, lambda value: b"\x10" if value == b"\x12" else value))),
     has_result("12")),
    ("an item identifier of another item", able(on_response(0x24, with_value(0x10, lambda value: bytes((value[0] ^ 0x80,)),
                                                                           lambda found: found[2][2] == b"\x00"))),
     lambda one: any(wanted(step, 0x10) not in (None, "??") for _, step in responses(one, 0x24))),
    ("another entry of the menu", able(in_envelope(0xD3, with_value(0x10, lambda value: bytes((value[0] + 1,))))), has_envelope(0xD3)),
    ("a menu selection as an event", able(on_envelope(lambda tag, found: (0xD6 if tag == 0xD3 else tag, found))), has_envelope(0xD3)),
    ("no FETCH", able(not_for(decode.FETCH)), lambda one: True),
    ("no FETCH of a long command", able(no_long_fetch), is_long),
    ("no TERMINAL RESPONSE", able(lambda command: [] if command[1] == decode.RESPONSE and command[8] == 0x27 else [command]), has_response(0x27)),
    ("a TERMINAL RESPONSE twice", able(twice(0x02)), has_response(0x02)),
    ("an event that isn't in its list", TellsAll, has_quiet_after("press", "idle")),
    ("an event that is told again", TellsAgain, lambda one: "is told once" in one.name),
    ("an event from another device", able(in_envelope(0xD6, with_value(0x02, lambda value: b"\x82\x81"))), has_envelope(0xD6, "05")),
    ("a location without its status", able(in_envelope(0xD6, without(0x1B))), has_envelope(0xD6, "03")),
    ("a timer told as another", able(in_envelope(0xD7, with_value(0x24, lambda value: bytes((value[0] + 1,))))), has_envelope(0xD7)),
    ("a text in another coding", able(on_response(None, with_value(0x0D, lambda value: b"\x04" + value[1:] if value[0] != 4 else b"\x00" + value[1:]))),
     has_text),
    ("a text without its last letter", able(on_response(None, with_value(0x0D, lambda value: value[:-1] if len(value) > 1 else value))), has_text),
    ("a text of any length", TakesAnyLength, lambda one: "too short" in one.name or any(
        wanted(step, 0x0D)[:2] != "04" and "|" not in wanted(step, 0x0D) for _, step in responses(one, 0x23) if wanted(step, 0x0D))),
    ("no interval", able(on_response(0x03, without(0x04))), lambda one: any(wanted(step, 0x04) for _, step in responses(one, 0x03))),
    ("an object too much", able(on_response(0x26, lambda found: [*found, (0x1B, True, b"\x00")])),
     lambda one: any(not step.has_more for _, step in responses(one, 0x26))),
    ("a result that is there twice", able(on_response(0x28, lambda found: [*found, found[2]])), has_response(0x28)),
    ("the first menu stays", KeepsItsMenu, has_menu_twice),
    ("a text that isn't shown", ShowsNothing, shows_too_much),
    ("a default text that isn't shown", HidesWhatStandsThere, lambda one: any(
        isinstance(step, Shown) and step.note.startswith("default") for step in one.steps)),
    ("a default text that is dropped", DropsWhatStandsThere, lambda one: "stands there already is taken" in one.name
     or "stand there already are taken" in one.name),
    ("no reset for a REFRESH", NeverResets, lambda one: any(isinstance(step, Restart) for step in one.steps)),
    ("a stopped timer told as not running", ForgetsTimers, lambda one: any(
        given.details[2] == 1 and wanted(step, 0x03) == "00" for given, step in responses(one, 0x27))),
    ("what has to be understood is passed over", ReadsAnyTag, lambda one: "has to be understood" in one.name),
]


class Obliging:
    """Stands in for a card without applets: it takes all that a terminal tells it."""

    def transmit(self, command):
        return Answer(b"", "6985" if command[1] in (decode.FETCH, decode.RESPONSE) else "9000")

    def reset(self):
        pass


def failed(make, found, card):
    """The sequences that a terminal fails, by name; and why."""
    why = {}
    for one in found:
        outcome = verdict.judged(one, undertest.InPython(make), card)
        if outcome.verdict != verdict.PASSED:
            why[one.name] = (outcome.verdict, outcome.why)
        card.reset()
    return why


class LateNotes(unittest.TestCase):
    """What a terminal tells later stands where it was shown."""

    def test_places(self):
        given = Player(Obliging())
        moments = []
        for command in ("80F2000C", "00A4000C023F00"):
            moments.append(time.monotonic())
            given.transmit(command)
        given.note("text Second", moments[1])
        given.note("text Last")
        # what is noted before isn't passed
        given.note("text After that", moments[0])
        self.assertEqual([line for line in given.trace if not line.startswith("<")],
                         ["> 80F2000C", "* text Second", "> 00A4000C023F00", "* text Last", "* text After that"])

    def test_before_a_reset(self):
        given = Player(Obliging())
        before = time.monotonic()
        given.transmit("80F2000C")
        given.reset()
        given.transmit("80F2000C")
        given.note("text First", before)
        given.note("text Now", time.monotonic())
        self.assertEqual([line for line in given.trace if not line.startswith("<")],
                         ["* text First", "> 80F2000C", "! reset", "> 80F2000C", "* text Now"])


class Faults(unittest.TestCase):
    def test_a_terminal_that_is_able_passes_all(self):
        with Card(USIM) as card:
            self.assertEqual(failed(able_terminal.AbleTerminal, list(in_the_box()), card), {})

    def test_a_terminal_that_is_wrong_fails_what_it_must(self):
        found = list(in_the_box())
        self.assertGreaterEqual(len(FAULTS), 20)
        for name, make, must_fail in FAULTS:
            with self.subTest(fault=name):
                why = failed(make, found, Obliging())
                self.assertEqual(sorted(why), sorted(one.name for one in found if must_fail(one)))
                self.assertTrue(why)
                self.assertEqual({kind for kind, _ in why.values()}, {verdict.FAILED})


class BreaksDown(able_terminal.AbleTerminal):
    """A terminal whose code is wrong."""

    def _menu(self, command):
        raise KeyError("menu")


class Verdicts(unittest.TestCase):
    def setUp(self):
        # a file of one's own lies beside nothing of the tools
        folder = tempfile.TemporaryDirectory()
        self.addCleanup(folder.cleanup)
        self.enterContext(contextlib.chdir(folder.name))

    def told(self, terminal, *lines):
        outcome = verdict.judged(read(*lines)[0], terminal, Obliging())
        return outcome.verdict, outcome.why, outcome.step and outcome.step.text

    def test_a_terminal_that_breaks_down(self):
        """It fails the sequence, and those after it are played."""
        why = failed(BreaksDown, [one for one in in_the_box() if one.name in ("SET UP MENU, an entry is picked", "MORE TIME")], Obliging())
        place = f"{undertest.shown(os.path.abspath(__file__))}:{BreaksDown._menu.__code__.co_firstlineno + 1}"
        self.assertEqual(why, {"SET UP MENU, an entry is picked": (verdict.FAILED, f"the terminal's class raised KeyError: 'menu', at {place}")})

    # what a method of a class does, and what is told of it
    BROKEN = [
        ("poll", "def poll(self):\n    return {}[1]", "KeyError: 1, at own.py:2"),
        ("poll", "def poll(self, often):\n    pass", "TypeError: poll() missing 1 required positional argument: 'often', at own.py:1"),
        ("poll", "def poll(self):\n    import json\n    json.loads('{')", "JSONDecodeError: Expecting property name"),
        ("poll", "def poll(self):\n    import json\n    json.loads('{')", ", at own.py:3"),
        ("poll", "def poll(self):\n    raise SystemExit(3)", "SystemExit: 3, at own.py:2"),
        ("begin", "def begin(self, player):\n    data, status = player.transmit('00A4000C023F00')", "TypeError: an Answer is one object, and no pair"),
        ("begin", "def begin(self, player):\n    print(player.transmit('00A4000C023F00')[0])", "it has `data` and `status`, at own.py:2"),
        ("happen", "def happen(self, said):\n    self.terminal.card.read()", "'Player' object has no attribute 'read', at own.py:2"),
        ("end", "def end(self):\n    raise OSError('gone')", "the terminal's class raised OSError: gone, at own.py:2"),
        ("poll", "def poll(self):\n    self.terminal.card.note(None)", "TypeError: `note` takes what is shown as text, and not None, at own.py:2"),
        ("poll", "def poll(self):\n    self.terminal.card.note('text a\\nb')", "ValueError: a note is one line of text, and not 'text a\\nb', at own.py:2"),
        ("poll", "def poll(self):\n    self.terminal.card.note('text a\\r')", "ValueError: a note is one line of text, and not 'text a\\r', at own.py:2"),
        ("poll", "def poll(self):\n    self.terminal.card.note('')", "ValueError: a note is one line of text, and not '', at own.py:2"),
        ("poll", "class Odd(BaseException):\n    pass\ndef poll(self):\n    raise Odd('odd')", "the terminal's class raised Odd: odd, at own.py:4"),
    ]

    def test_where_it_breaks_down(self):
        for name, text, said in self.BROKEN:
            with self.subTest(text=text):
                made = {}
                exec(compile(text, "own.py", "exec"), made)  # noqa: S102 (a class of one's own)
                broken = type("Own", (undertest.InPython,), {name: made[name]})()
                verdict_of, why, _ = self.told(broken, "command DISPLAY TEXT qualifier 80 text A", "user ok", "response result 00")
                self.assertEqual(verdict_of, verdict.FAILED)
                self.assertIn(said, why)

    def test_a_method_that_is_not_there(self):
        class Bare(undertest.UnderTest):
            pass

        self.assertEqual(self.told(Bare(), "command MORE TIME")[:2],
                         (verdict.FAILED, "the terminal's class raised NotImplementedError: the class has no method `begin`"))

    # methods that never come back, each in another way
    HUNG = {
        "sleeps": "\n    import time\n    time.sleep(1000)", "turns": "\n    while True:\n        pass", "waits": "\n    import threading\n    threading.Event().wait()",
        "listens": "\n    import socket\n    with socket.create_server(('127.0.0.1', 0)) as server:\n        server.accept()",
        "takes": "\n    while True:\n        try:\n            import time; time.sleep(0.01)\n        except Exception:\n            pass",
    }

    def test_a_terminal_that_never_comes_back(self):
        """The sequence is inconclusive, where it hung is told, and the one after it is played."""
        for name, text in self.HUNG.items():
            for method, given in (("poll", "self"), ("begin", "self, player"), ("happen", "self, said"), ("end", "self")):
                if method != "poll" and name != "sleeps":
                    continue
                with self.subTest(name=name, method=method):
                    made = {}
                    exec(compile(f"def {method}({given}): {text}", "own.py", "exec"), made)  # noqa: S102 (a class of one's own)
                    hung = type("Own", (undertest.InPython,), {method: made[method]})()
                    began = time.monotonic()
                    outcome = verdict.judged(read("command DISPLAY TEXT qualifier 80 text A", "user ok", "response result 00")[0], hung,
                                             Obliging(), 0.1)
                    self.assertLess(time.monotonic() - began, 8)
                    self.assertEqual(outcome.verdict, verdict.INCONCLUSIVE)
                    self.assertRegex(outcome.why, r"^the terminal did not come back within 1 second, from own.py:\d$")
        with Card(USIM) as card:
            self.assertEqual(verdict.judged(read("command MORE TIME", "response result 00")[0], undertest.InPython(), card).verdict, verdict.PASSED)

    def test_time_that_passes_is_no_hanging(self):
        """`time N` at a terminal whose time is the world's takes N seconds more."""
        class Clock(undertest.InPython):
            seconds = 0.2

            def happen(self, said):
                time.sleep(1.2)

        self.assertEqual(self.told(Clock(), "command MORE TIME", "response result 00", "time 3")[0], verdict.PASSED)

    def test_a_flag_that_is_another_one(self):
        """It is told in a row of its own, and the object's value is right."""
        outcome = self.over_usim(on_response(0x02, lambda found: [(found[0][0], False, found[0][2]), *found[1:]]), "command MORE TIME", "response result 00")
        self.assertEqual([(row.label, row.wanted, row.found, row.is_right) for row in outcome.rows][:2], [
            ("command details", "MORE TIME, number 1", "MORE TIME, number 1", True),
            ("flag of the command details", "comprehension required", "comprehension not required", False)])

    def test_a_number_is_no_command(self):
        with self.assertRaisesRegex(TypeError, "bytes are wanted, or hexadecimal digits as text, and not 5"):
            Player(Obliging()).transmit(5)

    def test_an_object_in_a_cards_place(self):
        """What answers a pair is told what is wanted."""
        class Pair:
            trace = []

            def transmit(self, command):
                return b"", "9000"

        for given in (Player(Pair()), ):
            with self.assertRaisesRegex(TypeError, r"`transmit` has to answer an Answer, Answer\(b\"\", \"9000\"\) say, and not \(b'', '9000'\)"):
                given.transmit("00A4000C023F00")
        with self.assertRaisesRegex(TypeError, "`transmit` has to answer an Answer"):
            handset.Terminal(Pair()).start()

    def test_a_terminal_that_is_gone(self):
        """Nothing can be said of the sequence then, nor of those after it."""
        class Gone(undertest.InPython):
            def poll(self):
                raise undertest.Lost("the telephone fell into the water")

        outcome = verdict.judged(read("command MORE TIME", "response result 00")[0], Gone(), Obliging())
        self.assertEqual((outcome.verdict, outcome.why, outcome.lost, outcome.step.text),
                         (verdict.INCONCLUSIVE, *["the telephone fell into the water"] * 2, "command MORE TIME"))

    def test_reasons(self):
        able = undertest.InPython(able_terminal.AbleTerminal)
        for lines, kind, why, step in (
                (("command MORE TIME", "response result 00", "response result 00"), verdict.FAILED, "no TERMINAL RESPONSE comes",
                 "response result 00"),
                (("command MORE TIME",), verdict.FAILED, "a TERMINAL RESPONSE comes that no step asks for", None),
                (("command MORE TIME", "response result 00", "restart"), verdict.FAILED, "the card isn't reset", "restart"),
                (("command REFRESH qualifier 04",), verdict.FAILED, "the card is reset, and no step asks for it", None),
                (("command MORE TIME", "response result 00", "status"), verdict.PASSED, "", None),
                (("command MORE TIME", "response result 00", "net poll", "status", "status"), verdict.FAILED, "no STATUS comes", "status"),
                (("command MORE TIME", "response result 00", "envelope event events 04"), verdict.FAILED, "no ENVELOPE comes",
                 "envelope event events 04"),
                (("command SET UP EVENT LIST events user-activity", "response result 00", "user press"), verdict.FAILED,
                 "an ENVELOPE comes that no step asks for", None),
                (("command DISPLAY TEXT qualifier 80 text A", "shown text B"), verdict.FAILED, "something else is shown", "shown text B"),
                (("command DISPLAY TEXT qualifier 80 text A", "user dance"), None, None, None)):
            with self.subTest(lines=lines):
                if kind is None:
                    self.assertRaises(BadSequence, read, *lines)
                else:
                    self.assertEqual(self.told(able, *lines), (kind, why, step))

    # what a terminal sends in the place of a command of its own, and what is told of it
    FETCHES = [
        (lambda command: [command[:4] + b"\x05"], "the command isn't fetched: the FETCH 8012000005 is answered 6C0B, wrong Le: 11 is the right one"),
        (lambda command: [command[:4] + b"\x05", command], ""),
        (lambda command: [command, command], "a FETCH comes where no command is announced"),
    ]

    def test_a_fetch_that_is_wrong(self):
        for more, why in self.FETCHES:
            with self.subTest(why=why):
                def changed(command, more=more):
                    return more(command) if command[1] == decode.FETCH else [command]
                outcome = self.told(undertest.InPython(lambda player, changed=changed: able_terminal.AbleTerminal(Link(player, changed))),
                                    "command MORE TIME", "response result 00")
                self.assertEqual(outcome[:2], (verdict.FAILED if why else verdict.PASSED, why))

    # a command of a terminal and how it is changed, and what is told of it
    WITH_WRONG_P1 = [
        (decode.PROFILE, "command MORE TIME", "the TERMINAL PROFILE 801001000C.. is answered 6A86, wrong P1 or P2", "sequence one"),
        (decode.FETCH, "command MORE TIME", "the command isn't fetched: the FETCH 801201000B is answered 6A86, wrong P1 or P2", "command MORE TIME"),
        (decode.RESPONSE, "command MORE TIME", "no TERMINAL RESPONSE comes: the TERMINAL RESPONSE 801401000C.. is answered 6A86, wrong P1 or P2",
         "response result 00"),
        (decode.ENVELOPE, "command SET UP MENU title M item 2 B", "no ENVELOPE comes: the ENVELOPE 80C2010009.. is answered 6A86, wrong P1 or P2",
         "envelope menu selection identifier 2"),
    ]

    def over_usim(self, change, *lines, make=able_terminal.AbleTerminal):
        with Card(USIM) as card:
            return verdict.judged(read(*lines)[0], undertest.InPython(lambda player: make(Link(player, change))), card)

    def test_headers(self):
        """P1 P2 of the toolkit's commands are 00 00 (ETSI TS 102 221, 11.2): what the card refuses has not come."""
        for ins, command, why, step in self.WITH_WRONG_P1:
            lines = [command, "response result 00"]
            if ins == decode.ENVELOPE:
                lines += ["user pick 2", "envelope menu selection identifier 2"]
            with self.subTest(why=why):
                wrong = lambda sent, ins=ins: sent[:2] + b"\1\0" + sent[4:] if sent[1] == ins else sent  # noqa: E731
                outcome = self.over_usim(lambda sent, wrong=wrong: [wrong(sent)], *lines)
                self.assertEqual(outcome.verdict, verdict.FAILED)
                self.assertEqual(outcome.why, self.as_card_says(why))
                self.assertEqual(outcome.step.text, step)
                if ins in (decode.RESPONSE, decode.ENVELOPE):
                    # one that is right after it doesn't mend it
                    outcome = self.over_usim(lambda sent, wrong=wrong, ins=ins: [wrong(sent), sent] if sent[1] == ins else [sent], *lines)
                    self.assertEqual((outcome.verdict, outcome.why), (verdict.FAILED, self.as_card_says(why.partition(": ")[2])))

    def as_card_says(self, why):
        return why.replace("wrong P1 or P2", names.status("6A86"))

    def test_what_comes_in_the_place_of_a_response(self):
        """A command of a wrong length, or a reset."""
        outcome = self.over_usim(lambda sent: [sent + b"\0\0"] if sent[1] == decode.RESPONSE else [sent], "command MORE TIME", "response result 00")
        self.assertEqual((outcome.verdict, outcome.why),
                         (verdict.FAILED, f"no TERMINAL RESPONSE comes: the TERMINAL RESPONSE 801400000C.. is answered 6700, {names.status('6700')}"))

        class Restarts(able_terminal.AbleTerminal):
            def carry_out(self, command):
                return self._restart()

        for command, hint in (("MORE TIME", ""), ("REFRESH qualifier 04", "; for a REFRESH that resets the card a step `restart` asks")):
            self.assertEqual(self.told(undertest.InPython(Restarts), f"command {command}", "response result 00"),
                             (verdict.FAILED, "no TERMINAL RESPONSE comes: the card is reset in its place" + hint, "response result 00"))

    def test_a_command_that_waits_for_its_user(self):
        """Where no line says what he does, nothing can be said of the terminal; but of a command that it must answer by itself."""
        asking, why = "command DISPLAY TEXT qualifier 80 text A", "no TERMINAL RESPONSE comes: the command waits for the user, and no line `user` stands after it"
        for lines in ((asking, "response result 00"), ("user ok", asking, "response result 00"), (asking, "response any")):
            with self.subTest(lines=lines):
                self.assertEqual(self.told(undertest.InPython(), *lines)[:2], (verdict.INCONCLUSIVE, why))
        self.assertEqual(self.told(undertest.InPython(), asking, "response result 32")[:2], (verdict.FAILED, "no TERMINAL RESPONSE comes"))
        self.assertEqual(self.told(undertest.InPython(), asking, "user press", "response result 00")[:2], (verdict.FAILED, "no TERMINAL RESPONSE comes"))

    def test_a_response_to_what_its_user_cannot_do(self):
        """A terminal that ends the session then is none that fails."""
        class Ends(able_terminal.AbleTerminal):
            def _type(self, text):
                return super()._type(text) or self._end(handset.ENDED)

        lines = ("command GET INPUT text A length 1 3", "user type abcdef", "response result 00 more")
        self.assertEqual(self.told(undertest.InPython(Ends), *lines),
                         (verdict.INCONCLUSIVE, "`abcdef` has 6 characters, and the command asks for 1 to 3", "user type abcdef"))

    def test_an_entry_that_is_not_in_the_menu(self):
        menu = ("command SET UP MENU title M item 1 A item 2 B", "response result 00")
        for more in ((), ("command MORE TIME", "response result 00")):
            self.assertEqual(self.told(undertest.InPython(), *menu, *more, "user pick 7", "envelope menu selection identifier 7"),
                             (verdict.INCONCLUSIVE, "the menu has no entry 7", "user pick 7"))
        self.assertEqual(self.told(undertest.InPython(), *menu, "user pick 7", "no envelope")[0], verdict.PASSED)

    def test_what_is_shown_last_is_in_the_trace(self):
        """Also where no step looks for it."""
        class Looks(undertest.InPython):
            def look(self):
                self.terminal.card.note("text Last")

        outcome = verdict.judged(read("command MORE TIME", "response result 00")[0], Looks(), Obliging())
        self.assertEqual((outcome.verdict, outcome.player.trace[-1]), (verdict.PASSED, "* text Last"))

    def test_a_terminal_that_resets_the_card_of_itself(self):
        class Restarts(undertest.InPython):
            def poll(self):
                self.player.reset()
                self.begin(self.player)
                super().poll()

            def begin(self, player):
                self.player = player
                super().begin(player)

        self.assertEqual(self.told(Restarts(), "command MORE TIME", "response result 00")[:2],
                         (verdict.FAILED, "the command isn't fetched: the card is reset before that, and the command is gone with the reset"))

    def test_a_profile_that_lacks_something(self):
        self.assertEqual(self.told(undertest.InPython(), "needs UCS2 entry", "command POLLING OFF", "response result 00")[:2],
                         (verdict.UNSUPPORTED, "its terminal profile doesn't have UCS2 entry, POLLING OFF"))

    def test_what_its_user_cannot_do(self):
        """It is inconclusive, and named by its line, where no response comes."""
        for command, act, why in (("SELECT ITEM alpha \"Pick\" item 1 \"A\" item 2 \"B\"", "user pick 3", "the command has no item 3"),
                                  ("GET INPUT text \"A\" length 2 4", "user type x", "`x` has 1 character, and the command asks for 2 to 4")):
            with self.subTest(act=act):
                self.assertEqual(self.told(undertest.InPython(), f"command {command}", act, "response result 00 more"),
                                 (verdict.INCONCLUSIVE, why, act))
        # what he does after it counts
        self.assertEqual(self.told(undertest.InPython(), "command GET INPUT text \"A\" length 2 4", "user type x", "user type xy",
                                   "response result 00 more")[0], verdict.PASSED)

    def test_no_profile(self):
        class Mute(undertest.InPython):
            def begin(self, player):
                pass

        self.assertEqual(self.told(Mute(), "command MORE TIME", "response result 00"), (verdict.FAILED, "no TERMINAL PROFILE comes", "sequence one"))

    def test_a_sequence_that_is_not_accepted(self):
        class Refuses(undertest.InPython):
            def accept(self, sequence):
                return False

        self.assertEqual(self.told(Refuses(), "command MORE TIME")[:2], (verdict.UNSUPPORTED, "the terminal doesn't accept it"))

    def test_within(self):
        """A response that comes later than it may."""
        class Slow(undertest.InPython):
            seconds = 5

            def poll(self):
                threading.Timer(0.5, super().poll).start()

        for line, kind in (("within 0", verdict.FAILED), ("within 4", verdict.PASSED)):
            class Link5(Link):
                def transmit(self, command):
                    if command[1] == decode.RESPONSE:
                        time.sleep(0.5)
                    return super().transmit(command)

            slow = Slow(lambda player: able_terminal.AbleTerminal(Link5(player, lambda command: [command])))
            self.assertEqual(self.told(slow, "command MORE TIME", line, "response result 00")[0], kind)


class OverApplets(unittest.TestCase):
    """Sequences over a card whose applets send commands of their own: these come first, and are the card's."""
    # rows of applets, what of their commands is told, and what is shown first
    CARDS = [
        ("row 0 1 014000", ["SET UP EVENT LIST", "DISPLAY TEXT"][1:]),
        ("row 1 1 00044D656E75", ["SET UP MENU"]),
        ("row 5 1 014000", ["GET INPUT"]),
        ("row 3 1 0203040000\nrow 0 1 014000", ["SET UP EVENT LIST", "DISPLAY TEXT"]),
        ("row 6 1 01400040064140014240021040040340094340070440064440014" "5", None),
    ]
    LINES = ("command DISPLAY TEXT qualifier 80 text A", "shown text A", "user ok", "response result 00", "command MORE TIME", "response result 00")

    def played(self, rows, terminal, lines=LINES, seconds=None):
        with Card.from_text(rows + "\nstart\n") as card:
            return verdict.judged(read(*lines)[0], terminal, card, seconds)

    def test_an_innocent_terminal_passes(self):
        for rows, names in self.CARDS:
            with self.subTest(rows=rows):
                outcome = self.played(rows, undertest.InPython())
                self.assertEqual((outcome.verdict, outcome.why), (verdict.PASSED, ""))
                if names is not None:
                    self.assertEqual(outcome.of_card, names)
                self.assertTrue(outcome.of_card)

    def test_what_the_card_shows_is_not_the_sequences(self):
        """The card's own text is no text of the sequence, and neither is its menu."""
        outcome = self.played("row 0 1 014000", undertest.InPython(), ("command MORE TIME", "shown text Hi", "response result 00"))
        self.assertEqual((outcome.verdict, outcome.why.partition(",")[0]), (verdict.FAILED, "nothing is shown"))
        self.assertEqual(outcome.of_card, ["DISPLAY TEXT"])

    def test_a_command_that_comes_in_between(self):
        """An entry of the card's menu is picked in a sequence: its applet asks, and the sequence goes on after that."""
        lines = ("command SET UP MENU title M item 2 B", "response result 00", "user pick 2", "envelope menu selection identifier 2",
                 "command DISPLAY TEXT qualifier 80 text A", "shown text A", "user ok", "response result 00")
        outcome = self.played("row 1 1 00044D656E75", undertest.InPython(), lines)
        self.assertEqual((outcome.verdict, outcome.why), (verdict.PASSED, ""))
        self.assertEqual(outcome.of_card, ["SET UP MENU", "SELECT ITEM"])

    def test_a_terminal_that_leaves_the_cards_command(self):
        """Nothing can be said of it, and the command is named."""
        class Away(undertest.InPython):
            def happen(self, said):
                raise undertest.Unable("nobody is there")

        outcome = self.played("row 0 1 014000", Away())
        self.assertEqual((outcome.verdict, outcome.why),
                         (verdict.INCONCLUSIVE, "the card's own command came first, DISPLAY TEXT, and the terminal doesn't answer it"))

        class NeverFetches(Link):
            def transmit(self, command):
                return Answer(b"", "9000") if command[1] == decode.FETCH else super().transmit(command)

        outcome = self.played("row 0 1 014000", undertest.InPython(lambda player: handset.Terminal(NeverFetches(player, lambda one: [one]))))
        self.assertEqual((outcome.verdict, outcome.why), (verdict.INCONCLUSIVE, "the card's own command came first, and the terminal doesn't fetch it"))

    def test_commands_without_an_end(self):
        """An applet that has the card reset whenever the terminal tells its profile."""
        outcome = self.played("row 6 1 0140004001414005" "04", undertest.InPython())
        self.assertEqual((outcome.verdict, outcome.why.partition(": ")[0]),
                         (verdict.INCONCLUSIVE, "the card's own commands came first, and have no end"))

    def test_a_stray_response_still_fails(self):
        class Twice(able_terminal.AbleTerminal):
            def _respond(self, reply, details=None):
                kept = details or self.held.details
                answer = super()._respond(reply, details)
                self._send(handset.with_data(decode.RESPONSE, handset.response_to(kept, reply)))
                return answer

        outcome = self.played("row 1 1 00044D656E75", undertest.InPython(Twice), ("command MORE TIME", "response result 00"))
        self.assertEqual((outcome.verdict, outcome.why),
                         (verdict.FAILED, "a TERMINAL RESPONSE comes for SET UP MENU, number 1, which was answered already"))

    def test_those_in_the_box(self):
        """Over a card that greets, watches and has a menu the able terminal passes all that it passes over one without applets."""
        rows = "row 0 1 014000\nrow 1 2 00044D656E75\nrow 5 3 014000\nstart\n"
        found = [one for one in in_the_box() if not any(isinstance(step, Quiet) or isinstance(step, Tell) for step in one.steps)]
        self.assertGreater(len(found), 80)
        for one in found:
            with self.subTest(name=one.name), Card.from_text(rows) as card:
                outcome = verdict.judged(one, undertest.InPython(able_terminal.AbleTerminal), card)
                self.assertEqual((outcome.verdict, outcome.why), (verdict.PASSED, ""))


class Tool(unittest.TestCase):
    """The command, over the proved card."""

    def put(self, folder, *lines):
        path = os.path.join(folder, "a.sequence")
        with open(path, "w", encoding="utf-8") as out:
            out.write("".join(line + "\n" for line in lines))
        return path

    PASSES = ("sequence it passes", "section 27.22.4.1", "command DISPLAY TEXT qualifier 80 text \"A\"", "user ok", "response result 00")
    FAILS = ("sequence it fails", "command DISPLAY TEXT qualifier 80 text \"A\"", "user back", "response result 00|01 text any")
    NOT_FOR_IT = ("sequence it can't", "command POLLING OFF", "response result 00")
    NOT_DONE = ("sequence it isn't done", "command GET INKEY qualifier 01 text \"A\"", "user help", "response result 13")

    def test_what_is_told(self):
        with tempfile.TemporaryDirectory() as folder:
            path = self.put(folder, *self.PASSES, *self.FAILS, *self.NOT_FOR_IT, *self.NOT_DONE)
            done = tool(path, "--table", "--junit", os.path.join(folder, "report.xml"), "--trace", os.path.join(folder, "traces"))
            self.assertEqual((done.returncode, done.stderr), (1, ""))
            for part in (
                    f"FAILED  {path}:6: it fails\n    line 9, `response result 00|01 text any`: the TERMINAL RESPONSE isn't as it must be\n",
                    "* result: 00 or 01                                      result: 11 backward move requested by the user\n",
                    "* text: *                                               (nothing)\n",
                    "NOT SUPPORTED  ", "its terminal profile doesn't have POLLING OFF", "INCONCLUSIVE  ", "its user can't `help`",
                    "DISPLAY TEXT  80 normal priority, cleared by the user  00 done                                        27.22.4.1  1          1\n",
                    "80 normal priority, cleared by the user  00 done or 01 done with partial comprehension  ",
                    "4 sequences on the handset in Python: 1 passed, 1 failed, 1 inconclusive, 1 not supported"):
                self.assertIn(part, done.stdout)
            suite = xml.etree.ElementTree.parse(os.path.join(folder, "report.xml")).getroot()
            self.assertEqual([suite.get(name) for name in ("tests", "failures", "skipped")], ["4", "1", "2"])
            self.assertEqual([[child.tag for child in case] for case in suite], [[], ["failure"], ["skipped"], ["skipped"]])
            self.assertIn("backward move requested by the user", suite[1][0].text)
            # where it failed, the same on each machine, and why in a line
            self.assertEqual([(case.get("classname"), case.get("file"), case.get("line")) for case in suite], [("a.sequence", "a.sequence", line) for line in ("1", "9", "10", "15")])
            self.assertEqual(suite[1][0].get("message"), "line 9, `response result 00|01 text any`: the TERMINAL RESPONSE isn't as it must be: result must be "
                             "00 or 01 and is 11 backward move requested by the user")
            with open(os.path.join(folder, "traces", "001-it-passes.trace"), encoding="utf-8") as trace:
                lines = trace.read().splitlines()
            self.assertEqual(lines[4:7], ["* player: this is answered by the card, but for its status", "> 80F2000C", "< 910F"])
            self.assertIn("* player: this is answered by the player", lines)
            self.assertEqual(subprocess.run([sys.executable, "-B", os.path.join(TOOLS, "explain"), "-"], input="\n".join(lines) + "\n", text=True,
                                            capture_output=True, check=False).returncode, 0)

    def test_what_is_known(self):
        """A run is compared with an earlier one, whose verdicts are in its TAP."""
        with tempfile.TemporaryDirectory() as folder:
            path, known = self.put(folder, *self.PASSES, *self.FAILS, *self.NOT_FOR_IT), os.path.join(folder, "known.tap")
            with open(known, "w", encoding="utf-8") as out:
                out.write(tool(path, "--tap").stdout)
            same = tool(path, "--known", known)
            with open(known, encoding="utf-8") as text:
                told = text.read()
            with open(known, "w", encoding="utf-8") as out:
                out.write(told.replace("not ok 2", "ok 2"))
            other = tool(path, "--known", known)
            nothing = tool(path, "--known", path)
        self.assertEqual((same.returncode, same.stdout.splitlines()[-1]), (0, "all verdicts as before"))
        self.assertEqual((other.returncode, other.stdout.splitlines()[-2:]),
                         (1, [f"{path}:6: it fails: failed, and passed before", "1 verdict other than before"]))
        self.assertEqual((nothing.returncode, nothing.stderr), (2, f"sequence: {path} has no verdict of a sequence: --tap prints them\n"))

    def test_words(self):
        """All words of a file, a list each."""
        done = tool("--words")
        self.assertEqual((done.returncode, done.stderr), (0, ""))
        for part in ("commands (one that has no name is written by its type, as `command 6F`):\n    REFRESH,", "objects:\n    command-details or details, result,", "needs (or a bit"):
            self.assertIn(part, done.stdout)

    def test_the_page_shows_objects(self):
        """Each example of an object in docs/SEQUENCES.md is read."""
        with open(os.path.join(process.TOP, "docs", "SEQUENCES.md"), encoding="utf-8") as text:
            table = re.search(r"\| object \| as in \|\n\|---\|---\|\n((?:\|.*\n)+)", text.read())[1]
        # the right column has what is written, and words for a part of it
        shown = [example for row in table.splitlines() for example in re.findall("`([^`]*)`", row.split(" | ")[1]) if " " in example and "TAG" not in example]
        self.assertGreater(len(shown), 25)
        for example in shown:
            with self.subTest(example=example):
                words = wording.Words(example)
                wording.read_object(words)
                self.assertFalse(words)

    def test_the_page_has_all_words(self):
        """docs/SEQUENCES.md lists what the source has: commands, objects with the shorter words, devices, envelopes, events and the names for `needs`."""
        with open(os.path.join(process.TOP, "docs", "SEQUENCES.md"), encoding="utf-8") as text:
            page = text.read()
        lists = dict(part.replace("\n", " ").strip(".").split(": ", 1) for part in page.partition("## All words\n")[2].partition("\n## ")[0].strip().split("\n\n")[1:])
        words = names.table("toolkit")["event_words"]
        listed = {title: [re.findall("`([^`]*)`", item) for item in re.split(r", (?=`[^`]*`(?: \(|,|$))", items)] for title, items in lists.items()}
        self.assertEqual(listed["Objects, each with the shorter words for it"], [one.split() for one, _, _ in wording.READ_AS])
        for title, known in (("Commands", sequence.COMMANDS), ("Envelopes", sequence.ENVELOPES), ("Events", words),
                             ("Names for `needs`", sorted(sequence.known_profile()))):
            self.assertEqual([name for (name,) in listed[title]], list(known), title)
        devices = lists["Devices"].replace("`", "").replace("reader0 to reader7", ", ".join(f"reader{n}" for n in range(8))).replace(
            "channel1 to channel7", ", ".join(f"channel{n}" for n in range(1, 8)))
        self.assertEqual(devices.split(", "), list(wording.DEVICES))

    def test_long_texts(self):
        """Of two long texts what stands around the place from which they differ is shown."""
        command = load("sequence")
        one, other = (command.beside("text: " + "a" * 100 + end + "b" * 100, "text: " + "a" * 100 + "b" * 100) for end in ("", "c"))
        self.assertEqual((one[0][0], one[1]), (one[0][1], None))
        self.assertEqual(other, ([".." + "a" * 16 + "c" + "b" * 31 + "..", ".." + "a" * 16 + "b" * 32 + ".."], 107))
        with tempfile.TemporaryDirectory() as folder:
            text = "x" * 100
            path, report = self.put(folder, "sequence it types", "command GET INPUT qualifier 01 text \"A\" length 0 200", "user type " + "x" * 30,
                                    f"response result 00 text \"{'x' * 29}{text}\""), os.path.join(folder, "report.xml")
            done = tool(path, "--junit", report)
            suite = xml.etree.ElementTree.parse(report).getroot()
        for told in (done.stdout, suite[0][0].text):
            self.assertIn("\n        they differ from character 31 of the text on\n", told + "\n")

    def test_a_command_without_a_response(self):
        with tempfile.TemporaryDirectory() as folder:
            path = self.put(folder, "sequence it forgets", "command DISPLAY TEXT qualifier 80 text A")
            done = tool(path)
            wide = tool(self.put(folder, "sequence it takes any", "command DISPLAY TEXT qualifier 80 text A", "user back", "response any"), "--table")
        self.assertEqual((done.returncode, done.stderr), (2, f"sequence: {path}:2: no `response` stands after this command: `response result 00`, say, or "
                                                          "`response any` where every one will do\n    command DISPLAY TEXT qualifier 80 text A\n"))
        self.assertEqual(wide.returncode, 0, wide)
        self.assertIn("80 normal priority, cleared by the user  any ", wide.stdout)

    def test_bad_words(self):
        """Each bad line is told with the tool's name before it, and the way to the words that there are once."""
        with tempfile.TemporaryDirectory() as folder:
            done = tool(self.put(folder, "sequence bad", "command SHOW TEXT", "command MORE TIME alpah \"A\"", "shown"))
        heads = [line for line in done.stderr.splitlines() if not line.startswith(" ")]
        self.assertEqual((done.returncode, len(heads)), (2, 4))
        self.assertTrue(all(line.startswith("sequence: ") for line in heads), heads)
        self.assertIn("`alpah` is no object: is `alpha` meant?", heads[1])
        self.assertIn("`tools/sequence --words` prints all words", heads[3])
        self.assertLess(max(map(len, heads)), 260)

    def test_as_a_program(self):
        with tempfile.TemporaryDirectory() as folder:
            words = [sys.executable, "-B", os.path.join(TOOLS, "sequence"), self.put(folder, *self.PASSES)]
            done = subprocess.run(words, capture_output=True, text=True, timeout=300, check=False)
        self.assertEqual((done.returncode, done.stdout, done.stderr),
                         (0, "1 sequence on the handset in Python: 1 passed, 0 failed, 0 inconclusive, 0 not supported\n", ""))

    def test_the_cause_of_a_result(self):
        """It is at the end of what is shown, and isn't cut off."""
        with tempfile.TemporaryDirectory() as folder:
            done = tool(self.put(folder, "sequence one", "command SET UP CALL address 123", "response result 00"),
                        *self.own(folder, "def begin(self, player):", "    from uicc.handset import Reply, Terminal",
                                  "    self.make = lambda card: Terminal(card, answers={'SET UP CALL': Reply(bytes.fromhex('219D'))}, profile=b'\\xFF' * 20)",
                                  "    super().begin(player)"))
        self.assertIn("result: 21 network currently unable to process command, 9D", done.stdout)

    def test_a_table_in_the_protocol(self):
        """Its lines are comments there."""
        with tempfile.TemporaryDirectory() as folder:
            lines = tool(self.put(folder, *self.PASSES), "--tap", "--table").stdout.splitlines()
        self.assertEqual(lines[:3], ["TAP version 13", "1..1", "ok 1 - it passes"])
        self.assertRegex(lines[3], "^# command +qualifier")
        self.assertEqual([line for line in lines[3:] if not line.startswith("# ")], [])

    def test_a_command_without_details(self):
        with tempfile.TemporaryDirectory() as folder:
            done = tool(self.put(folder, "sequence one", "command MORE TIME without details", "response any"), "--table")
        self.assertIn("\n(no details)  ", done.stdout)
        self.assertNotIn("type 00", done.stdout)

    def test_beyond_the_profile(self):
        """What the terminal's profile doesn't have is played where that is asked for, to see what is answered."""
        with tempfile.TemporaryDirectory() as folder:
            path = self.put(folder, "sequence one", "command POLLING OFF", "response result 31")
            for words, verdict in (((), "0 passed, 0 failed, 0 inconclusive, 1 not supported"), (("--beyond",), "1 passed, 0 failed, 0 inconclusive, 0 not supported")):
                with self.subTest(words=words):
                    self.assertEqual(tool(path, *words).stdout.splitlines()[-1], f"1 sequence on the handset in Python: {verdict}")

    def test_the_protocol(self):
        with tempfile.TemporaryDirectory() as folder:
            done = tool(self.put(folder, *self.PASSES, *self.FAILS, *self.NOT_FOR_IT), "--tap")
        lines = [line for line in done.stdout.splitlines() if not line.startswith("#")]
        self.assertEqual(lines, ["TAP version 13", "1..3", "ok 1 - it passes", "not ok 2 - it fails",
                                 "ok 3 - it can't # SKIP not supported: its terminal profile doesn't have POLLING OFF"])

    def test_what_a_class_prints(self):
        """It is no part of the protocol."""
        with tempfile.TemporaryDirectory() as folder:
            on = self.own(folder, "print('made')", "def poll(self):", "    print('polled')", "    super().poll()", "def close(self):", "    print('closed')")
            done = tool(self.put(folder, *self.PASSES), *on, "--tap")
            self.assertEqual((done.returncode, done.stdout), (0, "TAP version 13\n1..1\nok 1 - it passes\n"))
            self.assertEqual(done.stderr, "made\npolled\nclosed\n")

    def test_the_step_of_an_inconclusive_one(self):
        """It stands in the reports too."""
        with tempfile.TemporaryDirectory() as folder:
            path, why = self.put(folder, *self.NOT_DONE), "inconclusive: line 3, `user help`: its user can't `help`"
            done = tool(path, "--tap", "--junit", os.path.join(folder, "report.xml"))
            self.assertEqual(done.stdout.splitlines()[-1], f"ok 1 - it isn't done # SKIP {why}")
            self.assertEqual(self.kinds(folder), [[why]])

    def test_statuses(self):
        with tempfile.TemporaryDirectory() as folder:
            for lines, status in ((self.PASSES, 0), (self.FAILS, 1), (self.NOT_FOR_IT, 0), (self.NOT_DONE, 3)):
                self.assertEqual(tool(self.put(folder, *lines)).returncode, status, lines)
            path = self.put(folder, *self.PASSES, *self.FAILS)
            self.assertEqual(tool(path, "--only", "passes").returncode, 0)

    def own(self, folder, *lines):
        """A class of one's own, as the words that name it: that of the handset in Python with these lines more."""
        with open(os.path.join(folder, "own.py"), "w", encoding="utf-8") as out:
            out.write("from uicc.undertest import InPython, Lost, UnderTest\nclass Own(InPython):\n" + "".join(f"    {line}\n" for line in lines))
        return "--on", os.path.join(folder, "own.py") + ":Own"

    def kinds(self, folder):
        """The cases in the report: what is said of each."""
        suite = xml.etree.ElementTree.parse(os.path.join(folder, "report.xml")).getroot()
        return [[child.get("message") for child in case] for case in suite]

    WHY = ("line 9, `response result 00|01 text any`: the TERMINAL RESPONSE isn't as it must be: result must be 00 or 01 and is 11 backward move "
           "requested by the user")

    def test_verdicts_before_a_complaint(self):
        """A terminal that can't be closed: of the sequences it is told all the same."""
        for text, why in (("raise OSError('stuck')", "the terminal can't be closed: OSError: stuck, at "),
                          ("raise BaseException('stuck')", "the terminal can't be closed: BaseException: stuck, at "),
                          ("while True: pass", "the terminal can't be closed: it did not come back within ")):
            with self.subTest(text=text), tempfile.TemporaryDirectory() as folder, unittest.mock.patch.object(verdict, "USUAL_SECONDS", 1):
                path, on = self.put(folder, *self.PASSES, *self.FAILS), self.own(folder, "def close(self):", "    " + text)
                done = tool(path, *on, "--junit", os.path.join(folder, "report.xml"))
                self.assertEqual((done.returncode, done.stderr.count("\n")), (2, 1))
                self.assertIn(why, done.stderr)
                self.assertIn("2 sequences on the handset in Python: 1 passed, 1 failed", done.stdout)
                self.assertEqual(self.kinds(folder), [[], [self.WHY]])
                self.assertIn("ok 1 - it passes\nnot ok 2 - it fails\n", tool(path, *on, "--tap").stdout)

    def test_places_that_cannot_be_written(self):
        """They are refused before anything is played."""
        with tempfile.TemporaryDirectory() as folder:
            path, on = self.put(folder, *self.FAILS), self.own(folder, "def begin(self, player):", "    raise AssertionError('it is played')")
            for words in (("--junit", os.path.join(folder, "none", "x.xml")), ("--junit", folder), ("--trace", path)):
                with self.subTest(words=words):
                    done = tool(path, *on, *words)
                    self.assertEqual((done.returncode, done.stdout), (2, ""))
                    self.assertIn(words[1], done.stderr)
            # nothing is left of a report where there was no terminal
            report = os.path.join(folder, "report.xml")
            self.assertEqual(tool(path, "--on", "telephone", "--junit", report).returncode, 2)
            self.assertFalse(os.path.exists(report))

    def test_names_that_are_there_twice(self):
        """The verdicts of two files' sequences of one name are told apart by their order; where one of them isn't played, nothing is known."""
        lines = ("command MORE TIME", "response result {}")
        with tempfile.TemporaryDirectory() as folder:
            one, other, known = (os.path.join(folder, name) for name in ("1.sequence", "2.sequence", "known.tap"))

            def put(path, result):
                with open(path, "w", encoding="utf-8") as out:
                    out.write("\n".join(("sequence a", *lines)).format(result) + "\n")
            put(one, "00")
            put(other, "30")
            with open(known, "w", encoding="utf-8") as out:
                out.write(tool(one, other, "--tap").stdout)
            self.assertEqual(tool(one, other, "--known", known).returncode, 0)
            for words, told in (((other, one), [f"{other}:1: a: failed, and passed before", f"{one}:1: a: passed, and failed before"]),
                                ((one,), [f"{one}:1: a: passed, and 2 sequences of this name before"])):
                done = tool(*words, "--known", known)
                self.assertEqual(done.returncode, 1)
                for line in told:
                    self.assertIn(line + "\n", done.stdout)
            put(one, "31")
            done = tool(one, other, "--known", known)
            self.assertEqual(done.returncode, 1)
            self.assertIn(f"{one}:1: a: failed, and passed before\n1 verdict other than before\n", done.stdout)

    def test_files_that_are_read_alone(self):
        """Nothing is played: there is no terminal."""
        with tempfile.TemporaryDirectory() as folder:
            path = self.put(folder, *self.PASSES, *self.FAILS)
            done = tool(path, "--read", "--on", "nobody")
            self.assertEqual((done.returncode, done.stdout), (0, "2 sequences, and no line is bad\n"))
            path = self.put(folder, *self.PASSES, "usr ok")
            self.assertEqual(tool(path, "--read").returncode, 2)

    def test_what_is_known_and_not_played(self):
        with tempfile.TemporaryDirectory() as folder:
            path, known = self.put(folder, *self.PASSES, *self.FAILS), os.path.join(folder, "known.tap")
            with open(known, "w", encoding="utf-8") as out:
                out.write(tool(path, "--tap").stdout)
            done = tool(path, "--only", "passes", "--known", known)
            self.assertEqual(done.returncode, 0)
            self.assertIn("\n1 sequence of before not among these: it fails\nall verdicts as before\n", done.stdout)

    def test_a_class_with_a_neighbour(self):
        """It is imported as beside a program."""
        with tempfile.TemporaryDirectory() as folder:
            path = self.put(folder, *self.PASSES)
            with open(os.path.join(folder, "base_of_own.py"), "w", encoding="utf-8") as out:
                out.write("from uicc.undertest import InPython\nclass Base(InPython):\n    pass\n")
            with open(os.path.join(folder, "with_base.py"), "w", encoding="utf-8") as out:
                out.write("from base_of_own import Base\nclass Own(Base):\n    pass\n")
            with unittest.mock.patch.object(sys, "path", list(sys.path)):
                self.assertEqual(tool(path, "--on", os.path.join(folder, "with_base.py") + ":Own").returncode, 0)

    def test_what_is_read_is_not_written_over(self):
        """A report's place is none of what it is made of: the sequences, the card, the known verdicts and the class stay as they are."""
        with tempfile.TemporaryDirectory() as folder:
            path, (_, on) = self.put(folder, *self.PASSES), self.own(folder, "pass")
            known, card, link = (os.path.join(folder, name) for name in ("known.tap", "card.script", "link.xml"))
            for name, text in ((known, tool(path, "--tap").stdout), (card, "".join(line + "\n" for line in open_lines(USIM)))):
                with open(name, "w", encoding="utf-8") as out:
                    out.write(text)
            os.symlink(path, link)
            for words in ((path, path), (folder, path), (path, link), (path, known, "--known", known), (path, card, "--card", card),
                          (path, on.rpartition(":")[0], "--on", on)):
                given, report, *more = words
                with self.subTest(words=words):
                    before = open_lines(report)
                    done = tool(given, "--junit", report, *more)
                    self.assertEqual((done.returncode, done.stdout, done.stderr),
                                     (2, "", f"sequence: nothing is written: {report} is what this is made of, and would be lost: the result goes to another file\n"))
                    self.assertEqual(open_lines(report), before)

    def test_an_interruption(self):
        """What was played is told, and of what is left that it wasn't."""
        lines = ("def poll(self):", "    if self.player.card.is_second:", "        raise KeyboardInterrupt", "    super().poll()", "played = 0",
                 "def begin(self, player):", "    self.player, Own.played = player, Own.played + 1", "    player.card.is_second = Own.played == 2",
                 "    super().begin(player)")
        with tempfile.TemporaryDirectory() as folder:
            path, on = self.put(folder, *self.PASSES, *self.FAILS, *self.NOT_DONE), self.own(folder, *lines)
            done = tool(path, *on, "--junit", os.path.join(folder, "report.xml"), "--trace", folder)
            self.assertEqual(done.returncode, 2)
            self.assertRegex(done.stderr, r"^sequence: interrupted, at \S+own.py:5 \(1 of 3 sequences weren't played\)\n$")
            self.assertIn("3 sequences on the handset in Python: 1 passed, 0 failed, 2 inconclusive, 0 not supported", done.stdout)
            told = self.kinds(folder)
            self.assertEqual(told[0], [])
            self.assertIn("inconclusive: not played: interrupted, at ", told[2][0])
            self.assertEqual(sorted(name for name in os.listdir(folder) if name.endswith(".trace")), ["001-it-passes.trace", "002-it-fails.trace"])

    def test_how_long_a_class_may_take(self):
        """`--seconds` is also for its making and its end."""
        slow = "    import time; time.sleep(5)"
        for method, more in (("__init__(self)", ()), ("close(self)", ()), ("close(self)", ("seconds = 60",))):
            with self.subTest(method=method, more=more), tempfile.TemporaryDirectory() as folder:
                done = tool(self.put(folder, *self.PASSES), *self.own(folder, *more, f"def {method}:", slow), "--seconds", "1")
                self.assertEqual(done.returncode, 2)
                self.assertIn(": it did not come back within 1 second, from ", done.stderr)

    def test_values_of_a_class(self):
        """What a class says of itself is looked at before anything is played."""
        for line, why in (("seconds = 'ten'", "`seconds` is a number of seconds from 0 on, and not 'ten'"),
                          ("seconds = None", "`seconds` is a number of seconds from 0 on, and not None"),
                          ("seconds = -3", "`seconds` is a number of seconds from 0 on, and not -3"),
                          ("seconds = float('nan')", "`seconds` is a number of seconds from 0 on, and not nan"),
                          ("longest = 'x'", "`longest` is a number of seconds from 0 on, and not 'x'"),
                          ("name = 7", "`name` is one line of text, and not 7"),
                          ("name = 'a\\n\\x1b[31mb'", "`name` is one line of text, and not 'a\\n\\x1b[31mb'")):
            with self.subTest(line=line), tempfile.TemporaryDirectory() as folder:
                done = tool(self.put(folder, *self.PASSES), *self.own(folder, line))
                self.assertEqual((done.returncode, done.stdout), (2, ""))
                self.assertIn("can't be had: " + why, done.stderr)
        changed = type("Own", (undertest.InPython,), {"seconds": 0})()
        changed.seconds = "ten"
        outcome = verdict.judged(read("command MORE TIME")[0], changed, Obliging())
        self.assertEqual((outcome.verdict, outcome.why),
                         (verdict.FAILED, "the terminal's class is wrong: `seconds` is a number of seconds from 0 on, and not 'ten'"))

    def test_refusals(self):
        with tempfile.TemporaryDirectory() as folder:
            good, own = self.put(folder, *self.PASSES), os.path.join(folder, "own.py")
            with open(own, "w", encoding="ascii") as out:
                out.write("class No:\n    pass\n")
            with open(os.path.join(folder, "broken.py"), "w", encoding="ascii") as out:
                out.write("import nothing_of_that_name\n")
            with open(os.path.join(folder, "ends.py"), "w", encoding="ascii") as out:
                out.write("from uicc.undertest import InPython\nclass Ends(InPython):\n    def close(self):\n        return 1 / 0\n")
            with open(os.path.join(folder, "made.py"), "w", encoding="ascii") as out:
                out.write("from uicc.undertest import InPython\nclass Made(InPython):\n    def __init__(self, port):\n        pass\n")
            with open(os.path.join(folder, "bytes.sequence"), "wb") as out:
                out.write(b"sequence \xFF\n")
            for words, why in (
                    ((os.path.join(folder, "none"),), "no file is there"), ((folder + "/own.py",), "own.py:1: no line begins with `class`"),
                    ((os.path.join(folder, "bytes.sequence"),), "/bytes.sequence: the file is no text in UTF-8: the byte FF stands in line 1, at 10\n"),
                    ((os.path.join(folder, "no.d"),), "no file is there"), ((good, "--only", "never"), "no sequence has `never` in its name"),
                    ((good, "--on", "telephone"), "no terminal is called telephone: python, phone, ofono, modem, reader, or FILE.py:CLASS"),
                    ((good, "--on", "modem:70000"), "a port is 0 to 65535, and not 70000"), ((good, "--on", "reader:x"), "a port is 0 to 65535, and not x"),
                    ((good, "--on", own + ":No"), "has no class No that is an UnderTest"),
                    ((good, "--on", own + ":None"), "has no class None"), ((good, "--on", folder + "/x.py:Y"), "/x.py: no file is there"),
                    ((good, "--on", folder + "/broken.py:Y"), "can't be loaded: ModuleNotFoundError"),
                    ((good, "--on", folder + "/broken.py:Y"), "broken.py:1\n"), ((good, "--on", folder + "/made.py:Made"), "can't be made: TypeError"),
                    ((good, "--on", folder + "/made.py:Made"), "made.py:3\n"),
                    ((good, "--on", folder + "/ends.py:Ends"), "the terminal can't be closed: ZeroDivisionError: division by zero, at "),
                    ((good, "--card", os.path.join(folder, "none")), "no file is there"), ((good, "--card", good), "is a file of sequences: tools/sequence plays it"),
                    ((good, "--seconds", "x"), "N is a number of seconds above 0 and below 1000, and not x"),
                    ((good, "--seconds", "-1"), "below 1000, and not -1"), ((good, "--seconds", "0"), "below 1000, and not 0"),
                    ((good, "--seconds", "1e2"), "below 1000, and not 1e2"), ((good, "--seconds", "nan"), "below 1000, and not nan")):
                with self.subTest(words=words):
                    done = tool(*words)
                    self.assertEqual(done.returncode, 2)
                    self.assertIn(why, done.stderr)
                    self.assertNotIn("Traceback", done.stderr)

    def test_those_in_the_box(self):
        """What the handset passes, and what it doesn't."""
        done = tool(IN_THE_BOX)
        self.assertRegex(done.stdout, "138 sequences on the handset in Python: 88 passed, 16 failed, 0 inconclusive, 34 not supported")


if __name__ == "__main__":
    unittest.main()
