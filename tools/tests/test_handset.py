"""The handset in Python: over the proved card it is that of `phone`, and a test chooses what it can do and what it answers."""
import os
import re
import tempfile
import unittest

import fuzz_terminal
import common  # noqa: F401 (the path)
from uicc import Answer, Card, CardError, Reply, Terminal, handset, process
from uicc.grammar import Wrong

EXAMPLES = os.path.join(process.TOP, "examples")
MENU, DAY = (os.path.join(EXAMPLES, name + ".script") for name in ("menu", "day"))


class Giver:
    """Stands in for a card: it gives proactive commands, one after the other, and takes whatever is answered."""

    def __init__(self, *commands):
        self.commands, self.trace, self.responses = [bytes.fromhex(command) for command in commands], [], []

    def status(self):
        return f"91{len(self.commands[0]):02X}" if self.commands else "9000"

    def transmit(self, command):
        if command[1] == 0x12:
            return Answer(self.commands.pop(0), "9000")
        if command[1] == 0x14:
            self.responses.append(command[5:].hex().upper())
        return Answer(b"", self.status())

    def reset(self):
        self.trace.append("! reset")


class OverTheCard(unittest.TestCase):
    def test_traces_are_those_of_phone(self):
        wrong, lines = fuzz_terminal.compared(range(5000, 5060), 2)
        self.assertEqual(wrong, [])
        self.assertGreater(lines, 1500)

    def test_a_day(self):
        """The example that has most of what a handset does."""
        with Card(DAY) as card, open(DAY.replace(".script", ".trace"), encoding="ascii") as trace:
            terminal = Terminal(card)
            terminal.start()
            for line in process.card_section(process.lines_of(DAY))[1]:
                terminal.line(line)
            self.assertEqual(card.trace, trace.read().splitlines())

    def test_calls_for_what_happens(self):
        """The calls are the lines of a script: where both are given, both show the same."""
        calls = ((lambda one: one.ok(), "user ok"), (lambda one: one.pick(2), "user pick 2"), (lambda one: one.end(), "user end"),
                 (lambda one: one.back(), "user back"), (lambda one: one.none(), "user none"), (lambda one: one.press(), "user press"),
                 (lambda one: one.idle(), "user idle"), (lambda one: one.type("Hi"), "user type Hi"), (lambda one: one.poll(), "net poll"),
                 (lambda one: one.dial("123"), "user dial 123"), (lambda one: one.tell_place("00F110"), "net place 00F110"),
                 (lambda one: one.wait(300), "time 300"), (lambda one: one.reset(), "reset"))
        with Card(DAY) as card, Card(DAY) as other:
            by_calls, by_lines = Terminal(card), Terminal(other)
            by_calls.start()
            by_lines.start()
            for call, line in calls:
                call(by_calls)
                by_lines.line(line)
                self.assertEqual(card.trace, other.trace, line)
            self.assertGreater(len(card.trace), 40)

    def test_over_an_image(self):
        """`phone` makes a new card, and a Terminal takes up the one that an image holds."""
        with tempfile.TemporaryDirectory() as folder:
            path = os.path.join(folder, "card.img")
            script = os.path.join(folder, "note.script")
            with open(script, "w", encoding="ascii") as out:
                out.write("row 5 3 0140044E6F7465\nstart\n")
            with Card(script, path) as card:
                terminal = Terminal(card)
                terminal.start()
                terminal.type("Milk")
            with Card(image=path) as card:
                Terminal(card).start()
                self.assertIn("* text Milk", card.trace)

    def test_wrong_lines(self):
        with Card(MENU) as card:
            terminal = Terminal(card)
            terminal.start()
            for line, why in (("user yes", "`yes` is nothing that a user does"), ("apdu 00", "for no handset"), ("ef 2FE2 t 1 - -", "for no handset")):
                with self.assertRaisesRegex(Wrong, why):
                    terminal.line(line)

    def test_what_the_profile_has(self):
        """Without GET INPUT in the profile the card's note isn't asked for."""
        script = "row 5 3 0140044E6F7465\nstart\n"
        with tempfile.TemporaryDirectory() as folder:
            path = os.path.join(folder, "note.script")
            with open(path, "w", encoding="ascii") as out:
                out.write(script)
            for profile, asked in (("2900BF6171000013", True), ("2900BB6171000013", False)):
                with Card(path) as card:
                    Terminal(card, profile).start()
                    self.assertEqual("* ask Note?" in card.trace, asked, profile)

    def test_answers_that_are_chosen(self):
        for reply, answered in ((handset.BUSY, "83022001"), (handset.BEYOND, "830130"), (handset.ENDED, "830110"),
                                (Reply(b"\x00", bytes.fromhex("840100")), "830100840100")):
            with Card(MENU) as card:
                terminal = Terminal(card, answers={"DISPLAY TEXT": reply})
                terminal.start()
                self.assertNotIn("* text Hi", card.trace)
                responses = [line for line in card.trace if line.startswith("> 8014")]
                self.assertTrue(responses[-1].endswith("218082028281" + answered), responses[-1])
                # and as the handset does it, once it is chosen no more
                del terminal.answers["DISPLAY TEXT"]
                terminal.reset()
                self.assertIn("* text Hi", card.trace)


    def test_answers_that_are_none(self):
        """A name that no command has, and what is no Reply, are told as soon as they are given."""
        for name, reply, fault, why in (("DISPLAY TXT", handset.BUSY, ValueError, "no command is called 'DISPLAY TXT': is 'DISPLAY TEXT' meant?"),
                                        (0x21, handset.BUSY, ValueError, "no command is called 33"), ("DISPLAY TEXT", 5, TypeError, "answered by a Reply")):
            with self.subTest(name=name), Card(MENU) as card:
                with self.assertRaisesRegex(fault, re.escape(why)):
                    Terminal(card, answers={name: reply})
                terminal = Terminal(card)
                with self.assertRaisesRegex(fault, re.escape(why)):
                    terminal.answers[name] = reply
        self.assertEqual(list(handset.Answers({"type 6F": handset.BUSY})), ["type 6F"])

    # a call, and why what it is given can't be
    NONE = [
        ("type", 5, "what is typed is a text of printable characters of ASCII, and not 5"), ("type", "Gr\u00fc\u00dfe", "printable characters of ASCII"),
        ("pick", "2", "an item is a number from 1 to 255, and not '2'"), ("pick", 0, "an item is a number from 1 to 255, and not 0"),
        ("dial", 123, "what is dialled is a text of 1 to 20 decimal digits, and not 123"), ("dial", "+123", "decimal digits, and not '+123'"),
        ("wait", -1, "how many seconds pass is a number from 0 to 999999999, and not -1"), ("wait", "1", "and not '1'"),
        ("tell_place", "", "a location has 1 to 32 bytes, and not 0"), ("tell_place", bytes(33), "1 to 32 bytes, and not 33"),
    ]

    def test_what_can_not_happen(self):
        """What is given to a call is told where it can't be, and nothing comes of it."""
        with Card(MENU) as card:
            terminal = Terminal(card)
            terminal.start()
            before, clock, place = list(card.trace), terminal.clock, terminal.place
            for name, given, why in self.NONE:
                with self.subTest(call=name, given=given), self.assertRaisesRegex(ValueError, re.escape(why)):
                    getattr(terminal, name)(given)
            self.assertEqual((card.trace, terminal.clock, terminal.place), (before, clock, place))

    def test_a_handset_that_is_not_on(self):
        """What happens at it before it is switched on is told as a mistake."""
        for act in (lambda terminal: terminal.pick(2), lambda terminal: terminal.ok(), lambda terminal: terminal.line("user press")):
            with Card(MENU) as card:
                terminal = Terminal(card)
                with self.assertRaisesRegex(CardError, "isn't switched on: `start\\(\\)` does so"):
                    act(terminal)
                terminal.start()
                act(terminal)


class WhatItReads(unittest.TestCase):
    # a command, and the data of the response after its devices
    COMMANDS = [
        ("D00F810301218082028102" + "8D0404486921", "", "held"),
        # a text in UCS2; another qualifier; another destination; no text; no devices; details of two bytes; a type that isn't there
        ("D00F810301218082028102" + "8D0408004100", "81030121808202828183" + "0132", None),
        ("D00F810301210082028102" + "8D0404486921", "81030121008202828183" + "0132", None),
        ("D00F810301218082028182" + "8D0404486921", "81030121808202828183" + "0132", None),
        ("D009810301218082028102", "81030121808202828183" + "0136", None),
        ("D00B8103012180" + "8D0404486921", "81030121808202828183" + "0136", None),
        ("D00E8102012182028102" + "8D0404486921", "81030000008202828183" + "0132", None),
        ("D009810301FE0082028182", "810301FE008202828183" + "0131", None),
        # no template; objects that are cut short
        ("D109810301020082028182", "81030000008202828183" + "0132", None),
        ("D00A810301020082028182", "81030000008202828183" + "0132", None),
        # items: two; one of length 0; eleven letters; none
        ("D012810301240082028182" + "8500" + "8F020141" + "8F0102", "", "held"),
        ("D010810301240082028182" + "8500" + "8F020141" + "8F00", "81030124008202828183" + "0132", None),
        ("D019810301240082028182" + "8500" + "8F0C01" + "41" * 11, "81030124008202828183" + "0132", None),
        ("D00B810301240082028182" + "8500", "81030124008202828183" + "0136", None),
        # an empty menu; a timer 9; hours of A
        ("D00D810301250082028182" + "8500" + "8F00", "81030125008202828183" + "0100", None),
        ("D00C810301270182028182" + "A40109", "81030127018202828183" + "0132", None),
        ("D011810301270082028182" + "A40101" + "A5030A0000", "81030127008202828183" + "0132", None),
        # an interval in minutes
        ("D00D810301030082028182" + "84020001", "81030103008202828183" + "0132", None),
    ]

    def test_commands(self):
        for raw, response, held in self.COMMANDS:
            with self.subTest(raw=raw):
                # its length is put right, but for the one that is wrong by intent
                content = bytes.fromhex(raw[4:])
                giver = Giver(raw if raw.startswith("D00A8103010200") else raw[:2] + f"{len(content):02X}" + raw[4:])
                terminal = Terminal(giver)
                terminal.start()
                self.assertEqual(giver.responses, [response] if response else [])
                self.assertEqual(terminal.held is not None, held == "held")

    def test_beyond_its_profile(self):
        giver = Giver("D009810301020082028182")
        Terminal(giver, "2900B7").start()
        self.assertEqual(giver.responses, ["810301020082028281830130"])

    def test_one_refresh_for_a_line(self):
        """A card that asks for a reset again and again gets one for each line."""
        giver = Giver(*["D009810301010482028182"] * 4)
        terminal = Terminal(giver)
        terminal.start()
        self.assertEqual(giver.trace, ["! reset"])
        self.assertEqual(giver.responses, ["81030101048202828183022000"] * 3)
        giver.commands = [bytes.fromhex("D009810301010482028182")]
        terminal.poll()
        self.assertEqual(giver.trace, ["! reset"] * 2)

    def test_an_end_to_what_one_line_sends(self):
        """A card that gives commands without end has no more of the handset than 65,535 commands."""
        class Endless(Giver):
            sent = 0

            def transmit(self, command):
                self.sent += 1
                return Answer(bytes.fromhex("D009810301020082028182") if command[1] == 0x12 else b"", "910B")

        giver = Endless()
        terminal = Terminal(giver)
        terminal.start()
        terminal.poll()
        self.assertEqual((giver.sent, terminal.is_silent), (65_535, True))


if __name__ == "__main__":
    unittest.main()
