"""Terminals under test that are other programs: the proved handset, programs of AT commands and of PC/SC, and oFono."""
import inspect
import itertools
import os
import socket
import struct
import threading
import unittest
import unittest.mock

import common  # noqa: F401 (the path)
from uicc import Answer, Card, Terminal, decode, grammar, handset, ofono, player, process, sending, sequence, undertest, undertest_modem, verdict
from uicc.undertest_modem import AtClient, OfOfono
from uicc.undertest_reader import OfReader

EXAMPLES = os.path.join(process.TOP, "examples")
IN_THE_BOX = os.path.join(EXAMPLES, "sequences")
USIM = os.path.join(EXAMPLES, "usim.script")
SECONDS = 30


def in_the_box(*names):
    found = []
    for name in sorted(os.listdir(IN_THE_BOX)):
        with open(os.path.join(IN_THE_BOX, name), encoding="utf-8") as text:
            found += sequence.read(text.read(), name)
    return found if not names else [one for one in found if one.name in names]


def verdicts(terminal, found, seconds=None):
    """The verdict and the reason of each sequence, by its name."""
    told = {}
    for one in found:
        with Card(USIM) as card:
            outcome = verdict.judged(one, terminal, card, seconds)
            told[one.name] = outcome.verdict, outcome.why
            terminal.end()
    return told


class TheHandset(unittest.TestCase):
    # the objects of a command, and the rows by which the card sends it
    ROWS = [
        (("DISPLAY TEXT qualifier 80 text A", "PLAY TONE tone 10"), ["row 6 1 014100410141410210"]),
        (("MORE TIME", "GET INKEY qualifier 01 text ?", "REFRESH qualifier 04"), ["row 6 1 01410041030041063F410504"]),
        (("PROVIDE LOCAL INFORMATION qualifier 03", "SET UP IDLE MODE TEXT text x"), ["row 6 1 0141004104034109" "78"]),
        (("DISPLAY TEXT qualifier 80 text \"Milk\"",), ["row 5 1 0140004D696C6B"]),
        (("GET INPUT qualifier 01 text \"Note?\" length 0 20",), ["row 5 1 014000"]),
        (("SET UP MENU title Menu item 1 A item 3 B",), ["row 0 1 000141", "row 2 1 000142"]),
        (("SET UP EVENT LIST events location",), ["row 6 1 010300"]),
        (("POLL INTERVAL duration 30 seconds",), ["row 6 1 014100"]),
        (("TIMER MANAGEMENT qualifier 00 timer 1 time 00:05:00",), ["row 2 1 014000"]),
        (("DISPLAY TEXT qualifier 00 text A",), None), (("DISPLAY TEXT qualifier 80 text AB icon 00 1",), None),
        (("DISPLAY TEXT qualifier 80 text \"Milk\"", "MORE TIME"), None), (("SET UP MENU title Menu item 3 A item 1 B",), None),
        (("SET UP MENU title Menu item none", "MORE TIME"), None), (("SET UP EVENT LIST events user-activity",), None),
        (("SET UP EVENT LIST events none",), None), (("REFRESH qualifier 01",), None), (("bytes D0",), None), (("FE",), None),
    ]

    def test_rows_that_send_commands(self):
        for commands, rows in self.ROWS:
            with self.subTest(commands=commands):
                lines = "".join(f"command {one}\n" for one in commands)
                found = sequence.read("sequence one\n" + lines, "a")[0].commands()
                self.assertEqual(sending.rows_for([one.raw for one in found]), rows)

    def test_what_no_applet_sends(self):
        """It is told with all that the command says: its type alone may be one that applets send."""
        given = sequence.read("sequence one\ncommand SET UP MENU title LargeMenu1 item 1 A\nresponse result 00\n", "a.sequence")
        (told,) = verdicts(undertest.OfPhone(), given).values()
        self.assertEqual(told, (verdict.UNSUPPORTED, "no applet sends this command as it stands here: SET UP MENU with the qualifier 00, `LargeMenu1`, "
                                                     "1 `A`; docs/SEQUENCES.md has those that one does, under `phone`"))

    def test_it_is_judged_as_the_one_in_python(self):
        found = in_the_box()
        by_phone = {name: told for name, told in verdicts(undertest.OfPhone(), found).items() if told[0] != verdict.UNSUPPORTED}
        in_python = verdicts(undertest.InPython(), found)
        self.assertGreaterEqual(len(by_phone), 20)
        self.assertEqual(by_phone, {name: in_python[name] for name in by_phone})

    def test_lines_of_its_script(self):
        for line in ("user ok", "user type a b", "user type ", "user pick 3", "user dial 123", "net place 00F110", "net poll", "time 300"):
            self.assertEqual(undertest.line_of(grammar.read_line(line)), line)


class Client(threading.Thread):
    """A program that speaks AT commands, with a user who isn't there: it answers what wants no user."""

    def __init__(self, port):
        super().__init__(daemon=True)
        self.link = socket.create_connection(("127.0.0.1", port))
        self.link.settimeout(SECONDS)
        self.start()

    def run(self):
        try:
            self.link.sendall(b"ATE0\rAT+CFUN=1\r")
            for line in self.link.makefile("rb"):
                if line.startswith(b"+CUSATP: "):
                    self.answer(bytes.fromhex(line[9:].decode().strip()))
        except OSError:
            pass

    def answer(self, raw):
        details = handset.details_of(raw)
        if details[1] == handset.MORE_TIME:
            data = handset.response_to(details, handset.DONE)
        elif details[1] == handset.INKEY:
            data = handset.response_to(details, handset.NO_RESPONSE)
        else:
            return
        self.link.sendall(b"AT+CUSATT=" + decode.hexed(data).encode() + b"\r")


HANDSET = os.path.join(process.TOP, "docs", "HANDSET.md")


@unittest.skipUnless(os.path.exists(HANDSET), "the documents aren't here")
class Interface(unittest.TestCase):
    """The tables of docs/HANDSET.md have what a class of one's own may have, as the source has it, and what its player has."""

    def rows(self, head):
        """The rows of a table, by what stands in backquotes in the first column."""
        with open(HANDSET, encoding="utf-8") as text:
            lines = text.read().splitlines()
        at = next(n for n, line in enumerate(lines) if line.startswith(f"| {head} |"))
        rows = [line.split(" | ") for line in itertools.takewhile(lambda line: line.startswith("|"), lines[at + 2:])]
        return {row[0].strip("|` "): row[-1].strip("| ") for row in rows}

    def test_methods(self):
        found = {}
        for name, method in vars(undertest.UnderTest).items():
            if inspect.isfunction(method) and not name.startswith("_"):
                parameters = [one for one in inspect.signature(method).parameters if one != "self"]
                found[f"{name}({', '.join(parameters)})"] = method
        rows = self.rows("method")
        self.assertEqual(list(rows), list(found))
        for called, left_out in rows.items():
            with self.subTest(method=called):
                given = [None] * (called.count(",") + (not called.endswith("()")))
                if left_out == "isn't left out":
                    self.assertRaises(NotImplementedError, found[called], undertest.UnderTest(), *given)
                else:
                    self.assertIsNone(found[called](undertest.UnderTest(), *given))

    def test_values(self):
        found = {name: str(value) for name, value in vars(undertest.UnderTest).items() if not name.startswith("_") and not inspect.isfunction(value)}
        self.assertEqual(self.rows("value"), found)

    def test_a_class_that_makes_itself(self):
        """A handset in Python may have an `__init__` of its own that doesn't call the one it derives from."""
        class Own(undertest.InPython):
            def __init__(self):
                self.mine = 1

        found = [one for one in in_the_box() if one.name == "GET INKEY, any character"]
        self.assertEqual([kind for kind, _ in verdicts(Own(), found).values()], [verdict.PASSED] * len(found))
        self.assertTrue(found)

    def test_the_player(self):
        given = player.Player(None)
        for called in self.rows("call"):
            with self.subTest(call=called):
                name, _, parameters = called.partition("(")
                self.assertTrue(hasattr(given, name))
                if parameters:
                    wanted = [one.name for one in inspect.signature(getattr(given, name)).parameters.values() if one.default is one.empty]
                    self.assertEqual(wanted, [parameters[:-1]] if parameters != ")" else [])


class OfonosUser(unittest.TestCase):
    """What oFono's agent is told to answer, and what is noted of what it is asked."""
    # a command, what its user does, and the answer
    ANSWERS = [
        ("GET INPUT qualifier 01 text A length 0 9 default John", "user ok", {"value": "John"}),
        ("GET INPUT qualifier 01 text A length 0 9 default ucs2 Ж", "user ok", {"value": "Ж"}),
        ("GET INPUT qualifier 01 text A length 0 9 default gsm7 John", "user ok", {"value": "John"}),
        ("GET INPUT qualifier 01 text A length 0 9 default John", "user type Jane", {"value": "Jane"}),
        ("GET INPUT qualifier 01 text A length 0 9 default John", "user end", ofono.END_SESSION),
        ("GET INPUT qualifier 01 text A length 0 9", "user ok", None),
        ("DISPLAY TEXT qualifier 80 text A", "user ok", {"value": None}),
        ("GET INKEY qualifier 04 text A", "user ok", {"value": True}),
    ]
    NOTES = [
        (["RequestInput", "A?", 0, "John", 0, 9, False], ["ask A?", "default John"]), (["RequestInput", "A?", 0, "", 0, 9, False], ["ask A?"]),
        (["RequestDigits", "A?", 0, "12", 0, 9, False], ["ask A?", "default 12"]), (["DisplayText", "Hi", 0, True], ["text Hi"]),
        (["RequestSelection", "A", 0, [["a", 0], ["b", 0]], 0], ["choose 2"]), (["PlayTone", "busy", "", 0], ["tone 02"]), (["Release"], []),
    ]

    def test_a_text_of_two_lines(self):
        """It is noted in one."""
        terminal, given = OfOfono.__new__(OfOfono), player.Player(None)
        terminal.player, terminal.shown = given, {}
        terminal.phone = unittest.mock.Mock(toolkit={"IdleModeText": "at\r\nhome"})
        terminal.phone.asked_when.return_value = [[0.0, ["DisplayText", "Hi\nthere", 0, True]]]
        terminal.look()
        self.assertEqual(given.trace, ["* text Hi.there", "* idle at..home"])

    def test_a_user_of_whom_no_line_tells(self):
        """He does nothing at a command that waits for him; a text that is cleared after a delay is seen, as ever."""
        terminal = OfOfono.__new__(OfOfono)
        terminal.phone = unittest.mock.Mock()
        said = [grammar.Handset("user", "ok")]
        for commands, acts, answers in ((["DISPLAY TEXT qualifier 80 text A"], [], [ofono.NOTHING]), (["DISPLAY TEXT text A"], [], [{"value": None}]),
                                        (["DISPLAY TEXT qualifier 80 text A"], said, [{"value": None}]),
                                        (["DISPLAY TEXT qualifier 80 text A", "GET INPUT text A length 1 2"], said, [{"value": None}, ofono.NOTHING]),
                                        (["MORE TIME"], [], [])):
            with self.subTest(commands=commands, acts=acts):
                lines = "".join(f"command {one}\nresponse result 00\n" for one in commands)
                raws = [one.raw for one in sequence.read("sequence one\n" + lines, "a.sequence")[0].commands()]
                terminal.prepare(raws, acts)
                self.assertEqual(list(terminal.phone.answer.call_args.args), answers)

    def test_answers(self):
        for command, act, answer in self.ANSWERS:
            with self.subTest(command=command, act=act):
                (one,) = sequence.read(f"sequence one\ncommand {command}\n{act}\n", "a")
                self.assertEqual(undertest_modem.answer_to(one.steps[0].raw, one.steps[1].said), answer)

    def test_notes(self):
        for asked, notes in self.NOTES:
            with self.subTest(asked=asked):
                self.assertEqual(list(undertest_modem.notes_of(asked)), notes)


class OfonosCard(unittest.TestCase):
    """What oFono needs of a card, and that it is told at once what is missing."""
    PIN, IMSI = "pin 01 31323334FFFFFFFF on 3132333435363738\n", "df 7F20\nef 7F206F07 t 9 7 -\n"
    CARDS = [
        ("", ["PIN 1 with the value 1234", "EF.IMSI (`ef 7F206F07`)"]), (PIN, ["EF.IMSI"]), (IMSI, ["PIN 1"]), (PIN + IMSI, []),
        (PIN.replace("34FF", "35FF") + IMSI, ["PIN 1 with the value 1234"]), (PIN.replace("34FF", "35FF").replace("on", "off") + IMSI, []),
    ]

    def test_what_is_missing(self):
        for lines, wanted in self.CARDS:
            with self.subTest(lines=lines), Card.from_text(lines + "row 0 1 014000\nstart\n") as card:
                found = undertest_modem.lacking(card.holds)
                self.assertEqual(len(found), len(wanted))
                for one, part in zip(found, wanted):
                    self.assertTrue(one.startswith(part), one)
        with Card(os.path.join(process.TOP, undertest_modem.ITS_CARD)) as card:
            self.assertEqual(undertest_modem.lacking(card.holds), [])

    def test_what_is_told(self):
        """The verdict, without a start of oFono that comes to nothing."""
        with unittest.mock.patch.multiple(ofono, why_not=lambda: "", version=lambda: "1.31", Ofono=None):
            terminal = OfOfono()
            with Card.from_text("row 0 1 014000\nstart\n") as card:
                outcome = verdict.judged(in_the_box("MORE TIME")[0], terminal, card)
        self.assertEqual((outcome.verdict, outcome.lost), (verdict.INCONCLUSIVE, outcome.why))
        self.assertRegex(outcome.why, r"^oFono needs a card with PIN 1 .*, and EF.IMSI .*; examples/telephone.script describes one$")


class AtCommands(unittest.TestCase):
    def test_a_client(self):
        told = []
        terminal = AtClient(0, told.append)
        self.addCleanup(terminal.close)
        self.assertIn("toolkit begins at AT+CFUN=1", told[0])
        client = Client(terminal.line.address[1])
        self.addCleanup(client.link.close)
        found = in_the_box("MORE TIME", "GET INKEY, any character", "DISPLAY TEXT, the user has read it", "MORE TIME, and then a text")
        self.assertEqual(verdicts(terminal, found[-2:-1], SECONDS)["MORE TIME"], (verdict.PASSED, ""))
        told_of = verdicts(terminal, found, 2)
        self.assertEqual({name: kind for name, (kind, _) in told_of.items()}, {
            "MORE TIME": verdict.PASSED, "GET INKEY, any character": verdict.INCONCLUSIVE,
            "DISPLAY TEXT, the user has read it": verdict.INCONCLUSIVE, "MORE TIME, and then a text": verdict.INCONCLUSIVE})
        self.assertIn("says", told_of["GET INKEY, any character"][1])
        self.assertIn("did nothing within 2 seconds", told_of["DISPLAY TEXT, the user has read it"][1])
        self.assertIn("  please type `q`", told)
        self.assertIn("  please say yes, or that it was seen, or take what stands there", told)
        self.assertIn("  it must show now: text Toolkit Test 1", told)

    def test_nobody(self):
        """That no client is there says nothing of the terminal."""
        terminal = AtClient(0, lambda text: None)
        self.addCleanup(terminal.close)
        self.assertEqual(verdicts(terminal, in_the_box("MORE TIME"), 0.5)["MORE TIME"],
                         (verdict.INCONCLUSIVE, f"no client connected to port {terminal.line.address[1]} within 0.5 seconds"))

    def test_a_port_that_is_taken(self):
        with socket.create_server(("127.0.0.1", 0)) as other, self.assertRaisesRegex(undertest.Lost, "no modem can be at port"):
            AtClient(other.getsockname()[1], lambda text: None)


class Pcsc(threading.Thread):
    """Stands in for the virtual reader, with a program at it that is the handset and polls."""

    def __init__(self):
        super().__init__(daemon=True)
        self.server = socket.create_server(("localhost", 0))
        self.trace, self.cards = [], 0
        self.start()

    def run(self):
        while True:
            try:
                self.link = self.server.accept()[0]
            except OSError:
                return
            self.cards += 1
            try:
                self.send(b"\x01")
                terminal = Terminal(self)
                terminal.start()
                while True:
                    terminal.poll()
            except (OSError, EOFError):
                self.link.close()

    def send(self, content):
        self.link.sendall(struct.pack(">H", len(content)) + content)

    def receive(self, count):
        content = b""
        while len(content) < count:
            part = self.link.recv(count - len(content))
            if not part:
                raise EOFError
            content += part
        return content

    def transmit(self, command):
        self.send(command)
        answer = self.receive(struct.unpack(">H", self.receive(2))[0])
        return Answer(answer[:-2], decode.hexed(answer[-2:]))

    def reset(self):
        self.send(b"\x02")


class InAReader(unittest.TestCase):
    def test_a_program(self):
        program, told = Pcsc(), []
        self.addCleanup(program.server.close)
        terminal = OfReader(program.server.getsockname()[1], told.append)
        self.addCleanup(terminal.close)
        found = in_the_box("MORE TIME", "POLL INTERVAL, 30 seconds", "REFRESH, the card is reset", "GET INKEY, a digit")
        self.assertEqual({name: kind for name, (kind, _) in verdicts(terminal, found, SECONDS).items()}, {
            "MORE TIME": verdict.PASSED, "POLL INTERVAL, 30 seconds": verdict.PASSED, "REFRESH, the card is reset": verdict.PASSED,
            "GET INKEY, a digit": verdict.FAILED})
        self.assertEqual(program.cards, len(found))
        self.assertIn("  please type `5`", told)

    def test_no_reader(self):
        with socket.create_server(("localhost", 0)) as server:
            port = server.getsockname()[1]
        with Card(USIM) as card:
            outcome = verdict.judged(in_the_box("MORE TIME")[0], OfReader(port, lambda text: None), card)
        self.assertEqual(outcome.verdict, verdict.INCONCLUSIVE)
        self.assertRegex(outcome.lost, "^nothing listens at port")


@unittest.skipIf(ofono.why_not(), f"oFono: {ofono.why_not()}")
class WithOfono(unittest.TestCase):
    # commands that oFono is given, where its profile is of no account, and what its user does
    COMMANDS = (
        "REFRESH qualifier 01 file-list 013F002FE2", "MORE TIME", "POLL INTERVAL duration 30 seconds", "POLLING OFF", "SET UP EVENT LIST events location",
        "SET UP CALL address 123 | user ok", "SEND SS ss 91AA120A214365870921436587A901", "SEND USSD ussd F02A23",
        "SEND SHORT MESSAGE tpdu 0100099110325476F840F40454657374", "SEND DTMF dtmf 21F3", "LAUNCH BROWSER url \"http://x.example/\" | user ok",
        "PLAY TONE tone 10 duration 1 seconds", "DISPLAY TEXT qualifier 80 text A | user ok", "GET INKEY qualifier 01 text A | user type a",
        "GET INPUT qualifier 01 text A length 1 5 | user type a", "SELECT ITEM alpha A item 1 A | user pick 1", "SET UP MENU alpha A item 1 A",
        "PROVIDE LOCAL INFORMATION", "PROVIDE LOCAL INFORMATION qualifier 02", "PROVIDE LOCAL INFORMATION qualifier 03",
        "PROVIDE LOCAL INFORMATION qualifier 04", "PROVIDE LOCAL INFORMATION qualifier 05", "PROVIDE LOCAL INFORMATION qualifier 06",
        "TIMER MANAGEMENT timer 1 time 00:05:00", "TIMER MANAGEMENT qualifier 02 timer 1", "SET UP IDLE MODE TEXT text A", "RUN AT COMMAND at-command AT",
        "LANGUAGE NOTIFICATION qualifier 01 language de", "CLOSE CHANNEL", "RECEIVE DATA channel-data-length 1", "SEND DATA channel-data 41",
        "GET CHANNEL STATUS")

    def test_the_profile_is_what_ofono_does(self):
        """It has each command that oFono answers otherwise than as not understood, or as beyond the terminal's capabilities; and no other one."""
        terminal = OfOfono()
        self.addCleanup(terminal.close)
        for text in self.COMMANDS:
            command, _, act = text.partition(" | ")
            (one,) = sequence.read(f"sequence one\ncommand {command}\n{act}\nresponse any\n", "a")
            need = one.needs[0]
            one.needs.clear()
            with Card(os.path.join(EXAMPLES, "telephone.script")) as card:
                outcome = verdict.judged(one, terminal, card)
            answers = [decode.result_of(heard.data)[0] for heard in outcome.player.heard if heard.kind == player.RESPONDED]
            with self.subTest(command=command):
                self.assertEqual((outcome.verdict, bool(answers) and answers[-1] not in (0x30, 0x31)),
                                 (verdict.PASSED, sequence.has(undertest_modem.OFONO_PROFILE, need)), (outcome.why, answers))

    def test_ofono(self):
        """What it passes; what it answers otherwise than it must, which isn't mended away; and what its user can't do."""
        wanted = {
            "DISPLAY TEXT, the user has read it": verdict.PASSED, "DISPLAY TEXT, the user goes back": verdict.PASSED,
            "GET INKEY, any character": verdict.PASSED, "GET INPUT, digits": verdict.PASSED,
            "GET INPUT, what stands there already is taken": verdict.PASSED,
            "GET INPUT, digits that stand there already are taken": verdict.PASSED, "SELECT ITEM, the second of four": verdict.PASSED,
            "SET UP MENU, an entry is picked": verdict.PASSED, "SET UP IDLE MODE TEXT": verdict.PASSED, "PLAY TONE, a general beep": verdict.PASSED,
            "a command whose objects are cut short": verdict.FAILED, "GET INKEY, the user doesn't respond": verdict.INCONCLUSIVE,
            "SET UP EVENT LIST": verdict.UNSUPPORTED}
        terminal = OfOfono()
        self.addCleanup(terminal.close)
        told = verdicts(terminal, in_the_box(*wanted))
        self.assertEqual({name: kind for name, (kind, _) in told.items()}, wanted, told)


if __name__ == "__main__":
    unittest.main()
