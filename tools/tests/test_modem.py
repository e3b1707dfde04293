"""The modem: AT commands, the card as its SIM, the toolkit, and the lines by which a client comes."""
import contextlib
import os
import random
import re
import shutil
import signal
import socket
import subprocess
import sys
import tempfile
import threading
import unittest

from common import TOOLS
from uicc import Card, NotBuilt, at, modem_commands, process, sim, terminal, trace
from uicc.card import Answer
from uicc.modem import LONGEST_LINE, Modem
from uicc.modem_line import PtyLine, TcpLine, UnixLine

EXAMPLES = os.path.join(process.TOP, "examples")
USIM, MENU, DAY, TELEPHONE = (os.path.join(EXAMPLES, name + ".script") for name in ("usim", "menu", "day", "telephone"))
SECONDS = 60


def is_built():
    try:
        return bool(process.program())
    except NotBuilt:
        return False


class Words(unittest.TestCase):
    # a line, and its commands: name, how it is given, arguments
    LINES = [
        ("AT", []), ("at+cpin?", [("+CPIN", at.READ, ())]), ("ATE0V1", [("E", at.SET, ("0",)), ("V", at.SET, ("1",))]),
        ("AT&F", [("&F", at.SET, ("0",))]), ("ATS0=1", [("S0", at.SET, ("1",))]), ("ATS3?", [("S3", at.READ, ())]),
        ("AT+CIMI;+CPIN?", [("+CIMI", at.DO, ()), ("+CPIN", at.READ, ())]), ("AT+CLCK=?", [("+CLCK", at.TEST, ())]),
        ('AT+CLCK = "SC", 2', [("+CLCK", at.SET, ("SC", "2"))]), ('AT+X="a;b, c",,1', [("+X", at.SET, ("a;b, c", None, "1"))]),
        ("ATD+49 170;", [("D", at.SET, ("+49170;",))]), ('AT+X="";^Y', [("+X", at.SET, ("",)), ("^Y", at.DO, ())]),
    ]
    NONE = ["", "A", "CPIN", "AT+", "AT+CPIN!?x", 'AT+X="', 'AT+X="a"b', 'AT+X=a"b', "AT+CPIN?x", "AT&", "AT1", "AT\xe9", "ATS3", "AT=1"]

    def test_commands(self):
        for line, commands in self.LINES:
            self.assertEqual([(one.name, one.kind, one.arguments) for one in at.commands(line)], commands, line)

    def test_what_is_none(self):
        for line in self.NONE:
            with self.subTest(line=line), self.assertRaises(at.NoCommand):
                at.commands(line)

    # a status, and the number of its error
    STATUSES = [
        ("63C2", 16), ("63C0", 12), ("6983", 12), ("6982", 11), ("9300", 14), ("6581", 23), ("6A84", 20), ("6A82", 22), ("6A83", 22),
        ("6A88", 22), ("6985", 3), ("6986", 3), ("6981", 3), ("6D00", 4), ("6E00", 4), ("6700", 50), ("6A86", 50), ("6C1C", 50),
        ("6F00", 13), ("6200", 100),
    ]

    def test_errors(self):
        for status, number in self.STATUSES:
            self.assertEqual(sim.error_of(status), number, status)


class Client:
    """A client of a modem over a card, without a line: `ask` answers what the modem says to a line of commands."""

    def __init__(self, card, **words):
        self.heard = bytearray()
        self.modem = Modem(card, self.heard.extend, **words)
        self.ask("ATE0")

    def ask(self, line):
        self.heard.clear()
        self.modem.take(line.encode("latin-1") + b"\r")
        return self.said()

    def said(self):
        return [part for part in self.heard.decode("latin-1").split("\r\n") if part]


@unittest.skipUnless(is_built(), "the program isn't built")
class Dialogues(unittest.TestCase):
    def dialogue(self, script, lines, **words):
        with Card(script) as card:
            client = Client(card, **words)
            for line, answers in lines:
                self.assertEqual(client.ask(line), answers, line)

    IDENTITY = [
        ("AT+CGMI;+CGMM;+CGMR;+CGSN", ["uicc_run", "modem", "1", "004999010640000", "OK"]), ("AT+FOO", ["ERROR"]),
        ("AT+CIMI", ["+CME ERROR: 11"]), ("AT+CCID", ["+CCID: 8999901000000123450", "OK"]),
        ("AT+CMEE=2;+CIMI", ["+CME ERROR: SIM PIN required"]), ("AT+CMEE=0;+CIMI", ["ERROR"]), ("AT+CMEE=3", ["ERROR"]),
        ("AT+CMEE=1;+CMEE?", ["+CMEE: 1", "OK"]), ('AT+CPIN="1234";+CIMI', ["001010123456789", "OK"]),
        ("AT+CREG?", ["+CREG: 0,0", "OK"]), ("AT+CFUN?", ["+CFUN: 4", "OK"]), ("AT+CFUN=1", ["OK"]), ("AT+CREG?", ["+CREG: 0,1", "OK"]),
        ("AT+CREG=2;+CREG?", ['+CREG: 2,1,"0001","00000001"', "OK"]), ("AT+CREG=3", ["+CME ERROR: 50"]),
        ("AT+COPS?", ['+COPS: 0,0,"Example"', "OK"]), ("AT+COPS=3,2;+COPS?", ['+COPS: 0,2,"00101"', "OK"]), ("AT+CLCC", ["OK"]),
        ("ATD123;", ["NO CARRIER"]), ("AT+CFUN=7", ["+CME ERROR: 50"]), ("ATV0", ["0\r"]), ("AT+FOO", ["4\r"]), ("ATV1Q1", []), ("AT+FOO", []),
    ]

    def test_identity_and_network(self):
        self.dialogue(USIM, self.IDENTITY)

    PINS = [
        ("AT+CPIN?", ["+CPIN: SIM PIN", "OK"]),
        ("AT+CPINR", ["+CPINR: SIM PIN,3", "+CPINR: SIM PUK,10", "+CPINR: SIM PIN2,3", "+CPINR: SIM PUK2,10", "OK"]),
        ('AT+CPIN="12345678","1111"', ["+CME ERROR: 50"]), ('AT+CPIN="123"', ["+CME ERROR: 16"]), ('AT+CPIN="12a4"', ["+CME ERROR: 16"]),
        ('AT+CPINR="SIM PIN"', ["+CPINR: SIM PIN,3", "OK"]), ('AT+CPIN="1111"', ["+CME ERROR: 16"]),
        ('AT+CPINR="SIM PIN"', ["+CPINR: SIM PIN,2", "OK"]), ("AT+CPIN=1234", ["OK"]), ("AT+CPIN?", ["+CPIN: READY", "OK"]),
        ('AT+CPIN="1234"', ["+CME ERROR: 3"]), ('AT+CLCK="SC",2', ["+CLCK: 1", "OK"]), ('AT+CPWD="SC","1234","4321"', ["OK"]),
        # off and on is a reset
        ("AT+CFUN=0", ["OK"]), ("AT+CPIN?", ["+CPIN: NOT READY", "OK"]), ("AT+CIMI", ["+CME ERROR: 13"]), ("AT+CFUN=4", ["OK"]),
        ("AT+CPIN?", ["+CPIN: SIM PIN", "OK"]),
        # three wrong ones, and the unblocking
        *[('AT+CPIN="1234"', ["+CME ERROR: 16"])] * 3, ("AT+CPIN?", ["+CPIN: SIM PUK", "OK"]), ('AT+CPIN="4321"', ["+CME ERROR: 12"]),
        ('AT+CPIN="11111111","4321"', ["+CME ERROR: 16"]), ('AT+CPINR="SIM PUK"', ["+CPINR: SIM PUK,9", "OK"]),
        ('AT+CPIN="12345678","4321"', ["OK"]), ("AT+CPIN?", ["+CPIN: READY", "OK"]),
        ('AT+CLCK="SC",0,"1111"', ["+CME ERROR: 16"]), ('AT+CLCK="SC",0,"4321"', ["OK"]), ('AT+CLCK="SC",2', ["+CLCK: 0", "OK"]),
        ("AT+CFUN=1,1;+CPIN?", ["+CPIN: READY", "OK"]), ('AT+CLCK="SC",1,"4321"', ["OK"]), ('AT+CLCK="SC",2', ["+CLCK: 1", "OK"]),
        ('AT+CPWD="P2","5678","1111"', ["+CME ERROR: 3"]), ('AT+CLCK="FD",2', ["+CME ERROR: 4"]), ('AT+CPWD="AO","1","2"', ["+CME ERROR: 4"]),
    ]

    def test_pins(self):
        self.dialogue(USIM, self.PINS)

    RECORD = "42" * 28
    FILES = [
        ("AT+CRSM=192,28486", ['+CRSM: 144,0,"62168202412183026F468A01058B032F0601800200118800"', "OK"]),
        ("AT+CRSM=176,28486,0,0,3", ['+CRSM: 144,0,"014578"', "OK"]), ("AT+CRSM=176,28486,0,0,3,,\"3F007FFF\"", ['+CRSM: 144,0,"014578"', "OK"]),
        ("AT+CRSM=176,12258,0,0,10", ['+CRSM: 144,0,"989909010000103254F0"', "OK"]), ("AT+CRSM=178,28474,1,4,28", ["+CRSM: 105,130", "OK"]),
        ('AT+CRSM=176,28486,0,0,3,,"7F20"', ['+CRSM: 144,0,"014578"', "OK"]), ('AT+CRSM=176,28486,0,0,3,,"7F10"', ["+CRSM: 106,130", "OK"]),
        ('AT+CRSM=176,28486,0,0,3,,"3F007F206F46"', ['+CRSM: 144,0,"014578"', "OK"]), ("AT+CRSM=176,65534,0,0,3", ["+CRSM: 106,130", "OK"]),
        ('AT+CPIN="1234"', ["OK"]), (f'AT+CRSM=220,28474,4,4,28,"{RECORD}"', ["+CRSM: 144,0", "OK"]),
        ("AT+CRSM=178,28474,4,4,28", [f'+CRSM: 144,0,"{RECORD}"', "OK"]), (f'AT+CRSM=220,28474,4,4,27,"{RECORD}"', ["+CME ERROR: 50"]),
        ("AT+CRSM=178,28474,4,4,20", ["+CRSM: 108,28", "OK"]), ('AT+CRSM=214,28486,0,0,1,"00"', ["+CRSM: 105,130", "OK"]),
        (f'AT+CRSM=220,28484,0,3,28,"{RECORD}"', ["+CRSM: 144,0", "OK"]), ("AT+CRSM=178,28484,1,4,28", [f'+CRSM: 144,0,"{RECORD}"', "OK"]),
        ("AT+CRSM=242", ["+CRSM: 144,0,\"62198202782183027F108A0105C60C9001A083010183018183010A\"", "OK"]),
        ('AT+CRSM=219,28486,0,0,1,"00"', ["+CME ERROR: 4"]), ("AT+CRSM=176,28486,0,256,1", ["+CME ERROR: 50"]),
        ("AT+CRSM=176,x", ["+CME ERROR: 50"]), ('AT+CRSM=176,28486,0,0,1,"0g"', ["+CME ERROR: 25"]), ("AT+CRSM=176,99999", ["+CME ERROR: 50"]),
    ]

    def test_files(self):
        self.dialogue(USIM, self.FILES)

    BOOK = [
        ("AT+CPBS=?", ['+CPBS: ("SM")', "OK"]), ("AT+CPBR=1", ["+CME ERROR: 11"]), ('AT+CPIN="1234"', ["OK"]),
        ("AT+CPBR=?", ["+CPBR: (1-50),20,14", "OK"]),
        ("AT+CPBR=2,50", ['+CPBR: 2,"611",129,"Operator"', '+CPBR: 3,"+999901005550",145,"Anna"', "OK"]), ("AT+CPBR=4", ["OK"]),
        ("AT+CPBR=0", ["+CME ERROR: 21"]), ("AT+CPBR=2,51", ["+CME ERROR: 21"]), ('AT+CPBS="ME"', ["+CME ERROR: 4"]),
        ('AT+CSCS="UCS2";+CPBR=3', ['+CPBR: 3,"+999901005550",145,"0041006E006E0061"', "OK"]), ('AT+CSCS="X"', ["+CME ERROR: 4"]),
    ]

    def test_phone_book(self):
        self.dialogue(USIM, self.BOOK)

    CHANNELS = [
        ('AT+CSIM=14,"00A40004022FE2"', ['+CSIM: 54,"62178202412183022FE28A01058B032F06058002000A8801109000"', "OK"]),
        ("AT+CSIM=14,00A40004022FE2", ["+CME ERROR: 50"]),
        ('AT+CSIM=10,"00B0000002"', ['+CSIM: 8,"98999000"', "OK"]), ('AT+CSIM=8,"00B0000002"', ["+CME ERROR: 50"]),
        ('AT+CSIM=0,""', ["+CME ERROR: 50"]), ('AT+CSIM=2,"00"', ['+CSIM: 4,"6700"', "OK"]), (f'AT+CSIM=524,"{"00" * 262}"', ["+CME ERROR: 50"]),
        ('AT+CCHO="A0000000871002FFFFFFFF8907090000"', ["+CCHO: 1", "OK"]), ('AT+CCHO=""', ["+CCHO: 2", "OK"]),
        ("AT+CGLA=1,14,00A40804026F07", ["+CME ERROR: 50"]), ('AT+CGLA=1,14,"00A40804026F07"', ['+CGLA: 4,"6A82"', "OK"]), ('AT+CGLA=1,10,"00B0870009"', ['+CGLA: 4,"6982"', "OK"]),
        ('AT+CSIM=10,"01B0830004"', ['+CSIM: 12,"000000029000"', "OK"]), ('AT+CGLA=1,10,"00B0830004"', ['+CGLA: 12,"000000029000"', "OK"]),
        ('AT+CGLA=3,10,"00B0830004"', ["+CME ERROR: 22"]), ('AT+CCHO="A000000087100401"', ["+CME ERROR: 22"]), ('AT+CCHO=""', ["+CCHO: 3", "OK"]),
        ('AT+CCHO=""', ["+CME ERROR: 4"]), ("AT+CCHC=1", ["+CCHC", "OK"]), ("AT+CCHC=1", ["+CME ERROR: 22"]),
        ('AT+CSIM=10,"01B0830004"', ['+CSIM: 4,"6881"', "OK"]), ('AT+CCHO=""', ["+CCHO: 1", "OK"]),
    ]

    def test_bytes_and_channels(self):
        self.dialogue(USIM, self.CHANNELS)


class Player:
    """Stands between the card and the modem: its one command is fetched before the card's, and the card sees nothing of it."""

    COMMAND = bytes.fromhex("D010810301250082028281050470006C61")
    TO_FETCH = "8012000012"

    def __init__(self, card):
        self.card, self.is_sent, self.response = card, False, None

    def transmit(self, command):
        if command.hex().upper() == self.TO_FETCH and not self.is_sent:
            self.is_sent = True
            return Answer(self.COMMAND, "9000")
        if command[1] == 0x14 and self.is_sent and self.response is None:
            self.response = command
            return Answer(b"", "9000")
        answer = self.card.transmit(command)
        return answer if self.is_sent else Answer(answer.data, "9112")

    def reset(self):
        self.card.reset()


@unittest.skipUnless(is_built(), "the program isn't built")
class Toolkit(unittest.TestCase):
    MENU = "+CUSATP: D01681030125008202818285044D656E758F05024D656E75"
    CHOICE = "+CUSATP: D01D81030224008202818285045069636B8F0501546578748F0502546F6E65"
    SET_UP, CHOSEN = "810301250082028281830100", "810302240082028281830100900102"
    PICKED = "D30782020181900102"

    def menu_card(self):
        folder = self.enterContext(tempfile.TemporaryDirectory())
        path = os.path.join(folder, "menu.script")
        with open(path, "w", encoding="ascii") as out:
            out.write("row 1 1 00044D656E75\nstart\n")
        return self.enterContext(Card(path))

    def test_a_menu(self):
        client = Client(self.menu_card())
        self.assertEqual(client.ask("AT+CUSATR=0"), ['+CUSATR: 0,"2900BF6171000013"', "OK"])
        self.assertEqual(client.ask("AT+CFUN=1"), ["OK", self.MENU])
        # a command that isn't answered yet is told once more, and no other one is fetched meanwhile
        self.assertEqual(client.ask("AT+CFUN=1"), ["OK", self.MENU])
        self.assertEqual(client.ask("AT"), ["OK"])
        self.assertEqual(client.ask(f"AT+CUSATT={self.SET_UP}"), ["OK", "+CUSATEND"])
        self.assertEqual(client.ask(f"AT+CUSATE={self.PICKED}"), ["+CUSATER: ", "OK", self.CHOICE])
        self.assertEqual(client.ask(f"AT+CUSATT={self.CHOSEN}")[0], "OK")
        self.assertEqual(client.ask("AT+CUSATT="), ["+CME ERROR: 50"])
        self.assertEqual(client.ask("AT+CUSATT=0g"), ["+CME ERROR: 25"])

    def test_the_profile_is_told_once(self):
        """At +CUSATD=1 or at +CFUN=1, whichever comes first; after that the command that isn't answered yet is told once more."""
        client = Client(self.menu_card())
        self.assertEqual(client.ask("AT+CUSATD=1,1"), ["OK", self.MENU])
        self.assertEqual(client.ask("AT+CFUN=1"), ["OK", self.MENU])
        self.assertEqual(client.ask(f"AT+CUSATT={self.SET_UP}"), ["OK", "+CUSATEND"])
        self.assertEqual(client.ask("AT+CFUN=4;+CFUN=1"), ["OK"])
        self.assertEqual(sum(line.startswith("> 8010") for line in client.modem.sim.trace), 1)

    def test_the_profile_is_read(self):
        client = Client(self.menu_card())
        for line in ("AT+CUSATR", "AT+CUSATR?", "AT+CUSATR=0"):
            self.assertEqual(client.ask(line), ['+CUSATR: 0,"2900BF6171000013"', "OK"])
        self.assertEqual(client.ask("AT+CUSATR=1"), ["+CME ERROR: 50"])

    def test_a_profile_of_the_client(self):
        """A terminal that can't set up a menu is told none."""
        client = Client(self.menu_card())
        self.assertEqual(client.ask('AT+CUSATW=0,"0100000000"'), ["OK"])
        self.assertEqual(client.ask("AT+CUSATR=0"), ['+CUSATR: 0,"0100000000"', "OK"])
        self.assertEqual(client.ask("AT+CFUN=1"), ["OK"])
        self.assertEqual(client.ask('AT+CUSATW=0,"2900BF6171000013";+CUSATD=1'), ["OK", self.MENU])
        self.assertEqual(client.ask('AT+CUSATW=1,"00"'), ["+CME ERROR: 50"])
        self.assertEqual(client.ask("AT+CUSATD=0,0;+CUSATD?"), ["+CUSATD: 1,0", "OK"])

    def test_a_response_that_is_late(self):
        client = Client(self.menu_card())
        client.ask("AT+CFUN=1")
        client.ask(f"AT+CUSATT={self.SET_UP}")
        self.assertEqual(client.ask(f"AT+CUSATT={self.SET_UP}"), ["+CME ERROR: 3"])

    def test_a_player_stands_between(self):
        player = Player(self.menu_card())
        client = Client(player)
        self.assertEqual(client.ask("AT+CFUN=1"), ["OK", "+CUSATP: " + player.COMMAND.hex().upper()])
        self.assertIn(client.ask("AT+CUSATT=810301250082028281830100")[0], "OK")
        self.assertEqual(player.response.hex().upper(), "801400000C810301250082028281830100")

    def test_polls(self):
        """A STATUS finds what the card has to say; how often one is sent is the answer to POLL INTERVAL."""
        player = Player(self.menu_card())
        client = Client(player, poll_seconds=20)
        self.assertIsNone(client.modem.seconds_to_poll())
        player.is_sent = True
        client.ask("AT+CFUN=1")
        client.ask(f"AT+CUSATT={self.SET_UP}")
        client.heard.clear()
        player.is_sent = False
        client.modem.poll()
        self.assertEqual(client.said(), ["+CUSATP: " + player.COMMAND.hex().upper()])
        self.assertTrue(15 < client.modem.seconds_to_poll() <= 20)
        client.modem.command = bytes.fromhex("D00D810301030082028182840201 05".replace(" ", ""))
        client.modem._note_response(bytes.fromhex("8103010300820282818301008402011E"))
        self.assertTrue(25 < client.modem.seconds_to_poll() <= 30)
        client.modem.command = bytes.fromhex("D009810301040082028182")
        client.modem._note_response(bytes.fromhex("810301040082028281830100"))
        self.assertIsNone(client.modem.seconds_to_poll())


@unittest.skipUnless(is_built(), "the program isn't built")
class Power(unittest.TestCase):
    UPDATE = f'AT+CRSM=220,28474,4,4,28,"{"42" * 28}"'

    def test_a_cut_is_a_sim_that_goes_and_comes_back(self):
        """Whatever the cut does, the record is the old one or the new one."""
        seen = set()
        for write in range(1, 10):
            with Card(USIM) as card:
                client = Client(sim.Cutting(card, None, write))
                client.modem.verified.add(1)
                card.verify(1, "1234")
                answers = client.ask(self.UPDATE)
                if answers == ["+CRSM: 144,0", "OK"]:
                    break
                self.assertEqual(answers, ["+CME ERROR: 13", "+CPIN: NOT READY"])
                self.assertEqual(client.ask("AT+CPIN?"), ["+CPIN: NOT READY", "OK"])
                self.assertEqual(client.ask("AT+CFUN=1;+CPIN?"), ["+CPIN: SIM PIN", "OK"])
                self.assertEqual(client.ask('AT+CPIN="1234"'), ["OK"])
                seen.add(client.ask("AT+CRSM=178,28474,4,4,28")[0])
        self.assertEqual(seen, {f'+CRSM: 144,0,"{"FF" * 28}"', f'+CRSM: 144,0,"{"42" * 28}"'})

    def test_the_words_of_phonesim(self):
        with Card(USIM) as card:
            client = Client(sim.Cutting(card, 5, 1), is_phonesim=True)
            self.assertEqual(client.ask("AT+SIMSTATE?"), ["+SIMSTATE: 1", "OK"])
            self.assertEqual(client.ask('AT+CPIN="1234"'), ["OK", "+USIMSTATE: 0", "+USIMSTATE: 1"])
            self.assertEqual(client.ask(self.UPDATE), ["+CME ERROR: 13", "+CPIN: NOT READY", "+USIMSTATE: 0"])
            client.modem.leave()
            client.modem.arrive()
            self.assertEqual(client.ask("ATE0;+SIMSTATE?")[-2:], ["+SIMSTATE: 1", "OK"])
        with Card(USIM) as card:
            self.assertEqual(Client(card).ask("AT+SIMSTATE?"), ["ERROR"])


@unittest.skipUnless(is_built(), "the program isn't built")
class AnyBytes(unittest.TestCase):
    PIECES = [b"AT", b"+CRSM=", b"176,28486,0,0,", b'"', b",", b";", b"=?", b"?", b"=", b"+CSIM=", b'10,"00B0000002"', b"\x00", b"\xff", b"\x08",
              b"+CUSATT=", b"+CUSATE=", b"81", b"D3", b"+CPIN", b'"SC",2', b"999999999999", b"&", b"S", b"D", b"\n", b"+CFUN=", b"1", b"0", b"4"]
    ARGUMENTS = ['"SC"', '"P2"', "2", "1", "0", "4", "7", '"1234"', '"11111111"', '"A0000000871002"', '""', "14", "10", '"00B0000002"', "176",
                 "178", "192", "214", "220", "242", "28486", "28474", "12258", '"AA"', '"3F007FFF"', '"7F10"', "28", "255", "256", "999999999",
                 '"UCS2"', '"SIM PIN"', "D30782020181900102", "810301250082028281830100", '"0g"', "-1", "\xe9", ""]
    FINAL = re.compile(r"OK|ERROR|NO CARRIER|\+CME ERROR: \d+")

    def test_any_bytes(self):
        """Lines made of pieces of commands and of any bytes, and one that is too long: the modem answers as before."""
        chance = random.Random(7)
        with Card(MENU) as card:
            client = Client(card)
            for _ in range(3000):
                line = b"".join(chance.choices(self.PIECES, k=chance.randint(1, 8)))
                client.modem.take(b"AT" * chance.randint(0, 1) + line + b"\r")
            client.modem.take(b"ATE0V1Q0\r")
            self.assertEqual(client.ask("AT"), ["OK"])
            self.assertEqual(client.ask("AT" + "X" * LONGEST_LINE), ["ERROR"])
            self.assertEqual(client.ask("AT"), ["OK"])

    def test_any_arguments(self):
        """Each command with any arguments has one final result, whatever state the modem is in; clients come and go."""
        chance = random.Random(8)
        names = sorted({name for name, _ in modem_commands.COMMANDS} - {"E", "V", "Q"})
        with Card(TELEPHONE) as card:
            client = Client(card, is_phonesim=True)
            for _ in range(3000):
                line = "AT" + chance.choice(names) + chance.choice(("", "?", "=?", "=", "=", "=", "="))
                if line.endswith("="):
                    line += ",".join(chance.choices(self.ARGUMENTS, k=chance.randint(0, 7)))
                said = client.ask(line)
                self.assertEqual(sum(bool(self.FINAL.fullmatch(part)) for part in said), 1, (line, said))
                if chance.random() < 0.02:
                    client.modem.leave()
                    client.modem.arrive()
                    client.modem.poll()
                    client.ask("ATE0")


@unittest.skipUnless(is_built(), "the program isn't built")
class Lines(unittest.TestCase):
    @contextlib.contextmanager
    def served(self, line):
        with Card(USIM) as card:
            thread = threading.Thread(target=line.serve, args=(Modem(card, line.write),), daemon=True)
            thread.start()
            try:
                yield
            finally:
                line.stop()
                thread.join(SECONDS)
                self.assertFalse(thread.is_alive())

    def heard(self, link, wanted):
        content = b""
        while wanted not in content:
            part = link.recv(4096)
            if not part:
                break
            content += part
        self.assertIn(wanted, content)
        return content

    def connected(self, line):
        link = self.enterContext(socket.create_connection(line.address))
        link.settimeout(SECONDS)
        return link

    def test_one_client_at_a_time(self):
        line = self.enterContext(TcpLine("127.0.0.1", 0))
        with self.served(line):
            first = self.connected(line)
            first.sendall(b'ATE0\rAT+CPIN="1234"\r')
            self.heard(first, b"OK\r\n\r\nOK\r\n")
            self.heard(self.connected(line), b"BUSY")
            first.close()
            # the next one finds the SIM as it was left, and the modem as it is switched on: with its echo
            second = self.connected(line)
            second.sendall(b"AT+CIMI\r")
            self.assertIn(b"AT+CIMI", self.heard(second, b"OK\r\n"))

    def test_a_unix_socket(self):
        path = os.path.join(self.enterContext(tempfile.TemporaryDirectory()), "modem")
        with UnixLine(path) as line, self.served(line), socket.socket(socket.AF_UNIX) as link:
            self.assertEqual(os.stat(path).st_mode & 0o077, 0)
            link.settimeout(SECONDS)
            link.connect(path)
            link.sendall(b"AT+CCID\r")
            self.heard(link, b"+CCID: 8999901000000123450\r\n\r\nOK\r\n")
        self.assertFalse(os.path.exists(path))

    def test_a_client_that_takes_nothing_is_dropped(self):
        line = self.enterContext(TcpLine("127.0.0.1", 0))
        with self.served(line):
            first = self.connected(line)
            with contextlib.suppress(OSError):
                for _ in range(4000):
                    first.sendall(b"AT+CPIN=?" * 400 + b"\r")
            second = self.connected(line)
            second.sendall(b"AT\r")
            self.heard(second, b"OK\r\n")

    def test_a_terminal_of_its_own(self):
        with PtyLine() as line, self.served(line):
            with open(line.name, "r+b", buffering=0) as port:
                port.write(b"AT+CCID\r")
                content = b""
                while not content.endswith(b"OK\r\n"):
                    content += port.read(1)
            self.assertEqual(content, b"AT+CCID\r\r\n+CCID: 8999901000000123450\r\n\r\nOK\r\n")


@unittest.skipUnless(is_built(), "the program isn't built")
class Tool(unittest.TestCase):
    def start(self, *words):
        words = [sys.executable, "-B", os.path.join(TOOLS, "modem"), *words]
        told = subprocess.Popen(words, stderr=subprocess.PIPE, text=True)
        self.addCleanup(told.stderr.close)
        self.addCleanup(told.wait)
        self.addCleanup(told.kill)
        return told

    def test_a_session_with_its_trace(self):
        """What went to the card stands in the trace, which other tools read; the signal TERM ends it with 0."""
        folder = self.enterContext(tempfile.TemporaryDirectory())
        path = os.path.join(folder, "modem.trace")
        told = self.start(DAY, "--listen", "127.0.0.1:0", "--trace", path)
        port = int(re.search(r"at 127\.0\.0\.1, port (\d+)", told.stderr.readline()).group(1))
        with socket.create_connection(("127.0.0.1", port)) as link:
            link.settimeout(SECONDS)
            link.sendall(b"ATE0\rAT+CFUN=1\r")
            said = b""
            while b"+CUSATP: D0" not in said:
                said += link.recv(4096)
        told.send_signal(signal.SIGTERM)
        self.assertEqual(told.wait(SECONDS), 0)
        with open(path, encoding="ascii") as text:
            lines = text.read().splitlines()
        self.assertTrue(all(trace.time_of(line) for line in lines[::2]))
        self.assertEqual((lines[1], lines[3][:4]), ("> 80100000082900BF6171000013", "< 91"))
        explained = subprocess.run([sys.executable, "-B", os.path.join(TOOLS, "explain"), path], capture_output=True, text=True, check=False)
        self.assertEqual(explained.returncode, 0, explained.stderr)
        for part in ("TERMINAL PROFILE", "FETCH", "SET UP MENU"):
            self.assertIn(part, explained.stdout)
        captured = subprocess.run([sys.executable, "-B", os.path.join(TOOLS, "capture"), path], capture_output=True, text=True, check=False)
        self.assertEqual(captured.returncode, 0, captured.stderr)

    # words, and what is said of them
    REFUSED = [
        ((), "a SCRIPT or an --image is wanted"), ((USIM, "--listen", "here"), "ADDRESS:PORT is wanted"),
        ((USIM, "--listen", "127.0.0.1:99999"), "a port is 0 to 65535, and not 99999"), ((USIM, "--listen", "127.0.0.1"), "ADDRESS:PORT is wanted"), ((USIM, "--profile", "0g"), "hexadecimal digits are wanted"),
        ((USIM, "--profile", ""), "1 to 255 bytes, and not 0"), ((USIM, "--cut", "0"), "numbers from 1 on, and not 0"), ((USIM, "--cut", "x:1"), "numbers from 1 on"), ((USIM, "--poll", "-1"), "SECONDS are a number"),
        ((USIM, "--listen", "127.0.0.1:0", "--pty"), "not allowed with"), ((USIM, "--unix", "/nowhere/modem"), "modem: "),
        (("nowhere.script",), "nowhere.script"),
        ((USIM, "--listen", "192.0.2.1:12345"), "modem: 192.0.2.1 is no address of this machine: --listen 127.0.0.1:12345 is one"),
        ((USIM, "--listen", "no.such.host.invalid:1"), "modem: no.such.host.invalid is no address of this machine"),
        ((os.path.join(EXAMPLES, "day.trace"),), "day.trace is a trace: tools/explain shows it"), (("--image", "nowhere.img"), "nowhere.img"),
    ]

    def test_standard_input(self):
        """A session on standard input and output, which ends with its lines."""
        for lines in ("AT+CPIN?\nAT+FOO\n", "AT+CPIN?\r\n\r\nAT+FOO"):
            done = subprocess.run([sys.executable, "-B", os.path.join(TOOLS, "modem"), USIM, "--stdio"], input=lines, capture_output=True, text=True, timeout=120,
                                  check=False)
            self.assertEqual((done.returncode, done.stdout), (0, "AT+CPIN?\n+CPIN: SIM PIN\nOK\nAT+FOO\nERROR\n"), done.stderr)

    def test_standard_output_that_nobody_reads(self):
        reading, writing = os.pipe()
        os.close(reading)
        done = subprocess.run([sys.executable, "-B", os.path.join(TOOLS, "modem"), USIM, "--stdio"], input="AT\n", stdout=writing, stderr=subprocess.PIPE, text=True,
                              timeout=120, check=False)
        os.close(writing)
        self.assertEqual(done.returncode, terminal.NOT_READ_ON)
        self.assertTrue(all(line.startswith(("  at ", "     ")) for line in done.stderr.splitlines()), done.stderr)

    def test_what_is_refused(self):
        for words, why in self.REFUSED:
            with self.subTest(words=words):
                told = self.start(*words)
                self.assertEqual(told.wait(SECONDS), 2)
                said = told.stderr.read()
                self.assertIn(why, said)
                self.assertNotIn("Traceback", said)

    def test_what_it_reads_is_not_written_over(self):
        """A trace is written over neither the script nor the image of the card."""
        folder = self.enterContext(tempfile.TemporaryDirectory())
        script, memory = os.path.join(folder, "a.script"), os.path.join(folder, "a.img")
        shutil.copy(USIM, script)
        with Card(script, memory):
            pass
        for words, path in (((script, "--trace", script), script), ((script, "--image", memory, "--trace", memory), memory),
                            (("--image", memory, "--trace", memory), memory)):
            with self.subTest(words=words), open(path, "rb") as content:
                before = content.read()
                told = self.start(*words, "--stdio")
                self.assertEqual(told.wait(SECONDS), 2)
                self.assertIn(f"modem: nothing is written: {path} is what this is made of, and would be lost", told.stderr.read())
                content.seek(0)
                self.assertEqual(content.read(), before)

    def test_another_address_is_said(self):
        told = self.start(USIM, "--listen", "0.0.0.0:0")
        self.assertIn("at 0.0.0.0", told.stderr.readline())
        self.assertIn("whoever reaches it from another machine can use the card", told.stderr.readline())

    def test_a_terminal_is_named(self):
        told = self.start(USIM, "--pty")
        self.assertRegex(told.stderr.readline(), r"the modem is at /dev/pts/\d+")


if __name__ == "__main__":
    unittest.main()
