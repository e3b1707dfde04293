"""tools/reader, with a stand-in for the program and for the virtual reader."""
import os
import pathlib
import signal
import socket
import stat
import struct
import subprocess
import sys
import tempfile
import time
import unittest

from common import STAND_IN, TOOLS, load
from uicc import atr, image, trace


class AnswersToReset(unittest.TestCase):
    # bytes, and the protocols that they offer
    GOOD = [
        ("3B00", [0]), ("3F0141", [0]), ("3B80800101", [0, 1]), ("3B800181", [1]), ("3B80811F001E", [1]),
        # of a card in the field, with T=15
        ("3B9F96801FC78031A073BE21136743200718000001A5", [0]),
        (atr.OF_T0.hex(), [0]), (atr.OF_BOTH.hex(), [0, 1]),
    ]
    BAD = [
        ("", "2 to 33 bytes, and not 0"), ("3B", "2 to 33 bytes, and not 1"), ("3B" * 34, "2 to 33 bytes, and not 34"),
        ("00" * 4, "begins with 3B or 3F, and not 00"), ("3B80", "ends before all of its interface bytes"),
        ("3B9080", "ends before all of its interface bytes"), ("3B01", "has 3 bytes, and not 2"), ("3B0000", "has 2 bytes, and not 3"),
        ("3B808001", "has 5 bytes, and not 4"), ("3B80800100", "is 01 for these bytes, and not 00"),
    ]

    def test_what_is_offered(self):
        for digits, offered in self.GOOD:
            self.assertEqual(atr.protocols(bytes.fromhex(digits)), offered, digits)

    def test_what_is_none(self):
        for digits, why in self.BAD:
            with self.subTest(digits=digits), self.assertRaisesRegex(atr.Unfit, why):
                atr.protocols(bytes.fromhex(digits))

    def test_of_this_card(self):
        """T=0 first; the objects of the historical bytes fill them."""
        self.assertEqual((atr.OF_T0.hex().upper(), atr.OF_BOTH.hex().upper()),
                         ("3B9795801FC7803100733621139C", "3B979580B1FE451FC78031007336211396"))


class Reader(unittest.TestCase):
    """A reader on the other side that powers the card on, asks it, and sees it pulled at a cut."""

    DIALOGUE = [
        (b"\x01", None),
        (b"\x04", atr.OF_BOTH),
        (bytes.fromhex("00A4000C023F00"), bytes.fromhex("9000")),
        (bytes(262), bytes.fromhex("6700")),
    ]
    CUT = bytes.fromhex("80F2000C00")
    # the words for a cut in the second command, or in the first that writes; how many commands are answered before
    PLANS = [("2:1", 1), ("1", 0)]

    def setUp(self):
        self.folder = tempfile.TemporaryDirectory()
        self.addCleanup(self.folder.cleanup)
        self.program, self.script = (os.path.join(self.folder.name, name) for name in ("stand_in", "empty.script"))
        for path, text in ((self.program, STAND_IN), (self.script, "start\n")):
            with open(path, "w", encoding="ascii") as out:
                out.write(text)
        os.chmod(self.program, stat.S_IRWXU)
        self.server = socket.create_server(("localhost", 0))
        self.addCleanup(self.server.close)
        self.server.settimeout(20)

    def start(self, *words):
        words = [sys.executable, os.path.join(TOOLS, "reader"), *words, "--port", str(self.server.getsockname()[1])]
        told = subprocess.Popen(words, env={**os.environ, "UICC_RUN": self.program}, stderr=subprocess.PIPE, text=True)
        self.addCleanup(told.stderr.close)
        self.addCleanup(told.wait)
        self.addCleanup(told.kill)
        return told

    def accepted(self):
        """A connection to a card that is put in."""
        link = self.server.accept()[0]
        link.settimeout(20)
        return link

    def ask(self, link, question, answer):
        link.sendall(struct.pack(">H", len(question)) + question)
        if answer is not None:
            self.assertEqual(link.recv(2 + len(answer)), struct.pack(">H", len(answer)) + answer)

    def test_dialogue_and_cut(self):
        for plan, answered in self.PLANS:
            told = self.start(self.script, "--cut", plan)
            with self.accepted() as link:
                for question, answer in self.DIALOGUE if answered else self.DIALOGUE[:2]:
                    self.ask(link, question, answer)
                self.ask(link, self.CUT, None)
                self.assertEqual(link.recv(2), b"")
            with self.accepted() as link:
                self.ask(link, b"\x01", None)
                self.ask(link, self.CUT, bytes.fromhex("9000"))
            self.assertEqual(told.wait(20), 0)

    # by T=0: a question, what is asked of the card for it, and the answer
    OF_T0 = [
        (b"\x01", None, None),
        (b"\x04", None, atr.OF_T0),
        (bytes.fromhex("00A40004023F00"), "00A40004023F00", bytes.fromhex("9000")),
        # a header alone gets P3
        (bytes.fromhex("00200001"), "0020000100", bytes.fromhex("9000")),
        (bytes.fromhex("00C0000014"), "00C0000014", bytes.fromhex("6985")),
        (bytes(262), None, bytes.fromhex("6700")),
    ]

    def test_tpdus(self):
        """What is cut is the third command that the card is given: GET RESPONSE is none."""
        told = self.start(self.script, "--protocol", "t0", "--cut", "3:1")
        with self.accepted() as link:
            for question, _, answer in self.OF_T0:
                self.ask(link, question, answer)
            self.ask(link, self.CUT[:5], None)
            self.assertEqual(link.recv(2), b"")
        with self.accepted() as link:
            self.ask(link, b"\x01", None)
        self.assertEqual(told.wait(20), 0)
        sent = [line[2:] for line in told.stderr.read().splitlines() if line.startswith("> ")]
        self.assertEqual(sent, [*(line for _, line, _ in self.OF_T0 if line), self.CUT[:5].hex().upper()])

    def test_the_answer_to_reset_is_handed_on(self):
        given = "3b9f96801fc78031a073be21136743200718000001a5"
        for protocol in ("apdu", "t0"):
            told = self.start(self.script, "--atr", given, "--protocol", protocol)
            with self.accepted() as link:
                self.ask(link, b"\x01", None)
                self.ask(link, b"\x04", bytes.fromhex(given))
            self.assertEqual(told.wait(20), 0)

    # answers to reset that are refused, with the protocol, and what is said of them
    REFUSED = [
        ("3B80800100", "apdu", "is 01 for these bytes, and not 00"), ("3B8", "apdu", "hexadecimal digits are wanted"),
        ("3B800181", "t0", "wants an answer to reset that offers T=0"),
    ]

    def test_answers_to_reset_are_refused(self):
        for given, protocol, why in self.REFUSED:
            told = self.start(self.script, "--atr", given, "--protocol", protocol)
            self.assertEqual(told.wait(20), 2)
            self.assertIn(why, told.stderr.read())

    def test_a_card_that_gets_no_power_is_put_in_again(self):
        told = self.start(self.script)
        with self.accepted() as link:
            self.ask(link, *self.DIALOGUE[1])
            self.assertEqual(link.recv(2), b"")
        with self.accepted() as link:
            for question, answer in self.DIALOGUE:
                self.ask(link, question, answer)
        self.assertEqual(told.wait(20), 0)

    def test_the_store_is_handed_on(self):
        told = self.start(self.script, "--store", "pages")
        with self.accepted() as link:
            for question, answer in self.DIALOGUE[:2]:
                self.ask(link, question, answer)
            children = pathlib.Path(f"/proc/{told.pid}/task/{told.pid}/children").read_text(encoding="ascii").split()
            words = [pathlib.Path(f"/proc/{child}/cmdline").read_bytes().split(b"\0") for child in children]
        self.assertIn([b"play", b"--store", b"pages"], [line[-4:-1] for line in words])
        self.assertEqual(told.wait(20), 0)

    def test_how_the_simulator_ends_is_told_in_words(self):
        with open(self.script, "w", encoding="ascii") as out:
            out.write("df DEAD\nstart\n")
        told = self.start(self.script)
        self.assertEqual(told.wait(20), 2)
        said = told.stderr.read().splitlines()
        self.assertRegex(said[0], "^  the card is being switched on, and is put into the slot at port [0-9]+ then$")
        self.assertEqual(said[1], "uicc_run: no space is left")
        for part in ("reader: ", "status 6", "memory problem", "eeprom failed", "no space is left"):
            self.assertIn(part, said[-1])

    def test_help_says_who_may_put_a_card_in_and_how_slots_are_numbered(self):
        words = [sys.executable, "-B", os.path.join(TOOLS, "reader"), "--help"]
        told = " ".join(subprocess.run(words, capture_output=True, text=True, timeout=60, check=False).stdout.split())
        for part in ("listens on all addresses", "`Virtual PCD 00 00` at this port and `Virtual PCD 00 01` at the next one"):
            self.assertIn(part, told)

    # words that are refused, and why
    REFUSED_WORDS = [
        (["--port", "99999"], "a port is 1 to 65535, and not 99999"), (["--port", "x"], "a port is 1 to 65535, and not x"),
        (["--cut", "0"], "[N:]K are numbers from 1 on, and not 0"), (["--cut", "1:x"], "[N:]K are numbers from 1 on, and not 1:x"),
    ]

    def test_words_that_are_refused(self):
        for words, why in self.REFUSED_WORDS:
            with self.subTest(words=words):
                done = subprocess.run([sys.executable, "-B", os.path.join(TOOLS, "reader"), self.script, *words], capture_output=True, text=True,
                                      timeout=120, check=False)
                self.assertEqual(done.returncode, 2)
                self.assertIn(why, done.stderr)

    def test_signal(self):
        told = self.start(self.script)
        with self.accepted() as link:
            self.ask(link, *self.DIALOGUE[1])
            told.send_signal(signal.SIGTERM)
            self.assertEqual(told.wait(20), 0)

    def test_a_faulty_script_is_told_by_its_line(self):
        with open(self.script, "w", encoding="ascii") as out:
            out.write("# a card\nef 2FE2 t 40000 2 -\nstart\n")
        told = self.start(self.script)
        self.assertEqual(told.wait(20), 2)
        self.assertIn("empty.script, line 2: SIZE is 1 to 32767, not 40000", told.stderr.read())

    def test_what_is_after_start_is_passed_over(self):
        with open(self.script, "w", encoding="ascii") as out:
            out.write("start\nno such line\n")
        told = self.start(self.script)
        with self.accepted() as link:
            self.ask(link, *self.DIALOGUE[0])
            self.ask(link, *self.DIALOGUE[1])
        self.assertEqual(told.wait(20), 0)

    def test_a_slot_that_is_taken_is_named(self):
        """A second card for a port that has one."""
        first = self.start(self.script)
        with self.accepted() as link:
            self.ask(link, *self.DIALOGUE[0])
            self.ask(link, *self.DIALOGUE[1])
            second = self.start(self.script)
            self.assertEqual(second.wait(20), 2)
            said = second.stderr.read()
            self.assertIn(f"a card is in the slot at port {self.server.getsockname()[1]} already", said)
            self.assertNotIn("Traceback", said)
        self.assertEqual(first.wait(20), 0)

    # ports, and how their slots are named
    SLOTS = [(35963, "the slot `Virtual PCD 00 00` (port 35963)"), (35964, "the slot `Virtual PCD 00 01` (port 35964)"),
             (40000, "the slot at port 40000")]

    def test_slots(self):
        reader = load("reader")
        for port, name in self.SLOTS:
            self.assertEqual(reader.slot_of(port), name)
        self.assertIn("`Virtual PCD 00 01` (port 35964) by --port 35964", str(reader.Taken(35963)))
        self.assertIn("`Virtual PCD 00 00` (port 35963) by --port 35963", str(reader.Taken(35964)))

    def test_the_trace_has_times(self):
        """Of each line, by the clock; without them it is what the simulator showed."""
        path, began = os.path.join(self.folder.name, "kept.trace"), time.time_ns() // 1000
        told = self.start(self.script, "--trace", path)
        with self.accepted() as link:
            for question, answer in self.DIALOGUE:
                self.ask(link, question, answer)
        self.assertEqual(told.wait(20), 0)
        lines = pathlib.Path(path).read_text(encoding="ascii").splitlines()
        self.assertEqual(lines[1::2], ["! reset", "> 00A4000C023F00", "< 9000"])
        times = [trace.time_of(line) for line in lines[::2]]
        self.assertEqual(times, sorted(times))
        self.assertTrue(began <= times[0] and times[-1] <= time.time_ns() // 1000)
        self.assertEqual(len(list(trace.parts(lines))), 2)

    # what an image has, the store that is named, and what is said of it; nothing of it is changed
    IMAGES = [
        (b"", None, "it has 0 bytes"), (b"UICC\x02\x00".ljust(image.JOURNAL_SIZE, b"\xFF"), "pages", "is opened without --store pages"),
        (b"UICC\x02\x01".ljust(image.PAGES_SIZE, b"\xFF"), None, "--store pages opens it"),
        (b"\xFF" * image.JOURNAL_SIZE, None, "the memory is blank: all its bytes are FF"), (None, None, "isn't there, and no SCRIPT says what it should hold"),
    ]

    def test_images_that_hold_no_card(self):
        path = pathlib.Path(self.folder.name, "card.img")
        for content, store, why in self.IMAGES:
            with self.subTest(why=why):
                path.unlink(missing_ok=True)
                if content is not None:
                    path.write_bytes(content)
                told = self.start("--image", str(path), *(["--store", store] if store else []))
                self.assertEqual(told.wait(20), 2)
                self.assertIn(why, told.stderr.read())
                self.assertEqual(path.read_bytes() if path.exists() else None, content)


if __name__ == "__main__":
    unittest.main()
