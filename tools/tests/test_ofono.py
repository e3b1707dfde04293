"""oFono as the terminal, and ModemManager: what tries make of an exchange, and where Debian's packages are here, sessions with them."""
import contextlib
import io
import os
import shutil
import subprocess
import sys
import tempfile
import time
import types
import unittest
import unittest.mock

from common import TOOLS, load
from uicc import Card, NotBuilt, daemon, modemmanager, ofono, ofono_tries, process, sim


def is_built():
    try:
        return bool(process.program())
    except NotBuilt:
        return False


MISSING = ofono.why_not()


class Judged(unittest.TestCase):
    """What comes of a response, by the exchange in which it was sent."""
    FETCHED = ["> 801200001F", "< D01D81030224008202818285045069636B8F0501546578748F0502546F6E659000"]
    # the data of TERMINAL RESPONSE, and what is said of them; None where they are as they should be
    RESPONSES = [
        ("810302240082028281830100900102", None), ("810302240082028281830110", None),
        ("810301240082028281830100900102", "the details of the response are 012400, and not 022400"),
        ("810302250082028281830100900102", "the details of the response are 022500"), ("82028281830100900102", "the details of the response are "),
        ("810302240082028182830100900102", "the devices of the response"), ("8103022400830100900102", "the devices of the response"),
        ("8103022400820282819001 02".replace(" ", ""), "the response has no result"), ("8103022400820282818300", "the response has no result"),
        ("81030224", "the response is no list of objects"),
    ]

    def one(self, data):
        content = bytes.fromhex(data)
        lines = [*self.FETCHED, f"> 80140000{len(content):02X}{data}", "< 9000"]
        (found,) = ofono_tries.proactive_in(ofono_tries.exchanges_in(lines))
        return found

    def test_responses(self):
        for data, why in self.RESPONSES:
            with self.subTest(data=data):
                if why is None:
                    self.assertEqual(ofono_tries.judged(self.one(data)).kind, 0x24)
                else:
                    with self.assertRaisesRegex(ofono_tries.Wrong, why):
                        ofono_tries.judged(self.one(data))

    def test_what_is_not_supported(self):
        for result in ("30", "31"):
            with self.assertRaisesRegex(ofono_tries.Unsupported, f"the answer is {result}"):
                ofono_tries.judged(self.one(f"8103022400820282818301{result}"))

    def test_a_command_that_nobody_answers(self):
        (found,) = ofono_tries.proactive_in(ofono_tries.exchanges_in(self.FETCHED))
        self.assertIsNone(found.response)

    def test_the_form_of_what_is_sent(self):
        ofono_tries.well_formed(["> 801400000C810302240082028281830110", "< 9000", "> 80C2000009D30782020181900102", "< 9000"])
        for line in ("> 801400000C810302240082028281830210", "> 80C2000008D307820201819001", "> 8014000003810302"):
            with self.assertRaises(ofono_tries.Wrong):
                ofono_tries.well_formed([line, "< 9000"])

    def test_what_is_known_of_a_version(self):
        verdicts = [ofono_tries.Verdict("SET UP EVENT LIST", ofono_tries.UNSUPPORTED), ofono_tries.Verdict("MORE TIME", ofono_tries.PASSED)]
        self.assertEqual(ofono_tries.surprises(verdicts, "1.31"), [])
        self.assertEqual(ofono_tries.surprises(verdicts, "0.1"), [])
        verdicts = [ofono_tries.Verdict("SET UP EVENT LIST", ofono_tries.PASSED), ofono_tries.Verdict("MORE TIME", ofono_tries.FAILED)]
        self.assertEqual(len(ofono_tries.surprises(verdicts, "1.31")), 2)

    def test_a_try_that_fails_is_a_verdict(self):
        report = ofono_tries.Report()
        report.attempt("one", lambda: ofono_tries.expect(1, 2, "it"))
        report.attempt("two", lambda: ofono_tries.refused(lambda: None, "it"))
        report.attempt("three", lambda: None)
        self.assertEqual([(verdict.outcome, verdict.why) for verdict in report.verdicts],
                         [("failed", "it is 1, and not 2"), ("failed", "it is taken"), ("passed", "")])

    @unittest.skipUnless(is_built(), "the program isn't built")
    def test_what_is_played_again(self):
        lines = []
        with Card(ofono_tries.TELEPHONE) as card:
            recorded = sim.Recorded(card, lines.append)
            recorded.transmit(bytes.fromhex("80100000082900BF6171000013"))
            recorded.reset()
            recorded.transmit(bytes.fromhex("0020000103313233"))
        self.assertEqual(lines[-1], "< 6700")
        ofono_tries.played_again(lines)
        with self.assertRaisesRegex(ofono_tries.Wrong, "line 5 of the trace"):
            ofono_tries.played_again([*lines[:-1], "< 9000"])


class Answers(unittest.TestCase):
    """What a person answers at the prompt, and what is told where a question can't be answered so."""
    ITEMS = ["RequestSelection", "Pick", "", [["Milk", ""], ["Bread", ""]], 0]
    # an answer, the question that it comes to, and what is told of it
    TABLE = [
        ("1", ITEMS, None), ("7", ITEMS, "there is no item 7: 0 is Milk, 1 is Bread"), ("Milk", ITEMS, "there is no item `Milk`: 0 is Milk, 1 is Bread"),
        ("end", ITEMS, None), ("back", ITEMS, None), ("seen", ITEMS, "there is no item `seen`: 0 is Milk, 1 is Bread"),
        ("yes", ["RequestConfirmation", "Sure?", ""], None), ("no", ["RequestConfirmation", "Sure?", ""], None),
        ("maybe", ["RequestConfirmation", "Sure?", ""], "`maybe` is neither yes nor no"),
        ("maybe", ["RequestInput", "Note?", "", "", 0, 20, False], None), ("seen", ["DisplayText", "Hello", "", False], None),
    ]

    def test_what_is_no_answer(self):
        tool = load("ofono")
        for answer, question, why in self.TABLE:
            with self.subTest(answer=answer, question=question[0]):
                self.assertEqual(tool.about_answer(tool.answer_of(answer), *question), why)

    def test_to_which_question(self):
        """An answer goes to a question that comes after it, and none to what is told."""
        earlier = ["DisplayText", "Hello", "", False]
        session = types.SimpleNamespace(heard=[earlier], phone=types.SimpleNamespace(answer=lambda *given: None), proactive=lambda: [])
        session.asked = lambda: session.heard
        prompt, shown = load("ofono").Prompt(session, False), io.StringIO()
        with contextlib.redirect_stdout(shown):
            prompt.onecmd("answer 7 0")
            session.heard += [self.ITEMS, ["Release"], self.ITEMS]
            prompt.onecmd("events")
        asked = "  asks: Pick: Milk, Bread\n"
        self.assertEqual(shown.getvalue(), f"  shows: Hello\n{asked}  there is no item 7: 0 is Milk, 1 is Bread; the session is ended\n{asked}")
        self.assertTrue(prompt.failed)

    def test_lines_that_have_nothing_to_tell(self):
        session = types.SimpleNamespace(heard=[], phone=types.SimpleNamespace(menu=[]), proactive=lambda: [], asked=lambda: [])
        tool, shown = load("ofono"), io.StringIO()
        with contextlib.redirect_stdout(shown), unittest.mock.patch.object(tool.ofono_tries, "restart"):
            for line in ("events", "menu", "power"):
                tool.Prompt(session, False).onecmd(line)
        self.assertEqual(shown.getvalue(), "  (nothing since)\n  (the menu is empty)\n  off and on again\n")


@unittest.skipIf(MISSING, f"oFono isn't here: {MISSING}")
@unittest.skipUnless(is_built(), "the program isn't built")
class Telephone(unittest.TestCase):
    def setUp(self):
        self.folder = tempfile.TemporaryDirectory()
        self.addCleanup(self.folder.cleanup)

    def test_a_session(self):
        """The PIN, the IMSI, the menu, and an entry of it; then the card is gone, and what it said is told."""
        with Card(ofono_tries.TELEPHONE) as card, ofono_tries.Session(card) as session:
            session.begin()
            self.assertEqual(session.phone.sim["SubscriberIdentity"], ofono_tries.IMSI)
            self.assertEqual(session.phone.menu, ofono_tries.MENU)
            ofono_tries.picked(session, "Menu", [1, None], ofono_tries.play_tone)()
            with self.assertRaisesRegex(ofono_tries.Wrong, "what was played is"):
                ofono_tries.picked(session, "Menu", [0, None], lambda *given: ofono_tries.expect(
                    session.asked()[1], ["PlayTone", "general-beep", "", 0], "what was played"))()
            with self.assertRaises(ofono.OfonoError):
                session.phone.ask("call", "org.ofono.SimManager", "EnterPin", "pin", "0000")
            ofono_tries.well_formed(session.lines)

    def test_the_prompt(self):
        lines = ("sim\npin 0000\npin 1234\nanswer Milk\nonline\nanswer 5 seen\npick Key\npick None\npick\nunblock 1\nanswer \"\nhello\n"
                 "answer 7\npick Menu\n")
        path = os.path.join(self.folder.name, "a.trace")
        ran = subprocess.run([sys.executable, "-B", os.path.join(TOOLS, "ofono"), ofono_tries.TELEPHONE, "--trace", path], input=lines,
                             capture_output=True, text=True, timeout=300, check=False)
        self.assertEqual((ran.returncode, ran.stderr), (1, "  oFono is being started, with this card in its modem\n"))
        said = [line.strip() for line in ran.stdout.splitlines()]
        for part in ("PinRequired: pin", "line 2: org.ofono.Error.Failed: Operation failed", "asks: Note? (0 to 20 characters)", "SET UP MENU: 00 done",
                     "asks: ? (a key)", "shows: K", "GET INKEY: 00 done", "DISPLAY TEXT: 00 done",
                     "line 8: the menu has no entry `None`: Menu, Note, Key, Local, Again, Reset", "line 9: the form of the line is: pick ENTRY",
                     "line 10: the form of the line is: unblock VALUE NEW", "line 11: No closing quotation: answer ANSWER..",
                     "line 12: no word `hello` is known: sim, pin, unblock, online, menu, pick, answer, events, power, cut",
                     "there is no item 7: 0 is Text, 1 is Tone; the session is ended", "SELECT ITEM: 10 session terminated by the user"):
            self.assertIn(part, said)
        self.explained(path)

    def test_a_question_without_an_answer(self):
        """It is named, and what to do about it, in the place of what oFono does in three minutes."""
        with tempfile.TemporaryDirectory() as folder:
            path = os.path.join(folder, "a.script")
            with open(path, "w", encoding="ascii") as out:
                out.write("df 7F20\nef 7F206F07 t 9 7 -\nfill 7F206F07 0 080910101032547698\nrow 5 1 014000\nstart\n")
            ran = subprocess.run([sys.executable, "-B", os.path.join(TOOLS, "ofono"), path], input="online\n", capture_output=True, text=True, timeout=300,
                                 check=False)
        self.assertEqual((ran.returncode, ran.stdout), (1, "line 1: what the card begins by itself doesn't end within 20 seconds: GET INPUT has no answer; "
                                                        "a line `answer` before this one gives it\n"))

    def explained(self, path):
        """The trace that was kept: each line has its time, and tools/explain tells it."""
        with open(path, encoding="ascii") as text:
            lines = text.read().splitlines()
        self.assertTrue(all(line.startswith("@ ") for line in lines[::2]) and not any(line.startswith("@ ") for line in lines[1::2]))
        self.assertTrue({line[:2] for line in lines[1::2]} <= {"> ", "< ", "! "})
        told = subprocess.run([sys.executable, "-B", os.path.join(TOOLS, "explain"), path], capture_output=True, text=True, check=False).stdout
        for part in ("VERIFY", "GET INPUT", "DISPLAY TEXT"):
            self.assertIn(part, told)


NO_MANAGER = modemmanager.why_not()


@unittest.skipIf(NO_MANAGER, f"ModemManager isn't here: {NO_MANAGER}")
@unittest.skipUnless(is_built(), "the program isn't built")
class Manager(unittest.TestCase):
    def test_the_sim_and_its_pin(self):
        with Card(ofono_tries.TELEPHONE) as card, modemmanager.ModemManager(card) as phone:
            self.assertTrue(phone.until_known())
            self.assertEqual((phone.sim["iccid"], phone.sim["operator-name"]), (ofono_tries.ICCID, "Example Mobile"))
            modemmanager.wrong_pin(phone)
            with self.assertRaises(ofono_tries.Wrong):
                modemmanager.refused(phone, "-m", "any")
            modemmanager.unlocked(phone, "--pin=" + ofono_tries.PIN)
            self.assertEqual(phone.sim["imsi"], ofono_tries.IMSI)


class Tool(unittest.TestCase):
    def ran(self, *words, text="", **environment):
        words = [sys.executable, "-B", os.path.join(TOOLS, "ofono"), *words]
        return subprocess.run(words, input=text, capture_output=True, text=True, timeout=300, check=False, env={**os.environ, **environment})

    def test_what_is_refused(self):
        self.assertIn("--keep is for what is tried", self.ran("card.script", "--keep", "x").stderr)
        self.assertIn("--trace is for a SCRIPT", self.ran("--trace", "x").stderr)

    @unittest.skipIf(MISSING, f"oFono isn't here: {MISSING}")
    def test_a_trace_that_cant_be_kept(self):
        ran = self.ran(ofono_tries.TELEPHONE, "--trace", "/nowhere/a.trace")
        self.assertEqual(ran.returncode, 2)
        self.assertIn("/nowhere/a.trace", ran.stderr)
        self.assertNotIn("Traceback", ran.stderr)

    @unittest.skipIf(MISSING, f"oFono isn't here: {MISSING}")
    def test_traces_that_cant_be_kept(self):
        """A file in the place of the folder is told before anything is tried."""
        with tempfile.NamedTemporaryFile() as file:
            ran = self.ran("--keep", file.name)
            self.assertEqual((ran.returncode, ran.stdout, ran.stderr), (2, "", f"ofono: {file.name} is a file, and a folder is wanted\n"))

    def test_the_script_is_not_written_over(self):
        with tempfile.TemporaryDirectory() as folder:
            path = os.path.join(folder, "a.script")
            shutil.copy(ofono_tries.TELEPHONE, path)
            ran = self.ran(path, "--trace", path)
            self.assertEqual((ran.returncode, ran.stderr), (2, f"ofono: nothing is written: {path} is what this is made of, and would be lost: the result goes to another file\n"))
            with open(path, "rb") as one, open(ofono_tries.TELEPHONE, "rb") as other:
                self.assertEqual(one.read(), other.read())

    @unittest.skipIf(MISSING, f"oFono isn't here: {MISSING}")
    def test_no_card(self):
        ran = self.ran("nowhere.script")
        self.assertEqual(ran.returncode, 2)
        self.assertEqual(ran.stderr, "ofono: nowhere.script: no file is there\n")

    @unittest.skipIf(MISSING, f"oFono isn't here: {MISSING}")
    def test_a_script_without_its_end(self):
        """It is refused before oFono is started."""
        with tempfile.TemporaryDirectory() as folder:
            path = os.path.join(folder, "a.script")
            with open(path, "w", encoding="ascii") as out:
                out.write("ef 2FE2 t 10 2 -\n")
            ran = self.ran(path)
        self.assertEqual((ran.returncode, ran.stdout, ran.stderr), (2, "", f"ofono: {path}: the script ends, and no line `start` stands in it, before "
                                                                    "which its card is described\n"))

    @unittest.skipIf(MISSING, f"oFono isn't here: {MISSING}")
    def test_what_is_said_at_first(self):
        """That it starts, and what the card lacks without which oFono does next to nothing."""
        with tempfile.TemporaryDirectory() as folder:
            path = os.path.join(folder, "a.script")
            with open(path, "w", encoding="ascii") as out:
                out.write("pin 01 31323334FFFFFFFF on 3132333435363738\nef 2FE2 t 10 2 -\nstart\n")
            lacking, whole = self.ran(path), self.ran(ofono_tries.TELEPHONE)
            began = time.monotonic()
            refused = self.ran(path, text="online\n")
            took = time.monotonic() - began
        # without a toolkit nothing is waited for
        self.assertEqual((refused.returncode, refused.stdout), (1, "line 1: the card has no EF.IMSI, and oFono has no toolkit with it\n"))
        self.assertLess(took, 55)
        self.assertEqual(whole.stderr, "  oFono is being started, with this card in its modem\n")
        self.assertRegex(lacking.stderr, "^  the card has no EF.IMSI .*\n  oFono is being started, with this card in its modem\n$")


@unittest.skipUnless(daemon.python_with_dbus(), "D-Bus for Python isn't here")
class Bus(unittest.TestCase):
    def test_yes_and_no(self):
        """What is neither ends the session, as a number does that is no item; `no` isn't taken for a truth."""
        code = (f"import sys; sys.path.insert(0, {TOOLS!r}); import ofono_client\n"
                "print([ofono_client.yes_or_no(word) for word in ('yes', 'no', True, False)])\n"
                "for word in ('maybe', None, 0):\n"
                "    try:\n        print(ofono_client.yes_or_no(word))\n"
                "    except ValueError as fault:\n        print(fault)\n")
        done = subprocess.run([daemon.python_with_dbus(), "-B", "-c", code], capture_output=True, text=True, check=False)
        self.assertEqual(done.stdout.splitlines(), ["[True, False, True, False]", *(f"{word} is neither yes nor no" for word in ("maybe", None, 0))], done.stderr)

    def test_a_bus_leaves_nothing_where_it_is_started(self):
        """Its folder is named from the root: a relative one is refused, and nothing is written."""
        with tempfile.TemporaryDirectory() as folder:
            code = f"import sys; sys.path.insert(0, {TOOLS!r}); import ofono_client; ofono_client.bus_in('.', None)"
            done = subprocess.run([daemon.python_with_dbus(), "-B", "-c", code], cwd=folder, capture_output=True, text=True, check=False)
            self.assertEqual((done.returncode, os.listdir(folder)), (1, []))
            self.assertIn("the folder of a bus is named from the root", done.stderr)


if __name__ == "__main__":
    unittest.main()
