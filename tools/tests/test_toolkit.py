"""uicc.toolkit: what is worked out of a card's toolkit is what the card does."""
import os
import subprocess
import sys
import tempfile
import unittest

import common  # noqa: F401 (the path)
from uicc import Card, Terminal, decode, lint, process, stored, toolkit, trace

LONGEST = 20_000
PROFILE = "> 80100000082900BF6171000013"
# a clock, a note without a text, and a menu
ROWS = "row 2 1 014000\nrow 5 2 0140044E6F7465\nrow 1 3 00044D656E75\nstart\n"
BEGUN = [PROFILE, "< 911F", "> 801200001F", "< D01D81030125008202818285044D656E758F05024D656E758F05064E6F74659000",
         "> 801400000C810301250082028281830100", "< 9113"]


def rows_of(script):
    return lint.read(script).card.rows


def told(script, lines):
    """The lines about a toolkit, as they are shown."""
    return [f"{line.label}: {line.text}" for line in toolkit.followed(rows_of(script), lines).lines()]


class OfACard(unittest.TestCase):
    """What a Card tells of its toolkit."""

    def doing(self, card):
        now = card.toolkit
        return {shelf: (one.state, one.command) for shelf, one in now.applets.items()}, now.outstanding, now.owner, now.is_fetched

    def test_a_session(self):
        """A clock, a note without a text and a menu: each step of what they are doing."""
        steps = [
            (lambda card: None, {1: ("idle", None), 2: ("idle", None), 5: ("idle", None)}, None, None, False),
            (lambda card: card.profile(), {1: ("idle", None), 2: ("waiting", "TIMER MANAGEMENT"), 5: ("waiting", "GET INPUT")}, "SET UP MENU", None, False),
            (lambda card: card.fetch(), {1: ("idle", None), 2: ("waiting", "TIMER MANAGEMENT"), 5: ("waiting", "GET INPUT")}, "SET UP MENU", None, True),
            (lambda card: card.respond(), {1: ("idle", None), 2: ("asked", "TIMER MANAGEMENT"), 5: ("waiting", "GET INPUT")}, "TIMER MANAGEMENT", 2, False),
            (lambda card: (card.fetch(), card.respond()), {1: ("idle", None), 2: ("idle", None), 5: ("asked", "GET INPUT")}, "GET INPUT", 5, False),
            (lambda card: (card.fetch(), card.pick(2)), {1: ("waiting", "SELECT ITEM"), 2: ("idle", None), 5: ("asked", "GET INPUT")}, "GET INPUT", 5, True),
            (lambda card: card.reset(), {1: ("idle", None), 2: ("idle", None), 5: ("idle", None)}, None, None, False),
        ]
        with Card.from_text(ROWS) as card:
            for number, (act, *wanted) in enumerate(steps):
                with self.subTest(step=number):
                    act(card)
                    self.assertEqual(self.doing(card), tuple(wanted))
                    # what went over needs not be kept
                    card.trace.clear()
                    self.assertEqual(len(str(card.toolkit).splitlines()), len(card.toolkit.lines))

    def test_values(self):
        with Card.from_text(ROWS) as card:
            self.assertFalse(card.toolkit.has_profile)
            card.profile()
            now = card.toolkit
            self.assertTrue(now.has_profile)
            self.assertEqual(now.timers, {1: 2})
            self.assertEqual(now.events["profile download"], [2, 5])
            self.assertEqual([now.applets[shelf].place for shelf in (1, 2, 5)], [0, 1, 2])
            self.assertEqual([now.applets[shelf].priority for shelf in (1, 2, 5)], [3, 1, 2])
            self.assertIn("timer 1: held by the applet on shelf 2", str(now))
            self.assertIsNone(now.doubt)

    def test_late_events(self):
        """An applet that waits for a response is told of an event later."""
        with Card.from_text("row 3 1 0203040000\nrow 20 2 0103000301410301420301430304\nstart\n") as card:
            card.profile()
            while card.fetch():
                card.respond()
            place = "D613 9901 03 82028281 9B0100 930700F11000010002"
            card.envelope(place)
            card.envelope(place)
            self.assertIn((3, "location status"), card.toolkit.late)

    def test_as_by_its_trace(self):
        """The same as is worked out from the trace of a day, line by line; also after a cut, and on a card that is opened again."""
        with tempfile.TemporaryDirectory() as folder:
            image = os.path.join(folder, "day.img")
            script = os.path.join(process.TOP, "examples", "day.script")
            with Card(script, image=image) as card:
                rows, terminal = dict(card.holds.rows), Terminal(card)
                terminal.start()
                for line in process.card_section(process.lines_of(script))[1]:
                    if not line.startswith("#"):
                        terminal.line(line)
                    self.assertEqual(list(card.toolkit.lines), toolkit.followed(rows, card.trace).lines())
            with Card.open(image) as card:
                self.assertEqual(len(card.toolkit.applets), len(rows))

    def test_installed(self):
        with Card.from_text("pin 0A 3838383838383838 on 3030303030303030\nstart\n") as card:
            self.assertEqual(card.toolkit.applets, {})
            card.verify(0x0A, "88888888")
            card.install(1, 5, "00044D656E75")
            self.assertEqual(card.toolkit.applets[1].priority, 5)
            card.delete(1)
            self.assertEqual(card.toolkit.applets, {})


class Stored(unittest.TestCase):
    def test_stored(self):
        """Each command that a card of the stored runs gives the terminal is the one that was worked out, with its owner."""
        fetched = 0
        for words, script in stored.runs(("play", "phone")):
            if len(script) > LONGEST:
                continue
            lines, status, _ = process.played(words, script.decode(process.ENCODING))
            if status == 0:
                fetched += self.compare(script.decode(process.ENCODING), lines)
        self.assertGreater(fetched, 1000)

    def compare(self, script, lines):
        followed, fetched = toolkit.Toolkit(rows_of(script)), 0
        for part in trace.parts(lines):
            if isinstance(part, trace.Mark):
                if part.text == process.RESET:
                    followed.reset()
                continue
            if part.answer is None or part.status == toolkit.MEMORY_PROBLEM:
                # what stands in the memory now isn't known from a trace
                return fetched
            apdu = decode.Apdu(part.command)
            if apdu.ins == decode.FETCH and part.status == "9000":
                self.assertEqual(followed.out.command.spelled(followed.out.number), part.answer[:-2], script)
                fetched += 1
            followed.take(apdu, part.answer[:-2], part.status)
            is_announced = followed.out is not None and not followed.out.fetched
            if part.status.startswith("91") or part.status == "9000":
                self.assertEqual(is_announced, part.status.startswith("91"), script)
        self.assertIsNone(followed.doubt, script)
        return fetched


class Words(unittest.TestCase):
    def test_asked_and_waiting(self):
        self.assertEqual(told(ROWS, BEGUN), [
            "terminal profile: received",
            "outstanding command: TIMER MANAGEMENT, number 2, of the applet on shelf 2: waits to be fetched",
            "applet on shelf 1 (has a menu, priority 3): idle",
            "applet on shelf 2 (keeps a clock, priority 1): asked: waits for the response to TIMER MANAGEMENT",
            "applet on shelf 5 (keeps a note, priority 2): waiting: has GET INPUT to send, as number 1 of 1",
            "timer 1: held by the applet on shelf 2",
            "event 40 profile download: wakes shelf 2 (priority 1), shelf 5 (priority 2)",
        ])

    def test_late(self):
        """A timer that is due while its applet waits for a response comes late, and wakes it then."""
        due = ["> 80C200000ED70C82028281A40101A503005000", "< 9113"]
        found = told(ROWS, BEGUN + due)
        self.assertIn("late event 1: 44 timer expiration for the applet on shelf 2", found)
        answered = ["> 8012000013", "< D011810302270082028182A40101A5030050009000", "> 801400000F810302270082028281830100A40101", "< 9117"]
        found = told(ROWS, BEGUN + due + answered)
        self.assertNotIn("late event 1: 44 timer expiration for the applet on shelf 2", found)
        self.assertIn("applet on shelf 2 (keeps a clock, priority 1): waiting: has DISPLAY TEXT to send, as number 1 of 1", found)
        self.assertIn("outstanding command: GET INPUT, number 3, of the applet on shelf 5: waits to be fetched", found)

    def test_reset(self):
        self.assertEqual(told(ROWS, [*BEGUN, "! reset"]), told(ROWS, []))

    def test_doubt(self):
        """What can't be known is said."""
        self.assertEqual(told(ROWS, [*BEGUN, "> 8012000013", "! cut"])[-1], f"not sure: {toolkit.NOT_SETTLED}")
        self.assertEqual(told("row 0 1 014000\nstart\n", BEGUN)[-1], f"not sure: {toolkit.OTHER_APPLETS}")


class AtThePrompt(unittest.TestCase):
    def test_shell(self):
        """tools/shell says it after each command."""
        with tempfile.NamedTemporaryFile("w", suffix=".script", encoding="utf-8") as script:
            script.write(ROWS)
            script.flush()
            shell = [sys.executable, os.path.join(common.TOOLS, "shell"), script.name]
            done = subprocess.run(shell, input="toolkit\nprofile\nfetch\nrespond\ntoolkit\nreset\ntoolkit\n", stdout=subprocess.PIPE, text=True, check=False)
        self.assertEqual(done.returncode, 0)
        # without the lines themselves, which are shown before what comes of them
        said = [line.strip() for line in done.stdout.splitlines() if "> " not in line]
        before, now = told(ROWS, []), told(ROWS, BEGUN)
        self.assertEqual((said[:len(before)], said[-len(before):]), (before, before))
        self.assertEqual(said[-len(before) - len(now):-len(before)], now)


if __name__ == "__main__":
    unittest.main()
