"""Runs that continue from images that are kept along a script: they tell the same as runs from its beginning, and cost no more and more."""
import os
import unittest
import unittest.mock

import common  # noqa: F401 (the path)
from uicc import cutting, image, kept, lint, process, section, terminal

EXAMPLES = os.path.join(process.TOP, "examples")
HEAD = """pin 01 31323334FFFFFFFF on 3132333435363738
pin 0A 3838383838383838 on 3030303030303030
ef 2FE2 t 10 2 -
ef 2F05 l 4 5 3 -
row 0 1 014000
start
"""
VERIFY = "apdu 002000010831323334FFFFFFFF"


def is_built():
    try:
        return bool(process.program())
    except process.NotBuilt:
        return False


def updates(count):
    """So many updates of a record, by its number."""
    return HEAD + "apdu 00A4000C022F05\n" + "".join(f"apdu 00DC{n % 5 + 1:02X}0404{n:08X}\n" for n in range(count))


# a card with a menu, a watcher of the location, a note and a bar; and a day of its handset, which is switched off and on at its end
OF_HANDSET = """row 1 2 00044D656E75
row 3 1 02030400
row 5 3 0140044E6F7465
row 4 1 01450442617273313233
start
user type Milk
"""
DAY = ("user pick 2", "user pick 1", "user ok", "net place 00F1100001{:04X}", "user ok", "user pick 5", "user type {}", "user dial 1234567", "reset",
       "user ok")


def days(count):
    return OF_HANDSET + "".join(line.format(100 + day) + "\n" for day in range(count) for line in DAY)


def counted(total):
    """What plays a script, and puts the number of its lines to others."""
    played = process.played

    def play(words, text):
        total.append(text.count("\n"))
        return played(words, text)
    return unittest.mock.patch.object(process, "played", play)


@unittest.skipUnless(is_built(), "the program isn't built")
class Kept(unittest.TestCase):
    # what is done to the card, a word a line, at whose bounds an image might be kept
    DONE = {
        "a selected file, a verified PIN and a record pointer": [
            VERIFY, "apdu 00A4000C022F05", "apdu 00B2000204", "apdu 00DC00020401020304", "apdu 00DC01040405060708", "apdu 00B2000304",
            "apdu 00DC00020401020304", "apdu 00D682000498101032"],
        "a channel": ["apdu 0070000001", "apdu 01A4000C022FE2", "apdu 01D6000002AABB", "apdu 00A4000C022F05", "apdu 01D6000002AACC"],
        "power that is lost": [
            "apdu 00D682000498101032", "cut 2 0 00", "apdu 00D6820004AABBCCDD", "apdu 00B0820004", "apdu 00B0820004", "reset",
            "apdu 00D6820004AABBCCDD", "cut 1", "reset", "apdu 00B0820004"],
        "tries of a PIN": [
            "apdu 002000010831313131FFFFFFFF", "apdu 0020000100", VERIFY, "apdu 002000010831313131FFFFFFFF", "reset", VERIFY],
        "data that wait": ["tpdu 00A40004022FE2", "tpdu 00D6000002AABB", "tpdu 00C0000014", "tpdu 00A40004022FE2", "tpdu 00C0000019"],
        "an applet that is deleted for good": [
            "apdu 0020000A083838383838383838", "apdu F0E40000", "reset", "apdu 0020000A083838383838383838", "apdu F0E60100030140000000",
            "apdu F0E6010003014000", "apdu 80C2000009D30782020181900101"],
    }

    def outcomes(self, words, script, between):
        with unittest.mock.patch.object(kept, "STEPS_BETWEEN", between), \
                unittest.mock.patch.object(kept.places, "__defaults__", (between,)):
            found = cutting.all_outcomes(words, script, os.cpu_count(), terminal.Progress(0, ""))
        return [(one.step.number, one.answer, one.writes) for one in found]

    def test_the_same_as_from_the_beginning(self):
        scripts = [(name, HEAD + "".join(line + "\n" for line in lines)) for name, lines in self.DONE.items()]
        for name in ("usim", "pins", "install", "torn"):
            with open(os.path.join(EXAMPLES, name + ".script"), encoding=process.ENCODING) as text:
                scripts.append((name, text.read()))
        for name, text in scripts:
            for words in (["play"], ["play", "--store", "pages"]):
                with self.subTest(script=name, words=words):
                    script = lint.read(text)
                    self.assertIsNone(script.first())
                    self.assertEqual(self.outcomes(words, script, 1), self.outcomes(words, script, 10_000))

    def test_the_lines_that_are_played_grow_with_the_script(self):
        """And not with its square: twice as many commands are some twice as many lines, of all runs together."""
        def lines_played(count):
            total = []
            with counted(total):
                places = kept.places(["play"], lint.read(updates(count)))
                cutting.Outcome(cutting.Step(["play"], lint.read(updates(count)), count, kept.nearest(places, count))).try_all()
            self.assertEqual(len(places), 1 + count // kept.STEPS_BETWEEN)
            return sum(total), max(total)
        (first, _), (second, _) = lines_played(400), lines_played(800)
        self.assertLess(second, 2.5 * first)

    def test_a_place_that_shows_otherwise_is_none(self):
        """A session of the toolkit goes on over its bounds, and so does a power cut: no image is kept there."""
        def places(lines):
            return [place.at for place in kept.places(["play"], lint.read(HEAD + "".join(line + "\n" for line in lines)), 1)]
        self.assertEqual(places(self.DONE["power that is lost"]), [0, 1, 6, 7, 9])
        self.assertEqual(places([VERIFY, "apdu 00B0820004", "apdu 00B0820004"]), [0, 1, 2])

    def test_a_handset_goes_on_from_its_resets(self):
        """Over a card that is described as it stood there: what is told is the same as from the beginning, and the lines that are played
        grow with the script."""
        for words in (["phone"], ["phone", "--store", "pages"]):
            script = lint.read(days(3), "phone")
            self.assertIsNone(script.first())
            self.assertEqual([place.at for place in kept.places(words, script, 5)], [0, 10, 20, 30])
            self.assertEqual(self.outcomes(words, script, 5), self.outcomes(words, script, 10_000))

        def lines_played(count):
            """Of the last steps' runs."""
            script, total = lint.read(days(count), "phone"), []
            places = kept.places(["phone"], script)
            with counted(total):
                for step in range(len(script.steps) - 5, len(script.steps)):
                    cutting.Outcome(cutting.Step(["phone"], script, step, kept.nearest(places, step))).try_all()
            return sum(total)
        self.assertLess(lines_played(12), 1.5 * lines_played(6))

    def test_a_reset_from_which_a_handset_cannot_go_on(self):
        """What describes the card would make another one."""
        lines = "pin 01 31323334FFFFFFFF on 3132333435363738\nstart\nnet poll\nreset\n"
        with unittest.mock.patch.object(image, "card_in", lambda content, whole=image.card_in: self.with_another_pin(whole(content))):
            self.assertEqual([place.at for place in kept.places(["phone"], lint.read(lines, "phone"), 1)], [0])
        self.assertEqual([place.at for place in kept.places(["phone"], lint.read(lines, "phone"), 1)], [0, 2])

    def with_another_pin(self, card):
        card.pins[1].value = b"0000" + b"\xFF" * 4
        return card

    def test_a_card_is_described_as_it_is_held(self):
        for name in ("usim", "telephone", "menu", "day", "folders"):
            with open(os.path.join(EXAMPLES, name + ".script"), encoding=process.ENCODING) as text:
                head = text.read().partition("\nstart\n")[0].splitlines()
            held = kept.Place(["play"], 0, [*head, "start"]).play([]).image
            again = kept.Place(["play"], 0, [*section.lines(image.card_in(held)), "start"]).play([]).image
            with self.subTest(script=name):
                self.assertEqual(image.settled(again), image.settled(held))

    def test_images_are_in_memory(self):
        with process.folder_in_memory() as place:
            self.assertEqual(place.startswith(process.IN_MEMORY), os.access(process.IN_MEMORY, os.W_OK))
        with unittest.mock.patch.object(process, "IN_MEMORY", "/no/such/folder"), process.folder_in_memory() as place:
            self.assertTrue(os.path.isdir(place))


class Settled(unittest.TestCase):
    def test_a_journal_tells_nothing(self):
        """Two images with other notes in the journal hold the same card, where no commit is to be finished."""
        one = bytearray(image.JOURNAL_SIZE)
        other = bytearray(one)
        other[image.ENTRIES + 5] = 0x77
        self.assertEqual(image.settled(bytes(one)), image.settled(bytes(other)))
        other[image.PINS] = 0x77
        self.assertNotEqual(image.settled(bytes(one)), image.settled(bytes(other)))
        self.assertFalse(image.is_unfinished(bytes(one)))
        one[image.GATE] = image.OPEN_GATE
        self.assertTrue(image.is_unfinished(bytes(one)))


class Shards(unittest.TestCase):
    def test_each_command_is_in_one_shard(self):
        whole = list(range(30))
        for count in (1, 2, 7, 40):
            parts = [cutting.Shard(number, count).of(whole) for number in range(1, count + 1)]
            self.assertEqual(sorted(one for part in parts for one in part), whole)
            self.assertLessEqual(max(map(len, parts)) - min(map(len, parts)), 1)


if __name__ == "__main__":
    unittest.main()
