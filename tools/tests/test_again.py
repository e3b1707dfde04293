"""tools/cuts --again: a script that is stopped in its writes, and run again from its beginning."""
import os
import tempfile
import unittest

import common
from uicc import kept, picture, process

HEAD = """pin 0A 3838383838383838 on 3030303030303030
ef 2FE2 t 4 2 -
ef 2F05 c 2 3 5 -
start
"""
ADM = "apdu 0020000A083838383838383838\n"
SAME, OTHERWISE = "as it would", "otherwise"
# a script, how many runs end as it would have and how many otherwise, and parts of what is told
TABLE = {
    "what is written again is the same": (ADM + "apdu 00D6820004AABBCCDD\n", 36, 0, ["ends as it would have, after 0 otherwise"]),
    "a folder that is there already isn't selected by making it again": (
        ADM + "apdu 00E000000A62088202782183027F10\napdu 00E0000011620F8202412183026F5080020004880128\n", 36, 15,
        ["otherwise: 7F10/6F50 is missing; ", "run again, line 6 shows `< 6A89` and not `< 9000`"]),
    "what lies in that folder is made in the MF": (
        ADM + "apdu 00E000000A62088202782183027F10\napdu 00E0000011620F8202412183026F5080020004880130\n", 29, 22,
        ["otherwise: 7F10/6F50 is missing, 3F00/6F50 is too much; run again, line 6 shows `< 6A89` and not `< 9000`"]),
    "a cyclic file gets one more record": ("apdu 00DC002B020102\n", 5, 10, ["otherwise: 2F05 EF.PL differs", "after 1 of 1 lines: 5"]),
    "a reset": ("reset\n", 0, 0, ["0 writes"]),
}


def is_built():
    try:
        return bool(process.program())
    except process.NotBuilt:
        return False


def cuts(*words):
    return common.in_process("cuts", *words)


@unittest.skipUnless(is_built(), "the program isn't built")
class Again(unittest.TestCase):
    def setUp(self):
        folder = tempfile.TemporaryDirectory()
        self.addCleanup(folder.cleanup)
        self.path = os.path.join(folder.name, "card.script")

    def again(self, text, *words):
        with open(self.path, "w", encoding="ascii") as out:
            out.write(HEAD + text)
        return cuts(self.path, "--again", *words)

    def test_how_it_ends(self):
        for name, (text, same, otherwise, parts) in TABLE.items():
            for store in ("journal", "pages"):
                with self.subTest(script=name, store=store):
                    done = self.again(text, "--store", store)
                    self.assertEqual(done.returncode, 1 if otherwise else 0, done.stderr + done.stdout)
                    if store == "journal":
                        last = done.stdout.splitlines()[-1]
                        self.assertIn(f"{same + otherwise} runs: after {same} the card ends as it would have, after {otherwise} otherwise", last)
                    for part in parts:
                        self.assertIn(part, done.stdout)

    def test_lines_that_are_refused_each_time(self):
        """They are named, though the card ends as it would have: ADM1 isn't verified, or no more after a reset."""
        done = self.again("apdu 00E000000A62088202782183027F10\n" + ADM + "apdu 00D6820004AABBCCDD\n")
        self.assertEqual(done.returncode, 0)
        self.assertIn("\nrefused also where nothing is cut: line 5 (6982)\n", done.stdout)
        self.assertNotIn("refused", self.again(ADM + "apdu 00D6820004AABBCCDD\n").stdout)

    def test_a_picture(self):
        """A stripe for each run, in the colour of how it ends."""
        _, same, otherwise, _ = TABLE["a folder that is there already isn't selected by making it again"]
        svg = self.path + ".svg"
        done = self.again(TABLE["a folder that is there already isn't selected by making it again"][0], "--picture", svg)
        self.assertTrue(done.stdout.startswith("Each write is cut, torn and made to fail; then the card is reset, and the whole script is run again"))
        with open(svg, encoding="utf-8") as text:
            drawn = text.read()
        # beside that of the legend
        self.assertEqual([drawn.count(f'fill="{colour}"') - 1 for colour in (picture.AS_IT_WOULD, picture.OTHERWISE)], [same, otherwise])

    def test_what_reads_a_pin_back(self):
        """It is said of each command that reads back what it tells, and which of them takes a try itself."""
        with open(self.path, "w", encoding="ascii") as out:
            out.write(HEAD + "apdu 0024000A1038383838383838383939393939393939\n")
        lines = cuts(self.path).stdout.splitlines()
        self.assertTrue(lines[1].endswith("VERIFY PIN  0020000A: the tries that are left"), lines[1])
        self.assertTrue(lines[2].endswith(": whether it is this value; this takes a try where it is another"), lines[2])

    def test_shards(self):
        """Together they have each command once."""
        text = ADM + "apdu 00D6820004AABBCCDD\napdu 00B0820004\nreset\napdu 00D682000411223344\n"

        def lines(*words):
            return {line.split()[0] for line in self.again(text, *words).stdout.splitlines() if line[:5].strip().isdigit()}
        first, second = lines("--shard", "1/2"), lines("--shard", "2/2")
        self.assertEqual((len(first), len(second), first & second, first | second), (3, 2, set(), lines()))

    # words of cuts over an image, and what its last line tells: as much as of the same script with the card before its `start`
    OVER_AN_IMAGE = {
        "--all": "2 commands and resets; 12 writes, 36 runs: 12 leave what was before and is after, 5 leave what was before, 12 leave what is between, "
                 "7 leave what is after",
        "--again": "2 commands and resets; 12 writes, 36 runs: after 36 the card ends as it would have, after 0 otherwise",
    }

    def test_over_an_image(self):
        """A script for `open` goes on with the card of an image, of either store; the image stays as it is."""
        steps = ADM + "apdu 00D6820004AABBCCDD\n"
        for store in ("journal", "pages"):
            held = kept.Place(["play", "--store", store], 0, HEAD.splitlines()).play([]).image
            image = self.path + "." + store
            with open(image, "wb") as out:
                out.write(held)
            with open(self.path, "w", encoding="ascii") as out:
                out.write("start\n" + steps)
            for words in (["--back", self.path], ["--all"], ["--again"], []):
                with self.subTest(store=store, words=words):
                    over = cuts(self.path, *words, "--image", image, "--store", store)
                    self.assertEqual((over.returncode, over.stderr), (0, ""))
                    if store == "journal" and words and words[0] in self.OVER_AN_IMAGE:
                        self.assertEqual(over.stdout.splitlines()[-1], self.OVER_AN_IMAGE[words[0]])
                    if not words:
                        self.assertIn("before        FFFFFFFF 9000\nafter         AABBCCDD 9000\n", over.stdout)
            with open(image, "rb") as there:
                self.assertEqual(there.read(), held)

    def test_an_image_that_is_refused(self):
        held = kept.Place(["play"], 0, HEAD.splitlines()).play([]).image
        image = self.path + ".img"
        for content, script, words, why in (
                (held, HEAD + ADM, [], f"describes a card before its `start`, and --image goes on with the one in {image}: give one of the two"),
                (held[:-1], "start\n" + ADM, [], f"cuts: {image}: it is no image of a card"),
                (held, "start\n" + ADM, ["--store", "pages"], f"cuts: {image}: it is an image of the other store"),
                (held, "start\n" + ADM, ["--phone"], "not allowed with argument")):
            with self.subTest(why=why):
                with open(image, "wb") as out:
                    out.write(content)
                with open(self.path, "w", encoding="ascii") as out:
                    out.write(script)
                done = cuts(self.path, *words, "--image", image)
                self.assertEqual(done.returncode, 2)
                self.assertIn(why, done.stderr)

    # words, and why they are refused
    REFUSED = [
        (["--again", "--phone"], "--again is for scripts of `play`"),
        (["--again", "--all"], "not allowed with argument"),
        (["--shard", "1/2"], "--shard parts the commands"),
        (["--all", "--shard", "0/2"], "0/2 is no part"),
        (["--all", "--shard", "3/2"], "3/2 is no part"),
        (["--all", "--shard", "two"], "two is no part"),
        (["--picture", "x.svg"], "--picture draws what --all and --again try"),
        (["--all", "--picture", "x.PNG"], "--picture draws an SVG, and no PNG: x.svg"),
        (["--all", "--jobs", "0"], "0 is no number from 1 on"),
    ]

    def test_words_that_are_refused(self):
        for words, why in self.REFUSED:
            with self.subTest(words=words):
                done = cuts(self.path, *words)
                self.assertEqual(done.returncode, 2)
                self.assertIn(why, done.stderr)
                self.assertNotIn("Traceback", done.stderr)


if __name__ == "__main__":
    unittest.main()
