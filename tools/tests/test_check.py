"""What tools/check makes of what other programs print."""
import contextlib
import io
import os
import re
import tempfile
import unittest
import unittest.mock

from common import load
import osmosim_client
from installing import fresh


class Check(unittest.TestCase):
    # a line of a dump of opensc-tool, and its bytes
    DUMPS = [
        ("98 10 10 32 54 76 98 10 32 54 ...2Tv..2T", "98101032547698103254"),
        ("62 10 82 02 78 21 83 02 3F 00 8A 01 05 C6 03 90 b...x!..?.......", "62108202782183023F008A0105C60390"),
        ("01 00                                           ..", "0100"),
        ("31 32 20 12 ", "313220"),
        ("00 .", "00"),
    ]

    def test_dumps(self):
        check = load("check")
        for line, content in self.DUMPS:
            self.assertEqual(check.dumped(line), content)

    # what scriptor prints for commands, a reset and what it can't send, and the answers in it
    PRINTED = """Using T=0 protocol
00A40004022FE2
> 00 A4 00 04 02 2F E2 
< 61 19 : 0x19 bytes of response still available.
00C0000019
> 00 C0 00 00 19 
< 62 17 82 02 41 21 83 02 2F E2 8A 01 05 8B 03 2F 
06 05 80 02 00 0A 88 01 10 90 00 : Normal processing.
reset
> RESET
< OK: 3B 97 95 80 1F C7 80 31 00 73 36 21 13 9C 
00C0000019
> 00 C0 00 00 19 
< 69 85 : Command not allowed. Conditions of use not satisfied.
"""

    def test_answers_of_scriptor(self):
        self.assertEqual(load("check").answers_of_scriptor(self.PRINTED),
                         ["6119", "62178202412183022FE28A01058B032F06058002000A8801109000", "6985"])

    # a command, its data, and how many bytes its Le wants, as libosmosim is given them
    PARTS = [
        ("00FF0000", "", 0), ("00B000000A", "", 10), ("00B0000000", "", 256), ("00A4000C022FE2", "2FE2", 0),
        ("00A40004022FE200", "2FE2", 256), ("00A20104014101", "41", 1),
    ]

    def test_parts_of_commands(self):
        for command, data, wanted in self.PARTS:
            self.assertEqual(osmosim_client.parts(bytes.fromhex(command)), (bytes.fromhex(data), wanted), command)

    # what tshark tells of packets (protocol, protocols, expert, malformed, status, comment), a trace, and whether they agree
    ONE = ["GSM SIM", "raw:ip:udp:gsmtap:gsm_sim", "", "", "0x9000", ""]
    ALONE = ["GSM SIM", "exported_pdu:gsm_sim", "", "", "", "no answer came"]
    REFUSED = ["GSM SIM", "exported_pdu:gsm_sim", "", "", "", "answered 6985"]
    RESET = ["GSMTAP", "raw:ip:udp:gsmtap:gsmtap_log", "", "", "", "reset"]
    DECODED = [
        ([ONE], ["> 00A4000C023F00", "< 9000"], True),
        ([ONE[:3] + ["1"] + ONE[4:]], ["> 00A4000C023F00", "< 9000"], False),
        ([ONE], ["> 00A4000C023F00", "< 6A82"], False),
        ([], ["> 00A4000C023F00", "< 9000"], False),
        ([ONE, RESET], ["> 00A4000C023F00", "< 9000", "! reset"], True),
        ([ONE], ["> 00A4000C023F00", "< 9000", "! reset"], False),
        ([ALONE], ["> 00A4000C023F00", "! cut"], True),
        ([], ["> 00A4", "< 6700"], True),
        # a FETCH that is refused is a command alone, whose status stands in the comment
        ([REFUSED], ["> 8012000010", "< 6985"], True),
        ([REFUSED[:5] + [""]], ["> 8012000010", "< 6985"], False),
        ([ONE, REFUSED], ["> 00A4000C023F00", "< 9000", "> 8012000010", "< 6C1F"], False),
    ]

    def test_decoded(self):
        check = load("check")
        for packets, lines, agree in self.DECODED:
            if agree:
                check.judged(packets, lines)
            else:
                with self.assertRaises(check.Wrong):
                    check.judged(packets, lines)

    def test_answers(self):
        check = load("check")
        check.compare(["00B0000001"], ["AA9000"], ["AA9000"])
        for answers in ([], ["AB9000"]):
            with self.assertRaises(check.Wrong):
                check.compare(["00B0000001"], answers, ["AA9000"])

    # packages that are on each Debian, and those of what is a daemon
    EVERYWHERE = {"dpkg", "util-linux"}
    OF_DAEMONS = {"ofono": ["ofono", "dbus", "python3-dbus"], "modemmanager": ["modemmanager", "dbus", "python3-dbus"]}

    def test_what_each_part_wants(self):
        """The help has a row for each part, with the packages of what it looks for."""
        check = load("check")
        of = {**{name: [package] for name, (_, package) in check.places().items()}, **self.OF_DAEMONS}
        rows = {row[1]: row[2] for row in re.finditer(r"(?m)^    (\w+) +\d+ s    (.*)$", check.__doc__)}
        self.assertEqual((list(rows), list(check.NEEDS)), (list(check.PARTS),) * 2)
        for part, names in check.NEEDS.items():
            packages = {package for name in names for package in of[name]} - self.EVERYWHERE
            self.assertEqual(set(rows[part].partition(";")[0].split()) - {"none"} if names else set(), packages, part)

    def test_only_what_is_wanted_can_be_missing(self):
        """A part that does without a program is whole where that isn't here."""
        check = load("check")
        gone = {name: (None, "a-package") for name in check.places()}
        for part, missing in (("examples", 0), ("captures", 1), ("page", 2)):
            with self.subTest(part=part), unittest.mock.patch.object(check, "places", return_value=gone), contextlib.redirect_stdout(io.StringIO()):
                tally = check.Tally()
                check.needed(tally, [part])
                self.assertEqual(tally.untried, missing)

    # files of apt's sources, and the mirror of Debian itself in them
    MIRRORS = [
        ("deb http://deb.debian.org/debian bookworm main\n", "http://deb.debian.org/debian"),
        ("# no\ndeb [arch=amd64 signed-by=/k.gpg] https://mirror.example/debian/ bookworm main\n", "https://mirror.example/debian"),
        ("Types: deb\nURIs: http://deb.debian.org/debian\nSuites: bookworm\n", "http://deb.debian.org/debian"),
        ("deb https://packages.example/apt cloud main\n", None), ("URIs: http://deb.debian.org/debian-security\n", None), ("", None),
    ]

    def test_mirrors(self):
        for text, wanted in self.MIRRORS:
            with self.subTest(text=text):
                self.assertEqual(fresh.mirror_in(text), wanted)

    def installing(self, made, tried, user=0, here="/usr/sbin/debootstrap"):
        """What the part `installing` prints and counts over a fresh Debian that is none."""
        check, out = load("check"), io.StringIO()
        tally = check.Tally()
        with tempfile.TemporaryDirectory() as folder, contextlib.redirect_stdout(out), unittest.mock.patch.object(os, "geteuid", return_value=user), \
                unittest.mock.patch.object(check.debian, "make", return_value=__file__), unittest.mock.patch.object(fresh.Fresh, "__init__", made), \
                unittest.mock.patch.object(fresh.Fresh, "told", tried):
            check.installing(tally, folder, {"debootstrap": here, "dpkg-deb": here})
        return (tally.passed, tally.failed, tally.untried), out.getvalue()

    def test_a_fresh_debian(self):
        """What is as it must be, what is wrong, and what can't be tried, each in its own word."""
        def made(system, *_):
            system.package = "/tmp/p.deb"

        def no_mirror(*_):
            raise fresh.NotHere("debootstrap ended with 1: no such mirror")

        def right(_, *words):
            return next((wanted for _, each, wanted in fresh.TRIES if list(words) == each), "")

        def without_pages(system, *words):
            return "no such page" if words[0] == "man" else right(system, *words)
        every = len(fresh.TRIES) + 3
        self.assertEqual(self.installing(made, right)[0], (every, 0, 0))
        counts, said = self.installing(made, without_pages)
        self.assertEqual(counts, (every - 2, 2, 0))
        self.assertIn("WRONG    man uicc-lint: `uicc-lint - What is wrong with a script?` isn't in what it writes: no such page", said)
        counts, said = self.installing(made, lambda _, *words: "/usr/lib/x/uicc\n" if words[0] == "find" else right(_, *words))
        self.assertEqual(counts, (every - 1, 1, 0))
        self.assertIn("WRONG    nothing is left: this is left of it: /usr/lib/x/uicc", said)
        self.assertEqual(self.installing(no_mirror, right)[0], (1, 0, 1))
        self.assertEqual(self.installing(made, right, user=1000), ((0, 0, 1), "a fresh Debian\n  MISSING  installing: without root\n"))
        self.assertIn("without debootstrap", self.installing(made, right, here=None)[1])

    def test_what_ends_otherwise(self):
        """A command of the fresh Debian that fails is told with the end of what it wrote."""
        with self.assertRaisesRegex(fresh.Failed, "sh ended with 3: two / three / four"):
            fresh.carried_out(["sh", "-c", "printf 'one\\ntwo\\nthree\\nfour\\n'; exit 3"])

    # what a terminal made of sequences, and whether the page tells the same
    TOLD = "And so it is:\n\n    $ tools/sequence examples/sequences --on ofono | grep FAILED\n    FAILED  a.sequence:3: B, twice\n" \
        "    4 sequences on oFono 1.31: 1 passed, 1 failed, 1 inconclusive, 1 not supported\n\nThat is all.\n"
    FOUND = {"A": "ok", "B, twice": "not ok", "C": "inconclusive", "D": "not supported"}
    OTHERS = [(FOUND, True), ({**FOUND, "A": "not ok"}, False), ({**FOUND, "D": "ok"}, False), ({**FOUND, "B, twice": "ok", "A": "not ok"}, False),
              ({**FOUND, "E": "ok"}, False)]

    def test_what_the_page_tells_of_sequences(self):
        check = load("check")
        with tempfile.TemporaryDirectory() as folder:
            with open(os.path.join(folder, "page.md"), "w", encoding="ascii") as out:
                out.write(self.TOLD)
            for found, agree in self.OTHERS:
                with self.subTest(found=found), unittest.mock.patch.object(check, "TOLD", os.path.join(folder, "page.md")):
                    if agree:
                        check.expect_told(found, "1.31")
                    else:
                        with self.assertRaisesRegex(check.Wrong, "tells something else: [-+] "):
                            check.expect_told(found, "1.31")


if __name__ == "__main__":
    unittest.main()
