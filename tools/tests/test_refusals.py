"""Why a card refuses a command: which condition wasn't met, and of what there is no room."""
import os
import re
import unittest

from common import TOOLS
from uicc import decode, follow, lint, process, refusals, trace

HEAD = """pin 01 31323334FFFFFFFF on 3132333435363738
pin 0A 3838383838383838 on 3030303030303030
ef 2F06 l 60 8 6 -
rec 2F06 1 800101900080011AA40683010A950108
rec 2F06 2 800101A40683010195010880011AA40683010A950108
rec 2F06 3 800101A010A406830101950108A40683010A950108800102AF10A406830101950108A40683010A950108
rec 2F06 4 800101900080011A9700
rec 2F06 5 800101A406830181950108
rec 2F06 6 80
ef 2F01 t 4 1 2F06:1
ef 2F02 t 4 2 2F06:2
ef 2F03 t 4 3 2F06:3
ef 2F04 t 4 4 2F06:4
ef 2F05 t 4 5 2F06:5
ef 2F07 t 4 7 2F06:6
ef 2F08 t 4 8 2F09:1
ef 2F0A l 4 2 10 2F06:2
df 7F10
ef 7F106F3A t 30 - -
row 2 1 014500
start
"""
VERIFY_1, VERIFY_ADM = "002000010831323334FFFFFFFF", "0020000A083838383838383838"
# commands, the status of the last of them, and why it is answered so
TABLE = [
    (["00B0820004"], "6982", "rule 2F06:2 asks for PIN 1 to read; PIN 1 isn't verified"),
    ([VERIFY_ADM, "00D6810005" + "AA" * 5], "6B00", "5 bytes from offset 0 on, and the file has 4"),
    ([VERIFY_ADM, "00A4000C022F01", "00D6000302AABB"], "6B00", "2 bytes from offset 3 on, and the file has 4"),
    ([VERIFY_1, "00D6820001AA"], "6982", "rule 2F06:2 asks for ADM1 to update; ADM1 isn't verified"),
    (["00B0830004"], "6982", "rule 2F06:3 asks for PIN 1 or ADM1 to read; PIN 1 isn't verified, ADM1 isn't verified"),
    ([VERIFY_1, "00D6830001AA"], "6982", "rule 2F06:3 asks for PIN 1 and ADM1 to update; ADM1 isn't verified"),
    ([VERIFY_1, "002000010831313131FFFFFFFF", "00B0820004"], "6982", "rule 2F06:2 asks for PIN 1 to read; PIN 1 isn't verified"),
    ([VERIFY_1, "!", "00B0820004"], "6982", "rule 2F06:2 asks for PIN 1 to read; PIN 1 isn't verified"),
    ([VERIFY_ADM, "00D6840001AA"], "6982", "rule 2F06:4 lets nobody update"),
    ([VERIFY_ADM, "00B0850001"], "6982", "rule 2F06:5 asks for PIN 2 to read; PIN 2 isn't on the card"),
    (["00D6850001AA"], "6982", "rule 2F06:5 lets nobody update"),
    (["00B0870001"], "6982", "rule 2F06:6 allows nothing: record 6 of 2F06 is no rule: the object 80 has no length"),
    (["00B0880001"], "6982", "rule 2F09:1 allows nothing: 2F09 is neither in its own DF nor in one above"),
    (["00B2015404"], "6982", "rule 2F06:2 asks for PIN 1 to read; PIN 1 isn't verified"),
    # a rule that was written on the card
    (["00DC0634060080010190", "00B0870001"], None, None),
    (["00E000000A62088202782183027F20"], "6982", "ADM1 isn't verified"),
    (["F0E60103" + "03014000"], "6982", "ADM1 isn't verified"),
    ([VERIFY_ADM, "00A4000C022F01", "00040000", "00B0810001"], "6985", "3F00/2F01 is deactivated"),
    (["0028000108" + "31323334FFFFFFFF"], "6985", "the PIN is enabled already"),
    (["0070800100"], "6985", "that channel is closed already"),
    (["8010000008" + "2900BF6171000013", "8012000010"], "6985", "no command waits to be fetched"),
    (["80140000" + "0C810301218082028281830100"], "6985", "no command that was fetched waits for a response"),
    ([VERIFY_ADM, "F0E60102" + "03014000"], "6985", "an applet is registered there already"),
    ([VERIFY_ADM, "F0E60103" + "03014500"], "6985", "the applet on shelf 2 has call control already"),
    ([VERIFY_ADM, "00E000001962178202412183026F508A01058B032F060180020004880128"], "6A80",
     "the object 8A isn't taken: an EF has 82 83 8B 80 88, in this order"),
    ([VERIFY_ADM, "00E000000D620B8202782183027F308A0105"], "6A80", "the object 8A isn't taken: a DF has 82 83, in this order"),
    ([VERIFY_ADM, "00E000000E620C8202412183026F5080020004"], "6A80", "the object 88 is missing: an EF has 82 83 8B 80 88, in this order"),
    ([VERIFY_ADM, "00E0000011620F83026F508202412180020004880128"], "6A80",
     "its objects stand in another order: an EF has 82 83 8B 80 88, in this order"),
    ([VERIFY_ADM, "80D400000A620883026F5080020006"], "6700", "here its data are four bytes, the identifier and the size, and no template"),
    ([VERIFY_ADM, "00E0000011620F8202412183026F5080020004880128"], "6A89", "2F05 EF.PL has the SFI 5"),
    ([VERIFY_ADM, "00E0000011620F8202412183022F058002000488" + "0178"], "6A89", "2F05 EF.PL is there already"),
    ([VERIFY_ADM, "00E40000027F10"], "6985", "7F10/6F3A EF.ADN lies in it"),
    ([VERIFY_ADM, "00E000000A62088202782183027F20", "00E40000027F20"], None, None),
    ([VERIFY_ADM, "00E000000A62088202782183027F20", "00A4000C023F00", "0070000001", "01A4000C027F20", "00E40000027F20"], "6985",
     "it is the current DF of channel 1"),
    ([VERIFY_ADM, "00E0000010620E8202412183026F5080027FFF8800", "00E0000010620E8202412183026F5180027FFF8800"], "6A84",
     "32,767 bytes are wanted, and 26,207 are free"),
    (["00A4040C0CA0000000871002FFFFFFFF89"], "6A82", "a card here has no ADF: the files of a USIM lie in 7F20, and those of an ISIM in 7FF2"),
    (["00A4000C027FFF"], "6A82", "a card here has no ADF: the files of a USIM lie in 7F20, and those of an ISIM in 7FF2"),
    (["00A4080C047FFF6F07"], "6A82", "a card here has no ADF: the files of a USIM lie in 7F20, and those of an ISIM in 7FF2"),
    (["00A4000C026F07"], "6A82", None),
]


def is_built():
    try:
        return bool(process.program())
    except process.NotBuilt:
        return False


@unittest.skipUnless(is_built(), "the program isn't built")
class Refusals(unittest.TestCase):
    def test_causes(self):
        for sent, status, why in TABLE:
            with self.subTest(sent=sent):
                lines = ["reset" if command == "!" else "apdu " + command for command in sent]
                shown, ended = process.run(["play"], [*HEAD.splitlines(), *lines])
                self.assertEqual(ended, 0)
                follower = follow.Follower(lint.read(HEAD).card)
                found = self.followed(follower, shown)
                if status:
                    self.assertEqual(found, (status, why))

    @staticmethod
    def followed(follower, shown):
        """The status of the last command, and why it is answered so."""
        found = None
        for part in trace.parts(shown):
            if isinstance(part, trace.Mark):
                follower.reset()
                continue
            apdu = decode.Apdu(part.command)
            found = part.status, refusals.reason(follower, apdu, part.status)
            follower.take(apdu, part.status)
            if apdu.ins == decode.CHANNEL and apdu.p1 == 0:
                follower.opened_as(part.answer[0], apdu.channel)
        return found

    def test_no_more_files(self):
        lines = ["pin 0A 3838383838383838 on 3030303030303030", *(f"ef {0x6000 + n:04X} t 1 - -" for n in range(127)), "start"]
        follower = follow.Follower(lint.read("".join(line + "\n" for line in lines)).card)
        sent = ["apdu " + VERIFY_ADM, "apdu 00E0000010620E8202412183026F50800200048800"]
        shown, _ = process.run(["play"], [*lines, *sent])
        self.assertEqual(self.followed(follower, shown), ("6A84", "the card has 128 files already"))

    def test_no_gap(self):
        """As many bytes are free as are wanted, and not in one piece."""
        lines = ["pin 0A 3838383838383838 on 3030303030303030", *(f"ef {0x6000 + n:04X} t 19000 - -" for n in range(3)), "start"]
        follower = follow.Follower(lint.read("".join(line + "\n" for line in lines)).card)
        sent = ["apdu " + VERIFY_ADM, "apdu 00E40000026000", "apdu 80D40000046001" + f"{20000:04X}", "apdu 80D40000046002" + f"{20500:04X}"]
        shown, _ = process.run(["play"], [*lines, *sent])
        status, why = self.followed(follower, shown)
        self.assertEqual(status, "6A84")
        self.assertIn("20,500 bytes are wanted", why)

    def test_what_is_not_known(self):
        """Without a card a rule isn't known, and what the status word says alone is not told twice."""
        follower = follow.Follower()
        for command, status in (("00B0820004", "6982"), ("00B0820004", "6A82"), ("00", "6982"), ("F0E60102" + "03014000", "6A84")):
            self.assertIsNone(refusals.reason(follower, decode.Apdu(bytes.fromhex(command)), status))


class Shorts(unittest.TestCase):
    # a DF, a command, and the file that a trace without its script names
    TABLE = [("", "00B201F426", ("2F00",)), ("", "00B082000A", ("2FE2",)), ("7F20", "00B0870009", ("7F20", "6F07")),
             ("7F10", "00B0870009", None), ("7F11", "00B0870009", None)]

    def test_standard_short_identifiers(self):
        for folder, command, path in self.TABLE:
            follower = follow.Follower()
            follower.current[0] = ((folder,) if folder else (), None)
            self.assertEqual(follower.target(decode.Apdu(bytes.fromhex(command))), path, command)


class Tables(unittest.TestCase):
    """The tables of refusals are those of the definitions, which have a list of conditions for each command."""
    TOP = os.path.dirname(TOOLS)
    LISTS = [os.path.join("crates", "card_laws", "specs", name) for name in ("Refusals.antt", "CardRefusals.antt")]
    # of which command a list is, where its name doesn't say so
    NAMED = {"DEACTIVATE FILE": "life_cycle", "ACTIVATE FILE": "life_cycle", "CREATE FILE": "create", "DELETE FILE": "delete",
             "RESIZE FILE": "resize", "DELETE": "delete_applet"}
    CODE = re.compile(r"\b(?:[0-9A-F]{4}|6[3C]C?X+)\b")

    def page(self, *path):
        with open(os.path.join(self.TOP, *path), encoding="utf-8") as text:
            return text.read()

    def setUp(self):
        words = dict(re.findall(r"pub const (\w+): StatusWord = StatusWord\(0x(\w+)\);", self.page("crates", "uicc_types", "src", "answers.rt")))
        self.words = {**words, "tries_left": "63CX", "other_length": "6CXX"}
        text = "\n".join(self.page(path) for path in self.LISTS)
        self.lists = {name: self.listed(body) for name, body in re.findall(r"^refusals_(?:of_)?(\w+) [^=\n]*=\n((?:    .*\n)+)", text, re.MULTILINE)}

    def listed(self, body):
        """The status words of a list, in order."""
        codes = []
        for line in body.splitlines():
            word = re.search(r", ([A-Z_]+|tries_left|other_length)\b[^,]*\)$", line)
            if word:
                codes.append(self.words[word[1]])
            elif "of_key " in line:
                codes.append(self.words["REFERENCE_NOT_FOUND"])
            elif "of_file " in line:
                codes += [self.words["NO_CURRENT_FILE"]] + [self.words["FILE_NOT_FOUND"]] * (" None " not in line)
        return codes

    def told(self, page, heading):
        """The rows of the table with this heading: the commands, and the status words of the last column."""
        lines = self.page("docs", page).splitlines()
        at = lines.index(heading) + 2
        while lines[at].startswith("|"):
            cells = lines[at].strip("| ").split(" | ")
            yield from ((name, self.CODE.findall(cells[-1])) for name in cells[0].split(", "))
            at += 1

    def list_of(self, name):
        return self.lists[self.NAMED.get(name, name.lower().replace(" ", "_"))]

    def test_each_command(self):
        rows = dict(self.told("SCRIPT.md", "| command | refused with, in this order |"))
        first = rows.pop("each command")
        self.assertEqual(first[:-2], self.lists["in_order"])
        self.assertEqual({self.NAMED.get(name, name.lower().replace(" ", "_")) for name in rows} | {"in_order"}, set(self.lists))
        for name, codes in rows.items():
            with self.subTest(name=name):
                self.assertEqual(first[-2:] + codes, self.list_of(name))

    def test_commands_on_folders(self):
        for name, codes in self.told("CARDS.md", "| command | does | refused, in this order |"):
            with self.subTest(name=name):
                self.assertEqual(["6A86", *codes], self.list_of(name))


if __name__ == "__main__":
    unittest.main()
