"""tools/profile export, diff, rules and batch: cards back to profiles, beside each other, and many of one."""
import csv
import os
import re
import tempfile
import unittest

import fuzz_profile
from common import in_process
from uicc import access, batch, comparing, contents, fields, image, lint, listing, names, process, profile, profile_text, rights, rules, stored, tree

EXAMPLES = os.path.join(process.TOP, "examples")


def card_of(text):
    """The card of a script's text."""
    script = lint.read(text)
    assert not script.first(), script.findings
    return script.card


def made(text):
    """The card of a profile's text."""
    return card_of(profile.made_in(text.encode(), "card.toml").text)


def shown(one, other, exactly=False):
    """How two cards differ, as lines."""
    return [line for difference in comparing.differences(one, other, exactly) for line in (difference.what, *difference.lines)]


class Export(unittest.TestCase):
    def again(self, card):
        """The profile of a card; the card that is made of it is the same, record by record."""
        text = profile_text.of_card(card)
        self.assertEqual(list(profile_text.lost(card, text)), [])
        self.assertEqual(shown(card, made(text), exactly=True), [])
        return text

    def test_templates(self):
        for kind in ("usim", "sim"):
            self.again(made(f'like = "{kind}"\n'))

    def test_a_file_that_is_added_is_the_administrators(self):
        """The [default] of an exported profile lets nobody else change a file that is added to it."""
        text = self.again(made('like = "usim"\n[default]\nread = "pin1"\nupdate = "adm"\n'))
        self.assertIn('[default]\nread = "', text)
        self.assertIn('update = "adm"', text.partition("[pins]")[0])

    def test_nothing_unblocks_the_administrators_pin(self):
        """An export says no UNBLOCK PIN of ADM1, but for one that a profile without it wouldn't have; tree and diff say none."""
        card = made('like = "usim"\n[pins]\nadm = { value = "88888888" }\n')
        self.assertIn('adm = { value = "88888888" }\n', self.again(card))
        other = made('like = "usim"\n[pins]\nadm = { value = "91111111", unblock = "11111111" }\n')
        self.assertIn('adm = { value = "91111111", unblock = "11111111" }\n', self.again(other))
        self.assertIn("ADM1: 88888888, enabled, 3 tries left, can't be unblocked", list(tree.lines(card)))
        lines = shown(card, other)
        self.assertEqual(lines[lines.index("ADM1"):][:3], ["ADM1", "- 88888888, enabled", "+ 91111111, enabled"])
        with self.assertRaisesRegex(profile.BadProfile, r'adm = \{ value = "88888888" \}$'):
            made('like = "usim"\n[pins]\nadm = "88888888"\n')

    def test_a_profile_with_all_kinds_of_content(self):
        text = self.again(made(fuzz_profile.GOOD))
        for part in ('imsi = "262019876543210"', 'spn = "Nordlicht"', "acc = [0, 9]", '"262-01 by UTRAN+GSM"', "minutes = 60", 'rule = "2F06:1"', "folder = true",
                     'pin2 = { value = "5678", unblock = "87654321", on = false }', 'events = ["call-control"]', 'menu = "Tools"'):
            self.assertIn(part, text)

    def test_examples(self):
        """All examples that describe a card for `play`."""
        names = [name for name in stored.names_in(EXAMPLES, ".script") if stored.mode_of(stored.read(os.path.join(EXAMPLES, name))) == "play"]
        self.assertGreater(len(names), 5)
        for name in names:
            with self.subTest(name=name):
                self.again(card_of(stored.read(os.path.join(EXAMPLES, name)).decode(process.ENCODING)))

    def test_records_of_rules_in_another_order(self):
        """Two rules with words, in an order that the words alone don't give, and one that stands there twice."""
        lines = ["ef 2F06 l 20 4 6 2F06:2", "rec 2F06 1 8001019700", "rec 2F06 2 8001019000", "rec 2F06 3 8001019700", "ef 6F01 t 1 - 2F06:2",
                 "ef 6F02 t 1 - 2F06:3", "ef 6F03 t 1 - 2F06:1", "ef 6F04 t 1 - -", "ef 6F05 t 1 - 2F06:9", "start"]
        text = self.again(card_of("".join(line + "\n" for line in lines)))
        for part in ('read = "never"', 'rule = "2F06:3"  # read: never', 'rule = "none"', 'rule = "2F06:9"'):
            self.assertIn(part, text)

    def test_what_no_profile_says(self):
        """A try that was taken, and a file that is deactivated."""
        card = made('like = "usim"\n')
        card.pins[1].tries = 2
        card.files[("2F05",)].active = False
        self.assertEqual(list(profile_text.lost(card, profile_text.of_card(card))),
                         ["2F05 EF.PL is deactivated, which no profile says", "PIN 1 has 2 tries and 10 of its UNBLOCK PIN left, which no profile says"])


class Images(unittest.TestCase):
    """Images of a card, whole and damaged."""

    def setUp(self):
        self.place = tempfile.TemporaryDirectory()
        self.addCleanup(self.place.cleanup)
        self.path = os.path.join(self.place.name, "card.img")
        self.text = profile.made_in(b'like = "usim"\n[[applet]]\nkind = "table"\nmenu = "Tools"\nevents = ["location"]\nkeeps = "030141"\n', "card.toml").text
        process.played(["play", "--image", self.path], self.text)

    def test_an_image_is_the_script_again(self):
        card = image.sound_card_in(stored.read(self.path))
        self.assertEqual(shown(card_of(self.text), card, exactly=True), [])
        self.assertIn('keeps = "030141"', profile_text.of_card(card))

    # a byte that is changed, and why no card is in the image then
    DAMAGED = [
        (image.PINS, 0x05, "a PIN has the key 05"),
        (image.NODES + image.NODE_WIDTH + 14, 0xFF, "the file 2F06 has 255 bytes in its records, and 259 are there"),
        (image.NODES + 3 * image.NODE_WIDTH + 4, 0x7F, "has no place"),
        (0, 0x00, "it holds no card: it begins with 00 49 43 43, and a card with 55 49 43 43"),
        (4, 0x03, "the image is of layout 3, and layouts 1 and 2 are known here"),
        (image.ROWS + 6 * image.ROW_STRIDE + 7, 0x30, "the applet on shelf 6 has a text of"),
    ]

    def test_damaged_images(self):
        """They are refused with the reason, and no command of the tool has a traceback."""
        whole = stored.read(self.path)
        for place, byte, why in self.DAMAGED:
            with open(self.path, "wb") as out:
                out.write(whole[:place] + bytes((byte,)) + whole[place + 1:])
            with self.subTest(why=why), self.assertRaises(image.NoCard) as caught:
                image.sound_card_in(stored.read(self.path))
            self.assertIn(why, str(caught.exception))
        done = in_process("profile", "export", self.path)
        self.assertEqual(done.returncode, 2)
        self.assertTrue(done.stderr.startswith(f"profile: {self.path}: the image holds no card"), done.stderr)

    # what a file holds in the place of an image, and what is said of it
    NONE = [
        (b"\xFF" * image.JOURNAL_SIZE, "the memory is blank: all its bytes are FF, and no card was made in it"),
        (bytes(image.PAGES_SIZE), "the memory is blank: all its bytes are 00, and no card was made in it"),
        (b"\0MORE".ljust(image.JOURNAL_SIZE, b"\xFF"), "it holds no card: it begins with 00 4D 4F 52, and a card with 55 49 43 43"),
        (b"UICC\x02\x00".ljust(1000, b"\xFF"), "it is no image of a card: it has 1,000 bytes, and an image has 65,536, or 71,680"),
    ]

    def test_files_that_hold_no_card(self):
        """Each command that reads a card names the file and says why none is in it."""
        for content, why in self.NONE:
            with open(self.path, "wb") as out:
                out.write(content)
            for words in (["tree"], ["check"], ["rules"], ["export"], ["diff", self.path]):
                with self.subTest(words=words, why=why):
                    done = in_process("profile", *words, self.path)
                    self.assertEqual((done.returncode, done.stdout, done.stderr), (2, "", f"profile: {self.path}: {why}\n"))


class Differing(unittest.TestCase):
    BASE = 'like = "usim"\n'
    # what one card has beside the template's, what another one has, and what is said of them
    TABLE = [
        ("", "", []),
        ('[EF_SPN]\nspn = "A"', '[EF_SPN]\nspn = "B"', ["7F20/6F46 EF.SPN", "- holds: A (the network's name is shown too)", "+ holds: B (the network's name is shown too)"]),
        ('[EF_SPN]\nspn = "A"', '[EF_SPN]\nspn = "A"\nupdate = "pin1"\nsize = 18',
         ["7F20/6F46 EF.SPN", "- shape: transparent, 17 bytes", "+ shape: transparent, 18 bytes", "- update: adm", "+ update: pin1",
          "- holds: 0141" + "FF" * 15, "+ holds: 0141" + "FF" * 16]),
        ('[EF_ADN]\nentries = [{ name = "A", number = "1" }]', "", ["7F10/6F3A EF.ADN", "- record 1: A: 1", "+ record 1: blank"]),
        ("", '["7F10/6F99"]\nsize = 1', ["7F10/6F99", "+ EF, 1 byte, rule 2F06:1"]),
        ('[pins]\npin1 = { on = false }', "", ["PIN 1", "- 1234, disabled, UNBLOCK PIN 12345678", "+ 1234, enabled, UNBLOCK PIN 12345678"]),
        ('[[applet]]\nkind = "greeter"', "", ["applet on shelf 0", "- greets, priority 1, events none, keeps nothing"]),
        # the other one has the same rules by other numbers
        ('[EF_PL]\nupdate = "adm"', '[EF_PL]\nupdate = "adm"\n["7F10/6F99"]\nsize = 1\nread = "never"', ["2F06 EF.ARR", "- shape: linear fixed, 6 records of 27", "+ shape: linear fixed, 7 records of 27", "- record 6: read: always; update: adm",
          "+ record 6: read: never; update, deactivate, activate: adm", "+ record 7: read: always; update: adm", "7F10/6F99",
          "+ EF, 1 byte, rule 2F06:6"]),
        # what the words leave out: bytes, and fields
        ('[EF_AD]\nhex = "00000002"', '[EF_AD]\nhex = "00000102"', ["7F20/6FAD EF.AD", "- holds: byte 3: 00", "+ holds: byte 3: 01"]),
        ('[EF_PLMNwAcT]\nplmns = ["unused", "262-01 by GSM"]', '[EF_PLMNwAcT]\nplmns = ["262-01 by GSM"]',
         ["7F20/6F60 EF.PLMNwAcT", "- holds: unused; 262-01 by GSM", "+ holds: 262-01 by GSM"]),
        ('[EF_ECC]\nemergency = [{ number = "110", category = 0 }]', '[EF_ECC]\nemergency = ["110"]',
         ["7F20/6FB7 EF.ECC", "- record 1: 110, category 0: none", "+ record 1: 110"]),
        ('[EF_SPN]\nspn = { name = "A", abroad = false }', '[EF_SPN]\nspn = "A"',
         ["7F20/6F46 EF.SPN", "- holds: A (the network's name is shown too, it isn't shown abroad)", "+ holds: A (the network's name is shown too)"]),
        # a difference that stands far in a long text
        ("[EF_UST]\nservices = [1, 2, 3, 4, 5, 6, 7, 8, 9, 10, 11, 20]", "[EF_UST]\nservices = [1, 2, 3, 4, 5, 6, 7, 8, 9, 10, 11, 21]",
         ["7F20/6F38 EF.UST", "- on: 20 (user controlled PLMN selector with access technology)", "+ on: 21 (MSISDN)"]),
        ("[EF_UST]\nservices = [1]\nsize = 4", "[EF_UST]\nservices = []\nsize = 4", ["7F20/6F38 EF.UST", "- on: 1 (local phone book)"]),
        ('[EF_ARR]\nrecords = ["8001019000"]\nlength = 40', '[EF_ARR]\nrecords = ["8001019000"]\nlength = 44',
         ["2F06 EF.ARR", "- shape: linear fixed, 8 records of 40", "+ shape: linear fixed, 8 records of 44"]),
        ('["7F10/6F99"]\nhex = "' + "00" * 199 + '01"', '["7F10/6F99"]\nhex = "' + "00" * 199 + '02"',
         ["7F10/6F99", "- holds: ..000000000000000000001", "+ holds: ..000000000000000000002"]),
    ]

    def test_differences(self):
        for one, other, lines in self.TABLE:
            with self.subTest(one=one, other=other):
                self.assertEqual(shown(made(self.BASE + one + "\n"), made(self.BASE + other + "\n")), lines)


class Rights(unittest.TestCase):
    TEXT = ('[pins]\npin1 = { value = "1234" }\npin2 = { value = "1234", on = false }\n["7F10/6F99"]\nsize = 1\nread = "always"\nupdate = "pin2"\n'
            'deactivate = "adm"\nactivate = "pin1 or adm"\n["7F10/EF_ACM"]\ncount = 2\nlength = 3\ncyclic = true\nread = "pin1"\nincrease = "pin1 and pin2"\n'
            '["7F10/6F98"]\nsize = 1\nrule = "none"\n')

    def test_table(self):
        rows = dict(rights.rows(made(self.TEXT)))
        self.assertEqual(rows["7F10/6F99"], ["always", "always (not pin2: PIN 2 is off)", "never (not adm: ADM1 isn't there)",
                                             "pin1 (not pin1 or adm: ADM1 isn't there)", ""])
        self.assertEqual(rows["7F10/6F39"], ["pin1", "never", "never", "never", "pin1 (not pin1 and pin2: PIN 2 is off)"])
        self.assertEqual(rows["7F10/6F98"], ["always"] * 4 + [""])

    def test_what_is_open_and_what_no_key_opens(self):
        card = made(self.TEXT)
        self.assertEqual(dict(rights.outcomes(card, access.EVERYBODY))["update"], ["7F10/6F99", "7F10/6F98"])
        self.assertEqual(dict(rights.outcomes(card, access.NOBODY))["deactivate"], ["2F06 EF.ARR", "7F10/6F99", "7F10/6F39"])

    def test_as_csv(self):
        rows = list(csv.reader(rights.as_csv(made(self.TEXT)).splitlines()))
        self.assertEqual(rows[0], ["file", "read", "update", "deactivate", "activate", "increase"])
        self.assertEqual(len(rows), 5)

    def test_the_card_does_so(self):
        """The program answers each read and update of a template's files as the table has it, before and after VERIFY of PIN 1."""
        text = profile.made_in(b'like = "usim"\n', "card.toml").text
        card = card_of(text)
        asked, lines = [], text.splitlines()
        for verified in (False, True):
            lines += ["apdu 0020000108" + "31323334FFFFFFFF"] if verified else []
            for file in card.files.values():
                if not file.is_df:
                    lines += [f"apdu 00A4080C{2 * len(file.path):02X}{''.join(file.path)}",
                              "apdu 00B0000001" if file.structure == "t" else f"apdu 00B20104{file.length:02X}"]
                    condition = access.effective(card, access.condition(card, file, "read"))
                    asked.append(condition == access.EVERYBODY or verified and access.keys_of(condition) == {1})
        trace, status = process.run(["play"], lines)
        answers = [line[-4:] for line, before in zip(trace[1:], trace) if before.startswith(("> 00B0", "> 00B2"))]
        self.assertEqual((status, [answer != "6982" for answer in answers]), (0, asked))


def number_of(digits):
    return digits + contents.luhn(digits)


class Lists(unittest.TestCase):
    """tools/profile files and services."""

    def test_files(self):
        """Each standard file with its place, by which a profile finds it, and its key."""
        rows = list(listing.rows())
        self.assertEqual(len(rows), len(names.table("files")["files"]) - 1)
        for name, place, _, key, _, _ in rows:
            path = tuple(place.partition(" ")[0].split("/"))
            with self.subTest(name=name, place=place):
                # EF_NIA of GSM has another identifier than that of a USIM, which goes by the name
                self.assertTrue(profile.path_of("/".join((*path[:-1], name))) == path or names.file(path, False)["in"] == ["GSM"])
                self.assertIn(key, (*fields.KEYS, ""))
        done = in_process("profile", "files", "smsp")
        self.assertEqual(done.stdout.splitlines()[1:], ["EF_SMSP  7F10/6F42 (also 7F20, 7FF2)  linear fixed, 28 or more  parameters       short "
                                                        "message service parameters"])
        self.assertEqual(in_process("profile", "files", "qqq").returncode, 1)

    def test_services(self):
        lines = in_process("profile", "services").stdout.splitlines()
        self.assertEqual(lines[2].split("  ")[0], "2")
        self.assertTrue(lines[2].endswith("EF_FDN, EF_EST"), lines[2])
        self.assertEqual(in_process("profile", "services", "EF.SST").stdout.splitlines()[0].split(), ["service", "in", "EF_SST", "files"])
        done = in_process("profile", "services", "xyz")
        self.assertEqual((done.returncode, done.stderr), (1, "profile: no service of EF_UST has `xyz` in its line; the tables are ust, sst, ist, est\n"))
        for words, numbers in ((("fdn",), ["2", "99"]), (("EF.PNN",), ["45", "79"]), (("sst", "FDN"), ["3"]), (("est", "fixed", "dialling"), ["1"])):
            with self.subTest(words=words):
                lines = in_process("profile", "services", *words).stdout.splitlines()
                self.assertEqual([line.split()[0] for line in lines], ["service", *numbers])
        for kind, count in (("ust", len(names.table("files")["ust"])), ("sst", len(names.table("files")["sst"]))):
            self.assertEqual(len(listing.service_lines(kind)), count + 1)


class Batch(unittest.TestCase):
    HEAD = "iccid,imsi,pin1,puk1,adm,puk2\n"
    GOOD = "".join(f"{number_of(f'89999010000000{n:04d}')},00101000000{n:04d},{1000 + n},{n:08d},{n + 500:08d},{n + 700:08d}\n" for n in range(5))
    ONE = number_of("899990100000000001")
    # rows, and what is wrong with them
    WRONG = [
        ("iccid,imsy\n", "line 1: no column is called `imsy`, but `imsi` is"),
        ("imsi\n", "line 1: the column `iccid` is missing"),
        ("iccid,iccid\n", "line 1: the column `iccid` stands there twice"),
        ("iccid\n", "list.csv has no row of a card"),
        ("", "the column `iccid` is missing"),
        (HEAD + "1\n", "line 2: it has 1 cells, and the first line 6"),
        (HEAD + ",001010000000001,,,,\n", "line 2: it has no iccid"),
        ("iccid,puk\n", "line 1: no column is called `puk`, but `unblock1` is"),
        ("iccid,acc\n" + ONE + ",16\n", "line 2: acc `16`: it is a class from 0 to 15"),
        ("iccid,ki\n", "line 1: a card here has no AUTHENTICATE, so that it has no key for it: the column `ki` has no place"),
        ("iccid,:hex\n", "line 1: the column `:hex`: a column of a file is FILE:KEY"),
        ("iccid,ADM2\n", "line 1: a card here has the PINs pin1, pin2 and adm alone"),
        ("iccid,EF_SMSP:center\n", "line 1: the column `EF_SMSP:center`: `center` isn't known: name, destination, centre, protocol"),
        ("iccid,7F10/6F99:name\n", "line 1: the column `7F10/6F99:name`: `name` isn't known: hex is"),
        ("iccid,EF_SMX:hex\n", "line 1: the column `EF_SMX:hex`: [EF_SMX] EF_SMX: no standard file is called so, but EF_SMS is"),
        (f"iccid,EF_SMSP:validity\n{ONE},x\n", "line 2: [EF_SMSP] parameters: entry 1: `validity` is text, and has to be a number"),
        (HEAD + "8.99E+18,,,,,\n", "line 2: iccid `8.99E+18`: a spreadsheet has rounded it, and its cells have to be of text"),
        (HEAD + f'{ONE},"2,6201E+14",,,,\n', "line 2: imsi `2,6201E+14`: a spreadsheet has rounded it, and its cells have to be of text"),
        (GOOD, "line 1: the first line names the columns, as `iccid,imsi,pin1`, and this one has the numbers of a card"),
        ("ICCID,PUK 1\n", "line 1: no column is called `puk 1`, but `unblock1` is"),
        ("ICCID,ADM 1\n", "line 1: no column is called `adm 1`, but `adm` is"),
        (HEAD + GOOD + GOOD.splitlines()[0] + "\n", "line 7: its iccid 8999901000000000005 is that of line 2"),
        (HEAD + f"{ONE},001010000000000,,,,\n" + GOOD.splitlines()[0] + "\n", "line 3: its imsi 001010000000000 is that of line 2"),
        (HEAD + f"{ONE},1,,,,\n", "line 2: [EF_IMSI] imsi: an IMSI has 6 to 15 digits"),
        (HEAD + f"{ONE},,12,,,\n", "line 2: [pins] pin1 value: a value is 4 to 8 digits"),
        (HEAD + f'{ONE},"a\n', "line 2: "),
    ]

    def setUp(self):
        self.place = tempfile.TemporaryDirectory()
        self.addCleanup(self.place.cleanup)
        self.card, self.list, self.folder = (os.path.join(self.place.name, name) for name in ("card.toml", "list.csv", "cards"))
        self.put(self.card, 'like = "usim"\n[EF_SPN]\nspn = "Nordlicht"\n')

    def put(self, path, text):
        with open(path, "w", encoding="utf-8", newline="") as out:
            out.write(text)

    def batch(self, text, *words):
        self.put(self.list, text)
        return in_process("profile", "batch", self.card, self.list, "-o", self.folder, *words)

    def test_cards(self):
        done = self.batch(self.HEAD + self.GOOD, "--images")
        self.assertEqual((done.returncode, done.stderr), (0, ""))
        self.assertIn("5 cards in ", done.stdout)
        self.assertEqual(len(os.listdir(self.folder)), 11)
        number = number_of("899990100000000003")
        card = card_of(stored.read(os.path.join(self.folder, number + ".script")).decode(process.ENCODING))
        self.assertEqual(contents.decode("iccid", card.files[("2FE2",)].content), number)
        self.assertEqual(contents.decode("imsi", card.files[("7F20", "6F07")].content), "001010000000003")
        # a PIN keeps what the list doesn't say
        self.assertEqual([(pin.value.rstrip(b"\xFF"), pin.unblock) for pin in card.pins.values()],
                         [(b"1003", b"00000003"), (b"5678", b"00000703"), (b"00000503", b"00000000")])
        with open(os.path.join(self.folder, "report.csv"), encoding="utf-8") as text:
            rows = list(csv.DictReader(text))
        self.assertEqual([(row["iccid"], row["imsi"], row["line"], row["warnings"]) for row in rows][3],
                         (number, "001010000000003", "5", ""))
        # as many files as `check` says
        self.assertEqual({row["files"] for row in rows}, {str(len(card.files) - 1)})
        # the image holds the same card
        words = ["profile", "diff", *(os.path.join(self.folder, number + ending) for ending in (".script", ".img"))]
        self.assertEqual(in_process(*words).stdout, "the cards hold the same\n")

    def held(self):
        """What the files of the folder hold."""
        return {name: stored.read(os.path.join(self.folder, name)) for name in os.listdir(self.folder)}

    def test_a_folder_that_is_there(self):
        """Cards go into it beside others; nothing is written where one would be written over, and force does so."""
        lines = self.GOOD.splitlines(keepends=True)
        names = [line.partition(",")[0] for line in lines]
        self.assertEqual(self.batch(self.HEAD + lines[0], "--images").returncode, 0)
        done = self.batch(self.HEAD + lines[1])
        self.assertEqual((done.returncode, done.stderr), (0, ""))
        self.assertIn(os.path.join(self.folder, "report-2.csv"), done.stdout)
        before = self.held()
        self.assertEqual(set(before), {names[0] + ".script", names[0] + ".img", names[1] + ".script", "report.csv", "report-2.csv"})
        done = self.batch(self.HEAD + lines[2] + lines[1].replace(",001010000000001,", ",001010000000099,") + lines[0])
        self.assertEqual((done.returncode, done.stdout), (2, ""))
        there = ", ".join(os.path.join(self.folder, name + ".script") for name in (names[1], names[0]))
        self.assertEqual(done.stderr, f"profile: nothing is written: {there} would be written over; --force does so\n")
        self.assertEqual(self.held(), before)
        # an image that is there isn't left beside another card's script
        done = self.batch(self.HEAD + lines[0], "--force")
        self.assertEqual((done.returncode, done.stdout), (2, ""))
        self.assertEqual(done.stderr, f"profile: nothing is written: {os.path.join(self.folder, names[0] + '.img')} would stay as the image of an earlier "
                         "card; --images with --force writes it anew\n")
        self.assertEqual(self.held(), before)
        done = self.batch(self.HEAD + lines[2] + lines[1].replace(",001010000000001,", ",001010000000099,") + lines[0], "--images", "--force")
        self.assertEqual((done.returncode, done.stderr), (0, ""))
        after = self.held()
        self.assertEqual(set(after) - set(before), {names[1] + ".img", names[2] + ".script", names[2] + ".img", "report-3.csv"})
        changed = {name for name in before if after[name] != before[name]}
        self.assertEqual(changed, {names[1] + ".script"})

    def test_a_file_in_the_place_of_the_folder(self):
        self.put(self.folder, "mine")
        done = self.batch(self.HEAD + self.GOOD)
        self.assertEqual(done.returncode, 2)
        self.assertEqual(stored.read(self.folder), b"mine")

    def test_wrong_lists(self):
        """Nothing is written where a row is wrong."""
        for text, why in self.WRONG:
            with self.subTest(text=text):
                done = self.batch(text)
                self.assertEqual((done.returncode, os.path.exists(self.folder)), (2, False))
                self.assertIn(why, done.stderr)
                self.assertNotIn("Traceback", done.stderr)

    def test_other_lists(self):
        """Semicolons, a mark of the byte order, lines of another system; binary bytes."""
        text = "\ufeff" + (self.HEAD + self.GOOD).replace(",", ";").replace("\n", "\r\n")
        self.assertEqual(self.batch(text).returncode, 0)
        for content, why in ((b"\x7fELF\x00\xff", "line 1: it isn't UTF-8"), ("iccid\r\n".encode("utf-16"), "line 1: it is UTF-16"),
                             (b"iccid,spn\n1,N\xf6rd\n", "line 2: it isn't UTF-8: a spreadsheet saves a list that is read here as `CSV UTF-8`")):
            with self.subTest(why=why), self.assertRaisesRegex(batch.BadList, why):
                batch.rows_in(content, "list.csv")

    def test_a_puk_that_two_cards_have_is_a_warning(self):
        lines = self.GOOD.splitlines()
        done = self.batch(self.HEAD + lines[0] + "\n" + lines[1].replace(",00000001,", ",00000000,") + "\n")
        self.assertEqual(done.returncode, 1)
        self.assertIn("line 3: its unblock1 00000000 is that of line 2", done.stderr)

    def test_columns_of_lists(self):
        """Access classes and the subscriber's number."""
        row = f"iccid,imsi,acc,msisdn\n{self.ONE},001010000000001,3 11,+491701234567\n"
        rows = batch.rows_in(row.encode(), "list.csv")
        base = b'like = "usim"\n[EF_MSISDN]\nentries = []\n'
        card, = batch.cards(base, "card.toml", rows, "list.csv", lambda: None)
        files = card_of(card.made.text).files
        self.assertEqual(contents.decode("dialling", files[("7F10", "6F40")].record(1)), ": +491701234567")
        self.assertEqual(files[("7F20", "6F78")].content.hex().upper(), "0808")

    def test_a_number_keeps_its_name(self):
        """What the list doesn't say of EF_MSISDN stays: the name of its entry, and the other entries."""
        rows = batch.rows_in(f"iccid,msisdn\n{self.ONE},+491701234567\n".encode(), "list.csv")
        base = b'like = "usim"\n[EF_MSISDN]\ncount = 2\nentries = [{ name = "Own", number = "+491110" }, { name = "Fax", number = "+491112" }]\n'
        card, = batch.cards(base, "card.toml", rows, "list.csv", lambda: None)
        file = card_of(card.made.text).files[("7F10", "6F40")]
        self.assertEqual([contents.decode("dialling", file.record(number)) for number in (1, 2)], ["Own: +491701234567", "Fax: +491112"])

    def test_what_check_tells_is_a_warning(self):
        """A wrong check digit, an IMSI of few digits, a class that isn't the IMSI's: for each card that has it, and in the report."""
        done = self.batch("iccid,imsi,acc,unblock1,unblock2,adm\n8999901000000000015,0010100001,5,11111111,21111111,31111111\n"
                          f"{self.ONE},001010000000002,,12222222,22222222,32222222\n")
        self.assertEqual(done.returncode, 1)
        told = ["2FE2 EF.ICCID: the check digit of 8999901000000000015 is 5, and should be 3",
                "7F20/6F07 EF.IMSI: 0010100001 has 10 digits: nearly all IMSIs have 15",
                "7F20/6F78 EF.ACC has class 5, and the IMSI ends with 1: by its last digit cards are commonly given their class"]
        self.assertEqual(done.stderr.splitlines(), [f"profile: warning: {self.list}, line 2: {text}" for text in told])
        self.assertIn("2 cards in ", done.stdout)
        self.assertIn("; no two have the same ICCID or IMSI, and 1 has warnings; ", done.stdout)
        with open(os.path.join(self.folder, "report.csv"), encoding="utf-8") as text:
            self.assertEqual([row["warnings"] for row in csv.DictReader(text)], ["; ".join(told), ""])

    def test_columns_of_files(self):
        """A key of a file's table, a field of its table or of its first entry, of which the rest stays, and a file of one's own."""
        self.put(self.card, 'like = "usim"\n[EF_MSISDN]\nentries = [{ name = "Own", number = "+491110" }]\ncount = 1\n[EF_SMSP]\n'
                            'parameters = [{ name = "SC", validity = 60 }]\n')
        rows = batch.rows_in(("iccid,EF_MSISDN:name,EF_SMSP:centre,EF_AD:network_digits,EF_SPN:with_network,EF_FPLMN:plmns,7F10/6F99:hex,puk2\n"
                              f'{self.ONE},Me,+4917,3,false,"[""262-02""]",AABB,99999999\n').encode(), "list.csv")
        card, = batch.cards(stored.read(self.card), "card.toml", rows, "list.csv", lambda: None)
        held = card_of(card.made.text)
        shown = {"/".join(path): "; ".join(tree.meanings(held.files[path], True))
                 for path in (("7F10", "6F40"), ("7F10", "6F42"), ("7F20", "6FAD"), ("7F20", "6F46"), ("7F20", "6F7B"), ("7F10", "6F99"))}
        self.assertEqual(shown, {"7F10/6F40": "1: Me: +491110", "7F10/6F42": "1: SC, centre +4917, validity 60 minutes",
                                 "7F20/6FAD": "normal operation, the network's code has 3 digits",
                                 "7F20/6F46": "Example (the network's name isn't asked for at home)", "7F20/6F7B": "262-02", "7F10/6F99": "AABB"})
        self.assertEqual(held.pins[0x81].unblock, b"99999999")

    def test_lists_in_cells(self):
        """A list stands as in TOML, and a cell without brackets is a list of one entry; services are changed as in a profile."""
        self.put(self.card, 'like = "usim"\n[EF_UST]\nservices_on = [28]\n')
        for cell in ("262-42 by GSM", '"[""262-42 by GSM""]"'):
            done = self.batch(f"iccid,EF_HPLMNwAcT:plmns,EF_UST:services_on,EF_FPLMN:plmns\n{self.ONE},{cell},29,262-03\n", "--force")
            self.assertEqual(done.returncode, 1, done.stderr)
            card = card_of(stored.read(os.path.join(self.folder, self.ONE + ".script")).decode(process.ENCODING))
            self.assertEqual(bytes(card.files[("7F20", "6F62")].content)[:5].hex(), "62f2240080")
            self.assertEqual(bytes(card.files[("7F20", "6F7B")].content)[:3].hex(), "62f230")
            on = contents.services_on("ust", bytes(card.files[("7F20", "6F38")].content))
            self.assertLessEqual({28, 29, 19}, on)

    def test_a_key_of_each_card(self):
        """A key within a list of tables: its own for each card, and what the profile says beside it stays."""
        self.put(self.card, 'like = "usim"\n[EF_UST]\nservices_on = [124]\n[EF_SUCI_Calc_Info]\n'
                            'suci = { schemes = [{ scheme = 1, key = 1 }], keys = [{ id = 27, key = "AABB" }, { id = 28, key = "CCDD" }] }\n')
        other = number_of("899990100000000002")
        rows = batch.rows_in(f"iccid,EF_SUCI_Calc_Info:keys.key,EF_SUCI_Calc_Info:keys.id,imsi\n{self.ONE},0102,,262010000000001\n"
                             f"{other},0304,30,262010000000002\n".encode(), "list.csv")
        shown = [tree.meanings(card_of(card.made.text).files[("7F20", "5FC0", "4F07")], True)
                 for card in batch.cards(stored.read(self.card), "card.toml", rows, "list.csv", lambda: None)]
        self.assertEqual(shown, [["scheme 1 with key 1 of the list, keys: 27 is 0102; 28 is CCDD"], ["scheme 1 with key 1 of the list, keys: 30 is 0304; 28 is CCDD"]])
        done = self.batch(f"iccid,EF_SUCI_Calc_Info:key\n{self.ONE},0102\n")
        self.assertIn("`key` isn't known: schemes, schemes.scheme, schemes.key, keys, keys.id, keys.key, suci, hex are", done.stderr)

    def test_shapes_and_rules_in_columns(self):
        """A key of the file's table that says no content: its size, and who may do what."""
        self.put(self.card, 'like = "usim"\n["7F10/6F99"]\nhex = "01"\n')
        for cells, why in (("20,pin1 or adm", None), ("20,pin7", "pin7"), ("many,adm", "size is text, and has to be a number"), ("0,adm", "size")):
            with self.subTest(cells=cells):
                done = self.batch(f"iccid,7F10/6F99:size,7F10/6F99:update\n{self.ONE},{cells}\n", "--force")
                self.assertEqual(done.returncode, 2 if why else 0, done.stderr)
                self.assertIn(why or "", done.stderr)
        card = card_of(stored.read(os.path.join(self.folder, self.ONE + ".script")).decode(process.ENCODING))
        file = card.files[("7F10", "6F99")]
        self.assertEqual((file.size, rules.in_words(access.condition(card, file, "update"))), (20, "pin1 or adm"))

    def test_columns_that_are_passed_over(self):
        """An operator's list has columns that say nothing of a card here: those that are named, in any letters' case, and no others."""
        rows = f"ICCID,Ki,note:x\n{self.ONE},00112233445566778899AABBCCDDEEFF,first\n"
        done = self.batch(rows, "--ignore", "ki,note:x")
        self.assertEqual((done.returncode, done.stderr), (0, ""))
        self.assertIn("the column `ki` has no place", self.batch(rows, "--ignore", "note:x").stderr)
        for words, why in (("ki,note:x,opc", "no column `opc` stands there, which --ignore names"), ("iccid,ki,note:x", "the column `iccid` is missing")):
            done = self.batch(rows, "--ignore", words, "--force")
            self.assertEqual(done.returncode, 2)
            self.assertIn(why, done.stderr)

    def test_all_mistakes_of_the_head(self):
        done = self.batch("iccid,EF_XYZ:foo,EF_SPN:sp,ki,imsi,imsi\n")
        self.assertEqual([line.partition("line 1: ")[2].split(":")[0] for line in done.stderr.splitlines()],
                         ["the column `EF_XYZ", "the column `EF_SPN", "a card here has no AUTHENTICATE, so that it has no key for it",
                          "the column `imsi` stands there twice"])

    def test_a_field_beside_bytes(self):
        """What a profile says in bytes stays too, as far as words say it; where they don't, the row is refused."""
        record = fields.KINDS["smsp"].encode({"name": "SC", "validity": 60}, 44).hex().upper()
        rows = batch.rows_in(f"iccid,EF_SMSP:centre\n{self.ONE},+4917\n".encode(), "list.csv")
        base = 'like = "usim"\n[EF_SMSP]\nrecords = ["%s"]\n'
        card, = batch.cards((base % record).encode(), "card.toml", rows, "list.csv", lambda: None)
        self.assertEqual(tree.meanings(card_of(card.made.text).files[("7F10", "6F42")], True), ["1: SC, centre +4917, validity 60 minutes"])
        with self.assertRaisesRegex(batch.BadList, r"line 2: \[EF_SMSP\] records: no words say what these bytes do"):
            batch.cards((base % "00").encode(), "card.toml", rows, "list.csv", lambda: None)

    def test_bytes_that_words_say_in_part(self):
        """The third byte of EF_AD is said by no word: a column for another part doesn't take it away."""
        rows = batch.rows_in(f"iccid,EF_AD:network_digits\n{self.ONE},3\n".encode(), "list.csv")
        with self.assertRaisesRegex(batch.BadList, r"line 2: \[EF_AD\] hex: no words say what these bytes do"):
            batch.cards(b'like = "usim"\n[EF_AD]\nhex = "80000102"\n', "card.toml", rows, "list.csv", lambda: None)

    def test_a_name_keeps_when_it_is_shown(self):
        """The column `spn` is the name alone."""
        rows = batch.rows_in(f"iccid,spn\n{self.ONE},Neu\n".encode(), "list.csv")
        for held in ('spn = { name = "Nordlicht", with_network = false, abroad = false }', 'hex = "024E6F726465"'):
            card, = batch.cards(f'like = "usim"\n[EF_SPN]\n{held}\n'.encode(), "card.toml", rows, "list.csv", lambda: None)
            self.assertEqual(card_of(card.made.text).files[("7F20", "6F46")].content[:5].hex().upper(), "024E6575FF")

    def test_services_of_a_sim(self):
        """A change of EF_SST's services is by the names of EF_SST: FDN is 3 there, and 2 in EF_UST."""
        rows = batch.rows_in(f'iccid,EF_SST:services_on\n{self.ONE},"[""FDN""]"\n'.encode(), "list.csv")
        card, = batch.cards(b'like = "sim"\n[EF_SST]\nservices = [1]\n', "card.toml", rows, "list.csv", lambda: None)
        self.assertEqual(contents.services_on("sst", card_of(card.made.text).files[("7F20", "6F38")].content), {1, 3})

    def test_all_mistakes_of_a_list(self):
        """Those of rows alone, of rows beside each other, and of cards, in one run and by lines."""
        two = number_of("899990100000000002")
        done = self.batch(f"iccid,imsi,acc,pin1\n{self.ONE},26298000000000X,16,1\n{self.ONE},,,\n1,,,12\n{two}\n,,,1\n")
        self.assertEqual(done.returncode, 2)
        told = [line.removeprefix(f"profile: {self.list}, line ") for line in done.stderr.splitlines()]
        wanted = ["2: [EF_IMSI] imsi: ", "2: [pins] pin1 value: ", "2: acc `16`: ", f"3: its iccid {self.ONE} is that of line 2", "4: [pins] pin1 value: ",
                  "4: iccid `1`: ", "5: it has 1 cells, ", "6: [pins] pin1 value: ", "6: it has no iccid"]
        self.assertEqual([text[:len(start)] for text, start in zip(told, wanted, strict=True)], wanted)

    def test_what_cards_have_alike_is_counted(self):
        """Cards with the profile's PUKs have warnings, in the summary and in the report too."""
        two = number_of("899990100000000002")
        done = self.batch(f"iccid,imsi\n{self.ONE},001010000000001\n{two},001010000000002\n")
        self.assertEqual(done.returncode, 1)
        self.assertIn("and 2 have warnings; ", done.stdout)
        with open(os.path.join(self.folder, "report.csv"), encoding="utf-8") as text:
            for row in csv.DictReader(text):
                self.assertRegex(row["warnings"], "their cards have the same unblock1, 12345678, which .*; their cards have the same unblock2")

    def test_files_of_different_sizes(self):
        two = number_of("899990100000000002")
        head = "iccid,imsi,unblock1,unblock2,adm,EF_SPDI:plmns\n"
        rows = f'{self.ONE},001010000000001,1{"1" * 7},1{"2" * 7},1{"3" * 7},262-01\n{two},001010000000002,2{"1" * 7},2{"2" * 7},2{"3" * 7},"[""262-01"", ""262-02""]"\n'
        self.put(self.card, 'like = "usim"\n[EF_UST]\nservices_on = [51]\n[EF_SPDI]\nplmns = []\n')
        done = self.batch(head + rows)
        self.assertIn("profile: note: 7F20/6FCD EF.SPDI has 7, 10 bytes by what each card holds: `size` in the profile gives all the same\n", done.stderr)
        self.put(self.card, 'like = "usim"\n[EF_UST]\nservices_on = [51]\n[EF_SPDI]\nplmns = []\nsize = 20\n')
        self.assertNotIn("note: ", self.batch(head + rows, "--force").stderr)

    def test_a_byte_order_mark(self):
        """A profile with the mark that Notepad writes is a profile for all words."""
        self.put(self.card, '\ufefflike = "usim"\n')
        for words in (("tree",), ("check",), ("rules",), ("export",), ("build",), ("diff", self.card)):
            with self.subTest(words=words):
                done = in_process("profile", *words, self.card)
                self.assertEqual((done.returncode, done.stderr), (0, ""))
        self.assertEqual(self.batch(self.HEAD + self.GOOD).returncode, 0)

    def test_a_list_over_a_script(self):
        """The card of a script is what the rows are laid over."""
        self.put(self.card, profile.made_in(b'like = "usim"\n[EF_SPN]\nspn = "Own"\n', "card.toml").text)
        self.batch(f"iccid,imsi\n{self.ONE},001010000000002\n")
        card = card_of(stored.read(os.path.join(self.folder, self.ONE + ".script")).decode(process.ENCODING))
        self.assertEqual((contents.decode("spn", card.files[("7F20", "6F46")].content), contents.decode("imsi", card.files[("7F20", "6F07")].content)),
                         ("Own (the network's name is shown too)", "001010000000002"))

    def test_what_the_profile_gives_to_all(self):
        """An IMSI that two cards would have from the profile is refused, whatever the list says; a PUK or an ADM is a warning."""
        one, other = (number_of(f"89999010000000000{n}") for n in (1, 2))
        for rows in (f"{one},,,,,\n{other},,,,,\n", f"{one},001010123456789,,,,\n{other},,,,,\n"):
            done = self.batch(self.HEAD + rows)
            self.assertEqual((done.returncode, done.stdout, os.path.exists(self.folder)), (2, "", False))
            self.assertIn("list.csv, lines 2, 3: their cards have the same imsi, 001010123456789, which ", done.stderr)
        done = self.batch(f"iccid,imsi\n{one},\n{other},001010000000002\n")
        self.assertEqual(done.returncode, 1)
        self.assertEqual([(word, value) for word, value in re.findall(r"lines 2, 3: their cards have the same (\w+), (\d+),", done.stderr)],
                         [("unblock1", "12345678"), ("unblock2", "87654321"), ("adm", "88888888")])
        with open(os.path.join(self.folder, "report.csv"), encoding="utf-8") as text:
            self.assertEqual([row["imsi"] for row in csv.DictReader(text)], ["001010123456789", "001010000000002"])


if __name__ == "__main__":
    unittest.main()
