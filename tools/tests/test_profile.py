"""tools/profile: what profiles become, and what is found in cards."""
import os
import tempfile
import tomllib
import unittest

import fuzz_profile
from common import in_process
from uicc import access, checking, contents, lint, located, names, process, profile, rules, structured

EXAMPLES = os.path.join(process.TOP, "examples")
# of the template
PIN_LINE = "pin 01 31323334FFFFFFFF on 3132333435363738"


def card_of(text):
    lines = profile.build(profile.merged({}, tomllib.loads(text)))
    script = lint.read("".join(line + "\n" for line in lines))
    assert not script.first(), script.findings
    return script.card


class Building(unittest.TestCase):
    # a profile's table of a file, its path, structure, size, and the bytes that it begins with
    FILES = [
        ('[EF_IMSI]\nimsi = "262019876543210"', ("7F20", "6F07"), ("t", 9, 1), "082926108967452301"),
        ('[EF_ICCID]\niccid = "8999901000000123450"', ("2FE2",), ("t", 10, 1), "989909010000103254F0"),
        ('[EF_SPN]\nspn = "Example"', ("7F20", "6F46"), ("t", 17, 1), "014578616D706C65FF"),
        ('[EF_FPLMN]\nplmns = ["262-01"]\nsize = 12', ("7F20", "6F7B"), ("t", 12, 1), "62F210FFFFFF"),
        ('[EF_PLMNwAcT]\nplmns = ["262-01 by GSM"]', ("7F20", "6F60"), ("t", 40, 1), "62F2100080FFFFFF"),
        ('[EF_ADN]\nentries = [{ name = "Anna", number = "+999901005550" }]\ncount = 3', ("7F10", "6F3A"), ("l", 28, 3),
         "416E6E61FFFFFFFFFFFFFFFFFFFF0791999910005505FFFFFFFFFFFF"),
        ('[EF_LND]\nentries = []\ncount = 10', ("7F10", "6F44"), ("c", 28, 10), "FFFF"),
        ('["7F10/6F99"]\nhex = "0102"\nsize = 4\nshort = 3', ("7F10", "6F99"), ("t", 4, 1), "0102FFFF"),
        ('["5F00/6F98"]\nrecords = ["01", "0203"]\ncyclic = true', ("5F00", "6F98"), ("c", 2, 2), "01FF0203"),
        ('[EF_UST]\nservices = ["MSISDN", 33]\nsize = 8', ("7F20", "6F38"), ("t", 8, 1), "0000100001000000"),
        ('[EF_AD]\nad = { network_digits = 3 }', ("7F20", "6FAD"), ("t", 4, 1), "00000003"),
    ]
    WRONG = [
        ('[EF_NONE]\nhex = "00"', "EF_NONE: no standard file is called so"),
        ('[EF_IMSI]\nimsi = "12"', "[EF_IMSI] imsi: an IMSI has 6 to 15 digits"),
        ('[EF_IMSI]\nimsi = "262019876543210"\nhex = "00"', "imsi and hex"),
        ('[EF_IMSI]\nimsy = "262019876543210"', "[EF_IMSI] imsy isn't known: `imsi = \"262019876543210\"` is"),
        ('[EF_SPN]\nspn = "a name that is much too long"', "there is room for 16"),
        ('[EF_IMSI]\nimsi = "262019876543210"\nread = "pin3"', "`pin3` is no condition"),
        ('["7F10/6F99"]\nshort = 1', "its size is not said"),
        ('[pins]\npin1 = { value = "12" }', "4 to 8 digits"),
        ('[[applet]]\nkind = "robot"', "and not robot"),
        ('[[applet]]\nshelf = 6\non = { location = ["jump"] }', "`jump` is no action"),
        ('[[applet]]\nshelf = 6\non = { moon = ["show A"] }', "`moon` is no event"),
        ('[[applet]]\nshelf = 6\nmenu = "more than ten letters"', "at most 10 bytes"),
    ]

    def test_files(self):
        for text, path, shape, content in self.FILES:
            with self.subTest(text=text):
                file = card_of(text).files[path]
                self.assertEqual((file.structure, file.length, file.count), shape)
                self.assertEqual(file.content.hex().upper()[:len(content)], content)

    def test_wrong(self):
        for text, why in self.WRONG:
            with self.subTest(text=text), self.assertRaises(profile.BadProfile) as caught:
                card_of(text)
            self.assertIn(why, str(caught.exception))

    def test_rules_are_written_once_each(self):
        card = card_of('[default]\nread = "always"\nupdate = "adm"\n[EF_ICCID]\niccid = "8999901000000123450"\nupdate = "never"\n'
                       '[EF_SPN]\nspn = "a"\n[EF_AD]\nad = {}\n')
        arr = card.files[("2F06",)]
        self.assertEqual([rules.shown(record) for record in arr.records()], ["read: always; update: never", "read: always; update: adm"])
        self.assertEqual([card.files[path].rule for path in (("2FE2",), ("7F20", "6F46"), ("7F20", "6FAD"), ("2F06",))],
                         [("2F06", 1), ("2F06", 2), ("2F06", 2), ("2F06", 2)])

    def test_applets(self):
        """The table of an applet is that of the documents: registered for user activity by the event of the location."""
        card = card_of('[[applet]]\nkind = "table"\non = { location = ["register user-activity", "show A", "tone 10"] }\n'
                       '[[applet]]\nkind = "table"\npriority = 4\nmenu = "Tools"\non = { menu = ["timer"], timer = ["idle z"], user-activity = ["more-time"] }\n'
                       '[[applet]]\nkind = "barrier"\nevents = ["call-control"]\nkeeps_text = "123"\n')
        self.assertEqual([(row.shelf, row.priority, row.events, row.text, row.kept.hex().upper()) for row in card.rows.values()],
                         [(6, 1, (0x03,), b"", "030704030141030210"), (13, 4, (0x04,), b"Tools", "430A00" "44097A" "040300"),
                          (4, 1, (0x45,), b"", "313233")])

    def test_templates_have_all_that_is_mandatory(self):
        for kind in ("usim", "sim"):
            card = lint.read("".join(line + "\n" for line in profile.build(profile.template(kind)))).card
            self.assertEqual(list(checking.findings(card, kind)), [])

    def test_a_profile_over_a_template(self):
        given = profile.merged(profile.template("usim"), tomllib.loads('[EF_IMSI]\nimsi = "262019876543210"\n'))
        card = lint.read("".join(line + "\n" for line in profile.build(given))).card
        file = card.files[("7F20", "6F07")]
        self.assertEqual(file.content.hex().upper(), "082926108967452301")
        self.assertIn("read: pin1", rules.shown(card.rule_file(file).record(file.rule[1])))


    # what stands in a profile below `like = "usim"`, and the words of the rules of some files
    DEFAULTS = [
        ('[default]\nread = "pin1"\nupdate = "never"\n["7F10/6F99"]\nhex = "01"\n[EF_SPN]\nspn = "a"\n[EF_LI]\nlanguages = ["de"]\n',
         {"2FE2": "read: always; update: never", "7F206FB7": "read: always; update: adm", "2F06": "read: always; update: adm",
          "2F05": "read: always; update: pin1 or adm", "7F206F07": "read: pin1; update: adm",
          # [default] is for the file that the template hasn't got: naming one of the template leaves its rule
          "7F106F99": "read: pin1; update: never", "7F206F46": "read: always; update: adm", "7F206F05": "read: always; update: pin1"}),
        ('[default]\nread = "pin1"\n[EF_ICCID]\nread = "adm"\n', {"2FE2": "read: adm; update: never", "7F206FB7": "read: always; update: adm"}),
        ('[default]\nread = "pin1"\n[EF_ICCID]\nrule = "none"\n', {"2FE2": None}),
        ('["7F10/6F99"]\nhex = "01"\n', {"7F106F99": "read: always; update: adm"}),
    ]

    def test_the_rules_of_a_template_stay(self):
        for text, wanted in self.DEFAULTS:
            card = lint.read(profile.made_in(('like = "usim"\n' + text).encode(), "card.toml").text).card
            for path, words in wanted.items():
                with self.subTest(text=text, path=path):
                    file = card.files[tuple(path[n:n + 4] for n in range(0, len(path), 4))]
                    self.assertEqual(file.rule and "; ".join(f"{operation}: {rules.in_words(access.condition(card, file, operation))}"
                                                             for operation in ("read", "update")), words)

    def test_what_everybody_must_read(self):
        """check tells of a file that must be readable, and that asks for a PIN."""
        for rule, said in (("pin1", True), ("always", False), ("pin2", False)):
            text = f'like = "usim"\n[pins]\npin2 = {{ on = false }}\n[EF_ECC]\nread = "{rule}"\n'
            found = list(checking.findings(lint.read(profile.made_in(text.encode(), "card.toml").text).card, "usim"))
            line = f"7F20/6FB7 EF.ECC: everybody must be able to read it, and its rule says `{rule}`"
            self.assertEqual(line in found, said, found)


class Doubts(unittest.TestCase):
    def test_numbers(self):
        """A PUK of other than eight digits, and the wrong check digit of an ICCID, are warnings of build, with their lines, and of check."""
        made = profile.made_in(b'like = "usim"\n[pins]\npin1 = { unblock = "1234" }\n[EF_ICCID]\niccid = "8999901000000123451"\n', "card.toml")
        self.assertEqual(made.warnings, ["card.toml, line 3: [pins] pin1 unblock: an UNBLOCK PIN has 8 digits, and 1234 has 4",
                                         "card.toml, line 4: [EF_ICCID]: the check digit of 8999901000000123451 is 1, and should be 0"])
        self.assertEqual(list(checking.findings(lint.read(made.text).card, "usim")),
                         ["2FE2 EF.ICCID: the check digit of 8999901000000123451 is 1, and should be 0",
                          "PIN 1: its UNBLOCK PIN has 4 digits, and should have 8"])


    # the tables of a profile over a usim, and the warnings of build
    TABLE = [
        ('[EF_IMSI]\nimsi = "26242000000001"\n', ["line 2: [EF_IMSI]: 26242000000001 has 14 digits: nearly all IMSIs have 15"]),
        ('[EF_IMSI]\nimsi = "262420000000001"\n[EF_AD]\nad = { network_digits = 3 }\n[EF_UST]\nservices_on = [43]\n'
         '[EF_HPLMNwAcT]\nplmns = ["262-42 by GSM"]\n',
         ["line 4: [EF_AD]: 7F20/6F62 EF.HPLMNwAcT has 262-42 first, and the IMSI is of 262-420: by EF.AD its network's code has 3 digits"]),
        ('[EF_IMSI]\nimsi = "262420000000001"\n[EF_UST]\nservices_on = [43]\n[EF_HPLMNwAcT]\nplmns = ["262-42 by GSM"]\n', []),
        ('[EF_ADN]\nread = "always or pin1"\nupdate = "never and pin1"\n',
         ["line 3: [EF_ADN] read: `always or pin1` comes to `always`", "line 4: [EF_ADN] update: `never and pin1` comes to `never`"]),
        ('[EF_ADN]\nupdate = "pin1 and (adm or pin2)"\n', []),
        ('[EF_ADN]\nincrease = "pin1"\n', ["line 3: [EF_ADN] increase: INCREASE is of cyclic files alone, and this one is linear fixed"]),
        # what the standard has otherwise, of files that the profile names
        ('[EF_ADN]\nlength = 10\n', ["line 2: [EF_ADN] has 10 bytes a record, and should have at least 14"]),
        ('[EF_ICCID]\niccid = "8999901000000123450"\nread = "pin1"\n',
         ["line 2: [EF_ICCID]: everybody must be able to read it, and its rule says `pin1`"]),
        ('["7F66/5F40/6F01"]\nsize = 100\n', []),
        ('["7F66/7F66/6F01"]\nsize = 100\n', ['line 2: ["7F66/7F66/6F01"]: no file has the identifier of a DF that it lies in']),
        ('[EF_ECC]\nemergency = [{ number = "110", name = "Police", category = 99 }]\n',
         ["line 2: [EF_ECC], record 1: its category 99 is for manual eCall and automatic eCall, which no number is dialled for: a category is the "
          "sum of 1 (police), 2 (ambulance), 4 (fire brigade), 8 (marine guard), 16 (mountain rescue)"]),
        ('[EF_ECC]\nemergency = [{ number = "110", category = 3 }]\n', []),
        # the template's class is the last digit of the IMSI, whatever that is
        ('[EF_IMSI]\nimsi = "262420000000010"\n', []),
        ('[EF_IMSI]\nimsi = "262420000000010"\n[EF_ACC]\nacc = [5]\n',
         ["line 4: [EF_ACC] has class 5, and the IMSI ends with 0: by its last digit cards are commonly given their class"]),
        ('[EF_ACC]\nacc = [9, 11]\n', []),
        ("[EF_UST]\nservices_off = [1]\n", ["line 2: [EF_UST]: 7F10/6F3A EF.ADN is there, and its service 1 (local phone book) is off in EF.UST"]),
        ("[EF_UST]\nservices_on = [200, 150]\n", ["line 2: [EF_UST]: services 150, 200 are on in EF.UST, and the standard's list ends with 146"]),
        ("[EF_FDN]\nentries = []\n", ["line 2: [EF_FDN] is there, and its service 2 (fixed dialling numbers) is off in EF.UST"]),
    ]

    def test_check_says_what_build_says(self):
        """One answer for one mistake: what build warns of the files of a card, check tells too, with the file in the place of the table."""
        for text, warnings in self.TABLE:
            made = profile.made_in(('like = "usim"\n' + text).encode(), "card.toml")
            found = list(checking.findings(lint.read(made.text).card, "usim"))
            for warning in warnings:
                told = warning.partition("]")[2].lstrip('":, ')
                with self.subTest(text=text):
                    self.assertTrue("comes to" in told or "INCREASE is of" in told or any(told in one for one in found), (told, found))

    def test_a_class_by_the_imsi(self):
        """It is asked for by a word, and an IMSI that is blank gives none."""
        for text, acc in (('[EF_IMSI]\nimsi = "262019876543213"\n', "0008"), ('[EF_IMSI]\nhex = "082926108967452371"\n', "0080"),
                          ('[EF_IMSI]\nhex = "FF"\nsize = 9\n', "0000"), ("[EF_ACC]\nacc = [11]\n", "0800")):
            card = lint.read(profile.made_in(('like = "usim"\n' + text).encode(), "card.toml").text).card
            with self.subTest(text=text):
                self.assertEqual(card.files[("7F20", "6F78")].content.hex().upper(), acc)
        with self.assertRaises(profile.BadProfile) as caught:
            profile.made_in(b'[EF_ACC]\nacc = "imsi"\n', "card.toml")
        self.assertEqual(str(caught.exception), 'card.toml, line 2: [EF_ACC] acc = "imsi" is the last digit of the IMSI, and there is no EF_IMSI')

    def test_services_that_are_added(self):
        """The others stay, a service goes by its file too, and the file grows."""
        text = 'like = "usim"\n[EF_UST]\nservices_on = ["FDN", "msisdn", 94]\nservices_off = ["GSM access"]\n'
        card = lint.read(profile.made_in(text.encode(), "card.toml").text).card
        content = bytes(card.files[("7F20", "6F38")].content)
        self.assertEqual((contents.services_on("ust", content), len(content)), ({1, 2, 10, 12, 19, 20, 21, 33, 94}, 12))

    def test_warnings_of_build(self):
        for text, warnings in self.TABLE:
            with self.subTest(text=text):
                made = profile.made_in(('like = "usim"\n' + text).encode(), "card.toml")
                self.assertEqual(made.warnings, ["card.toml, " + warning for warning in warnings])

    def test_files_of_ones_own(self):
        """In a folder that is no standard one an identifier says nothing."""
        self.assertEqual([names.name_of(path) for path in (("7F66", "5F40", "6F01"), ("7F77", "6F50"), ("7F10", "6F31"), ("7F20", "6F07"))], ["6F01", "6F50", "6F31", "EF.IMSI"])


class Kinds(unittest.TestCase):
    """Which file a USIM and a SIM have at a place that both have one at."""

    def services(self, text, kind, word):
        card = lint.read(profile.made_in(text.encode(), "card.toml").text).card
        return contents.services_on(kind, card.files[("7F20", "6F38")].content) & set(contents.services([word], kind))

    def test_services_of_a_sim(self):
        """FDN is service 3 of EF_SST, and 2 of EF_UST; CBMI 14, and 15."""
        for word in ("FDN", "CBMI"):
            on = f'like = "sim"\n[EF_SST]\nservices_on = ["{word}"]\n'
            self.assertTrue(self.services(on, "sst", word))
            self.assertFalse(self.services(on.replace("_on", "_off"), "sst", word))
        self.assertTrue(self.services('like = "sim"\n[EF_SST]\nservices_off = ["FDN"]\n', "sst", "ADN"))
        with self.assertRaisesRegex(profile.BadProfile, "tools/profile services sst lists them"):
            profile.made_in(b'like = "sim"\n[EF_SST]\nservices_on = ["xyz"]\n', "card.toml")

    def test_a_usim_with_the_key_of_a_sim(self):
        """EF_Kc of GSM in 7F20 leaves EF_UST what it is, with its SFI, and is a warning."""
        for table in ("[EF_Kc]\nsize = 9\n", '[EF_Kc]\nhex = "00"\n', '["7F20/6F20"]\nhex = "00"\n'):
            made = profile.made_in(f'like = "usim"\n[EF_UST]\nservices = [1, 10, 19]\n{table}'.encode(), "card.toml")
            self.assertIn("fill 7F206F38 0 010204", made.text)
            self.assertIn("ef 7F206F38 t 8 4 ", made.text)
            self.assertEqual([text for text in made.warnings if "that of a SIM" in text],
                             [f"card.toml, line 4: {table.partition(chr(10))[0]} is that of a SIM, 7F20/6F20: a USIM's is [\"5F3B/EF_Kc\"], in "
                              "DF.GSM-ACCESS"])
            self.assertFalse([text for text in made.warnings if "EF.SST" in text])
            self.assertTrue(profile.is_usim(lint.read(made.text).card.files))

    def test_the_name_of_the_other_kind(self):
        for kind, name, own in (("usim", "EF_SST", "EF_UST"), ("sim", "EF_UST", "EF_SST")):
            made = profile.made_in(f'like = "{kind}"\n[{name}]\nservices = [1]\n'.encode(), "card.toml")
            self.assertEqual([text for text in made.warnings if "is a file of" in text],
                             [f"card.toml, line 2: [{name}] is a file of a {'SIM' if kind == 'usim' else 'USIM'}, and this card is a {kind.upper()}'s: it "
                              f"is taken for its [{own}], which is at that place"])

    def test_a_file_of_several_services(self):
        with self.assertRaisesRegex(profile.BadProfile, "`EF_P-CSCF` is a file of 2 services, 1 and 5: a number or a name says which"):
            profile.made_in(b'like = "usim"\n["7FF2/EF_IST"]\nservices = ["EF_P-CSCF"]\n', "card.toml")


class Concealing(unittest.TestCase):
    """The keys of EF_SUCI_Calc_Info, each by the protection scheme that takes it."""
    A, B = "5A" * 32, "02" + "5B" * 32
    # schemes with the places of their keys, the keys, and what is doubtful in them
    TABLE = [
        ([(1, 1), (2, 2), (0, 0)], [(27, A), (30, B)], None),
        ([(2, 1)], [(30, "04" + "5B" * 64)], None),
        ([(0, 0)], [], None),
        ([(1, 1)], [(27, A[2:])], "scheme 1 (profile A) takes a key of 32 bytes, and that at place 1 has 31"),
        ([(1, 1)], [(27, "00")], "that at place 1 has 1"),
        ([(1, 1)], [(27, B)], "scheme 1 (profile A) takes a key of 32 bytes, and that at place 1 has 33"),
        ([(2, 1)], [(30, A)], "scheme 2 (profile B) takes a key of 33 or 65 bytes, and that at place 1 has 32"),
        ([(2, 1)], [(30, "05" + B[2:])], "the key at place 1, for scheme 2 (profile B), begins with 05, and one of 33 bytes with 02 or 03"),
        ([(1, 3)], [(27, A)], "scheme 1 (profile A) takes the key 3, and the list has 1"),
        ([(1, 0)], [(27, A)], "scheme 1 (profile A) takes the key 0, and the list has 1"),
        ([(1, 1)], [], "scheme 1 (profile A) takes the key 1, and the list has none"),
        ([(0, 2)], [(27, A)], "scheme 0 takes the key 2, and the list has 1"),
        ([(1, 1), (1, 2)], [(27, A), (27, A)], "two keys have the identifier 27"),
    ]

    def test_keys(self):
        for schemes, keys, why in self.TABLE:
            with self.subTest(schemes=schemes, keys=keys):
                content = structured.encode_concealing({"schemes": [{"scheme": one, "key": key} for one, key in schemes],
                                                        "keys": [{"id": one, "key": key} for one, key in keys]})
                made = profile.made_in(f'like = "usim"\n[EF_UST]\nservices_on = [124]\n[EF_SUCI_Calc_Info]\nhex = "{content.hex()}"\n'.encode(), "card.toml")
                found = [text for text in checking.findings(lint.read(made.text).card, "usim") if "scheme" in text or "identifier" in text]
                self.assertEqual(len(found), 1 if why else 0, found)
                self.assertIn(why or "", "".join(found))
                self.assertEqual(bool(why), any("EF_SUCI_Calc_Info" in text for text in made.warnings))
        # one that is blank holds no key
        contents.check("suci", b"\xFF" * 40)


class Quotes(unittest.TestCase):
    def test_quotes(self):
        """Of a line that is no TOML for its quotes these are named."""
        for line, why in (('like = "usim', ': a quote is missing, or one stands in the text, where it is written \\"'),
                          ("like = \u201cusim\u201d", ': \u201c is no quote here, but " is'), ("like = usim", ": text stands in quotes"),
                          ('like = "a "b" c"', ': a quote is missing, or one stands in the text, where it is written \\"'),
                          ("like = 007", ": digits that begin with 0 stand in quotes")):
            with self.assertRaises(located.Unreadable) as caught:
                located.read(line.encode())
            self.assertTrue(str(caught.exception).endswith(why), (line, str(caught.exception)))


class Without(unittest.TestCase):
    """Files of the template that a profile leaves out."""

    def card(self, text):
        made = profile.made_in(f'like = "usim"\n{text}\n'.encode(), "card.toml")
        return lint.read(made.text).card

    def test_files_and_folders(self):
        whole, card = self.card(""), self.card('without = ["EF_NETPAR", "7F20/5F3B", "EF.PLMNwAcT"]')
        gone = {("7F20", "6FC4"), ("7F20", "5F3B"), ("7F20", "5F3B", "4F20"), ("7F20", "5F3B", "4F52"), ("7F20", "6F60")}
        self.assertEqual(set(whole.files) - set(card.files), gone)
        self.assertEqual(list(checking.findings(card, "usim"))[:1], ["7F20/6FC4 EF.NETPAR is missing: network parameters"])

    def test_no_file_of_the_profile(self):
        """The rules that only such a file had aren't written."""
        never = bytes.fromhex("9700")
        found = [never in bytes(self.card(text).files[("2F06",)].content) for text in ("", 'without = ["EF_ICCID"]')]
        self.assertEqual(found, [True, False])


class Mistakes(unittest.TestCase):
    """Everyday mistakes: each is told with its line, what is wrong, and what would be right."""
    HEAD = 'like = "usim"\n'
    # what stands after that line, and what is said
    TABLE = [
        ('[EF_PIN]\nhex = "00"', ['line 2: [EF_PIN]: PINs are no files: they stand in [pins], as `pin1 = { value = "1234" }`']),
        ("[EF_IMSI]\nimsi = 262019876543210", ['line 3: [EF_IMSI] imsi is a number, and has to be text in quotes: imsi = "262019876543210"']),
        ("[EF_IMSI]\nimsi = 001010123456789",
         ["line 3: Expected newline or end of document after a statement: digits that begin with 0 stand in quotes"]),
        ('[pins]\npin1 = "1234"',
         ['line 3: [pins] pin1 is text, and has to be a table of value, unblock, on: pin1 = { value = "1234", unblock = "12345678" }']),
        ('[EF_IMSI]\nimsi = ["262019876543210"]', ['line 3: [EF_IMSI] imsi is a list, and has to be text in quotes: imsi = "262019876543210"']),
        ('[EF_ADN]\n\nentries = ["A"]',
         ["line 4: [EF_ADN] entries: entry 1 is text, and has to be a table of name, number: "
          'entries = [{ name = "Anna", number = "+491701234567" }]']),
        ('[EF_ADN]\nentries = [{ name = "A", nmber = "1" }]',
         ["line 3: [EF_ADN] entries: entry 1: `nmber` isn't known: `number` is: "
          'entries = [{ name = "Anna", number = "+491701234567" }]']),
        ('pins = "1234"', ["line 2: pins is text, and has to be a table of pin1, pin2, adm: [pins] and below it "
                           'pin1 = { value = "1234", unblock = "12345678" }']),
        ('default = "always"', ["line 2: default is text, and has to be a table of read, update, deactivate, activate, increase: [default] and "
                                'below it read = "always"']),
        ('applet = "greeter"', ['line 2: applet is text, and has to be a list of tables: [[applet]] and below it kind = "greeter"']),
        ("[EF_ACC]\nacc = 9", ["line 3: [EF_ACC] acc is a number, and has to be a list of numbers: acc = [9]"]),
        ("[EF_ACC]\nacces = [9]", ["line 3: [EF_ACC] acces isn't known: `acc = [9]` is"]),
        ('lik = "sim"', ["line 2: `lik` isn't known at the top of a profile: `like` is"]),
        ('[EF_FPLMN]\nlike = "sim"', ["line 3: [EF_FPLMN] like isn't known in a table: `like = \"usim\"` stands at the top of a profile, before the first table"]),
        ('[pins]\npin4 = { value = "1234" }', ["line 3: [pins] pin4 isn't known: a card here has the PINs pin1, pin2, adm alone"]),
        ('[EF_SPN]\nrecords = ["00", "01"]\nlength = 1\ncount = 1', ["line 3: [EF_SPN] records: it has 2 records, and room for 1: `count = 2`"]),
        ('["7F10/6F99"]\nrecords = ["01"]\nlength = { a = 1 }\nfolder = true',
         ['line 4: ["7F10/6F99"] length is a table, and has to be a number from 1 to 255', 'line 5: ["7F10/6F99"] says `folder`, and the table of a DF']),
        ("colour = 1", ["line 2: `colour` isn't known at the top of a profile: `like`, `without`, [pins], [default], [[applet]] and tables of files are"]),
        ('EF_IMSI = "262019876543210"', ["line 2: `EF_IMSI` is text, and has to be a table: [EF_IMSI] and below it what the file holds"]),
        ('[pins]\nadm1 = { value = "1234" }', ["line 3: [pins] adm1 isn't known: it is called `adm`"]),
        ('[pins]\npuk1 = "12345678"', ["line 3: [pins] puk1 isn't known: the UNBLOCK PIN (PUK) stands with its PIN: "
                                      'pin1 = { value = "1234", unblock = "12345678" }']),
        ("[7F20]", ['line 2: [7F20] is a DF (DF.GSM): its files have tables of their own, as ["7F20/EF_IMSI"]; `folder = true` alone '
                    "makes an empty one"]),
        ('[EF_PNNN]\nhex = "00"', ["line 2: [EF_PNNN] EF_PNNN: no standard file is called so, but EF_PNN is; an identifier of four digits "
                                  "names any other"]),
        ('[EF_SPN]\nspn = "A"\nread = "adm1"', ["line 4: [EF_SPN] read: `adm1` is no condition, but `adm` is: always, never, pin1, pin2, adm, "
                                            "joined by `or` or `and`"]),
        ('["ADF.USIM/EF.IMSI"]\nhex = "00"', ["line 2: [ADF.USIM/EF.IMSI] ADF.USIM: a card here has no ADF: the files of a USIM lie in the DF 7F20"]),
        ('["7F10.6F99"]\nhex = "00"', ['line 2: [7F10.6F99]: a path is written with slashes, ["7F10/6F99"]']),
        ('[EF_FOO]\nhex = "00"', ["line 2: [EF_FOO] EF_FOO: no standard file is called so; an identifier of four digits"]),
        ('[EF_ISMI]\nhex = "00"', ["line 2: [EF_ISMI] EF_ISMI: no standard file is called so, but EF_IMSI is"]),
        ('[EF_AD]\nmode = "normal"', ['line 3: [EF_AD] mode isn\'t known: `ad = { mode = "normal"']),
        ('[EF_AD]\nwrite = "adm"', ["line 3: [EF_AD] write isn't known: it is called `update`"]),
        ('[EF_AD]\nresize = "adm"', ["line 3: [EF_AD] resize isn't known: RESIZE FILE asks for the administrator's PIN"]),
        ('["7F10/6F99"]\nsize = 1\nsfi = 1', ['line 4: ["7F10/6F99"] sfi isn\'t known: it is called `short`']),
        ('["7F10/6F99"]\nsize = 1\nzz = 1', ['line 4: ["7F10/6F99"] zz isn\'t known: what a file holds is said by `hex` or `records`']),
        ('[EF_AD]\nrule = "3"', ['line 2: [EF_AD]: `rule` is an EF_ARR and the number of a record in it, as "2F06:3", or "none"']),
        ('[EF_AD]\nread = "PIN1"', ["line 3: [EF_AD] read: `PIN1` is no condition, but `pin1` is: always"]),
        ('[EF_AD]\nread = "pin1 and (adm"', ["line 3: [EF_AD] read: a bracket isn't closed in a condition"]),
        ('[EF_AD]\nread = "adm)"', ["line 3: [EF_AD] read: `adm)` is no condition: a bracket is closed that isn't open"]),
        ('[EF_PL]\nlanguages = ["DE"]', ["line 3: [EF_PL] languages: a language is two lower-case letters (ISO 639), as `de`, and not `DE`"]),
        ('[EF_DIR]\napplications = [{ aid = "A000" }]', ["line 3: [EF_DIR] applications: an AID has 5 to 16 bytes, and A000 has 2"]),
        ('[EF_SPN]\nspn = "A"\nshort = 7', ["line 2: [EF_SPN]: the SFI 7 is taken by 7F20/6F07"]),
        ('[EF_SPN]\nspn = "A"\nsize = 100000', ["line 4: [EF_SPN] size is 100000, and has to be a number from 1 to 32767: size = 17"]),
        ('["7F10/6F99"]\nsize = 5\ncyclic = true', ['line 2: ["7F10/6F99"]: `cyclic` is of files with records, and `size` of those without']),
        ('[EF_SPN]\niccid = "1"', ["line 3: [EF_SPN] iccid is nothing that EF.SPN holds: `spn = \"Nordlicht\"` is"]),
        ('[EF_UST]\nservices_on = ["FDX"]', ["line 3: [EF_UST] services_on: `FDX` is no service by number or name: tools/profile services ust"]),
        ("[EF_UST]\nservices_on = [27, 2]\nservices_off = [27]", ["line 4: [EF_UST] services_off: 27 is in services_on too"]),
        ("[EF_UST]\nservices_on = 2", ["line 3: [EF_UST] services_on is a number, and has to be a list of numbers or names of services"]),
        ("[EF_SPN]\nservices_off = [2]", ["line 3: [EF_SPN] services_off is of files with services: EF_UST"]),
        ("[EF_ECC]\nemergency = [112]", ["line 3: [EF_ECC] emergency: entry 1 is a number, and has to be text in quotes"]),
        ("[pins]\npin1 = { value = 1234 }", ["line 3: [pins] pin1: `value` is a number, and has to be text in quotes"]),
        ("[EF_HPPLMN]\nminutes = 7", ["line 3: [EF_HPPLMN] minutes: it is a multiple of 6 from 0 to 1530, and not 7"]),
        ('[EF_AD]\nrule = "-"', ['line 2: [EF_AD]: `rule` is an EF_ARR and the number of a record in it, as "2F06:3", or "none"']),
        ('["3F00"]\nhex = "00"', ["line 2: [3F00] is the MF, of which a profile says nothing"]),
        ('[EF_AD]\nread = "pin1 AND adm"', ["line 3: [EF_AD] read: `pin1 AND adm` is no condition, but `and` and `or` in lower-case letters"]),
        ('[EF_AD]\nread = "or adm"', ["line 3: [EF_AD] read: a condition is missing before `or`"]),
        ('[[applet]]\nkind = "menu"\n[[applet]]\nkind = "menu"\nmenue = "x"', ["line 6: [[applet]] menue isn't known: `menu` is"]),
        ('[[applet]]\nkind = "table"\non = { locaton = ["show A"] }', ["line 2: [[applet]]: the applet on shelf 6: `locaton` is no event, but "
                                                                  "`location` is: "]),
        ('[EF_IMSI]\nimsi = "262019876543210"\n["7F20/6F07"]\nsize = 9', ['line 4: ["7F20/6F07"] is the same file as [EF_IMSI]']),
        ('without = "EF_NETPAR"', ['line 2: without is text, and has to be a list of texts: without = ["EF_NETPAR"]']),
        ('without = ["EF_GID1", "EF_FOO"]', ["line 2: without: EF_GID1 is no file of the template", "line 2: without: [EF_FOO] EF_FOO: no standard file"]),
        ('without = ["EF_SPN"]\n[EF_SPN]\nspn = "A"', ["line 3: [EF_SPN] stands there, and `without` leaves it out"]),
        ('[EF_SPN]\nwithout = ["EF_LI"]', ['line 3: [EF_SPN] without isn\'t known in a table: `without = ["EF_NETPAR"]` stands at the top of a profile']),
        ('[EF_LI]\nabsent = true', ['line 3: [EF_LI] absent isn\'t known: `without = ["EF_NETPAR"]` at the top of a profile leaves files']),
        ('[EF.IMSI]\nimsi = "262019876543210"\n[EF.SPN]\nspn = "A"',
         ['line 2: [EF.IMSI]: a dot without quotes makes a table within another one: it is written [EF_IMSI], or ["EF.IMSI"]',
          'line 4: [EF.SPN]: a dot without quotes makes a table within another one: it is written [EF_SPN], or ["EF.SPN"]']),
        ('[EF_IMSI]\nsize = "9"\nshort = "7"', ["line 3: [EF_IMSI] size is text, and has to be a number from 1 to 32767: size = 9",
                                              "line 4: [EF_IMSI] short is text, and has to be a number from 0 to 30: short = 7"]),
        ('[EF_SMS]\nlength = "176"\nsize = "176"', ["line 3: [EF_SMS] length is text, and has to be a number from 1 to 255: length = 176",
                                                   "line 4: [EF_SMS] size is text, and has to be a number from 1 to 32767: size = 17"]),
        ('[pins.pin1]\nunblock = 12345678\n\nvalue = 1234', ["line 3: [pins] pin1: `unblock` is a number, and has to be text in quotes",
                                                          "line 5: [pins] pin1: `value` is a number, and has to be text in quotes"]),
        ('[EF_IMSI]\nimsi = "1"\n[EF_ACC]\nacc = [10]', ["line 3: [EF_IMSI] imsi: an IMSI has 6 to 15 digits", "line 5: [EF_ACC] acc: an access "
                                                      "control class is 0 to 9"]),
    ]

    def test_mistakes(self):
        for text, reasons in self.TABLE:
            with self.subTest(text=text), self.assertRaises(profile.BadProfile) as caught:
                profile.made_in((self.HEAD + text + "\n").encode(), "card.toml")
            told = [fault.reason for fault in caught.exception.faults]
            self.assertEqual(len(told), len(reasons), told)
            for reason, part in zip(told, reasons):
                self.assertTrue(reason.startswith("card.toml, " + part), reason)

    # a profile, and all that is said of it in one run, by the beginning of each line
    TOGETHER = [
        ('like = "usin"\ncolour = 1\n[pins]\npin1 = { value = "12", unblock = "1" }\npuk1 = "1"\n[default]\nread = "al"\nupdate = "adm1"\n'
         '[EF_IMSI]\nimsi = "12"\nshort = 99\n[EF_ACC]\nacc = [9, 10, 2, 17]\nread = "pin3"\n[EF_SPN]\nspn = "too long for the file"\n'
         '[EF_ADN]\nentries = [{ name = "A", number = "x" }, { name = "B", number = "1" }, { nme = "C", number = 1 }]\n[EF_PNNN]\nhex = "00"\n'
         '["7F20/6F46"]\nhex = "00"\n[[applet]]\nkind = "table"\non = { locaton = ["shw A"], location = ["tone"] }\n'
         '[[applet]]\nkind = "tabel"\n',
         ['line 1: like = "usin": there is no such template', "line 2: `colour` isn't known", "line 4: [pins] pin1 unblock: a value is",
          "line 4: [pins] pin1 value: a value is", "line 5: [pins] puk1 isn't known", "line 7: [default] read: `al` is no condition",
          "line 8: [default] update: `adm1` is no condition", "line 10: [EF_IMSI] imsi: an IMSI has", "line 11: [EF_IMSI] short is 99",
          "line 13: [EF_ACC] acc: entry 2: an access control class is", "line 13: [EF_ACC] acc: entry 4: an access control class is",
          "line 14: [EF_ACC] read: `pin3` is no condition", "line 16: [EF_SPN] spn: `too long for the file` has 21 bytes",
          "line 18: [EF_ADN] entries: entry 1: `x` is no number", "line 18: [EF_ADN] entries: entry 3: `nme` isn't known: `name` is",
          "line 18: [EF_ADN] entries: entry 3: `number` is a number", "line 19: [EF_PNNN] EF_PNNN: no standard",
          'line 21: ["7F20/6F46"] is the same file as [EF_SPN]', "line 23: [[applet]]: the applet on shelf 6: `locaton` is no event",
          "line 23: [[applet]]: the applet on shelf 6: `shw A` is no action", "line 23: [[applet]]: the applet on shelf 6: `tone`: tone has",
          "line 26: [[applet]]: an applet has a shelf, or a kind"]),
        # what comes of a fault isn't told: a size, a content, and a file that is missing
        ('like = "usim"\n[EF_SPN]\nspn = "too long for the file"\nsize = "40"\n', ["line 4: [EF_SPN] size is text"]),
        ('[EF_SPN]\nsp = "x"\n["7F10/6F99"]\nhx = "00"\n', ["line 2: [EF_SPN] sp isn't known", 'line 4: ["7F10/6F99"] hx isn\'t known']),
        # what only the script shows comes with the rest
        ('like = "usim"\n[EF_SPN]\nspn = "A"\nshort = 7\n[EF_ACC]\nacc = [10]\n',
         ["line 2: [EF_SPN]: the SFI 7 is taken by", "line 6: [EF_ACC] acc: an access control class"]),
        # lines that are no TOML: each that is wrong by itself, and what stands in the others
        ('like = "usim"\n[EF_IMSI]\nimsi = 0123456\n[EF_SPN]\nspn = "Nord\n[EF_ACC]\nacc = [10]\n',
         ["line 3: Expected newline or end of document after a statement: digits that begin with 0", "line 5: Illegal character",
          "line 7: [EF_ACC] acc: an access"]),
        ('like = "usim"\n[EF_IMSI\nimsi = "1"\n[EF_ACC]\nacc = [10]\n', ["line 2: `]` is missing", "line 5: [EF_ACC] acc: an access"]),
        ('like = "usim"\n[EF IMSI]\nimsi = "1"\n[EF_ACC]\nacc = [10]\n', ["line 2: Expected ']'", "line 5: [EF_ACC] acc: an access"]),
        # brackets that aren't closed, and what stands after them
        ('like = "usim"\n[EF_ADN]\nentries = [{ name = "A" },\n[EF_ACC]\nacc = [10]\n', ["line 3: `]` is missing", "line 5: [EF_ACC] acc: an access"]),
        ('like = "usim"\n[EF_FPLMN]\nplmns = [\n  "262-01"\nsize = "12"\n[EF_SPN]\nspn = "a [b"\n[EF_ACC]\nacc = [9\n',
         ["line 3: `]` is missing", "line 5: [EF_FPLMN] size is text", "line 9: `]` is missing"]),
        ('like = "usim"\n[EF_ADN]\nentries = [\n  { name = "A" },\n  { name = "B", number = "1x" }\n  { name = "C" },\n]\n[EF_ACC]\nacc = [10]\n',
         ["line 3: [EF_ADN] entries: entry 2: `1x` is no", "line 6: Unclosed array: a comma is missing before it", "line 9: [EF_ACC] acc: an access"]),
        ('like = "usim"\n[pins]\npin1 = { value = "12",\n  unblock = "12345678" }\n[EF_ACC]\nacc = [10]\n',
         ["line 3: Invalid initial character for a key part: a table in { } stands in one line", "line 6: [EF_ACC] acc: an access"]),
        ('like = "usim"\n[EF_ACC]\nacc = [9]\nacc = [9]\nread = "pin3"\n', ["line 4: Cannot overwrite a value: it stands there twice",
                                                                          "line 5: [EF_ACC] read: `pin3` is no condition"]),
        # entries that are wrong beside others that are of no form
        ('like = "usim"\n[EF_ADN]\nentries = [{ name = "A", number = "x" }, { nme = "B" }, { name = "C", number = "1" }]\n',
         ["line 3: [EF_ADN] entries: entry 1: `x` is no number", "line 3: [EF_ADN] entries: entry 2: `nme` isn't known"]),
    ]

    def test_all_mistakes_in_one_run(self):
        for text, reasons in self.TOGETHER:
            with self.subTest(text=text), self.assertRaises(profile.BadProfile) as caught:
                profile.made_in(text.encode(), "card.toml")
            told = [fault.reason for fault in caught.exception.faults]
            self.assertEqual(len(told), len(reasons), "\n".join(told))
            for reason, part in zip(told, reasons):
                self.assertTrue(reason.startswith("card.toml, " + part), f"{reason} is not {part}")

    def test_spoilt_profiles(self):
        """No mutation of a good profile gives a traceback, or a script that lint has something against."""
        self.assertTrue(profile.made_in(fuzz_profile.GOOD.encode(), "card.toml").lines)
        self.assertEqual([trouble for trouble in map(fuzz_profile.trouble, range(100)) if trouble], [])

    def test_no_profiles(self):
        for content, reason in ((b"\x7fELF\n\x00\xFF", "card.toml, line 2: it isn't UTF-8"), (b"\x00", "card.toml, line 1: "), (b"\xEF\xBB\xBFa", "card.toml, line 1: ")):
            with self.assertRaises(profile.BadProfile) as caught:
                profile.made_in(content, "card.toml")
            self.assertIn(reason, str(caught.exception))

    def test_what_a_profile_says_takes_the_place_of_the_template(self):
        """The content of a file in another form, and one value of a PIN."""
        made = profile.made_in(b'like = "usim"\n[EF_IMSI]\nhex = "00"\n[pins]\npin1 = { value = "0000" }\n', "card.toml")
        card = lint.read(made.text).card
        self.assertEqual(card.files[("7F20", "6F07")].content.hex().upper(), "00" + "FF" * 8)
        self.assertEqual((card.pins[1].value, card.pins[1].unblock), (b"0000" + b"\xFF" * 4, b"12345678"))

    def test_rules_as_they_are(self):
        """Records of EF_ARR in bytes keep their numbers, and files name them; words are written after them."""
        card = card_of('[EF_ARR]\nrecords = ["84013290009700", "8001019000"]\n["7F10/6F99"]\nsize = 1\nrule = "2F06:2"\n'
                       '["7F10/6F98"]\nsize = 1\nread = "always"\n["7F10/6F97"]\nsize = 1\nread = "never"\n["7F10/6F96"]\nsize = 1\nrule = "none"\n')
        self.assertEqual([card.files[("7F10", name)].rule for name in ("6F99", "6F98", "6F97", "6F96")], [("2F06", 2), ("2F06", 2), ("2F06", 3), None])
        self.assertEqual(card.files[("2F06",)].record(1).hex().upper()[:14], "84013290009700")


class Checking(unittest.TestCase):
    # lines of a card, and a part of what is found
    TABLE = [
        ("df 7F20\nef 7F206F07 t 9 7 -\nfill 7F206F07 0 080110101032547698\n", "EF.IMSI: its parity half byte is 1, and 9 for 15 digits"),
        ("df 7F20\nef 7F206F07 t 10 7 -\n", "EF.IMSI has 10 bytes, and should have 9"),
        ("df 7F20\nef 7F206F07 l 9 1 7 -\n", "EF.IMSI is linear fixed, and should be transparent"),
        ("ef 2FE2 t 10 2 2F06:1\n", "its rule 2F06:1 allows nothing"),
        ("ef 2F05 t 2 5 -\n", "2FE2 EF.ICCID is missing"),
    ]

    # lines of a card like the template's, in place of lines of it, and what is found in it
    CHANGES = [
        ('[EF_ICCID]\niccid = "8999901000000123459"', "2FE2 EF.ICCID: the check digit of 8999901000000123459 is 9, and should be 0"),
        ('["7F10/EF_SMSP"]\nlength = 1\nrecords = []', "7F10/6F42 EF.SMSP has 1 byte a record, and should have at least 28"),
        ('["7F20/EF_FDN"]\nentries = []', "7F20/6F3B EF.FDN is there, and its service 2 (fixed dialling numbers) is off in EF.UST"),
        ("[EF_UST]\nservices = [10, 12, 19, 20, 21, 27, 33]",
         "7F10/6F3A EF.ADN is there, and its service 1 (local phone book) is off in EF.UST"),
        ("[EF_UST]\nservices = [1, 2, 10, 12, 19, 20, 21, 27, 33]",
         "service 2 (fixed dialling numbers) is on in EF.UST, and no file of it is there: EF.FDN"),
        # EF_EST is for fixed dialling and others, and says of none that it is there
        ('["7F20/EF_EST"]\nservices = []\n[EF_UST]\nservices_on = [2, 34]', "service 2 (fixed dialling numbers) is on in EF.UST, and no file of it is there: EF.FDN"),
        ('["7F20/EF_FDN"]\nentries = []\n[EF_UST]\nservices_on = [2]',
         "service 2 (fixed dialling numbers) is on in EF.UST, and EF.EST isn't there, which says whether it is enabled"),
        ('[EF_UST]\nhex = "01"', "7F20/6F38 EF.UST ends with bytes FF, so that all services from 9 on are on: a table of services is filled up with 00"),
        ("[EF_UST]\nservices_on = [34]", "service 34 (enabled services table) is on in EF.UST, and no file of it is there: EF.EST"),
        ('["7F10/EF_ADN"]\nlength = 13', "7F10/6F3A EF.ADN has 13 bytes a record, and should have at least 14"),
        ('[pins]\npin1 = { on = false }', "7F10/6F3A EF.ADN, rule 2F06:6, read, update: it asks for PIN 1, which is off, so that everybody "
                                         "may (and 15 more files go by it)"),
        ('[EF_SPN]\nupdate = "pin1 or pin2"\n[pins]\npin2 = { on = false }',
         "7F20/6F46 EF.SPN, rule 2F06:7, update: it asks for PIN 2, which is off, so that everybody may"),
        ('[EF_SPN]\nupdate = "pin1 and pin2"\n[pins]\npin2 = { on = false }',
         "7F20/6F46 EF.SPN, rule 2F06:7, update: it asks for PIN 2, which is off, so that what is left is `pin1`"),
    ]

    def test_changes_of_a_template(self):
        for text, said in self.CHANGES:
            with self.subTest(text=text):
                card = lint.read(profile.made_in(f'like = "usim"\n{text}\n'.encode(), "card.toml").text).card
                self.assertIn(said, list(checking.findings(card, "usim")))

    def test_a_table_of_services_that_is_filled_up(self):
        """One line says it, and none for each service."""
        made = profile.made_in(b'like = "usim"\n[EF_UST]\nhex = "0502040000"\nsize = 7\n', "card.toml")
        found = list(checking.findings(lint.read(made.text).card, "usim"))
        self.assertEqual([text for text in found if " off in " not in text],
                         ["7F20/6F38 EF.UST ends with bytes FF, so that all services from 41 on are on: a table of services is filled up with 00",
                          "service 3 (extension 2) is on in EF.UST, and no file of it is there: EF.EXT2"])
        made = profile.made_in(b'like = "usim"\n[EF_UST]\nhex = "01"\n', "card.toml")
        self.assertEqual(len(list(checking.findings(lint.read(made.text).card, "usim"))), 1)

    def test_pin_2_protects(self):
        """The template's PIN 2 is on, so that a rule by it says who may update."""
        given = b'like = "usim"\n["7F20/EF_FDN"]\nentries = []\nupdate = "pin2"\n["7F20/EF_EST"]\nservices = []\n' \
                b'[EF_UST]\nservices = [1, 2, 10, 12, 19, 20, 21, 27, 33]\n'
        made = profile.made_in(given, "card.toml")
        card = lint.read(made.text).card
        self.assertTrue(card.pins[0x81].enabled)
        self.assertEqual((made.warnings, list(checking.findings(card, "usim"))), ([], []))
        file = card.files[("7F20", "6F3B")]
        self.assertEqual(access.effective(card, access.condition(card, file, "update")), (rules.BY_KEY, 0x81))

    def test_a_rule_by_a_pin_that_is_off_is_a_warning_of_build_and_lint(self):
        given = b'like = "usim"\n[EF_SPN]\nspn = "A"\nupdate = "pin2"\n[pins]\npin2 = { on = false }\n'
        made = profile.made_in(given, "card.toml")
        self.assertEqual(made.warnings, ['card.toml, line 2: [EF_SPN]: RULE 2F06:7, update: it asks for PIN 2, which is off, so that everybody may'])
        self.assertEqual([finding.kind for finding in lint.read(made.text).findings], ["warning"])
        absent = "pin 01 31323334FFFFFFFF on 3132333435363738\nef 2F06 l 8 1 - -\nrec 2F06 1 800101A40683010A950108\nef 2F05 t 2 5 2F06:1\nstart\n"
        finding, = lint.read(absent.replace("l 8 1", "l 11 1")).findings
        self.assertEqual((finding.line, finding.reason),
                         (4, "RULE 2F06:1, read: it asks for ADM1, which the card hasn't got, so that nobody may"))

    def test_findings(self):
        for text, part in self.TABLE:
            with self.subTest(text=text):
                found = list(checking.findings(lint.read(text + "start\n").card, "usim"))
                self.assertTrue(any(part in one for one in found), found)


class Command(unittest.TestCase):
    def profile(self, *words):
        return in_process("profile", *words)

    def test_from_a_profile_to_a_tree(self):
        with tempfile.TemporaryDirectory() as folder:
            given, script = os.path.join(folder, "card.toml"), os.path.join(folder, "card.script")
            with open(given, "w", encoding="utf-8") as out:
                out.write('like = "usim"\n[EF_IMSI]\nimsi = "262019876543210"\n')
            self.assertEqual(self.profile("build", given, "-o", script).returncode, 0)
            self.assertEqual(self.profile("check", script).returncode, 0)
            shown = self.profile("tree", script).stdout
            for part in ("6F07 EF.IMSI", "262019876543210", "PIN 1: 1234, enabled, 3 tries left"):
                self.assertIn(part, shown)
            with open(given, "a", encoding="utf-8") as out:
                out.write("size = 3\n")
            done = self.profile("build", given)
            self.assertEqual((done.returncode, "9 bytes, and its size is 3" in done.stderr), (2, True))

    def test_nothing_is_written_over_that_would_be_lost(self):
        """Neither what a file is made of, nor lines after `start`, nor a file of another kind; --force does, and a script that is built anew goes."""
        with tempfile.TemporaryDirectory() as folder:
            given, script, other, dump = (os.path.join(folder, name) for name in ("card.toml", "card.script", "other.toml", "card.export"))
            for path, text in ((given, 'like = "usim"\n'), (other, "# mine\n"), (dump, "select MF/EF.ICCID\nupdate_binary 981032547698103214F6\n")):
                with open(path, "w", encoding="ascii") as out:
                    out.write(text)
            self.assertEqual([self.profile("build", given, "-o", script).returncode for _ in range(2)], [0, 0])
            with open(given, "a", encoding="ascii") as out:
                out.write('[EF_SPN]\nspn = "Z"\n')
            self.assertEqual(self.profile("build", given, "-o", script).returncode, 0)
            with open(script, "a", encoding="ascii") as out:
                out.write("apdu 00A4000C023F00\n")
            for words, reason in ((("build", given, "-o", given), "is what this is made of"), (("export", given, "-o", given), "is what this is made of"),
                                  (("import", dump, "-o", dump), "is what this is made of"), (("build", given, "-o", script), "has lines after `start` (1)"),
                                  (("build", given, "-o", other), "would be written over"), (("export", script, "-o", given), "would be written over")):
                with self.subTest(words=words[0], reason=reason):
                    with open(words[-1], "rb") as before:
                        content = before.read()
                    done = self.profile(*words)
                    self.assertEqual(done.returncode, 2)
                    self.assertIn(reason, done.stderr)
                    self.assertIn("--force", done.stderr)
                    with open(words[-1], "rb") as after:
                        self.assertEqual(after.read(), content)
            self.assertEqual(self.profile("build", given, "-o", script, "--force").returncode, 0)
            with open(script, encoding="utf-8") as built:
                self.assertTrue(built.read().endswith("start\n"))

    def test_lines_of_ones_own_before_start(self):
        """A file, a PIN or an applet that somebody put into a script isn't lost where the script is built again."""
        with tempfile.TemporaryDirectory() as folder:
            given, script = os.path.join(folder, "card.toml"), os.path.join(folder, "card.script")
            with open(given, "w", encoding="ascii") as out:
                out.write('like = "usim"\n[EF_SPN]\nspn = "A"\n')
            self.assertEqual(self.profile("build", given, "-o", script).returncode, 0)
            with open(script, encoding="utf-8") as built:
                text = built.read()
            mine = text.replace("\nstart\n", "\nef 7F206F77 t 3 - -\nrow 3 1 010300\nstart\n")
            with open(script, "w", encoding="utf-8") as out:
                out.write(mine)
            done = self.profile("build", given, "-o", script)
            self.assertEqual((done.returncode, done.stdout), (2, ""))
            self.assertEqual(done.stderr, f"profile: nothing is written: {script} describes 7F20/6F77, the applet on shelf 3, which the new script doesn't; "
                             "--force writes over it\n")
            with open(script, encoding="utf-8") as there:
                self.assertEqual(there.read(), mine)
            self.assertEqual(self.profile("build", given, "-o", script, "--force").returncode, 0)

    def test_lines_that_were_changed_by_hand(self):
        """A line of a script that somebody changed, took out or put in isn't lost where the script is built again; the profile's changes are no
        such ones."""
        with tempfile.TemporaryDirectory() as folder:
            given, script = os.path.join(folder, "card.toml"), os.path.join(folder, "card.script")

            def build(name, *words):
                with open(given, "w", encoding="utf-8") as out:
                    out.write(f'like = "usim"\n[EF_SPN]\nspn = "{name}"\n')
                return self.profile("build", given, "-o", script, *words)

            self.assertEqual(build("A").returncode, 0)
            self.assertEqual(build("Ä").returncode, 0)
            with open(script, encoding="utf-8") as built:
                text = built.read()
            lines = text.splitlines()
            at = next(number for number, line in enumerate(lines, 1) if line.startswith("fill 7F206F46 "))
            changes = [(text.replace("pin 01 31323334", "pin 01 35353535"), f" (the new script hasn't line {lines.index(PIN_LINE) + 1})"),
                       (text.replace("# EF.SPN", "# mine, EF.SPN").replace(lines[at - 1], lines[at - 1][:-2] + "00"),
                        f" (the new script hasn't lines {at - 2}, {at})"),
                       (text.replace(lines[at - 1] + "\n", ""), ""),
                       (text.replace("\nstart\n", "\n# mine\nstart\n"), f" (the new script hasn't line {len(lines)})")]
            for mine, which in changes:
                with self.subTest(which=which):
                    self.assertNotEqual(mine, text)
                    with open(script, "w", encoding="utf-8") as out:
                        out.write(mine)
                    done = build("Ä")
                    self.assertEqual((done.returncode, done.stderr), (2, f"profile: nothing is written: {script} was changed by hand after it was "
                                                                     f"built{which}; --force writes over it\n"))
                    with open(script, encoding="utf-8") as there:
                        self.assertEqual(there.read(), mine)
                    self.assertEqual(build("Ä", "--force").returncode, 0)
            self.assertEqual((build("B").returncode, build("B").returncode), (0, 0))

    def test_a_tree_is_whole(self):
        """What is decoded goes on in a next line, and of other bytes a line is shown, or all."""
        text = 'like = "usim"\n["7F10/6F99"]\nhex = "' + "AB" * 120 + '"\n'
        with tempfile.TemporaryDirectory() as folder:
            given = os.path.join(folder, "card.toml")
            with open(given, "w", encoding="ascii") as out:
                out.write(text)
            shown, whole = self.profile("tree", given).stdout, self.profile("tree", given, "--whole").stdout
        together = " ".join(line.lstrip("│ ") for line in shown.splitlines())
        self.assertIn("19 service provider name, 20 user controlled PLMN selector with access technology, 21 MSISDN, 27 GSM access, 33", together)
        self.assertEqual((shown.count("AB"), whole.count("AB")), (49, 120))
        self.assertIn("ABAB..\n", shown)
        for text in (shown, whole):
            self.assertLessEqual(max(map(len, text.splitlines())), 120)

    def test_check_notes_where_files_of_the_adf_lie(self):
        """That isn't wrong, and is told all the same, until they are where TS 31.102 has them too."""
        text = 'like = "usim"\n' + "".join(f'["7F20/EF_{name}"]\n{said}\n' for name, said in (
            ("MSISDN", "entries = []"), ("SMS", "count = 1"), ("SMSS", 'hex = "FFFF"')))
        with tempfile.TemporaryDirectory() as folder:
            given = os.path.join(folder, "card.toml")
            for more, names_told in (("", ["EF.MSISDN", "EF.SMS", "EF.SMSP", "EF.SMSS"]), (text, ["EF.SMSP"]),
                                     (text + '["7F20/EF_SMSP"]\nparameters = []\n', [])):
                with open(given, "w", encoding="ascii") as out:
                    out.write(more or 'like = "usim"\n')
                done = self.profile("check", given)
                notes = [line for line in done.stdout.splitlines() if line.startswith("note: ")]
                with self.subTest(told=names_told):
                    self.assertEqual((done.returncode, [name for name in names_told if f"{name} " in notes[0] or f"{name}," in notes[0]], len(notes)),
                                     (0, names_told, bool(names_told)))

    def test_check_ends_with_1(self):
        done = self.profile("check", os.path.join(EXAMPLES, "usim.script"))
        self.assertEqual(done.returncode, 1)
        self.assertIn("7F20/6F08 EF.Keys is missing", done.stdout)


if __name__ == "__main__":
    unittest.main()
