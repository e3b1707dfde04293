"""tools/profile import: what dumps become, and what of them is left out."""
import json
import os
import tempfile
import tomllib
import unittest

from common import in_process
from uicc import importing, lint, profile, rules

# control parameters: transparent, linear fixed, cyclic, and a file of objects
IMSI_FCP = "62178202412183026F078A01058B032F0601800200098801" + "38"
ADN_FCP = "621A82054221001C038" + "3026F3A8A01058B032F0601800200548801" + "08"
LND_FCP = "621782054621001C0283026F448A01058B032F060180020038"
OBJECTS_FCP = "620F8202392183026F998A010580020010"
# the answer of a SIM: transparent, and linear fixed
KC_SIM = "000000096F20040011FFFF01020000"
ADN_SIM = "000000546F3A040011FFFF0102011C"
BLANK = "FF" * 28
ANNA = "416E6E61FFFFFFFFFFFFFFFFFFFF0791999910005505FFFFFFFFFFFF"


def exported(path, *lines, identifiers="", structure="", fcp=""):
    """A file as the newer `export` writes it."""
    folder, _, name = path.rpartition("/")
    told, _, own = identifiers.rpartition("/")
    text = f"{'#' * 80}\n# {path:<77}#\n{'#' * 80}\n# directory: {folder} ({told})\n# file: {name} ({own})\n"
    text += f"# structure: {structure}\n" * bool(structure) + f"# RAW FCP Template: {fcp}\n# Decoded FCP Template: []\n" * bool(fcp)
    return text + f"select {path}\n" + "".join(line + "\n" for line in lines) + "#\n"


def exported_before(path, *lines, identifiers="", structure=""):
    """The same as an older one writes it: a `select` for each part of the path, and no control parameters."""
    return exported(path, *lines, identifiers=identifiers, structure=structure).replace(
        f"select {path}\n", "".join(f"select {part}\n" for part in path.split("/")))


def parameters(structure, length, count=1, short=None, rule=None):
    """The control parameters of a file."""
    descriptor = bytes(({"t": 0x41, "l": 0x42, "c": 0x46}[structure], 0x21))
    if structure != "t":
        descriptor += bytes((0, length, count))
    fcp = b"\x82" + bytes((len(descriptor),)) + descriptor + b"\x80\x02" + (length * count).to_bytes(2, "big")
    fcp += b"\x88\x01" + bytes((short << 3,)) if short else b"\x88\x00"
    if rule:
        fcp += b"\x8B\x03" + bytes.fromhex(rule[0]) + bytes((rule[1],))
    return (b"\x62" + bytes((len(fcp),)) + fcp).hex()


def imported(text):
    """The card of the profile that a dump becomes, that profile, and what is left out."""
    done = importing.Import(text)
    given = tomllib.loads(done.profile())
    script = lint.read("".join(line + "\n" for line in profile.build(profile.merged({}, given))))
    assert not script.first(), script.findings
    return script.card, given, done.faults


def but_rules(faults):
    """What is said of a dump without an EF_ARR, but that it doesn't tell the rules which its files name."""
    return [fault for fault in faults if not fault.endswith("its rule 2F06:1 isn't in the dump")]


class Reading(unittest.TestCase):
    IMSI, ADN, LND = ("7F20", "6F07"), ("7F10", "6F3A"), ("7F10", "6F44")
    # a dump, the path of a file, structure, length, count and short identifier, the bytes that it begins with, and the word that its
    # profile says it with
    FILES = [
        (exported("MF/ADF.USIM/EF.IMSI", "update_binary 082926108967452301", identifiers="3f00/a0000000871002/6f07",
                  structure="transparent", fcp=IMSI_FCP), IMSI, ("t", 9, 1, 7), "082926108967452301", "imsi"),
        (exported_before("MF/ADF.USIM/EF.IMSI", "update_binary 082926108967452301", structure="transparent"),
         IMSI, ("t", 9, 1, 7), "082926108967452301", "imsi"),
        (exported("MF/DF.GSM/EF.IMSI", "update_binary ffffffffffffffffff"), IMSI, ("t", 9, 1, 7), "FF" * 9, None),
        # the size is larger than what is told, and smaller would be wrong
        (exported("MF/7f10/6f99", "update_binary 0102", fcp="620F8202412183026F998A010580020004"), ("7F10", "6F99"), ("t", 4, 1, None),
         "0102FFFF", "hex"),
        ("# size: 6\nselect MF/DF.TELECOM/6F99\nupdate_binary 0102\n", ("7F10", "6F99"), ("t", 6, 1, None), "0102FFFFFFFF", "hex"),
        # records
        (exported("MF/DF.TELECOM/EF.ADN", f"update_record 1 {BLANK}", f"update_record 2 {ANNA.lower()}", f"update_record 3 {BLANK}",
                  fcp=ADN_FCP), ADN, ("l", 28, 3, 1), BLANK + ANNA + BLANK, "entries"),
        (exported("MF/DF.TELECOM/EF.LND", f"update_record 1 {ANNA}", f"update_record 2 {BLANK}", fcp=LND_FCP),
         LND, ("c", 28, 2, None), ANNA + BLANK, "entries"),
        (exported_before("MF/DF.TELECOM/EF.LND", f"update_record 1 {ANNA}", structure="cyclic"), LND, ("c", 28, 1, None), ANNA, "entries"),
        (exported("MF/DF.TELECOM/EF.ADN", f"update_record 3 {ANNA[:-2]}00", fcp=ADN_FCP), ADN, ("l", 28, 3, 1),
         BLANK + BLANK + ANNA[:-2] + "00", "records"),
        # a structure that isn't the standard's
        (exported("MF/DF.GSM/EF.ECC", "update_binary 11f2ff", identifiers="3f00/7f20/6fb7", structure="transparent"),
         ("7F20", "6FB7"), ("t", 3, 1, 1), "11F2FF", "hex"),
        (exported("MF/EF.ICCID", "update_record 1 9899", structure="linear_fixed"), ("2FE2",), ("l", 2, 1, 2), "9899", "records"),
        # a file that no table here names, by its identifiers, in folders of their own
        (exported("MF/DF.HNB/DF.X/EF.CSG", "update_record 1 00", identifiers="3f00/5f50/5f51/4f81"), ("5F50", "5F51", "4F81"),
         ("l", 1, 1, None), "00", "records"),
        ("# directory: MF/DF.X/EF.CSG (3f00/5f51/4f81)\nselect MF/DF.X/EF.CSG\nupdate_binary 00\n", ("5F51", "4F81"), ("t", 1, 1, None), "00",
         "hex"),
        # the answer of a SIM
        (exported("MF/DF.GSM/EF.Kc", "update_binary ffffffffffffffff07", fcp=KC_SIM), ("7F20", "6F20"), ("t", 9, 1, None),
         "FFFFFFFFFFFFFFFF07", "hex"),
        (exported("MF/DF.TELECOM/EF.ADN", f"update_record 1 {ANNA}", fcp=ADN_SIM), ADN, ("l", 28, 3, None), ANNA + BLANK, "entries"),
        # contents in words
        (exported("MF/EF.PL", "update_binary 656e6465ffff"), ("2F05",), ("t", 6, 1, 5), "656E6465FFFF", "languages"),
        (exported("MF/ADF.USIM/EF.FPLMN", "update_binary 62f210ffffff"), ("7F20", "6F7B"), ("t", 6, 1, 13), "62F210FFFFFF", "plmns"),
        (exported("MF/ADF.USIM/EF.FPLMN", "update_binary ffffff62f210"), ("7F20", "6F7B"), ("t", 6, 1, 13), "FFFFFF62F210", "hex"),
        (exported("MF/ADF.USIM/EF.UST", "update_binary 0100000001"), ("7F20", "6F38"), ("t", 5, 1, 4), "0100000001", "services"),
        (exported("MF/ADF.USIM/EF.ACC", "update_binary 0200"), ("7F20", "6F78"), ("t", 2, 1, 6), "0200", "acc"),
        (exported("MF/ADF.USIM/EF.ACC", "update_binary 0600"), ("7F20", "6F78"), ("t", 2, 1, 6), "0600", "hex"),
        (exported("MF/ADF.USIM/EF.SPN", "update_binary 014578616D706C65" + "ff" * 9), ("7F20", "6F46"), ("t", 17, 1, None),
         "014578616D706C65FF", "spn"),
        (exported("MF/ADF.USIM/EF.HPPLMN", "update_binary 05"), ("7F20", "6F31"), ("t", 1, 1, 18), "05", "minutes"),
    ]

    def test_files(self):
        for text, path, shape, content, word in self.FILES:
            with self.subTest(text=text):
                card, given, faults = imported(text)
                file = card.files[path]
                self.assertEqual((file.structure, file.length, file.count, file.short), shape)
                self.assertEqual(file.content.hex().upper()[:len(content)], content)
                table, = (value for name, value in given.items() if name not in ("pins", "default"))
                self.assertEqual([key for key in table if key not in profile.OF_FILE], [word] if word else [])
                self.assertEqual(but_rules(faults), [])

    # the path of a file, the JSON that its content is decoded to, and the bytes
    DECODED = [
        ("MF/EF.ICCID", {"iccid": "8999901000000123450"}, "989909010000103254F0"),
        ("MF/ADF.USIM/EF.IMSI", {"imsi": "262019876543210"}, "082926108967452301"),
        ("MF/ADF.USIM/EF.SPN", {"rfu": 0, "hide_in_oplmn": True, "show_in_hplmn": False, "spn": "Example"}, "024578616D706C65FF"),
        ("MF/EF.PL", ["de", None, "en"], "6465FFFF656E"),
        ("MF/ADF.USIM/EF.FPLMN", [{"mcc": "262", "mnc": "01"}, None], "62F210FFFFFF"),
        ("MF/ADF.USIM/EF.UST", {"1": {"description": "Local Phone Book", "activated": True}, "2": {"activated": False}}, "01"),
        ("MF/DF.GSM/EF.SST", {"1": {"allocated": True, "activated": True}, "2": {"allocated": False, "activated": False}}, "0300"),
        ("MF/ADF.USIM/EF.ACC", {"ACC15": False, "ACC9": True, "ACC0": True}, "0201"),
        ("MF/DF.TELECOM/6F99", {"raw": "c0ffee"}, "C0FFEE"),
    ]

    def test_decoded(self):
        for path, value, content in self.DECODED:
            with self.subTest(path=path):
                card, _, faults = imported(exported(path, f"update_binary_decoded '{json.dumps(value)}'"))
                file = next(file for file in card.files.values() if file.path and not file.is_df and file.path != profile.ARR)
                self.assertEqual((file.content.hex().upper()[:len(content)], faults), (content, []))

    NUMBER = {"alpha_id": "Anna", "len_of_bcd": 7, "dialing_nr": "999901005550", "cap_conf_id": 255, "ext1_record_id": 255,
              "ton_npi": {"ext": True, "type_of_number": "international", "numbering_plan_id": "isdn_e164"}}
    NO_NUMBER = {"alpha_id": "", "len_of_bcd": 255, "dialing_nr": "", "cap_conf_id": 255, "ext1_record_id": 255,
                 "ton_npi": {"ext": True, "type_of_number": "reserved_for_ext", "numbering_plan_id": "reserved_for_ext"}}

    def test_decoded_records(self):
        lines = [f"update_record_decoded {number} '{json.dumps(value)}'" for number, value in enumerate((self.NO_NUMBER, self.NUMBER), 1)]
        card, _, faults = imported(exported("MF/DF.TELECOM/EF.ADN", *lines, fcp=ADN_FCP))
        self.assertEqual((card.files[self.ADN].content.hex().upper(), but_rules(faults)), (BLANK + ANNA + BLANK, []))

    # a dump in JSON, and the files that it becomes
    JSON = [
        ({"files": {"MF": {"fcp_raw": "62"}, "MF/EF.ICCID": {"body": "989909010000103254f0"},
                    "MF/DF.TELECOM/EF.ADN": {"fcp_raw": ADN_FCP, "body": [ANNA, BLANK, BLANK]},
                    "MF/EF.UMPC": {"error": {"sw_actual": "6a82", "sw_expected": "9000", "message": "File not found"}}}},
         {("2FE2",): "989909010000103254F0", ("7F10", "6F3A"): ANNA + BLANK + BLANK}),
        ({"files": {"MF/ADF.USIM/EF.IMSI": {"fcp_raw": IMSI_FCP, "body": {"imsi": "262019876543210"}},
                    "MF/EF.PL": {"fcp_raw": "620F8202412183022F058A010580020004", "body": ["en", None]}}},
         {("7F20", "6F07"): "082926108967452301", ("2F05",): "656EFFFF"}),
    ]

    def test_fsdump(self):
        for given, wanted in self.JSON:
            card, _, faults = imported(json.dumps(given))
            found = {path: file.content.hex().upper() for path, file in card.files.items() if not file.is_df and path != profile.ARR}
            self.assertEqual((found, but_rules(faults)), (wanted, []))


class LeavingOut(unittest.TestCase):
    ICCID = exported("MF/EF.ICCID", "update_binary 989909010000103254f0")
    # what stands in a dump beside that, and what is said of it, a part each; None: nothing is
    TABLE = [
        (exported("MF/ADF.CSIM/EF.IMPI", "update_binary 00"), ["MF/ADF.CSIM/EF.IMPI: a card here has no place for the files of ADF.CSIM"]),
        (exported("MF/ADF.USIM/EF.IMSI", "update_binary 082926108967452301") + exported("MF/DF.GSM/EF.LI", "update_binary 656e"),
         ["MF/DF.GSM/EF.LI: the files of ADF.USIM lie in DF.GSM here"]),
        (exported("MF/DF.TELECOM/EF.NEW", "update_binary 00"), ["MF/DF.TELECOM/EF.NEW: no identifier is given for EF.NEW"]),
        (exported("MF/7F10/6F99", "set_data 0x80 00", fcp=OBJECTS_FCP), ["MF/7F10/6F99: `set_data` writes an object of a file of the structure BER-TLV"]),
        (exported("MF/7F10/6F99", "update_binary 00", fcp=OBJECTS_FCP), ["it is neither transparent, linear fixed nor cyclic"]),
        (exported("MF/7F10/6F99", "update_binary 00", structure="ber_tlv"), ["it is neither transparent, linear fixed nor cyclic"]),
        (exported("MF/7F10/6F99", "update_binary 0"), ["MF/7F10/6F99: `0` are no bytes"]),
        (exported("MF/7F10/6F99", "update_binary"), ["MF/7F10/6F99: no bytes are given"]),
        (exported("MF/7F10/6F99", "update_record x 00"), ["`x` is no number of a record"]),
        (exported("MF/7F10/6F99", "update_binary_decoded '{'"), ["MF/7F10/6F99: its JSON can't be read"]),
        (exported("MF/7F10/6F99"), ["MF/7F10/6F99: nothing is said of what it holds"]),
        (exported("MF/7F10/6F99", fcp="620482024121"), ["MF/7F10/6F99: nothing is said of what it holds"]),
        (exported("MF/7F10/6F99", "update_binary " + "00" * 40_000), ["MF/7F10/6F99: SIZE is 1 to 32767, not 40000"]),
        (exported("MF/7F10/6F99", "update_binary 0102030405060708090A", fcp=IMSI_FCP), ["it has 9 bytes, and 10 are given"]),
        (exported("MF/7F10/6F99", f"update_record 4 {ANNA}", fcp=ADN_FCP), ["it has 3 records of 28 bytes, and a record 4 of 28"]),
        (exported("MF/7F21/6F98", "update_binary 00", fcp="6212820241218A01048B032F06078002000188" + "00"),
         ["MF/7F21/6F98: is deactivated there", "MF/7F21/6F98: its rule 2F06:7 isn't in the dump"]),
        (exported("MF/7F10/6F99", "update_record 1 00", structure="transparent"), ["it is transparent, and records are given"]),
        (exported("MF/7F10/6F99", "update_binary 00", structure="cyclic"), ["it has records, and one content is given"]),
        (exported("MF/7F10/6F99", "update_record 1 " + "00" * 256), ["LENGTH is 1 to 255, not 256"]),
        (exported("MF/EF.ICCID", "update_binary 00"), ["MF/EF.ICCID: 2FE2 EF.ICCID is there already"]),
        (exported("MF/EF.ICCID/6F99", "update_binary 00"), ["MF/EF.ICCID/6F99: 2FE2 EF.ICCID is no DF"]),
        (exported("MF/ADF.USIM/EF.LOCI", "update_binary_decoded '{\"tmsi\": \"00\"}'"), ["its decoded content isn't read: export it"]),
        (exported("MF/ADF.USIM/EF.IMSI", "update_binary_decoded '{\"imsi\": \"1\"}'"), ["(an IMSI has 6 to 15 digits, and `1` is none)"]),
        (exported("MF/7F10/6F99", "update_record 99999999999 00"), ["a file here has at most 254 records, and this one 99999999999"]),
        (exported("MF/ADF.USIM/EF.UST", "update_binary_decoded '{\"99999999999\": {\"activated\": true}}'"), ["`99999999999` is no service"]),
        (exported("MF/ADF.USIM/EF.UST", "update_binary_decoded '{\"12\": {\"activated\": true}}'", fcp="620C8202412183026F3880020001"),
         ["a service stands beyond 1 bytes"]),
        (exported("MF/DF.TELECOM/EF.X\x7f", "update_binary 0", identifiers="3f00/7f10/6f99"), ["`0` are no bytes"]),
        ("update_binary 00\n", ["line 9: no file is selected"]),
        ("pySIM-shell (00:MF)> export\n", ["line 9: `pySIM-shell` isn't known: select, update_binary"]),
        ("# directory: MF (3f00)\n# bad file: MF/EF.UMPC, SW match failed! Expected 9000 and got 6a82: File not found\n", []),
        (exported("MF/ADF.USIM/EF.LOCI").removesuffix("#\n")
         + "# bad file: MF/ADF.USIM/EF.LOCI, SW match failed! Expected 9000 and got 6982: Security status not satisfied\n",
         ["MF/ADF.USIM/EF.LOCI: the dump hasn't got it: SW match failed! Expected 9000 and got 6982"]),
        ("# total files visited: 3\n# bad files:           1\n#  MF/EF.UMPC, SW match failed! Expected 9000 and got 6a82\n", []),
    ]

    def test_what_is_left_out(self):
        for text, parts in self.TABLE:
            with self.subTest(text=text[:400]):
                card, _, faults = imported(self.ICCID + text)
                self.assertEqual(card.files[("2FE2",)].content.hex().upper(), "989909010000103254F0")
                self.assertEqual(len(faults), len(parts), faults)
                for part, fault in zip(parts, faults):
                    self.assertIn(part, fault)
                if text.startswith("#" * 80) and len(parts) == 1:
                    self.assertNotIn(("7F10", "6F99"), card.files)

    def test_a_record_of_rules_that_cannot_be_read(self):
        """The others are kept, and the files that go by them keep their rules."""
        arr = exported("MF/EF.ARR", "update_record 1 800101900080011aa40683010a950108", "update_record 2 8001019000801",
                       "update_record 3 800103a406830101950108", identifiers="3f00/2f06", structure="linear_fixed")
        text = arr + "".join(exported(f"MF/{path[-1]}", "update_binary 00", fcp=parameters("t", 1, rule=("2F06", number)))
                             for path, number in ((("6F91",), 3), (("6F92",), 2)))
        card, _, faults = imported(text)
        self.assertEqual(card.files[("6F91",)].rule[0], "2F06")
        self.assertEqual(rules.shown(card.rule_file(card.files[("6F91",)]).record(card.files[("6F91",)].rule[1])), "read, update: pin1")
        self.assertEqual([fault.partition(", ")[2] or fault for fault in faults],
                         ["MF/EF.ARR: `8001019000801` are no bytes in hexadecimal digits; the record is left out", "MF/6F92: its rule 2F06:2 isn't in the dump"])
        _, _, faults = imported(exported("MF/6F91", "update_binary 0"))
        self.assertTrue(faults[0].endswith("; the file is left out"), faults)

    def test_a_short_identifier_that_is_taken(self):
        fcp = IMSI_FCP.replace("6F07", "6F99")
        card, _, faults = imported(exported("MF/ADF.USIM/EF.IMSI", "update_binary 082926108967452301", fcp=IMSI_FCP)
                                   + exported("MF/ADF.USIM/6F99", "update_binary 00", fcp=fcp))
        self.assertEqual([card.files[("7F20", name)].short for name in ("6F07", "6F99")], [7, None])
        self.assertEqual(faults[:1], ["MF/ADF.USIM/6F99: comes without its SFI 7, which 7F20/6F07 EF.IMSI has"])

    def test_as_many_files_as_there_is_room_for(self):
        """127 beside the MF, EF_ARR and the folder with them."""
        text = "".join(exported(f"MF/DF.TELECOM/{number:04X}", "update_binary 00") for number in range(0x6F80, 0x6F80 + 126))
        card, _, faults = imported(text)
        self.assertEqual((len(card.files), len(faults)), (128, 1))
        self.assertIn("MF/DF.TELECOM/6FFD: a card has at most 128 files", faults[0])

    def test_as_many_bytes_as_there_is_room_for(self):
        """A file that has no room takes no other one's, and leaves no empty folder."""
        text = "".join(exported(f"MF/{path}", "update_binary " + "00" * size)
                       for path, size in (("7F10/6F90", 32_767), ("7F21/6F91", 32_000), ("7F10/6F92", 28_769)))
        card, _, faults = imported(text)
        self.assertEqual(sorted(card.files), [(), ("2F06",), ("7F10",), ("7F10", "6F90"), ("7F10", "6F92")])
        self.assertEqual(card.total(), 61_568)
        self.assertIn("MF/7F21/6F91: all files have at most 61,568 bytes together", faults[0])

    def test_a_name_is_printed_in_one_line(self):
        text = json.dumps({"files": {"MF/6F99\n": {"body": "00"}, "MF/EF.ICCID": {"body": "00"}}})
        self.assertEqual([importing.dump.printable(fault) for fault in importing.Import(text).faults],
                         ["MF/6F99?: no identifier is given for 6F99?, and no standard file known here is called so"])
        _, given, faults = imported(exported("MF/DF.TELECOM/EF.X\x7f", "update_binary 00", identifiers="3f00/7f10/6f99"))
        self.assertEqual((list(given), faults), (["pins", "default", "7F10/6F99"], []))

    def test_json_that_is_no_dump(self):
        for text, why in (("{", "its JSON can't be read"), ('{"a": ' + "[" * 100_000, "its JSON can't be read"), ("{}", "no `files`"), ('{"files": []}', "no `files`")):
            with self.assertRaises(importing.Unread) as caught:
                importing.Import(text)
            self.assertIn(why, str(caught.exception))

    # an entry of fsdump, and what is said of it
    ENTRIES = [
        (7, "it is no object"),
        ({"body": "0"}, "`0` are no bytes"),
        ({"body": "00", "fcp_raw": OBJECTS_FCP}, "neither transparent"),
        ({"error": {"sw_actual": "6982", "message": "Security status not satisfied"}}, "the dump hasn't got it: Security status"),
    ]

    def test_entries_of_fsdump(self):
        for entry, why in self.ENTRIES:
            _, _, faults = imported(json.dumps({"files": {"MF/EF.ICCID": {"body": "989909010000103254f0"}, "MF/7F10/6F99": entry}}))
            self.assertEqual(len(faults), 1)
            self.assertIn(f"MF/7F10/6F99: {why}", faults[0].replace("it is neither", "neither"))


class Rules(unittest.TestCase):
    """EF_ARR, and the rules that files name."""
    PATH = ("7F10", "6F99")
    # records of EF_ARR: words, no words (UPDATE BINARY by its instruction), and one that no file names
    ARR = exported("MF/EF.ARR", "update_record 1 800101A406830101950108800102A40683010A950108", "update_record 2 8401D69000", "update_record 3 8001039700",
                   fcp=parameters("l", 30, 4, 6, ("2F06", 3)))

    def file(self, number, path="MF/DF.TELECOM/6F99", arr="2F06"):
        return exported(path, "update_binary 00", fcp=parameters("t", 1, rule=(arr, number)))

    def test_words(self):
        """In the order of the dump or after it; the record is the one that it was."""
        for text in (self.ARR + self.file(1), self.file(1) + self.ARR):
            card, given, faults = imported(text)
            table = given["7F10/6F99"]
            self.assertEqual((table["read"], table["update"], "rule" in table, faults), ("pin1", "adm", False, []))
            self.assertEqual(card.files[self.PATH].rule, ("2F06", 1))
            self.assertEqual([record.rstrip(b"\xFF").hex().upper() for record in card.files[profile.ARR].records()[:3]],
                             ["800101A406830101950108800102A40683010A950108", "8401D69000", "8001039700"])
            self.assertEqual(card.files[profile.ARR].rule, ("2F06", 3))

    def test_without_words(self):
        card, given, faults = imported(self.ARR + self.file(2))
        self.assertEqual((given["7F10/6F99"]["rule"], card.files[self.PATH].rule, faults), ("2F06:2", ("2F06", 2), []))

    def test_of_a_folder(self):
        """The EF_ARR of a folder stays one, and the words of its files are found in it."""
        arr = exported("MF/ADF.USIM/EF.ARR", "update_record 2 800101A406830101950108", fcp=parameters("l", 11, 2))
        card, given, faults = imported(self.ARR + arr + self.file(2, "MF/ADF.USIM/6F99", "6F06"))
        self.assertEqual((given["7F20/6F99"]["read"], card.files[("7F20", "6F99")].rule, faults), ("pin1", ("6F06", 2), []))

    def test_a_file_without_a_rule_beside_others(self):
        """It gets the words that hold where nothing is told, and no other file does."""
        card, given, faults = imported(self.ARR + self.file(1) + exported("MF/EF.ICCID", "update_binary 989909010000103254f0"))
        self.assertEqual((given["EF_ICCID"]["update"], "default" in given, faults), ("adm", False, []))
        file = card.files[("2FE2",)]
        self.assertEqual(rules.shown(card.rule_file(file).record(file.rule[1])), "read: always; update, deactivate, activate: adm")

    def test_conditions_of_a_sim(self):
        """Read with CHV 1, update by an administrator, invalidate never, rehabilitate always."""
        answer = "000000096F200400" + "1411" + "0F" + "01020000"
        card, given, faults = imported(exported("MF/DF.GSM/EF.Kc", "update_binary ffffffffffffffff07", fcp=answer))
        table = given["7F20/EF_Kc"] if "7F20/EF_Kc" in given else given["EF_Kc"]
        self.assertEqual(({key: table[key] for key in ("read", "update", "deactivate", "activate")}, faults),
                         ({"read": "pin1", "update": "adm", "deactivate": "never", "activate": "always"}, []))

    def test_parameters_that_cannot_be_read(self):
        """The file keeps its bytes."""
        for text in (exported("MF/7F10/6F99", "update_binary 0102", fcp="62"), exported("MF/7F10/6F99", "update_binary 0102", fcp="zz"),
                     json.dumps({"files": {"MF/7F10/6F99": {"fcp_raw": "62", "body": "0102"}}})):
            card, _, faults = imported(text)
            self.assertEqual(card.files[self.PATH].content, b"\x01\x02")
            self.assertEqual(len(faults), 1)
            self.assertRegex(faults[0], "^MF/7F10/6F99: .*: its shape is that of what it holds$")


class RoundTrip(unittest.TestCase):
    def test_templates(self):
        """What a template builds, written as a dump is, becomes the same card again."""
        for kind in ("usim", "sim"):
            card = lint.read("".join(line + "\n" for line in profile.build(profile.template(kind)))).card
            again, _, faults = imported("".join(as_export(file) for file in card.files.values() if not file.is_df))
            self.assertEqual(faults, [])
            self.assertEqual({path: facts(file) for path, file in again.files.items()}, {path: facts(file) for path, file in card.files.items()})


def facts(file):
    return file.structure, file.length, file.count, file.short, bytes(file.content), file.rule


def as_export(file):
    """A file as `export` writes it, by identifiers."""
    lines = [f"update_binary {file.content.hex()}"] if file.structure == "t" else [
        f"update_record {number} {record.hex()}" for number, record in enumerate(file.records(), 1)]
    return exported("/".join(("MF", *file.path)), *lines, fcp=parameters(file.structure, file.length, file.count, file.short, file.rule))


class Command(unittest.TestCase):
    def tool(self, name, *words):
        return in_process(name, *words)

    def test_from_a_dump_to_a_tree(self):
        text = exported("MF/ADF.USIM/EF.IMSI", "update_binary 082926108967452301", fcp=IMSI_FCP)
        text += exported("MF/DF.TELECOM/EF.ADN", f"update_record 1 {ANNA}", fcp=ADN_FCP)
        text += exported("MF/ADF.CSIM/EF.IMPI", "update_binary 00")
        with tempfile.TemporaryDirectory() as folder:
            dump, given, script = (os.path.join(folder, name) for name in ("card.dump", "card.toml", "card.script"))
            with open(dump, "w", encoding="utf-8") as out:
                out.write(text)
            done = self.tool("profile", "import", dump, "-o", given)
            # something is lost
            self.assertEqual((done.returncode, done.stdout), (1, ""))
            left_out, rule, opened, counted = done.stderr.splitlines()
            self.assertEqual(opened, "profile: warning: the dump has no rule for 2 files: [default] in the profile lets everybody read them")
            self.assertIn("MF/ADF.CSIM/EF.IMPI: ", left_out)
            self.assertEqual(rule, "MF/ADF.USIM/EF.IMSI: its rule 2F06:1 isn't in the dump (and one more file goes by it)")
            self.assertTrue(counted.startswith("2 files, "), counted)
            for words in (("profile", "build", given, "-o", script), ("lint", script)):
                done = self.tool(*words)
                self.assertEqual((done.returncode, done.stdout, done.stderr), (0, "", ""))
            shown = self.tool("profile", "tree", script).stdout
            for part in ("6F07 EF.IMSI       9 bytes, SFI 7", "262019876543210", "1: Anna: +999901005550"):
                self.assertIn(part, shown)

    def test_a_file_that_is_no_dump(self):
        """It is refused in a line, and nothing is written."""
        with tempfile.TemporaryDirectory() as folder:
            dump, given = os.path.join(folder, "card.dump"), os.path.join(folder, "card.toml")
            for content, reason in ((b"\xFF\x00nothing\n", "it is a binary file"), (b"UICC" + bytes(65_532), "is the image of a card: "),
                                    (b"\xFF" * 71_680, "is the image of a card: tools/profile tree shows it"), (b"\x7FELF\x00", "it is a binary file"),
                                    (b"pin 01 31\nstart\n", "is a script: "), (b"nothing\n", "has no file that a card here can hold")):
                with open(dump, "wb") as out:
                    out.write(content)
                done = self.tool("profile", "import", dump, "-o", given)
                self.assertEqual((done.returncode, os.path.exists(given)), (2, False))
                self.assertIn(reason, done.stderr)
                self.assertNotIn("Traceback", done.stderr)
                self.assertTrue(done.stderr.count("\n") == 1 or content == b"nothing\n", done.stderr)
            self.assertEqual(self.tool("profile", "import", os.path.join(folder, "none")).returncode, 2)


if __name__ == "__main__":
    unittest.main()
