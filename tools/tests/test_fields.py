"""What files hold, by fields: each kind of content from values to bytes and back; all standard files by their names; the same fields in the
shell and in Python. Bytes are those of the specifications' examples, or are worked by hand."""
import os
import tempfile
import tomllib
import unittest

from common import in_process
from uicc import Card, StatusError, checking, contents, fields, lint, located, names, process, profile
from uicc.coding import BadContent

KEY_A = "5A8D38864820197C3394B92613B20B91633CBD897119273BF8E4A6F4EEC0A650"
KEY_B = "0272DA71976234CE833A6907425867B82E074D44EF907DFB4B3E21C1C2256EBCD1"


class Kinds(unittest.TestCase):
    # a kind of content, a value (of a record where it has such), the size, and the bytes
    TABLE = [
        ("smsp", {"name": "SMSC", "centre": "+4915790109999", "protocol": 0, "coding": 0, "validity": 3 * 1440}, 44,
         "534D5343FFFFFFFFFFFFFFFFFFFFFFFFE1FFFFFFFFFFFFFFFFFFFFFFFF0891945197109099F9FFFFFF0000A9"),
        ("smsp", {"destination": "110"}, 28, "FE038111F0FFFFFFFFFFFFFFFFFFFFFFFFFFFFFFFFFFFFFFFFFFFFFF"[:56]),
        ("smsp", {}, 28, "FF" * 28),
        ("pnn", {"full": "hellohello"}, 16, "430A82E8329BFD4697D9EC37FFFFFFFF"),
        ("pnn", {"full": "\u0416", "short": "A"}, 12, "430390041645028141FFFFFF"),
        ("opl", {"plmn": "262-01", "from": "0000", "to": "FFFE", "name": 1}, 8, "62F2100000FFFE01"),
        ("opl5g", {"plmn": "262-01", "from": "000000", "to": "FFFFFE", "name": 2}, 10, "62F210000000FFFFFE02"),
        ("spdi", ["262-01", "001-01"], 10, "A308800662F21000F110"),
        ("plmns", ["262-01"], 3, "62F210"),
        ("ad", {"mode": "normal", "network_digits": 3}, 4, "00000003"),
        ("spn", {"name": "A", "with_network": False, "abroad": False}, 4, "0241FFFF"),
        ("spn", "A", 4, "0141FFFF"),
        ("ecc", "112", 4, "11F2FFFF"),
        ("ecc", {"number": "110", "name": "Polizei", "category": 1}, 11, "11F0FF506F6C697A656901"),
        ("mbi", {"voice": 1, "other": 2}, 4, "01000002"),
        ("barred", {"name": "A", "number": "190"}, 16, "41" + "038191F0" + "FF" * 8 + "FF" * 3),
        ("psloci", {"ptmsi": "FFFFFFFF", "signature": "FFFFFF", "plmn": "001-01", "area": "0000", "routing": "FF", "status": "not updated"}, 14,
         "FFFFFFFFFFFFFF00F1100000FF01"),
        ("epsloci", {"guti": "FF" * 12, "plmn": "246-81", "area": "FFFE", "status": "updated"}, 18, "FF" * 12 + "42F618FFFE00"),
        ("5gsloci", {"guti": "FF" * 13, "plmn": "246-81", "area": "FFFFFE", "status": "not updated"}, 20, "FF" * 13 + "42F618FFFFFE01"),
        ("access-identities", [1], 4, "01000000"),
        ("routing", "0123", 4, "1032FFFF"),
        ("routing", "17", 4, "71FFFFFF"),
        ("suci", {"schemes": [{"scheme": 2, "key": 1}, {"scheme": 1, "key": 2}, {"scheme": 0, "key": 0}],
                  "keys": [{"id": 27, "key": KEY_A}, {"id": 30, "key": KEY_B}]}, 90,
         "A006020101020000A14B80011B8120" + KEY_A + "80011E8121" + KEY_B + "FF" * 5),
        ("suci", {"schemes": [{"scheme": 1, "key": 1}], "keys": [{"id": 27, "key": "5A" * 254}]}, 268,
         "A0020101" + "A1820104" + "80011B" + "8181FE" + "5A" * 254),
        ("supi-nai", {"network_specific": "a@b"}, 5, "8003614062"),
        ("uri", "a@b", 8, "8003614062FFFFFF"),
        ("uris", "sip:a@b", 9, "80077369703A614062"),
        ("servers", "192.0.2.1", 7, "800501C0000201"),
        ("servers", "a.b", 6, "800400612E62"),
        ("ist", [1, 6], 1, "21"),
        ("est", [1], 1, "01"),
        ("loci", {"tmsi": "FFFFFFFE", "plmn": "001-01", "area": "0001", "status": "updated"}, 11, "FFFFFFFE00F1100001" + "FF00"),
        ("application", {"aid": "A0000000871002", "label": "USIM"}, 19, "610F4F07A00000008710025004" + "5553494D" + "FFFF"),
    ]
    # a kind, a value that no bytes say, and why
    WRONG = [
        ("smsp", {"validity": 7}, "no validity period has 7 minutes"),
        ("smsp", {"centre": "x"}, "is no number of at most 20 digits"),
        ("opl", {"plmn": "262-01", "from": "00", "name": 1}, "an area has 4 hexadecimal digits"),
        ("routing", "12345", "1 to 4 digits"),
        ("routing", "\u0661", "1 to 4 digits"),
        ("access-identities", [11], "those from 11 to 15 are access control classes"),
        ("epsloci", {"plmn": "001-01", "status": "unknown"}, "`unknown` is no status: updated, not updated, roaming not allowed"),
        ("suci", {"schemes": [{"scheme": 1}], "keys": [{"id": 1, "key": "5A8"}]}, "no bytes in hexadecimal digits"),
        ("psloci", {"plmn": "1"}, "a PLMN is"),
        ("minutes6", 31, "it is a multiple of 6"),
    ]

    def test_to_bytes_and_back(self):
        for name, value, size, digits in self.TABLE:
            kind, content = fields.KINDS[name], bytes.fromhex(digits)
            with self.subTest(kind=name, value=value):
                self.assertIsNone(kind.form.wrong([value] if kind.of_records else value))
                self.assertEqual(kind.encode(value, size).ljust(size, b"\xFF").hex().upper(), digits)
                self.assertEqual(kind.value(content), value)

    def test_in_words(self):
        for name, content, said in (("pnn", "430A82E8329BFD4697D9EC37", "full hellohello"), ("opl", "62F2100000FFFE01", "plmn 262-01, from 0000, to FFFE, name 1"),
                                    ("routing", "1032FFFF", "0123"), ("uris", "80077369703A614062", "sip:a@b"), ("ist", "21", "1 P-CSCF address, 6 short message storage"),
                                    ("barred", "41038191F0" + "FF" * 11, "A: 190"), ("access-identities", "01000000", "1")):
            self.assertEqual(contents.decode(name, bytes.fromhex(content)), said)

    def test_what_no_bytes_say(self):
        for name, value, why in self.WRONG:
            with self.subTest(kind=name, value=value), self.assertRaises(BadContent) as caught:
                fields.KINDS[name].encode(value, 44)
            self.assertIn(why, str(caught.exception))

    def test_any_bytes(self):
        """Whatever a file holds, it is said in words, in hexadecimal digits, or to be wrong."""
        for entry in names.table("files")["files"]:
            for seed in range(12):
                content = bytes((seed * 37 + place * (seed + 5)) % 256 if place % 3 else 0xFF * (seed % 2) for place in range(seed * 3 + 1))
                key, value = fields.said(content, entry)
                self.assertIn(key, fields.KEYS)
                located.written(value)
                try:
                    contents.decode(entry.get("content", ""), content)
                except BadContent:
                    pass


class Files(unittest.TestCase):
    """All files of the table by their names."""
    ENTRIES = [(entry, place) for entry in names.table("files")["files"] for place in entry["in"] if entry["name"].startswith("EF.")]

    def folder(self, place):
        if place in names.FOLDERS:
            return names.FOLDERS[place]
        return next((*names.usual_folder(entry), entry["id"]) for entry in names.table("files")["files"] if entry["name"] == "DF." + place)

    def test_as_many_as_the_standards_have(self):
        """Names of release 17 in each folder."""
        known = {(place, entry["name"]) for entry, place in self.ENTRIES}
        for place, name in (("USIM", "EF.EHPLMN"), ("USIM", "EF.EPSNSC"), ("USIM", "EF.UICCIARI"), ("USIM", "EF.EARFCNList"), ("5GS", "EF.SUCI_Calc_Info"),
                            ("5GS", "EF.KAUSF_DERIVATION"), ("SNPN", "EF.NID"), ("5G-ProSe", "EF.5G_PROSE_UIR"), ("HNB", "EF.OHNBN"), ("WLAN", "EF.HPLMNDAI"),
                            ("ISIM", "EF.IMPI"), ("ISIM", "EF.IST"), ("GSM-ACCESS", "EF.KcGPRS"), ("PHONEBOOK", "EF.PSC"), ("ACDC", "EF.ACDC_LIST")):
            self.assertIn((place, name), known)
        self.assertEqual([len(names.table("files")[kind]) for kind in ("ust", "sst", "ist", "est")], [146, 56, 21, 3])

    def test_names_lead_to_their_files(self):
        """A name in its folder is the file that goes by it there, for a USIM, or for a SIM where it is GSM's."""
        for entry, place in self.ENTRIES:
            path = (*self.folder(place), entry["id"])
            name = "/".join(("MF", *path[:-1], entry["name"].replace(".", "_", 1)))
            with self.subTest(name=name):
                found = names.file(path, place != "GSM")
                self.assertEqual(found["name"], entry["name"])
                if not (place == "GSM" and "USIM" not in entry["in"]):
                    self.assertEqual(profile.path_of(name), path)

    def test_no_two_share_an_identifier(self):
        keys = [(place, entry["id"]) for entry, place in self.ENTRIES]
        self.assertEqual(len(keys), len(set(keys)))
        shorts = [(place, entry["short"]) for entry, place in self.ENTRIES if "short" in entry]
        self.assertEqual(len(shorts), len(set(shorts)))

    def test_each_is_built_by_its_name(self):
        """With the example of its content where it has one, else with its size; the check has nothing against it."""
        for entry, place in self.ENTRIES:
            usim = place != "GSM"
            path = (*self.folder(place), entry["id"])
            if path == profile.ARR or names.file(path, usim) != entry:
                continue
            kind = fields.KINDS.get(entry.get("content"))
            # one PLMN has room in three bytes
            example = '["262-01"]' if kind and kind.key == "plmns" and entry.get("length") == 3 else kind and kind.example
            lines = [f"{kind.key} = {example}"] if kind else []
            if entry["structure"] == "t" and not kind and "length" not in entry and "least" not in entry:
                lines.append("size = 20")
            if entry["structure"] != "t" and not kind and "length" not in entry and "least" not in entry:
                lines.append("length = 20")
            name = "/".join(("MF", *path))
            text = "" if usim else '["7F20/6F20"]\nsize = 9\n' if entry["id"] != "6F20" else ""
            text += f'["{name}"]\n' + "\n".join(lines) + "\n"
            with self.subTest(text=text):
                card = lint.read(profile.made_in(text.encode(), "card.toml").text).card
                file = card.files[path]
                self.assertEqual(file.structure, entry["structure"])
                self.assertEqual(file.length, entry.get("length", file.length))
                self.assertEqual([found for found in checking.wrong_file(card, file, usim) if "rule" not in found], [])


class Same(unittest.TestCase):
    """The same fields in Python and in the shell."""
    CARD = """like = "usim"
[EF_EHPLMN]
plmns = []
size = 12
[EF_PNN]
network_names = []
length = 20
count = 3
["7F20/5FC0/EF_Routing_Indicator"]
routing = "0"
["7F20/6F99"]
size = 600
"""

    def setUp(self):
        self.place = tempfile.TemporaryDirectory()
        self.addCleanup(self.place.cleanup)
        self.script = os.path.join(self.place.name, "card.script")
        with open(self.script, "w", encoding=process.ENCODING) as out:
            out.write(profile.made_in(self.CARD.encode(), "card.toml").text)

    # a file, a record, and what is written and then said
    WRITTEN = [
        ("EF.AD", None, "ad", {"mode": "normal", "network_digits": 3}),
        ("EF.PNN", 2, "network_names", {"full": "Nordlicht", "short": "NL"}),
        ("EF.EHPLMN", None, "plmns", ["262-01", "001-01"]),
        ("EF.SMSP", 1, "parameters", {"centre": "+491710760000", "validity": 1440}),
        ("EF.Routing_Indicator", None, "routing", "0123"),
        ("7F20/6F99", None, "hex", "01" * 600),
        ("EF.LND", 1, "entries", {"name": "A", "number": "1"}),
    ]

    def test_in_python(self):
        with Card(self.script) as card:
            with self.assertRaises(StatusError):
                card.write("EF.AD", ad={"network_digits": 3})
            card.verify(1, "1234")
            card.verify(0x0A, "88888888")
            for name, record, key, value in self.WRITTEN:
                with self.subTest(name=name):
                    card.write(name, record, **{key: value})
                    self.assertEqual(card.say(name, record), {key: value})
            card.write("EF.ADN", entries=[{"name": "A", "number": "1"}, {"name": "B", "number": "2"}])
            self.assertEqual(card.say("EF.ADN", 2), {"entries": {"name": "B", "number": "2"}})
            card.write("EF.LND", entries=[{"name": "A"}, {"name": "B"}])
            self.assertEqual([card.say("EF.LND", number)["entries"]["name"] for number in (1, 2)], ["A", "B"])
            for given, why in (({"imsi": "1"}, "imsi is nothing that EF.AD holds"), ({"add": 1}, "add isn't known"), ({"ad": 5}, "ad is a number, and has to be a table"),
                               ({}, "one key"), ({"records": ["00"]}, "records is of files with records"), ({"hex": "00" * 5}, "hex has 5 bytes, and there is room for 4")):
                with self.assertRaises(ValueError) as caught:
                    card.write("EF.AD", **given)
                self.assertIn(why, str(caught.exception))

    def shell(self, *lines):
        return in_process("shell", self.script, text="".join(line + "\n" for line in lines))

    def test_in_the_shell(self):
        lines, wanted = ["verify pin1 1234", "verify adm 88888888"], []
        for name, record, key, value in self.WRITTEN:
            number = f" {record}" if record else ""
            lines += [f"write {name}{number} {key} = {located.written(value)}", f"say {name}{number}"]
            wanted.append(f"{key} = {located.written(value)}")
        done = self.shell(*lines)
        self.assertEqual((done.returncode, done.stderr), (0, ""))
        self.assertEqual([line.strip() for line in done.stdout.splitlines() if " = " in line and "> " not in line], wanted)
        self.assertEqual(tomllib.loads(wanted[0]), {"ad": {"mode": "normal", "network_digits": 3}})

    def test_mistakes_in_the_shell(self):
        for line, why in (("write EF.AD ad", "write FILE [RECORD] KEY = VALUE"), ("write EF.SPN spn = Foo", "`Foo` is no value of TOML: text stands in quotes"),
                          ("write EF.AD x ad = 1", "write FILE [RECORD] KEY = VALUE"), ("write EF.SPN spn = 5", "spn is a number, and has to be text in quotes"),
                          ("say EF.AD x", "say FILE [RECORD]"), ("say 7F20", "7F20 is no file that holds bytes")):
            done = self.shell(line)
            self.assertEqual((done.returncode, done.stderr), (1, ""))
            self.assertIn(why, done.stdout)


if __name__ == "__main__":
    unittest.main()
