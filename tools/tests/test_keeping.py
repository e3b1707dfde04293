"""What stays of a file where a part of what it holds is written; skipped where the program isn't built."""
import unittest

from common import in_process
from test_card import USIM, is_built
from uicc import Card, StatusError, fields, forms, keeping, names

PROFILE = {
    "like": "usim", "pins": {"pin1": {"value": "1234", "on": False}}, "EF_AD": {"hex": "80000102", "update": "always"},
    "EF_SMSP": {"records": ["534D5343FFFFFFFFFFFFFFFFFFFFFFFFEDFFFFFFFFFFFFFFFFFFFFFFFF07919471710600F0FFFFFFFFFFFFFF"], "count": 2, "update": "always"},
    "EF_SPN": {"spn": {"name": "Nordlicht", "with_network": False, "abroad": False}, "update": "always"},
    "EF_ECC": {"emergency": ["112", {"number": "110", "name": "Polizei", "category": 1}], "length": 16, "count": 2, "update": "always"},
    "EF_ADN": {"records": ["416E6E61FFFFFFFFFFFFFFFFFFFF03811110FFFFFFFFFFFFFFFFFF02"], "count": 2, "update": "always"},
    "EF_LOCI": {"hex": "1122334462F2100001A500", "update": "always"},
    "EF_PNN": {"records": ["430284414502844280025555"], "length": 20, "count": 2, "update": "always"},
    "EF_SUCI_Calc_Info": {"suci": {"schemes": [{"scheme": 0}], "keys": [{"id": 27, "key": "11" * 32}]}, "update": "always"},
}


# of each kind of content that a table says: how many bytes it has here, what it holds, and what else each part may be
PARTS = {
    "spn": (17, {"name": "Abc", "with_network": False, "abroad": False}, {"name": "Other \u0416", "with_network": True, "abroad": True}),
    "ad": (4, {"mode": "cell test", "network_digits": 3}, {"mode": "normal", "network_digits": 2}),
    "dialling": (28, {"name": "Zo\u00eb", "number": "+49171"}, {"name": "Q", "number": "5"}),
    "barred": (29, {"name": "Zo", "number": "123"}, {"name": "Q", "number": "5"}),
    "ecc": (20, {"number": "112", "name": "Po", "category": 1}, {"number": "110", "name": "F", "category": 4}),
    "smsp": (44, {"name": "S", "destination": "+491", "centre": "+4917", "protocol": 1, "coding": 2, "validity": 60},
             {"name": "Other", "destination": "12", "centre": "99", "protocol": 9, "coding": 8, "validity": 1440}),
    "loci": (11, {"tmsi": "01020304", "plmn": "262-01", "area": "0A0B", "status": "updated"},
             {"tmsi": "0A020304", "plmn": "001-01", "area": "0A00", "status": "not updated"}),
    "psloci": (14, {"ptmsi": "01020304", "signature": "010203", "plmn": "262-01", "area": "0A0B", "routing": "05", "status": "updated"},
               {"ptmsi": "0B020304", "signature": "FF0203", "plmn": "001-01", "area": "0A00", "routing": "06", "status": "not updated"}),
    "epsloci": (18, {"guti": "01" * 12, "plmn": "262-01", "area": "0A0B", "status": "updated"},
                {"guti": "02" * 12, "plmn": "001-01", "area": "0A00", "status": "not updated"}),
    "5gsloci": (20, {"guti": "01" * 13, "plmn": "262-01", "area": "0A0B0C", "status": "updated"},
                {"guti": "02" * 13, "plmn": "001-01", "area": "0A0B00", "status": "not updated"}),
    "opl": (8, {"plmn": "262-01", "from": "0001", "to": "0002", "name": 3}, {"plmn": "001-01", "from": "0003", "to": "0004", "name": 4}),
    "opl5g": (10, {"plmn": "262-01", "from": "000001", "to": "000002", "name": 3}, {"plmn": "001-01", "from": "000003", "to": "000004", "name": 4}),
    "mbi": (4, {"voice": 1, "fax": 2, "email": 3, "other": 4}, {"voice": 9, "fax": 8, "email": 7, "other": 6}),
    "pnn": (40, {"full": "Nord", "short": "N"}, {"full": "S\u00fcd", "short": "\u0416"}),
    "application": (40, {"aid": "A0000000871002", "label": "U"}, {"aid": "A000000087100401", "label": "ISIM"}),
    "suci": (60, {"schemes": [{"scheme": 1, "key": 1}], "keys": [{"id": 1, "key": "11" * 32}]}, {"schemes": [{"scheme": 0, "key": 0}], "keys": []}),
    "supi-nai": (40, {"network_specific": "a@b", "global_line": "x"}, {"network_specific": "ccc", "global_line": "yy"}),
}


class Parts(unittest.TestCase):
    """Of each kind of content a part that is written changes, and the others stay."""

    def test_each_kind(self):
        entries = {entry["content"]: entry for entry in names.table("files")["files"] if "content" in entry}
        self.assertEqual(set(PARTS), {content for content, kind in fields.KINDS.items() if forms.table_in(kind.form)})
        for content, (size, held, other) in PARTS.items():
            kind, entry = fields.KINDS[content], entries[content]
            before = keeping.encoded(kind, kind.key, held, entry, size)
            for some in [[key] for key in other] + [list(other)[:-1], list(other)]:
                given = {key: other[key] for key in some}
                with self.subTest(content=content, given=given):
                    self.assertTrue(keeping.is_in_parts(kind.key, [given] if kind.of_records else given, entry))
                    found = kind.value(keeping.written(kind.key, given, entry, before))
                    found = found if isinstance(found, dict) else {"name": found, "with_network": True, "abroad": True}
                    self.assertEqual(found, {**held, **given})


@unittest.skipUnless(is_built(), "the program isn't built")
class Kept(unittest.TestCase):
    def setUp(self):
        self.card = Card(PROFILE)
        self.addCleanup(self.card.close)

    def held(self, name, record=None):
        self.card.select(name)
        return (self.card.read_record(record) if record else self.card.read_binary()).hex().upper()

    def test_bytes_of_no_part(self):
        self.card.write("EF.AD", ad={"network_digits": 3})
        self.assertEqual(self.held("EF.AD"), "80000103")
        self.card.write("EF.AD", ad={"mode": "normal"})
        self.assertEqual(self.held("EF.AD"), "00000103")
        self.card.write("EF.LOCI", loci={"status": "not updated"})
        self.assertEqual(self.held("EF.LOCI"), "1122334462F2100001A501")

    def test_parameters_of_short_messages(self):
        self.card.write("EF.SMSP", parameters=[{"validity": 10}])
        self.assertEqual(self.card.say("EF.SMSP"), {"parameters": {"name": "SMSC", "centre": "+49171760000", "validity": 10}})
        self.card.write("EF.SMSP", 1, parameters={"centre": ""})
        self.assertEqual(self.card.say("EF.SMSP"), {"parameters": {"name": "SMSC", "validity": 10}})
        # a record that is blank keeps nothing
        self.card.write("EF.SMSP", 2, parameters={"validity": 10})
        self.assertEqual(self.card.say("EF.SMSP", 2), {"parameters": {"validity": 10}})

    def test_the_name_of_the_provider(self):
        self.card.write("EF.SPN", spn="R")
        self.assertEqual(self.held("EF.SPN")[:6], "0252FF")
        self.card.write("EF.SPN", spn={"with_network": True})
        self.assertEqual(self.held("EF.SPN")[:6], "0352FF")

    def test_records(self):
        self.card.write("EF.ADN", 1, entries={"name": "Bea"})
        self.assertEqual(self.held("EF.ADN", 1), "426561FFFFFFFFFFFFFFFFFFFFFF03811110FFFFFFFFFFFFFFFFFF02")
        # another number has no extension of the one that was
        self.card.write("EF.ADN", 1, entries={"number": "112"})
        self.assertEqual(self.held("EF.ADN", 1), "426561FFFFFFFFFFFFFFFFFFFFFF038111F2FFFFFFFFFFFFFFFFFFFF")
        self.card.write("EF.ECC", 2, emergency={"number": "911"})
        self.assertEqual(self.card.say("EF.ECC", 2), {"emergency": {"number": "911", "name": "Polizei", "category": 1}})
        # a text alone is the whole of a record
        self.card.write("EF.ECC", 2, emergency="999")
        self.assertEqual(self.card.say("EF.ECC", 2), {"emergency": "999"})

    def test_what_words_say_in_part(self):
        with self.assertRaisesRegex(ValueError, "nothing is written: 430284414502844280025555F+ is there, of which network_names says a part"):
            self.card.write("EF.PNN", 1, network_names={"short": "X"})
        self.card.write("EF.SUCI_Calc_Info", suci={"schemes": [{"scheme": 1, "key": 1}]})
        self.assertEqual(self.card.say("EF.SUCI_Calc_Info")["suci"]["keys"], [{"id": 27, "key": "11" * 32}])
        self.card.select("EF.ADN")
        self.card.update_record(2, "41" * 14 + "0D81" + "11" * 12)
        with self.assertRaisesRegex(ValueError, "no words say what is there, .* say all of name, number, or write its bytes"):
            self.card.write("EF.ADN", 2, entries={"name": "B"})
        self.card.write("EF.ADN", 2, entries={"name": "B", "number": "1"})
        self.assertEqual(self.card.say("EF.ADN", 2), {"entries": {"name": "B", "number": "1"}})

    def test_more_than_there_is_room_for(self):
        """Nothing of a list is written that the file has no room for."""
        with self.assertRaisesRegex(ValueError, "nothing is written: emergency has 3 entries, and 7F20/6FB7 EF.ECC 2 records"):
            self.card.write("EF.ECC", emergency=["001", "002", "003"])
        with self.assertRaisesRegex(ValueError, "nothing is written: entries has 3 entries"):
            self.card.write("EF.ADN", entries=[{"name": "A", "number": "1"}] * 3)
        self.assertEqual(self.card.say("EF.ECC"), {"emergency": "112"})
        self.assertEqual(self.held("EF.ADN", 1)[:8], "416E6E61")

    def test_numbers_of_records(self):
        for call, why in ((lambda: self.card.say("EF.ADN", 0), "the number of a record is one byte, 1 to 255"),
                          (lambda: self.card.say("EF.IMSI", 1), "EF.IMSI has no records, and so no record 1"),
                          (lambda: self.card.write("EF.AD", 1, ad={"network_digits": 2}), "EF.AD has no records"),
                          (lambda: self.card.write("EF.ADN", 3, entries={"name": "A"}), "EF.ADN has 2 records, and no record 3")):
            with self.assertRaisesRegex(ValueError, why):
                call()

    def test_an_empty_list(self):
        """A list of networks that is blank is an empty one, which can be written again."""
        self.assertEqual(self.card.say("EF.FPLMN"), {"plmns": []})
        self.card.write("EF.SPN", spn="R")
        self.assertEqual(self.card.say("EF.NETPAR"), {"hex": "FF" * 46})

    def test_a_key_that_is_called_like_an_argument(self):
        for key in ("name", "self"):
            with self.assertRaisesRegex(ValueError, f"{key} isn't known: `spn = "):
                self.card.write("EF.SPN", **{key: "x"})

    def test_a_number_is_no_bytes(self):
        """Python makes so many zeros of a number: none of them reaches the card."""
        before = len(self.card.trace)
        self.card.select("EF.LOCI")
        for call in (lambda: self.card.update_binary(9), lambda: self.card.update_record(1, 28), lambda: self.card.install(1, 1, 5),
                     lambda: self.card.transmit(5), lambda: self.card.search_record(2), lambda: self.card.envelope([1, 2])):
            with self.assertRaisesRegex(TypeError, "bytes are wanted, or hexadecimal digits as text"):
                call()
        self.assertEqual(len(self.card.trace), before + 2)
        self.assertEqual(self.card.update_binary(bytearray(b"\x11")).status, "9000")

    def test_one_may_not_read(self):
        with Card({"like": "usim", "EF_AD": {"hex": "80000102", "read": "adm", "update": "always"}}) as card:
            with self.assertRaises(StatusError):
                card.write("EF.AD", ad={"network_digits": 3})
            card.verify("adm", "88888888")
            self.assertEqual(card.read_binary().hex(), "80000102")


@unittest.skipUnless(is_built(), "the program isn't built")
class AtThePrompt(unittest.TestCase):
    def shown(self, *lines):
        return in_process("shell", USIM, text="verify pin1 1234\nverify adm 88888888\n" + "".join(line + "\n" for line in lines)).stdout

    def test_a_key_that_is_called_like_an_argument(self):
        shown = self.shown('write EF.SPN name = "Neu"', "write EF.SPN record = 1", 'write EF.SPN spn = "Neu"')
        self.assertIn('name isn\'t known: `spn = "Nordlicht"` is', shown)
        self.assertIn("the number of a record stands before the key", shown)
        self.assertIn("EF.SPN is written", shown)

    def test_numbers_of_records(self):
        shown = self.shown("read EF.ADN 0", "read EF.ADN x", "read EF.IMSI 1", "update EF.ADN x 00", "update EF.IMSI 1 00", "say EF.ADN 0")
        self.assertEqual(shown.count("the number of a record is 1 to 255, and not `0`: "), 2)
        self.assertEqual(shown.count("the number of a record is 1 to 255, and not `x`: "), 2)
        self.assertEqual(shown.count("EF.IMSI has no records, and so no record 1"), 2)


if __name__ == "__main__":
    unittest.main()
