"""What the bytes of files, rules, objects and commands say, by tables. The values are those of the specifications' examples, of the
examples of this repository, or are worked by hand."""
import unittest

import common  # noqa: F401 (the path)
from uicc import contents, decode, names, rules, tlv


class Contents(unittest.TestCase):
    # a kind of content, bytes, and what they say
    DECODED = [
        ("imsi", "080910101032547698", "001010123456789"),
        ("imsi", "082926108967452301", "262019876543210"),
        ("iccid", "989909010000103254F0", "8999901000000123450"),
        ("spn", "014578616D706C65FFFF", "Example (the network's name is shown too)"),
        ("plmns", "62F21000F110130184FFFFFF", "262-01, 001-01, 311-480"),
        ("plmns-act", "62F2108080FFFFFF0000", "262-01 by UTRAN+GSM"),
        ("dialling", "416E6E61FFFFFFFFFFFFFFFFFFFF0791999910005505FFFFFFFFFFFF", "Anna: +999901005550"),
        ("dialling", "4F70657261746F72FFFFFFFFFFFF038116F1FFFFFFFFFFFFFFFFFFFF", "Operator: 611"),
        ("dialling", "FF" * 28, None),
        ("acc", "0200", "class 9"),
        ("ad", "00000002", "normal operation, the network's code has 2 digits"),
        ("ust", "0008140401", "12 short message parameters, 19 service provider name, 21 MSISDN, 27 GSM access, 33 reserved, shall be set to 1"),
        ("sst", "0F03", "1 CHV1 disable function, 2 abbreviated dialling numbers, 5 advice of charge"),
        ("loci", "FFFFFFFE00F1100001FF00", "TMSI FFFFFFFE, 001-01 area 0001, updated"),
        ("languages", "656E6672FFFF", "en, fr"),
        ("minutes6", "05", "every 30 minutes"),
        ("application", "61184F10A0000000871002FFFFFFFF890709000050045553494D", "USIM, A0000000871002FFFFFFFF8907090000"),
        ("rule", "8001019000800102A40683010A950108FFFF", "read: always; update: adm"),
        ("ecc", "11F2FF00", "112, category 0: none"), ("ecc", "11F2FFFF", "112"),
        ("number", "000102", "258"),
    ]
    # a kind of content, bytes that can't be right, and a part of why
    WRONG = [
        ("imsi", "080110101032547698", "parity half byte is 1, and 9 for 15 digits"),
        ("imsi", "0909101010325476FF", "its length byte is 1 to 8"),
        ("imsi", "08091010A032547698", "A is no decimal digit"),
        ("iccid", "9810F0FFFFFFFFFFFFFF", "18 to 20 digits"),
        ("plmns", "AAF110", "is no PLMN"),
        ("dialling", "FF" * 14 + "0C91" + "00" * 12, "1 to 11, and not 0C"),
        ("ad", "00000004", "2 or 3 digits"),
        ("rule", "800101900100FF", "90 with"),
        ("languages", "3132", "no language"),
        ("loci", "00", "11 bytes"),
    ]

    def test_decoded(self):
        for kind, content, said in self.DECODED:
            with self.subTest(kind=kind, content=content):
                self.assertEqual(contents.decode(kind, bytes.fromhex(content)), said)

    def test_wrong(self):
        for kind, content, why in self.WRONG:
            with self.subTest(kind=kind, content=content), self.assertRaises(contents.BadContent) as caught:
                contents.decode(kind, bytes.fromhex(content))
            self.assertIn(why, str(caught.exception))

    def test_encoded(self):
        """What is encoded is what the bytes say that are decoded."""
        for encode, given, content in (
                (contents.encode_imsi, "001010123456789", "080910101032547698"),
                (contents.encode_imsi, "26201987654321", "0821261089674523F1"),
                (contents.encode_iccid, "8999901000000123450", "989909010000103254F0"),
                (contents.encode_plmns, ["262-01", "311-480"], "62F210130184"),
                (contents.encode_plmns_act, ["262-01 by GSM+UTRAN"], "62F2108080"),
                (contents.encode_plmns_act, ["262-01 by GSM+GSM", "262-42 by 0000", "unused"], "62F2100080" "62F2240000" "FFFFFF0000"),
                (contents.encode_acc, [9, 0], "0201"),
                (contents.encode_ad, {"network_digits": 3}, "00000003"),
                (contents.encode_ust, [12, 19, 21, 27, 33], "0008140401"),
                (contents.encode_sst, [1, 2, 5], "0F03"),
                (contents.encode_loci, {"plmn": "001-01", "area": "0001", "status": "updated"}, "FFFFFFFF00F1100001FF00"),
                (contents.encode_languages, ["en", "fr"], "656E6672")):
            with self.subTest(given=given):
                self.assertEqual(encode(given).hex().upper(), content)

    def test_plmns_with_technologies(self):
        """A PLMN without a technology is refused; what a list holds is said again with the same bytes, also of places that are filled up."""
        for given, why in ((["262-42", "262-01 by GSM"], "`262-42` says no access technology: `262-42 by GSM+UTRAN` does"),
                           (["262-42 by LTE"], "`LTE` is no access technology"), (["262-42 by 00"], "`00` is no access technology")):
            with self.assertRaises(contents.BadContent) as caught:
                contents.encode_plmns_act(given)
            self.assertIn(why, str(caught.exception))
        for held in ("62F2108080FFFFFF0000", "62F2240000FFFFFF0000FFFFFF0000", "62F2108081", "62F2100080"):
            self.assertEqual(contents.encode_plmns_act(contents.plmns_act(bytes.fromhex(held))).hex().upper(), held)
        self.assertEqual(contents.decode("plmns-act", bytes.fromhex("62F2240000FFFFFF0000")), "262-42 by 0000")

    def test_administrative_data(self):
        for given, why in (({"mode": "normal", "network_digits": 4}, "network_digits is 4, and has to be 2 or 3"),
                           ({"mode": "off"}, 'mode is "off", and has to be one of "normal", "type approval"')):
            with self.assertRaises(contents.BadContent) as caught:
                contents.encode_ad(given)
            self.assertIn(why, str(caught.exception))

    def test_numbers(self):
        entry = {"name": "Anna", "number": "+999901005550"}
        self.assertEqual(contents.encode_dialling(entry, 28).hex().upper(), "416E6E61FFFFFFFFFFFFFFFFFFFF0791999910005505FFFFFFFFFFFF")
        self.assertEqual(contents.encode_dialling({"name": "x"}, 28), b"x" + b"\xFF" * 27)

    def test_words_that_no_bytes_say(self):
        for encode, given in ((contents.encode_imsi, "12"), (contents.encode_imsi, "12345678901234567"), (contents.encode_iccid, "1"),
                              (contents.encode_plmns, ["26201"]), (contents.encode_acc, [10]), (contents.encode_ad, {"mode": "other"}),
                              (contents.encode_ust, ["no such"]), (contents.encode_languages, ["eng"])):
            with self.assertRaises(contents.BadContent, msg=given):
                encode(given)


class Rules(unittest.TestCase):
    # words, and the record that says them
    TABLE = [
        ({"read": "always", "update": "adm"}, "8001019000800102A40683010A950108", "read: always; update: adm"),
        ({"read": "pin1", "update": "pin1"}, "800103A406830101950108", "read, update: pin1"),
        ({"update": "pin1 or adm"}, "800102A010A406830101950108A40683010A950108", "update: pin1 or adm"),
        ({"update": "pin1 and pin2"}, "800102AF10A406830101950108A406830181950108", "update: pin1 and pin2"),
        ({"read": "never", "increase": "always"}, "80010197008401329000", "read: never; increase: always"),
        ({"read": "pin1 and adm or pin2"}, "800101A01AAF10A406830101950108A40683010A950108A406830181950108", "read: (pin1 and adm) or pin2"),
        ({"read": "pin1 and (adm or pin2)"}, "800101AF1AA406830101950108A010A40683010A950108A406830181950108", "read: pin1 and (adm or pin2)"),
    ]
    NONE = ["FFFF", "800101", "8001019100", "80010190008001", "800101A406830101950100", "8501019000", "800101A000",
            "800101A00CA00AA008A006A004A0029000"]

    def test_words(self):
        for words, record, shown in self.TABLE:
            self.assertEqual(rules.written(words).hex().upper(), record)
            self.assertEqual(rules.shown(bytes.fromhex(record + "FFFF")), shown)

    def test_no_rules(self):
        for record in self.NONE:
            with self.assertRaises(rules.NoRule, msg=record):
                rules.read(bytes.fromhex(record))

    def test_four_levels(self):
        self.assertEqual(rules.shown(bytes.fromhex("800101A008A006A004A0029000")), "read: always")


class Objects(unittest.TestCase):
    TABLE = [
        ("8103010500", [(0x01, True, "010500")]),
        ("0103010500", [(0x01, False, "010500")]),
        ("0D8103044869", [(0x0D, False, "044869")]),
        ("7F80010141", [(0x0001, True, "41")]),
        ("", []),
    ]
    WRONG = ["00", "80", "FF01", "81", "0183", "0180", "8103", "810301", "7F80", "81820001"]

    def test_objects(self):
        for content, found in self.TABLE:
            self.assertEqual([(tag, flag, value.hex().upper()) for tag, flag, value in tlv.objects(bytes.fromhex(content))], found)

    def test_wrong(self):
        for content in self.WRONG:
            with self.assertRaises(tlv.BadTlv, msg=content):
                list(tlv.objects(bytes.fromhex(content)))

    def test_written(self):
        for length, head in ((0, "8D00"), (127, "8D7F"), (128, "8D8180"), (255, "8D81FF"), (256, "8D820100")):
            content = tlv.written(0x0D, bytes(length))
            self.assertEqual(content[:len(content) - length].hex().upper(), head)
            self.assertEqual([len(value) for _, _, value in tlv.objects(content)], [length])


class Commands(unittest.TestCase):
    TITLES = [
        ("00B0000001", "READ BINARY from byte 0, 1 byte"), ("00D6000101AA", "UPDATE BINARY from byte 1: 1 byte"),
        ("00A40004023F00", "SELECT by identifier 3F00"),
        ("00A4080C047F206F07", "SELECT by path from the MF 7F20/6F07, no data returned"),
        ("00B0820004", "READ BINARY by SFI 2, from byte 0, 4 bytes"),
        ("00B0010200", "READ BINARY from byte 258, all up to 256"),
        ("00D6000002AABB", "UPDATE BINARY from byte 0: 2 bytes"),
        ("01B2033C00", "READ RECORD 3 by SFI 7, channel 1"),
        ("00DC000302AABB", "UPDATE RECORD the previous record"),
        ("00A4040C05A000000087", "SELECT by DF name (AID) A000000087, no data returned"),
        ("00A2010404416E6E61", "SEARCH RECORD forward from record 1 for 416E6E61"),
        ("8032000003000102", "INCREASE by 258"),
        ("0020000100", "VERIFY PIN of PIN 1, asking for the tries that are left"),
        ("0020000A083838383838383838", "VERIFY PIN of ADM1"),
        ("0070000001", "MANAGE CHANNEL open the next free one"),
        ("00708001", "MANAGE CHANNEL close 1"),
        ("8012000010", "FETCH 16 bytes"),
        ("F0E60106020000", "INSTALL on shelf 6, priority 1"),
        ("F0E40006", "DELETE of shelf 6"),
        ("00E40000026F50", "DELETE FILE 6F50"),
        ("01E40000026F50", "DELETE FILE 6F50, channel 1"),
        ("80D40000046F500006", "RESIZE FILE 6F50 to 6 bytes"),
        ("80D40000022FE2", "RESIZE FILE 2FE2"),
        ("00E0000010620E8202412183026F50800200048800", "CREATE FILE transparent EF 6F50 of 4 bytes"),
        ("00E0000014621282054221000203" "83026F5280020006880128", "CREATE FILE linear fixed EF 6F52 of 3 records of 2 bytes"),
        ("02E000000A62088202782183027F20", "CREATE FILE DF 7F20, channel 2"),
        ("00E000000162", "CREATE FILE of no file: the template is none"),
        ("00FF0000", "unknown instruction FF"),
        ("00A4", "no command: 2 bytes, and a command has at least 4"), ("00", "no command: 1 byte, and a command has at least 4"),
        ("00A400040300", "no command: Lc says 3, and 1 byte follows"),
        ("00A40004013F00FF", "no command: Lc says 1, and 3 bytes follow"),
        ("00A40004003F00", "no command: it has 00 in the place of Lc, as lengths of two bytes begin, which no card here takes"),
    ]
    # the data of an answer to FETCH, and the last lines of what it says
    PROACTIVE = [
        ("D00E8103012180820281028D03044869", ["command details: DISPLAY TEXT, number 1, normal priority, cleared by the user",
                                              "device identities: card to display", "text: `Hi`"]),
        ("D011810303270082028182A40101A503005000", ["command details: TIMER MANAGEMENT, number 3, start",
                                                    "device identities: card to terminal", "timer identifier: 1", "timer value: 00:05:00"]),
        ("D01D81030324008202818285045069636B8F0501546578748F0502546F6E65",
         ["command details: SELECT ITEM, number 3", "device identities: card to terminal", "alpha identifier: `Pick`", "item: 1 `Text`", "item: 2 `Tone`"]),
        ("D00D81030105008202818299020304", ["command details: SET UP EVENT LIST, number 1", "device identities: card to terminal",
                                            "event list: 03 location status, 04 user activity"]),
        ("D00C8103042000820281038E0110", ["command details: PLAY TONE, number 4", "device identities: card to earpiece", "tone: 10 general beep"]),
    ]
    DETAILS = [
        ("80C2000009D30782020181900102", ["menu selection", "device identities: keypad to card", "item identifier: 2"]),
        ("80C2000015D613990103820282819B0100930700F11000010002",
         ["event download", "event list: 03 location status", "device identities: terminal to card", "location status: normal service",
          "location information: 001-01, area 0001, cell 0002"]),
        ("801400000F810303240082028281830100900101",
         ["command details: SELECT ITEM, number 3", "device identities: terminal to card", "result: 00 done", "item identifier: 1"]),
        ("F0E601060C010300030704030141030210", ["events: 03 location status", "kept data: 030704030141030210"]),
        ("002000010831323334FFFFFFFF", ["value: 1234"]),
        ("00E0000015621382024121" "83026F508B032F0601" "80020004" "8800", ["FCP", "file descriptor: transparent EF", "identifier: 6F50 EF.CBMIR",
                                                                        "security attributes: record 1 of 2F06", "size: 4 bytes", "SFI: none"]),
        ("00E00000026200", ["FCP"]),
        ("80D40000046F500006", []),
    ]
    # a file that CREATE FILE asks for, and its template
    TEMPLATES = [
        (decode.NewFile(0x41, "6F50", "t", 4, 1, None, None), "620E8202412183026F50800200048800"),
        (decode.NewFile(0x42, "6F52", "l", 2, 3, 5, ("2F06", 1)), "6217820542210002038302" "6F528B032F060180020006880128"),
        (decode.NewFile(0x46, "6F53", "c", 3, 4, None, None), "62118205462100030483026F53" "8002000C8800"),
        (decode.NewFile(0x78, "7F20", None, 0, 0, None, None), "62088202782183027F20"),
    ]
    STATUSES = [("9000", "done"), ("9110", "16 bytes"), ("63C2", "tries left: 2"), ("6C1C", "28 is the right one"), ("6982", "security status"),
                ("1234", "no status word")]

    def shown(self, lines):
        return [f"{line.label}: {line.text}" if line.text else line.label for line in lines]

    def test_titles(self):
        for command, title in self.TITLES:
            self.assertEqual(decode.title(decode.Apdu(bytes.fromhex(command))), title, command)

    def test_proactive(self):
        for data, lines in self.PROACTIVE:
            self.assertEqual(self.shown(decode.proactive(bytes.fromhex(data)))[1:], lines)

    def test_details(self):
        for command, lines in self.DETAILS:
            self.assertEqual(self.shown(decode.details(decode.Apdu(bytes.fromhex(command)))), lines)

    def test_templates(self):
        for made, template in self.TEMPLATES:
            self.assertEqual(decode.template_of(made).hex().upper(), template)
            self.assertEqual(decode.new_file(bytes.fromhex(template)), made)
        for template in ("", "62", "6200", "620483026F50", "6204820241218302", "6206820083026F50"):
            self.assertIsNone(decode.new_file(bytes.fromhex(template)), template)

    def test_control_parameters(self):
        lines = self.shown(decode.fcp(bytes.fromhex("621A82054221001C3283026F3A8A01058B032F060380020578880108")))
        self.assertEqual(lines, ["FCP", "file descriptor: linear fixed EF, 50 records of 28 bytes", "identifier: 6F3A EF.ADN",
                                 "life cycle: activated", "security attributes: record 3 of 2F06", "size: 1400 bytes", "SFI: 1"])
        lines = self.shown(decode.fcp(bytes.fromhex("62198202782183023F008A0105C60C9001A083010183018183010A")))
        self.assertIn("PINs: PIN 1 enabled, PIN 2 disabled, ADM1 enabled", lines)

    def test_statuses(self):
        for word, part in self.STATUSES:
            self.assertIn(part, names.status(word))

    def test_files_by_name(self):
        for word in ("EF_IMSI", "ef.imsi", "IMSI"):
            self.assertEqual(names.by_name(word)[0]["id"], "6F07")
        self.assertEqual(names.name_of(("7F20", "6F38"), usim=True), "EF.UST")
        self.assertEqual(names.name_of(("7F20", "6F38"), usim=False), "EF.SST")
        self.assertEqual(names.name_of(("2F06",)), "EF.ARR")

    def test_each_kind_of_content_is_known(self):
        for entry in names.table("files")["files"]:
            if "content" in entry:
                self.assertIn(entry["content"], contents.DECODERS, entry["name"])


if __name__ == "__main__":
    unittest.main()
