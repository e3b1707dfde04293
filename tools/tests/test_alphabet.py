"""tools/uicc/alphabet.py: names in files, in the default alphabet of GSM and in the forms of UCS2."""
import unittest

from common import TOOLS  # noqa: F401: the path of the package
from uicc import alphabet, coding, contents, fields, structured


class Names(unittest.TestCase):
    # a name, and its bytes: those of 3GPP TS 23.038, 6.2.1, and of ETSI TS 102 221, annex A
    TABLE = [
        ("Nordlicht", "4E6F72646C69636874"),
        ("a@b", "610062"), ("$_", "0211"), ("{}", "1B281B29"), ("[]~^|\\\u20AC", "1B3C1B3E1B3D1B141B401B2F1B65"),
        ("\u00E4\u00F6\u00FC\u00C4\u00D6\u00DC\u00DF\u00E9", "7B7C7E5B5C5E1E05"), ("\u00A3\u00A5\u00A7\u00A1", "01035F40"), ("\u0394\u03A9", "1015"),
        # `\u011B` isn't in the alphabet: two letters have five bytes in either form, three six in that of one byte a letter
        ("\u011Ba", "80011B0061"), ("\u011Bab", "8103029B6162"),
        ("\u0421\u0442\u0440", "810308A1C2C0"),
        # no page has both, and a base of its own has: its first letter is the least
        ("\u047F\u0480\u0481a", "8204047F80818261"),
        # a page below 8000 alone, and a letter of two codes, have no narrow form of theirs
        ("\u9000\u9001\u9002\u9003", "8204900080818283"), ("\u0416{\u0416\u0416", "800416007B04160416"), ("\u65E5\u672C\u8A9E", "8065E5672C8A9E"),
    ]
    # bytes that have a name, and that nobody writes so
    READ = [
        ("", ""), ("FFFF", ""), ("41FF42", "A"), ("800041FFFF", "A"), ("80004101FFFFFF", "A\u01FF"), ("8000", "\uFFFD"),
        ("8102080541FF", "\u00E9A"), ("82020400" "1B65FF", "\u20AC"), ("810408FF1B14B0", "\u047F^\u0430"),
        ("1B", "\\1B"), ("1B41", "\\1BA"), ("0A410D", "\\0AA\\0D"), ("1B0A", "\\1B\\0A"), ("41C3", "A\\C3"), ("81", "\\81"),
    ]
    # a name, a room, and what is said of it
    REFUSED = [
        ("abc", 2, "`abc` has 3 bytes, and there is room for 2"),
        ("a{", 2, "`a{` has 3 bytes, and there is room for 2: `{` takes two"),
        ("M\u00FCl\u0161t", 4, "`M\u00FCl\u0161t` has 8 bytes, and there is room for 4: `\u0161` isn't in the default alphabet of GSM, so that the "
                               "whole name has to be in UCS2"),
        ("a\U0001F600", 40, "`a\U0001F600` can't be written: `\U0001F600` isn't in UCS2"),
    ]

    def test_names(self):
        for name, digits in self.TABLE:
            with self.subTest(name=name):
                self.assertEqual(coding.coded_text(name, 40).hex().upper(), digits)
                self.assertEqual(coding.text_of(bytes.fromhex(digits)), name)
                self.assertEqual(coding.text_of(bytes.fromhex(digits) + b"\xFF" * 3), name)

    def test_read(self):
        for digits, name in self.READ:
            with self.subTest(digits=digits):
                self.assertEqual(coding.text_of(bytes.fromhex(digits)), name)

    def test_refused(self):
        for name, room, words in self.REFUSED:
            with self.subTest(name=name):
                with self.assertRaises(contents.BadContent) as refused:
                    coding.coded_text(name, room)
                self.assertEqual(str(refused.exception), words)

    def test_each_letter(self):
        """Each letter of the alphabet has codes of its own, that are read as it."""
        self.assertEqual(len(alphabet.CODES), 127 + 10)
        self.assertEqual(len(set(alphabet.CODES.values())), len(alphabet.CODES))
        for letter, codes in alphabet.CODES.items():
            if letter.isprintable():
                self.assertEqual(alphabet.letters_of(codes), letter)

    def test_same_codec_in_each_file(self):
        """A name is the same bytes in each kind of file that has one."""
        coded = bytes.fromhex("6100621B281E")
        name = "a@b{\u00DF"
        records = [
            (fields.KINDS["spn"], name, 17, lambda content: content[1:]), (fields.KINDS["dialling"], {"name": name, "number": "1"}, 28, bytes),
            (fields.KINDS["barred"], {"name": name, "number": "1"}, 29, bytes),
            (fields.KINDS["ecc"], {"number": "112", "name": name}, None, lambda content: content[3:]),
            (fields.KINDS["smsp"], {"name": name, "centre": "+491"}, 44, bytes),
            (fields.KINDS["application"], {"aid": "A000000087", "label": name}, 32, lambda content: content[content.index(b"\x50") + 2:]),
        ]
        for kind, value, size, part in records:
            with self.subTest(key=kind.key):
                content = kind.encode(value, size)
                self.assertEqual(part(content)[:len(coded)], coded)
                self.assertEqual(kind.value(content), value)
                self.assertIn(name, contents.decode(next(key for key, one in fields.KINDS.items() if one is kind), content))

    def test_network_names(self):
        """In EF_PNN seven bits a code, and two codes for some letters."""
        for name, digits in (("a@", "826100"), ("{", "821B14"), ("\u20AC1", "839B720C"), ("\u0416", "900416")):
            with self.subTest(name=name):
                self.assertEqual(structured.encode_network_name(name).hex().upper(), digits)
                self.assertEqual(structured.network_name_of(bytes.fromhex(digits)), name)
        self.assertRaises(contents.BadContent, structured.encode_network_name, "\U0001F600")


if __name__ == "__main__":
    unittest.main()
