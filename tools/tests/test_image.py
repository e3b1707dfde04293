"""What images hold: both stores, a commit that was begun, and the entries of a card. The images are made byte by byte."""
import unittest

import common  # noqa: F401 (the path)
from uicc import image, tree


def put(content, at, digits):
    part = bytes.fromhex(digits)
    content[at:at + len(part)] = part


def journal():
    """A card with PIN 1, a folder with a cyclic file, a transparent file, and an applet."""
    content = bytearray(b"\xFF" * image.JOURNAL_SIZE)
    put(content, 0, "55494343" "02" "00" "0001")
    put(content, 832, "01" "01" "02" "0A" + "31323334FFFFFFFF" + "3132333435363738" + "00" * 40)
    for shelf in range(16):
        put(content, 896 + 64 * shelf, "00")
        put(content, 63488 + 64 * shelf, "00")
    # shelf 6: kind 7, priority 9, sequence 0, bits of the events 03 and 40, `Menu`, and 34 bytes kept
    put(content, 896 + 64 * 6, "01" "07" "09" "0000" "0208" "04" "4D656E75" "000000000000" "22" + "AB" * 32)
    put(content, 64512 + 32 * 6, "CDEF")
    for number in range(128):
        put(content, 1920 + 16 * number, "00")
    put(content, 1920, "01" "78" "3F00" "00" "00" "05" "00" "0000" "0000" "0000" "00" "00")
    put(content, 1936, "01" "78" "7F10" "00" "00" "05" "00" "0000" "0000" "0000" "00" "00")
    # three records of two bytes at 3,968, of which the second is the newest; rule 3 of 2F06, short identifier 9, deactivated
    put(content, 1952, "01" "46" "6F44" "01" "09" "04" "03" "2F06" "0F80" "0006" "02" "01")
    put(content, 1968, "01" "41" "2FE2" "00" "02" "05" "00" "0000" "0F86" "0004" "00" "00")
    put(content, 3968, "A1A2" "B1B2" "C1C2" "01020304")
    return content


class Images(unittest.TestCase):
    def test_a_card(self):
        card = image.card_in(bytes(journal()))
        pin = card.pins[0x01]
        self.assertEqual((pin.value, pin.enabled, pin.tries, pin.unblock_tries), (b"1234\xFF\xFF\xFF\xFF", True, 2, 10))
        self.assertEqual(list(card.pins), [0x01])
        row = card.rows[6]
        self.assertEqual((row.priority, row.events, row.text, row.kept), (9, (0x03, 0x40), b"Menu", b"\xAB" * 32 + b"\xCD\xEF"))
        self.assertEqual(list(card.rows), [6])
        numbers = card.files[("7F10", "6F44")]
        self.assertEqual((numbers.structure, numbers.short, numbers.rule, numbers.active), ("c", 9, ("2F06", 3), False))
        self.assertEqual(numbers.records(), [b"\xB1\xB2", b"\xC1\xC2", b"\xA1\xA2"])
        self.assertEqual(bytes(card.files[("2FE2",)].content), b"\1\2\3\4")
        self.assertIn("├─ 7F10 DF.TELECOM", list(tree.lines(card)))

    # bytes from 64 on and from 128 on, and the four bytes of the transparent file then
    COMMITS = [
        ("5A", "01" "0F86" "0002" "AABB", "AABB0304"),
        ("5A", "02" "0F86" "0001" "AA" "0F89" "0001" "BB", "AA0203BB"),
        ("A5", "01" "0F86" "0002" "AABB", "01020304"),
        ("5A", "00" "0F86" "0002" "AABB", "01020304"),
        ("5A", "05" "0F86" "0002" "AABB", "01020304"),
        ("5A", "01" "0F86" "0000", "01020304"),
        ("5A", "01" "FFFF" "0002" "AABB", "01020304"),
        ("5A", "01" "0041" "0002" "AABB", "01020304"),
    ]

    def test_a_begun_commit(self):
        for gate, entries, left in self.COMMITS:
            content = journal()
            put(content, 64, gate)
            put(content, 128, entries)
            with self.subTest(entries=entries):
                self.assertEqual(bytes(image.card_in(bytes(content)).files[("2FE2",)].content).hex().upper(), left)

    def test_pages(self):
        """The same card in pages that moved: each logical page from 13 on lies where the map says."""
        content = journal()
        content[5] = 0x01
        paged = bytearray(b"\xFF" * image.PAGES_SIZE)
        paged[:13 * 64] = content[:13 * 64]
        for place, page in enumerate(range(13, 1024)):
            physical = 1119 - place
            paged[832 + 2 * place:834 + 2 * place] = physical.to_bytes(2, "big")
            paged[physical * 64:physical * 64 + 64] = content[page * 64:page * 64 + 64]
        self.assertEqual(image.state(bytes(paged)), image.state(bytes(content[:5]) + b"\0" + bytes(content[6:])))
        # a map that names a page twice stands for nothing
        paged[832:834] = paged[834:836]
        self.assertIsNone(image.state(bytes(paged)))

    def test_no_card(self):
        for content in (b"\xFF" * image.JOURNAL_SIZE, bytes(image.JOURNAL_SIZE), b"\xFF" * image.PAGES_SIZE):
            self.assertIsNone(image.state(content))


if __name__ == "__main__":
    unittest.main()
