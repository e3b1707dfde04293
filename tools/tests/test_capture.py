"""tools/capture, by tables."""
import os
import struct
import tempfile
import unittest

from common import in_process, load
from uicc import trace


class Captures(unittest.TestCase):
    # lines of a trace; what is sent for them: its kind, its bytes or text, and its comments
    TABLE = [
        (["> 00B0000001", "< AA9000"], [("exchange", "00B0000001AA9000", [])]),
        (["> 00B0000000", "< AA9000"], [("exchange", "00B0000001AA9000", [])]),
        (["> 00B0000000", "< " + "AA" * 256 + "9000"], [("exchange", "00B0000000" + "AA" * 256 + "9000", [])]),
        (["> 00B0000004", "< 6986"], [("exchange", "00B00000006986", ["the command has Le 4; 0 bytes came"])]),
        (["> 00A4000402" + "3F0000", "< 62009000"], [("exchange", "00A40004023F0062009000", [])]),
        (["> 80F2000C", "< 9000"], [("exchange", "80F2000C009000", [])]),
        (["> 8012000010", "< 6985"], [("alone", "8012000010", ["answered 6985"])]),
        (["> 00A4", "< 6700"], [("mark", "no command: 00A4 is answered 6700", None)]),
        (["! reset", "> 00D6000001AA", "! cut"],
         [("mark", "reset", None), ("alone", "00D6000001AA", ["no answer came"]), ("mark", "the power was cut", None)]),
        (["> 00040000", "! off"], [("alone", "0004000000", ["no answer came"]), ("mark", "the card has no power", None)]),
        (["* menu 1", "* player: this is answered by the player", "line 4"],
         [("mark", "terminal: menu 1", None), ("mark", "player: this is answered by the player", None), ("mark", "the run ended: line 4", None)]),
        (["> 00B0000001"], [("alone", "00B0000001", ["the trace ends here"])]),
        # of a terminal over no card: FETCH, TERMINAL RESPONSE and ENVELOPE
        (["> D009810301440082028182", "< 810301440082028281830100B8020000"],
         [("exchange", "801200000BD0098103014400820281829000", []), ("exchange", "8014000010810301440082028281830100B80200009000", [])]),
        (["* event D60B99010A82028281B8020105"], [("exchange", "80C200000DD60B99010A82028281B80201059000", [])]),
        # lines that tell times
        (["@ 1764497000.000001", "> 00B0000001", "@ 1764497000.000002", "< AA9000", "@ 1764497000.000003", "! reset"],
         [("exchange", "00B0000001AA9000", []), ("mark", "reset", None)]),
    ]
    # lines of a trace, and the times of its packets, in microseconds
    TIMES = [
        (["> 00B0000001", "< 9000", "! reset"], [0, 1000]),
        (["@ 1764497000.000001", "> 00B0000001", "@ 1764497002.5", "< 9000"], None),
        (["@ 1764497000.000001", "> 00B0000001", "@ 1764497002.500000", "< 9000", "@ 1764497003.000000", "! reset", "> 00B0000001", "! cut"],
         [1764497000000001, 1764497003000000, 1764497003001000, 1764497003002000]),
        (["@ 1764497000.000001", "> D009810301440082028182", "@ 1764497000.000009", "< 810301440082028281830100B8020000"],
         [1764497000000001, 1764497000000009]),
    ]

    def test_times(self):
        capture = load("capture")
        for lines, times in self.TIMES:
            with self.subTest(lines=lines):
                if times is None:
                    self.assertRaises(capture.NoTrace, list, capture.capture(lines))
                    continue
                blocks = [block for block in capture.capture(lines) if struct.unpack_from("<I", block) == (6,)]
                found = [high << 32 | low for high, low in (struct.unpack_from("<II", block, 12) for block in blocks)]
                self.assertEqual(found, times)

    def test_a_time_is_told_as_it_is_read(self):
        for micros in (0, 1, 999_999, 1_000_000, 1764497000123456):
            self.assertEqual(trace.time_of(trace.timed(micros)), micros)
        for line in ("@ 1", "@ 1.5", "@ .000001", "@ -1.000000", "@ 1.00000a", "> 1.000000"):
            self.assertIsNone(trace.time_of(line), line)

    NO_TRACES = [["hello"], ["> 00B", "< 9000"], ["> 00B0000001", "< XX"], ["< 9000"]]

    def test_packets(self):
        capture = load("capture")
        for lines, packets in self.TABLE:
            found = [(packet.kind, packet.content.decode() if packet.kind == "mark" else packet.content.hex().upper(),
                      None if packet.kind == "mark" else packet.comments) for packet in capture.packets(lines)]
            self.assertEqual(found, packets)

    def test_a_trace_that_is_no_text(self):
        """The file and the place are told."""
        with tempfile.TemporaryDirectory() as folder:
            path = os.path.join(folder, "a.trace")
            with open(path, "wb") as out:
                out.write(b"> 00A4\n< 90\xFF\n")
            done = in_process("capture", path)
            self.assertEqual((done.returncode, done.stderr), (2, f"capture: {path}: the file is no text in UTF-8: the byte FF stands in line 2, at 5\n"))
            self.assertEqual(os.listdir(folder), ["a.trace"])

    def test_no_trace(self):
        capture = load("capture")
        for lines in self.NO_TRACES:
            with self.assertRaises(capture.NoTrace):
                list(capture.packets(lines))

    def test_blocks_have_their_lengths(self):
        whole = b"".join(load("capture").capture(["> 00B0000001", "< 6986", "! reset", "> 00B0000001", "! cut"]))
        kinds, at = [], 0
        while at < len(whole):
            kind, size = struct.unpack_from("<II", whole, at)
            self.assertEqual(size % 4, 0)
            self.assertEqual(struct.unpack_from("<I", whole, at + size - 4), (size,))
            kinds.append(kind)
            at += size
        self.assertEqual(kinds, [0x0A0D0D0A, 1, 1, 6, 6, 6, 6])


if __name__ == "__main__":
    unittest.main()
