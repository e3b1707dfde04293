"""TPDUs: what the link passes for them, and how the tools read a script and a trace with some."""
import os
import subprocess
import sys
import unittest

from common import TOOLS
from uicc import cutting, grammar, lint, names, t0

SCRIPT = """ef 2FE2 t 10 2 -
start
tpdu 00A40004022FE2
tpdu 00C0000014
tpdu 00B00000
cut 1
tpdu 00C0000014
tpdu 00D6000002AABB
"""
TRACE = """> 00A40004022FE2
< 6114
> 00C0000014
< 62128202412183022FE28A01058002000A8801109000
> 00B00000
< 6700
> 00C0000013
< 6C14
> 00D6000002AABB
< 9000
"""


class Passed(unittest.TestCase):
    # TPDUs, and what the card is given for them
    TABLE = [
        ("00A40004022FE2", "00A40004022FE2"), ("00B0000002", "00B0000002"), ("00B2010400", "00B2010400"), ("80F2000C00", "80F2000C00"),
        ("8012000010", "8012000010"), ("0070000001", "0070000001"), ("00D60000FF" + "00" * 255, "00D60000FF" + "00" * 255),
        # without data P3 is left out
        ("0020000100", "00200001"), ("0070800100", "00708001"), ("00FF000000", "00FF0000"),
        # the link's own
        ("00C0000014", None), ("FFC0ABCD00", None), ("00C000000100", None),
        # no TPDUs
        ("", None), ("00B00000", None), ("00A4000402", None), ("00A40004022FE200", None), ("00B000000100", None), ("0070800101", None),
        ("00D60000FE" + "00" * 255, None),
    ]

    def test_what_is_passed(self):
        for tpdu, command in self.TABLE:
            found = t0.passed(bytes.fromhex(tpdu))
            self.assertEqual(found and found.hex().upper(), command, tpdu)


class Read(unittest.TestCase):
    def test_statuses(self):
        self.assertEqual([names.status(word) for word in ("6114", "6100", "6C14")], [
            "20 bytes wait for GET RESPONSE", "256 bytes wait for GET RESPONSE", "wrong Le: 20 is the right one"])

    def test_what_is_cut(self):
        """What the link answers by itself is not cut, and leaves a plan waiting."""
        script = lint.read(SCRIPT)
        self.assertIsNone(script.first())
        self.assertEqual([script.steps[place][0] for place in cutting.cuttable(script)], [3, 8])
        section, lines = script.lines[:1], script.lines[2:]
        self.assertEqual(cutting.last_command(lines), 5)
        self.assertEqual(cutting.unplanned(lines[:5]), [line for line in lines[:5] if not line.startswith("cut")])
        step = cutting.Step(["play"], script, len(script.steps) - 1)
        self.assertEqual((step.title(), step.half(), section), ("UPDATE BINARY from byte 0: 2 bytes", 1, ["ef 2FE2 t 10 2 -"]))

    def test_what_a_line_says(self):
        said = grammar.read_line("tpdu 0020000100")
        self.assertEqual((said.content.hex(), said.passed.hex()), ("0020000100", "00200001"))

    def test_a_trace_in_words(self):
        words = [sys.executable, "-B", os.path.join(TOOLS, "explain")]
        done = subprocess.run(words, input=TRACE, capture_output=True, text=True, timeout=60, check=False)
        self.assertEqual(done.returncode, 0, done.stderr)
        for part in ("6114 20 bytes wait for GET RESPONSE", "GET RESPONSE 20 bytes\n", "FCP\n", "file descriptor: transparent EF",
                     "UPDATE BINARY from byte 0: 2 bytes (2FE2 EF.ICCID)"):
            self.assertIn(part, done.stdout)


if __name__ == "__main__":
    unittest.main()
