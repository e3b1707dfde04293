#!/usr/bin/env python3
"""Spoils a good profile in many ways: `tools/profile build` makes a script of it that lint has nothing against, or says what is wrong
and in which line.

    tools/tests/fuzz_profile.py [--count N] [--seed N]

Ends with 0, or with 1 and the seeds for which it isn't so."""
import argparse
import random
import re
import sys
import traceback

import common  # noqa: F401 (the path)
from uicc import lint, profile

GOOD = """like = "usim"

[pins]
pin1 = { value = "1234", unblock = "12345678" }
pin2 = { value = "5678", on = false }
adm = { value = "3838383838383838" }

[default]
read = "always"
update = "pin1 or adm"

[EF_IMSI]
imsi = "262019876543210"
read = "pin1"

[EF_ICCID]
iccid = "8999901000000123450"

[EF_SPN]
spn = "Nordlicht"
size = 17
short = 20

[EF_ACC]
acc = [9, 0]

[EF_AD]
ad = { mode = "normal", network_digits = 3 }

[EF_LOCI]
loci = { plmn = "001-01", area = "0001", tmsi = "01020304", status = "updated" }

[EF_PL]
languages = ["de", "en"]

[EF_HPPLMN]
minutes = 60

[EF_FPLMN]
plmns = ["262-01", "001-01"]

[EF_PLMNwAcT]
plmns = ["262-01 by GSM+UTRAN"]

[EF_UST]
services = [12, "MSISDN"]

[EF_ADN]
entries = [
    { name = "Anna", number = "+491701234567" },
    { name = "Taxi" },  # no number
]
count = 50

[EF_DIR]
applications = [{ aid = "A0000000871002FFFFFFFF8907090000", label = "USIM" }]

[EF_ECC]
emergency = ["112", "110"]

["7F10/6F99"]
hex = "0102"
size = 4
deactivate = "never"

["5F00/6F98"]
records = ["01", "0203"]
cyclic = true
length = 3
count = 5
increase = "pin1 and adm"

["MF/7F21"]
folder = true

[EF_ARR]
records = ["8001019000"]

["7F10/6F97"]
size = 3
rule = "2F06:1"

[[applet]]
kind = "table"
menu = "Tools"
on = { location = ["register user-activity", "show A", "tone 10"], timer = ["idle z"] }

[[applet]]
kind = "barrier"
priority = 4
events = ["call-control"]
keeps_text = "123"

[[applet]]
shelf = 8
keeps = "0102"
"""
VALUES = ("5", "-1", "0", "255", "256", "99999999999999999999", "true", '"x"', '""', "[]", "{}", "1.5", "nan", "1979-05-27", "07:32:00", "[[1]]",
          '[""]', "[1]", "[-1]", "[true]", '"\u0661\u0662\u0663\u0664"', '"\\u0000"', '"\\n"', "'''\n'''", '"' + "9" * 400 + '"', '"' + "A" * 4000 + '"',
          '{ value = "1234" }', "{ a = 1 }", '[{ name = 5 }]', '["A"]', '"pin1 or "', '"always and (adm)"', '"2F06:9"', '"262-01"', '"imsi"',
          '["FDN"]', '"FF"', '"0"',
          '"register"', '{ location = ["register  "] }', '{ menu = "x" }', '{ location = [5] }', "[" * 2000, '["' + "x" * 300 + '"]')
KEYS = ("size", "length", "count", "cyclic", "short", "rule", "folder", "read", "increase", "hex", "records", "imsi", "entries", "plmns", "services",
        "services_on", "services_off", "acc", "kind",
        "shelf", "on", "menu", "keeps", "pin1", "puk1", "like", "acces", "a.b", '""', '"\u00e4"', "value", "unblock")
HEADS = ("[7F20]", "[pins]", "[default]", "[[applet]]", "[[EF_IMSI]]", '[""]', '["/"]', '["MF"]', "[7F20.EF_IMSI]", '["7F20/EF_IMSI"]', '["7F20/6F07"]',
         '["3F00/7FFF/6F07"]', '["7F10/3F00"]', '["' + "7F10/" * 9 + '6F99"]', "[EF_ARR]", "[EF_NONE]", '["EF_IMSI/EF_SPN"]', "[like]", '["7F10/\\n"]', "[[pins]]")


class Spoiler:
    def __init__(self, seed):
        self.random = random.Random(seed)

    def spoilt(self, text):
        for _ in range(self.random.choice((1, 1, 1, 2, 4))):
            text = self.random.choice((self.value, self.value, self.key, self.head, self.line, self.letter))(text)
        return text

    def _at(self, text, pattern):
        return self.random.choice(list(re.finditer(pattern, text, re.MULTILINE)) or [None])

    def _put(self, text, found, new):
        return text[:found.start(1)] + new + text[found.end(1):] if found else text

    def value(self, text):
        return self._put(text, self._at(text, self.random.choice((r"= (.+)$", r'("[^"\n]*")', r"= (\d+)"))), self.random.choice(VALUES))

    def key(self, text):
        return self._put(text, self._at(text, self.random.choice((r"^(\w+) =", r"[{,] (\w+) ="))), self.random.choice(KEYS))

    def head(self, text):
        return self._put(text, self._at(text, r"^(\[.*\])$"), self.random.choice(HEADS))

    def line(self, text):
        lines = text.split("\n")
        at, other = (self.random.randrange(len(lines)) for _ in range(2))
        act = self.random.randrange(3)
        if act == 0:
            del lines[at]
        elif act == 1:
            lines.insert(at, lines[other])
        else:
            lines[at], lines[other] = lines[other], lines[at]
        return "\n".join(lines)

    def letter(self, text):
        at = self.random.randrange(len(text))
        return text[:at] + self.random.choice(("", '"', "[", "]", "{", "}", "=", "\n", "0", "A", ".", "\\", "\x00", "\u00e4", "#")) + text[at + self.random.randrange(2):]


def trouble(seed):
    """What is wrong with how a spoilt profile is taken; None where nothing is."""
    content = Spoiler(seed).spoilt(GOOD).encode("utf-8", "replace")
    try:
        made = profile.made_in(content, "card.toml")
    except profile.BadProfile as bad:
        # the words of a value may be long, and stand in one line
        wrong = [fault.reason for fault in bad.faults if not re.match(r"card\.toml, line [1-9]\d*: \S", fault.reason) or "\n" in fault.reason]
        return f"seed {seed}: {wrong[0] if wrong else 'no reason'}" if wrong or not bad.faults else None
    except Exception:  # noqa: BLE001 (that is what is looked for)
        return f"seed {seed}: {traceback.format_exc()}"
    found = lint.read(made.text).first()
    return f"seed {seed}: lint says {found}" if found else None


def main():
    words = argparse.ArgumentParser(description=__doc__, formatter_class=argparse.RawDescriptionHelpFormatter)
    words.add_argument("--count", type=int, default=1000)
    words.add_argument("--seed", type=int, default=0)
    given = words.parse_args()
    wrong = [found for found in map(trouble, range(given.seed, given.seed + given.count)) if found]
    for why in wrong[:20]:
        print(why)
    print(f"{given.count} spoilt profiles, {len(wrong)} not taken as they should be")
    return 1 if wrong else 0


if __name__ == "__main__":
    sys.exit(main())
