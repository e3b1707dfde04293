"""uicc.kinds: the kinds of applets are those of the sources, and what their definitions come to is what the code does."""
import contextlib
import hashlib
import io
import json
import os
import shutil
import subprocess
import sys
import tempfile
import unittest
from unittest import mock

import common
from uicc import Card, antt, applet_rows, evaluation, kinds, lint, names, process, stored, toolkit
from uicc.evaluation import NONE, Made

sys.path.insert(0, os.path.join(common.TOOLS, "page"))
import bundle
import making

CRATES = os.path.join(process.TOP, "crates")
LONGEST = 20_000
# the sources that say which kinds there are, and what they stand on
READ = ("applet_trait", "boxed_applets", "card_state", "toolkit_commands", "uicc_types")
# answers, for a card's rows and each trace, what the page says of its toolkit
OF_PAGE = """import { toolkitAfter } from "./toolkit.js";
import { stepsOf } from "./trace.js";
const bytes = (row) => ({ ...row, kept: Uint8Array.from(row.kept), text: Uint8Array.from(row.text) });
const linesOf = ({ rows, trace }) => toolkitAfter(rows.map(bytes), stepsOf(trace, trace.map(() => 0))).lines();
const requests = JSON.parse(require("fs").readFileSync(0, "utf-8"));
console.log(JSON.stringify(requests.map((each) => linesOf(each).map(({ label, text }) => `${label}: ${text}`))));
"""


def copy_of_sources(folder):
    """The sources of the kinds, to be changed."""
    for crate in READ:
        for part in ("src", "specs"):
            place = os.path.join(CRATES, crate, part)
            if os.path.isdir(place):
                shutil.copytree(place, os.path.join(folder, "crates", crate, part))
    return os.path.join(folder, "crates")


def change(crates, place, old, new):
    path = os.path.join(crates, place)
    with open(path, encoding="utf-8") as text:
        before = text.read()
    assert old in before, (place, old)
    with open(path, "w", encoding="utf-8") as out:
        out.write(before.replace(old, new))


class Reading(unittest.TestCase):
    # an expression, and what it comes to
    VALUES = [
        ("1 + 2 * 3", 7), ("0x10 / 3 % 4", 1), ("2 - 3", 0), ("5 / 0", 0), ("5 % 0", 5), ("1 == 1 && (2 == 3 || 4 == 4)", True), ("not (1 == 1)", False),
        ("1 ∷ 2 ∷ []", (1, 2)), ("(1 ∷ []) ++ 2 ∷ []", (1, 2)), ('codes "Hi"', (72, 105)), ("length (drop 1 (1 ∷ 2 ∷ []))", 1), ("take 1 (1 ∷ 2 ∷ [])", (1,)),
        ("map (λ n. n + 1) (1 ∷ 2 ∷ [])", (2, 3)), ("if nat_le 2 1 then 1 else if nat_lt 1 2 then 2 else 3", 2), ("let n = 4 in n * n", 16),
        ("find (λ placed. placed.1 == 7) (enumerate_from 0 (5 ∷ 7 ∷ []))", Made("Some", ((1, 7),))), ("find (λ n. n == 3) []", NONE),
        ("take_while (λ n. nat_le n 2) (1 ∷ 3 ∷ 2 ∷ [])", (1,)), ("flat_map (λ n. n ∷ n ∷ []) (1 ∷ 2 ∷ [])", (1, 1, 2, 2)),
        ("starts_with nat_eq (1 ∷ 2 ∷ []) (1 ∷ [])", True), ("starts_with nat_eq (1 ∷ []) (1 ∷ 2 ∷ [])", False), ("unwrap_or (Some 3) 4", 3), ("unwrap_or None 4", 4),
        ("(record { a = 1; b = 2 }).b", 2), ("(record (record { a = 1; b = 2 }) { a = 3; }).a", 3), ("(1, 2).1", 2), ("Some (1 + 1)", Made("Some", (2,))),
        ("value_in 0x13 (0x93 ∷ 1 ∷ 9 ∷ [])", Made("Some", ((9,),))), ("value_in 0x13 (0x93 ∷ 1 ∷ 9 ∷ 0x93 ∷ [])", NONE),
        ("slice_index_or (1 ∷ []) 3 9", 9), ("(λ a b. a - b) 5 2", 3), ("map (nat_le 2) (1 ∷ 2 ∷ [])", (False, True)),
    ]
    # what is no expression that is read here, and what is said of it
    UNREAD = ["1 +", "elim x [ | a ↦ b ]", "f x where g = 1", "(1", "record { 1 = 2 }", "if a then b", "{x}", "a →"]
    # clauses of f, values, and what they come to; None: none is of this case
    CLAUSES = [
        (["f 0 = 1", "f _ = 2"], (0,), 1), (["f 0 = 1", "f _ = 2"], (5,), 2), (["f (Some n) m = n + m", "f None m = m"], (NONE, 4), 4),
        (["f (a ∷ b ∷ others) = others", "f _ = []"], ((1, 2, 3),), (3,)), (["f (a ∷ b ∷ others) = others", "f _ = []"], ((1,),), ()),
        (["f (Some (place, row)) = place"], (Made("Some", ((7, 8),)),), 7), (["f true = 1", "f false = 0"], (False,), 0), (["f [] = 1"], ((2,),), None),
        (["f (n ∷ rest) = n + f rest", "f [] = 0"], ((1, 2, 3),), 6), (["f n = f n"], (1,), None),
    ]

    def test_values(self):
        meaning = evaluation.Definitions({}, {})
        for text, wanted in self.VALUES:
            with self.subTest(text=text):
                self.assertEqual(meaning._value(antt.as_body(text), {}), wanted)

    def test_unread(self):
        for text in self.UNREAD:
            with self.subTest(text=text), self.assertRaises(antt.Unreadable):
                antt.as_body(text)

    def test_clauses(self):
        for texts, values, wanted in self.CLAUSES:
            meaning = evaluation.Definitions({"f": [antt.clause(text) for text in texts]}, {})
            with self.subTest(texts=texts):
                if wanted is None:
                    self.assertRaises(evaluation.Unknown, meaning.call, "f", *values)
                else:
                    self.assertEqual(meaning.call("f", *values), wanted)

    def test_constants(self):
        with tempfile.NamedTemporaryFile("w", suffix=".rt", encoding="utf-8") as source:
            source.write('//! Text.\npub const A: u8 = 0x0A;\npub const B: &[u8] = b"Hi";\npub const C: usize = 1_000;\n'
                         'const D: u8 = 1;\npub const E: T = T::new();\n')
            source.flush()
            self.assertEqual(antt.constants_of(source.name), {"A": 10, "B": [72, 105], "C": 1000})


class Sources(unittest.TestCase):
    def setUp(self):
        self.folder = self.enterContext(tempfile.TemporaryDirectory())

    def test_file(self):
        """The one file of the tools has what the sources say: `tools/applet write` writes it."""
        with open(kinds.PLACE, encoding="utf-8") as text:
            kept = text.read()
        found = kinds.of_sources(CRATES, json.loads(kept)["kinds"])
        self.assertEqual(kept, kinds.written(found))
        self.assertEqual(json.loads(kept), found)
        self.assertEqual(found["unreadable"], {})

    def test_kinds(self):
        known = kinds.told(False)
        self.assertEqual(len(known.data["shelves"]), kinds.HOW_MANY)
        for shelf in range(kinds.HOW_MANY):
            self.assertIn(shelf, known.shelves_of(known.name_on(shelf)))
        self.assertTrue(known.is_table(6))
        self.assertEqual((known.name_on(0), known.does_on(5)), ("greeter", "keeps a note"))

    def test_actions(self):
        """The actions of a table are those of the sources."""
        found = antt.constants_of(os.path.join(CRATES, "applet_trait", "src", "actions.rt"))
        self.assertEqual(sorted(names.table("toolkit")["actions"].values()), sorted(f"{code:02X}" for code in found.values()))
        self.assertEqual(sorted(names.table("toolkit")["action_names"]), sorted(f"{code:02X}" for code in found.values()))

    def test_changed(self):
        """A definition that is changed is what is worked out; one that can't be read is told, and the other kinds stay."""
        crates = copy_of_sources(self.folder)
        change(crates, "applet_trait/specs/Tables.antt", "then turn mind (show GREETING.now) 1", "then turn mind (Send (PlayTone 3)) 1")
        change(crates, "applet_trait/specs/Tables.antt", "menu mind _ = done mind", "menu mind _ = elim mind [ | x ↦ done x ]")
        change(crates, "applet_trait/src/texts.rt", 'b"Note?"', 'b"Say?"')
        data = kinds.of_sources(crates, kinds.of_file()["kinds"])
        known = kinds.Kinds(data)
        self.assertEqual(list(data["unreadable"]), ["menu"])
        profile = Made("Event", (0x40, ()))
        self.assertEqual(applet_rows.act_shown(known.turn(known.fresh(0, b""), profile)[0]), "send play tone 03")
        self.assertEqual(applet_rows.act_shown(known.turn(known.fresh(5, b""), profile)[0]), 'send get input "Say?" 0 to 20 characters')
        with self.assertRaisesRegex(evaluation.Unknown, "the definition of menu is in a form that isn't read here"):
            known.turn(known.fresh(1, b""), profile)

    # what is changed in the sources, and what is said of it
    FAULTY = [
        ("card_state/src/sizes.rt", "LAST_KIND: u8 = 7", "LAST_KIND: u8 = 9", "LAST_KIND of card_state is 9, and by_kind of applet_trait has 7 kinds"),
        ("applet_trait/specs/Turns.antt", "if kind == 3", "if kind == 4", "not numbered from 1 on"),
        ("applet_trait/specs/Turns.antt", "act mind stimulus = by_kind", "act mind stimulus = where by_kind", "the definition of act isn't read"),
        ("boxed_applets/specs/Casts.antt", "applet_on shelf = Some", "applet_on shelf = λ", "the definition of applet_on isn't read"),
    ]

    def test_faulty(self):
        for place, old, new, said in self.FAULTY:
            with tempfile.TemporaryDirectory() as folder, self.subTest(new=new):
                crates = copy_of_sources(folder)
                change(crates, place, old, new)
                with self.assertRaisesRegex(kinds.Faulty, said):
                    kinds.of_sources(crates)

    # the environment's UICC_RUN, whether a program is built here, and whether its kinds are those of the sources
    WHOSE = [("draft", False, True), ("", True, True), ("", False, False), ("/bin/true", True, False)]

    def test_whose(self):
        """A draft's kinds, and those of the program that is built here, are those of the sources; the released one's stand in the file."""
        built = os.path.join(self.folder, "program")
        for named, is_built, are_of_sources in self.WHOSE:
            with open(built, "w", encoding="ascii"):
                os.chmod(built, 0o755 if is_built else 0o644)
            with mock.patch.dict(os.environ, UICC_RUN=named), mock.patch.object(process, "BUILT", built if is_built else built + "-none"), self.subTest(named=named):
                self.assertEqual(kinds.are_of_sources(), are_of_sources)

    def test_not_released(self):
        """A kind that the released program doesn't have is named, where that program runs, in what is told of a card too."""
        crates, data = copy_of_sources(self.folder), kinds.of_file()
        data["kinds"].append({"name": "tipper", "does": "tips"})
        os.mkdir(os.path.join(self.folder, "dist"))
        with open(os.path.join(self.folder, "dist", "release.txt"), "w", encoding="utf-8") as text:
            text.writelines(f"{'0' * 64}  crates/boxed_applets/src/{kind['name']}s.rt\n" for kind in data["kinds"][:-1])
        place = os.path.join(self.folder, "kinds.json")
        with open(place, "w", encoding="utf-8") as text:
            text.write(kinds.written(data))
        self.assertTrue(os.path.isdir(crates))
        for named, lacking in (("", ("tipper",)), ("/bin/true", ())):
            with mock.patch.dict(os.environ, UICC_RUN=named), mock.patch.object(process, "TOP", self.folder), mock.patch.object(kinds, "PLACE", place), \
                    mock.patch.object(process, "BUILT", "/none"), mock.patch.object(process, "RELEASED", os.path.join(self.folder, "dist", "uicc_program")), \
                    mock.patch.object(kinds, "told", kinds.told.__wrapped__), self.subTest(named=named):
                known = kinds.of_program()
                self.assertEqual(known.lacking, lacking)
                if lacking:
                    self.assertRegex(toolkit.Toolkit({}, known).doubt, "^the released program runs, which has no tipper: .*UICC_RUN=draft")
                with contextlib.redirect_stderr(io.StringIO()) as said:
                    kinds.warn.__wrapped__()
                self.assertRegex(said.getvalue(), "^uicc: the released program runs, which has no tipper: .*UICC_RUN=draft" if lacking else "^$")

    def test_other_sources(self):
        """Where the released program runs and a source was changed since, it is said once, as by the launcher; not by a program that is named."""
        crates = copy_of_sources(self.folder)
        os.mkdir(os.path.join(self.folder, "dist"))
        paths = [os.path.join(place, name) for place, _, names in os.walk(crates) for name in names if name.endswith(".rt")]
        with open(os.path.join(self.folder, "dist", "release.txt"), "w", encoding="utf-8") as text:
            for path in paths:
                with open(path, "rb") as content:
                    text.write(f"{hashlib.sha256(content.read()).hexdigest()}  {os.path.relpath(path, self.folder)}\n")
        said = "uicc_run: the released program runs, and the sources that stand here are other ones: with UICC_RUN=draft in the environment theirs runs, " \
               "with nothing proved\n"
        for named, old, new, wanted in (("", "", "", ""), ("", 'b"Hi"', 'b"Ho"', said), ("/bin/true", "Ho", "Hi", "")):
            change(crates, os.path.join("applet_trait", "src", "texts.rt"), old, new)
            with mock.patch.dict(os.environ, UICC_RUN=named), mock.patch.object(process, "TOP", self.folder), mock.patch.object(process, "BUILT", "/none"), \
                    mock.patch.object(process, "RELEASED", os.path.join(self.folder, "dist", "uicc_program")), \
                    mock.patch.object(kinds, "told", kinds.told.__wrapped__), self.subTest(named=named, new=new), contextlib.redirect_stderr(io.StringIO()) as out:
                kinds.warn.__wrapped__()
                self.assertEqual(out.getvalue(), wanted)

    def test_unread_sources(self):
        """Where the sources can't be read the kinds are those of the file, and what is told of a card says so."""
        crates = copy_of_sources(self.folder)
        change(crates, "card_state/src/sizes.rt", "LAST_KIND: u8 = 7", "LAST_KIND: u8 = 9")
        with mock.patch.object(process, "TOP", self.folder):
            known = kinds.told.__wrapped__(True)
        self.assertEqual(known.names, kinds.told(False).names)
        self.assertIn("LAST_KIND", toolkit.Toolkit({}, known).doubt)


class Rows(unittest.TestCase):
    def test_rows(self):
        """Each row of the applets, which the code is tried with too, is what the definitions come to."""
        found, count = applet_rows.differing(kinds.told(True), applet_rows.text_here())
        self.assertEqual(found, [])
        self.assertGreater(count, 250)

    # rows, and which of them differ
    TABLE = [
        ("applet greeter - => kind 1\non event 40 - => done\n", [2]), ("differs applet greeter - => kind 2\ndiffers applet greeter - => kind 1\n", [2]),
        ("applet nobody - => kind 1\n", [1]), ("on event 40 - => done\n", [1]), ("applet greeter - => kind 1\non nothing => done\n", [2]),
        ('boxed notebook "AB"+07*9 event 40 - => kind 6, send display text 414207*9\n', [1]),
        ('boxed notebook "AB"+07*9 event 40 - => kind 6, send display text 4142+07*9\n', []),
        ("shelf 1 => kind 1\n", [1]),
    ]
    # rows of which none comes to what they say, and what is told
    NEVER = [
        ("on event 40 -", "what it comes to is missing"), ("on event 40 - =>", "what it comes to is missing"),
        ('on event 40 - => send display txt "Moin"', "is nothing that a row comes to: is `send display text TEXT` meant?"),
        ('differs on event 40 - => send display txt "Moin"', "is `send display text TEXT` meant?"),
        ("on event 40 - => send get input Say? 0 to 20 digits", "is `send get input TEXT N to N digits` meant?"),
        ('on event 40 - => send get input "Say?" 20 digits', "is `send get input TEXT N to N digits` meant?"),
        ('on response 00 0 "How much?" => done', "a text in quotes has no space in it: it is written in hexadecimal digits, as `5461706520696E`"),
        (" => done", "a row is applet, wake, on, boxed, shelf, and not `=>`"),
    ]

    def test_what_no_row_comes_to(self):
        for line, why in self.NEVER:
            with self.subTest(line=line):
                found, count = applet_rows.differing(kinds.told(False), "applet greeter - => kind 1\n" + line + "\n")
                self.assertEqual(([row.line for row, _ in found], count), ([2], 2))
                self.assertIn("not a row: ", found[0][1])
                self.assertIn(why, found[0][1])

    def test_whose_a_row_is(self):
        """Of a row that goes on with an applet it is told which that is."""
        text = "# rows\napplet greeter - => kind 1\non event 40 - => done\nboxed clock - event 40 - => done\nwake - => kind 3\n"
        found = applet_rows.differing(kinds.told(False), text)[0]
        self.assertEqual([(row.line, row.of) for row, _ in found], [(3, "of the applet greeter, line 2"), (4, ""), (5, "of the applet greeter, line 2")])

    def test_a_clause_with_too_few_parts(self):
        """It is told in words of definitions."""
        known = evaluation.Definitions({"act": [([("made", "Response", [("any",), ("bound", "text")])], ("name", "text"))]}, {})
        with self.assertRaises(evaluation.Unknown) as refused:
            known.call("act", evaluation.Made("Response", (0, 0, ())))
        self.assertEqual(str(refused.exception), "`Response` has 3 parts, and a clause has it with 2")

    def test_differing(self):
        for text, lines in self.TABLE:
            with self.subTest(text=text):
                self.assertEqual([row.line for row, _ in applet_rows.differing(kinds.told(False), text)[0]], lines)


class Doubts(unittest.TestCase):
    PROFILE = "> 80100000082900BF6171000013"
    ANOTHER = "not sure: " + toolkit.OTHER_APPLETS

    def told(self, script, lines, known=None):
        followed = toolkit.Toolkit(lint.read(script).card.rows, known)
        for command, answer in zip(lines[::2], lines[1::2]):
            followed.take(toolkit.decode.Apdu(bytes.fromhex(command[2:])), bytes.fromhex(answer[2:-4]), answer[-4:])
        return [f"{line.label}: {line.text}" for line in followed.lines()]

    # what a card shows that has one greeter, or two applets, and what is told of it
    SHOWN = [
        ("row 0 1 014000\nstart\n", [PROFILE, "< 9000"], ["outstanding command: none", ANOTHER]),
        ("row 0 1 014000\nstart\n", [PROFILE, "< 9112"], ["outstanding command: a command that isn't known yet, of an applet that isn't known: waits to be fetched", ANOTHER]),
        ("row 0 1 014000\nstart\n", [PROFILE, "< 9112", "> 8012000012", "< D0108103012180820281028D05044D6F696E9000"],
         ["outstanding command: DISPLAY TEXT, number 1, of the applet on shelf 0: fetched, waits for its response", ANOTHER]),
        ("row 0 1 014000\nrow 2 2 014000\nstart\n", [PROFILE, "< 9112", "> 8012000012", "< D0108103012180820281028D05044D6F696E9000"],
         ["outstanding command: DISPLAY TEXT, number 1, of an applet that isn't known: fetched, waits for its response", ANOTHER]),
        ("row 0 1 014000\nstart\n", [PROFILE, "< 9110"], ["outstanding command: DISPLAY TEXT, number 1, of the applet on shelf 0: waits to be fetched"]),
    ]

    def test_shown(self):
        """What a trace shows is what is told, and that the applets do something else by their definitions."""
        for script, lines, wanted in self.SHOWN:
            found = self.told(script, lines)
            with self.subTest(lines=lines):
                self.assertEqual([line for line in found if line.startswith(("outstanding", "not sure"))], wanted)

    def test_unreadable(self):
        data = {**kinds.of_file(), "unreadable": {"greeter": "greeter: it ends too early"}}
        found = self.told("row 0 1 014000\nrow 2 2 014000\nstart\n", [self.PROFILE, "< 911F"], kinds.Kinds(data))
        self.assertIn("what the applet on shelf 0 does isn't known: the definition of greeter", found[-1])

    def test_card(self):
        with Card.from_text("row 0 1 014000\nstart\n") as card:
            card.profile()
            self.assertEqual((card.toolkit.applets[0].command, card.toolkit.owner, card.toolkit.doubt), ("DISPLAY TEXT", 0, None))


@unittest.skipUnless(shutil.which("node"), "node isn't here")
class InThePage(unittest.TestCase):
    def test_same(self):
        """The page works out the same as tools/uicc after each stored run, with doubts too."""
        requests, wanted = [], []
        for words, script in stored.runs(("play", "phone")):
            if len(script) > LONGEST or b"row " not in script or not script.isascii():
                continue
            lines, status, _ = process.played(words, script.decode())
            if status:
                continue
            rows = lint.read(script.decode()).card.rows
            for trace in (lines, lines[:len(lines) // 2]):
                requests.append({"trace": trace, "rows": [
                    {"shelf": row.shelf, "priority": row.priority, "events": list(row.events), "text": list(row.text), "kept": list(row.kept)} for row in rows.values()]})
                wanted.append([f"{line.label}: {line.text}" for line in toolkit.followed(rows, trace).lines()])
        script = bundle.bundle("top", {"tables": making.tables(), "top": OF_PAGE})
        with tempfile.NamedTemporaryFile("w", suffix=".js", encoding="utf-8") as text:
            text.write(script)
            text.flush()
            done = subprocess.run(["node", text.name], input=json.dumps(requests), capture_output=True, text=True, check=True)
        self.assertEqual(json.loads(done.stdout), wanted)
        self.assertGreater(len(wanted), 200)


if __name__ == "__main__":
    unittest.main()
