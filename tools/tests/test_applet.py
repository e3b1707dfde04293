"""tools/applet: a new kind, or another text, in a copy of the sources."""
import contextlib
import io
import os
import re
import shutil
import subprocess
import sys
import tempfile
import unittest
from unittest import mock

import common
from uicc import antt, applet_rows, kind_faults, kinds, new_kind, process

applet = common.load("applet")
CRATES = os.path.join(process.TOP, "crates")
# what is read and changed
PARTS = {
    "applet_trait": ("src", "specs", "proofs"), "boxed_applets": ("src", "specs"), "card_state": ("src", "specs", "proofs"), "layout_section": ("proofs",),
    "toolkit_commands": ("src", "specs"), "uicc_program": ("proofs",), "uicc_run": ("specs",), "uicc_types": ("src", "specs"), "unit_trials": ("src", "data"),
    "run_cases": ("data",), "card_model": ("proofs",),
}


def files_of(folder):
    """The files of a folder, with what they hold."""
    found = {}
    for place, _, names in os.walk(folder):
        for name in names:
            with open(os.path.join(place, name), encoding="utf-8") as text:
                found[os.path.relpath(os.path.join(place, name), folder)] = text.read()
    return found


class Copy(unittest.TestCase):
    def setUp(self):
        self.folder = self.enterContext(tempfile.TemporaryDirectory(prefix="uicc-applet-"))
        self.crates = os.path.join(self.folder, "crates")
        for crate, parts in PARTS.items():
            for part in parts:
                shutil.copytree(os.path.join(CRATES, crate, part), os.path.join(self.crates, crate, part))
        shutil.copy(os.path.join(CRATES, "unit_trials", "stdout"), os.path.join(self.crates, "unit_trials"))
        shutil.copy(os.path.join(process.TOP, "crates.txt"), self.folder)
        self.before = files_of(self.crates)

    def text_of(self, *place):
        with open(os.path.join(self.crates, *place), encoding="utf-8") as text:
            return text.read()

    def changed(self):
        now = files_of(self.crates)
        return {path for path in now if now[path] != self.before.get(path)}

    def change(self, old, new, *place):
        text = self.text_of(*place)
        self.assertIn(old, text)
        with open(os.path.join(self.crates, *place), "w", encoding="utf-8") as out:
            out.write(text.replace(old, new))


class New(Copy):
    def test_two_kinds(self):
        """Each new kind is the last one, has a shelf of its own, and does nothing yet; all places that name the kinds have it."""
        for number, (name, kind, file, shelf) in enumerate((("parrot", "Parrot", "parrots", 31), ("night_owl", "NightOwl", "night_owls", 30)), 8):
            with self.subTest(name=name):
                made = new_kind.Kind(self.crates, name, "says again what is typed")
                new, changed = new_kind.write(made)
                self.assertEqual((made.number, made.shelf), (number, shelf))
                self.assertEqual(new, [f"crates/boxed_applets/src/{file}.rt", f"crates/boxed_applets/specs/{kind}s.antt"])
                self.assertEqual(len(changed), 15)
                data = kinds.of_sources(self.crates)
                self.assertEqual((data["kinds"][-1]["name"], data["shelves"][shelf], data["shelves"].count(number)), (name, number, 1))
                self.assertEqual(data["shelves"][:30], kinds.of_file()["shelves"][:30])
                differing, count = applet_rows.differing(kinds.Kinds(data), self.text_of("unit_trials", "data", "applets.table"))
                self.assertEqual(differing, [])
                whole = int(re.search(r"\d+", self.text_of("unit_trials", "stdout"))[0])
                self.assertEqual(whole - int(re.search(r"\d+", self.before["unit_trials/stdout"])[0]), 5 * (number - 7))
                self.assertIn(f"applet {name} - => kind {number}\n", self.text_of("unit_trials", "data", "applets.table"))
                self.assertGreater(count, 290)
        self.assertEqual({path for path in self.changed() if path in self.before}, {place.removeprefix("crates/") for place in changed})
        self.judge_places()

    def judge_places(self):
        casts, serve = self.text_of("boxed_applets", "src", "casts.rt"), self.text_of("uicc_program", "proofs", "serve", "Answers.antt")
        arms = re.findall(r"^            (\w+) => \$crate::in_box!\(\$alloc, \$crate::(\w+)::new", casts, re.MULTILINE)
        self.assertEqual([arm for arm, _ in arms], [*"12345678", "_"])
        self.assertEqual([kind for _, kind in arms][-3:], ["Table", "Parrot", "NightOwl"])
        self.assertEqual(len(re.findall(r"^  \| in", serve, re.MULTILINE)), 9)
        named = re.search(r"serve\.Goals\.\{(.*)\}", serve)[1].split(", ")
        self.assertEqual(named, re.findall(r"^  \| (in\S+) w ↦", serve, re.MULTILINE))
        self.assertIn("in_default+in_Continue-boxed_applet-boxed_applet-9+in_ok-put_on_shelf-9 w ↦ rw w.cast-is (w.in_ok-put_on_shelf-9.ensures.made, "
                      "w.in_ok-put_on_shelf-9.ensures.next)\n", serve)
        self.assertIn("LAST_KIND: u8 = 9;", self.text_of("card_state", "src", "sizes.rt"))
        self.assertIn("      ≡ 9 ∷ 0x0F", self.text_of("uicc_run", "specs", "StandardNumbers.antt"))
        self.assertIn("(if kind == 9 then night_owl mind stimulus\n    else done mind))))))))\n", self.text_of("applet_trait", "specs", "Turns.antt"))
        lawful = self.text_of("applet_trait", "proofs", "IsLawfulLemmas.antt")
        self.assertIn("(either _ (night_owl_lawful mind stimulus none) (lawful_done mind none)))))))))\n", lawful)
        for text in (lawful, self.text_of("applet_trait", "proofs", "IsProperActLemmas.antt"), self.text_of("applet_trait", "specs", "Turns.antt")):
            clauses = re.findall(r"^by_kind.*?\n\n", text, re.MULTILINE | re.DOTALL)
            self.assertTrue(clauses and all(each.count("(") == each.count(")") for each in clauses), clauses)
        modules = re.findall(r"^mod (\w+);", self.text_of("boxed_applets", "src", "lib.rt"), re.MULTILINE)
        self.assertEqual(modules, sorted(modules))
        self.assertIn("night_owls", modules)

    # a name and what it does, and why there can be no such kind
    REFUSED = [
        ("Parrot", "x", "lower-case letters"), ("2x", "x", "lower-case letters"), ("a__b", "x", "lower-case letters"), ("", "x", "lower-case letters"), ("menu", "x", "`menu` is a name"),
        ("done", "x", "`done` is a name"), ("fn", "x", "`fn` is a name"), ("map", "x", "`map` is a name"), ("state", "x", "is a name"), ("cast", "x", "`casts` is a name"),
        ("act", "x", "`act` is a name"), ("parrot", "Says", "a few words"), ("parrot", "says\nagain", "a few words"), ("parrot", "says. More", "a few words"),
        ("parrot", "s" * 70, "a few words"), ("parrot", "*/ x", "a few words"),
    ]

    def test_refused(self):
        for name, does, said in self.REFUSED:
            with self.subTest(name=name, does=does), self.assertRaisesRegex(new_kind.Refused, said):
                new_kind.Kind(self.crates, name, does)
        self.assertEqual(self.changed(), set())

    def test_no_shelf(self):
        made = new_kind.Kind(self.crates, "parrot", "says")
        made.shelf = 0
        with self.assertRaisesRegex(new_kind.Refused, "no shelf is left"):
            made.refuse("parrot", "says")

    # what stands otherwise in the sources, and what is said of it
    OTHERWISE = [
        (("boxed_applets", "src", "casts.rt"), "_ => $crate::in_box!", "_  => $crate::in_box!", "casts.rt has nothing like"),
        (("uicc_program", "proofs", "serve", "Answers.antt"), "  | in_default", "  |  in_default", "Answers.antt has nothing like"),
        (("unit_trials", "src", "applets.rt"), '"table" => Some(Kind::Table),', '"tables" => Kind::Table,', "applets.rt has .* 0 times"),
        (("applet_trait", "proofs", "IsLawfulLemmas.antt"), "by_kind_lawful : ", "by_kind_lawfully : ", "IsLawfulLemmas.antt has .* 0 times"),
    ]

    def test_all_or_nothing(self):
        """Where one place is in another form nothing is written."""
        for place, old, new, said in self.OTHERWISE:
            self.change(old, new, *place)
            with self.subTest(place=place), self.assertRaisesRegex(new_kind.Refused, said):
                new_kind.write(new_kind.Kind(self.crates, "parrot", "says"))
            self.assertEqual(self.changed(), {os.path.join(*place)})
            self.change(new, old, *place)

    def test_formatted(self):
        """Long lists of names are laid out as rt fmt does."""
        wanted = "use boxed_applets::{\n    " + ", ".join(f"Kind{number}" for number in range(10, 22)) + ",\n    Kind22, Kind23, Menu, boxed_applet,\n};"
        found = new_kind.imported(", ".join([*(f"Kind{number}" for number in range(10, 24)), "boxed_applet"]), "Menu")
        self.assertEqual(found, wanted)


class Texts(Copy):
    def test_new(self):
        places, old = new_kind.put_text(self.crates, "SAY", "Say?")
        self.assertEqual((len(places), old), (3, None))
        self.assertTrue(self.text_of("applet_trait", "src", "texts.rt").endswith('\n\npub const SAY: &[u8] = b"Say?";\n'))
        self.assertIn("ASK_FOR_NOTE, SAY}\n", self.text_of("applet_trait", "specs", "Tables.antt"))
        numbers = self.text_of("uicc_run", "specs", "StandardNumbers.antt")
        self.assertIn(" ∷ text.SAY.now ∷ []\n", numbers)
        self.assertIn(" ∷ (0x53 ∷ 0x61 ∷ 0x79 ∷ 0x3F ∷ []) ∷ []\n", numbers)

    def test_another(self):
        """Another text stands in each place, and who shows the old one is told."""
        places, old = new_kind.put_text(self.crates, "TICK", "Tock")
        self.assertEqual(old, "Tick")
        self.assertEqual(len(places), 4)
        for place in places:
            self.assertNotIn('"Tick"', self.text_of(*place.split("/")[1:]))
        self.assertNotIn("0x54 ∷ 0x69 ∷ 0x63 ∷ 0x6B", self.text_of("uicc_run", "specs", "StandardNumbers.antt"))
        data = kinds.of_sources(self.crates)
        known = kinds.Kinds(data)
        does, _ = known.turn(known.fresh(2, b""), new_kind_event(0x44, (1,)))
        self.assertEqual(applet_rows.act_shown(does), 'send display text "Tock"')
        self.assertEqual(dict(new_kind.places_with(self.crates, "Tick"))["crates/unit_trials/data/applets.table"], 6)
        self.assertIn("crates/card_model/proofs/worked/Toolkit.antt", dict(new_kind.places_with(self.crates, "Hi")))

    def test_who_shows_it(self):
        """What programs print, examples and documents are among those who show a text, by whatever crates they stand on the applets."""
        os.makedirs(os.path.join(self.crates, "uicc_program"), exist_ok=True)
        shutil.copy(os.path.join(CRATES, "uicc_program", "stdout"), os.path.join(self.crates, "uicc_program"))
        for folder in ("examples", "docs"):
            shutil.copytree(os.path.join(process.TOP, folder), os.path.join(self.folder, folder), ignore=shutil.ignore_patterns("__pycache__"))
        found = dict(new_kind.places_with(self.crates, "Moved"))
        self.assertEqual((found["crates/uicc_program/stdout"], found["examples/day.trace"], found["docs/HANDSET.md"]), (2, 2, 1))
        self.assertIn("docs/APPLETS.md", found)
        self.assertNotIn("crates/applet_trait/src/texts.rt", found)

    # a line, and whether it shows the text Moved
    LINES = [("* text Moved", True), ("* text Moved on", False), ("< D0118103012180820281028D06044D6F766564", True), ("shows \"Moved\"", True), ("`Moved`", True),
             ("Moved on", False), ("* idle Moved", True), ("D0128103012400820281828F06014D6F766564", True), ("85054D6F766564", True), ("4D6F766564", False),
             ("0x4D ∷ 0x6F ∷ 0x76 ∷ 0x65 ∷ 0x64", True)]

    def test_showing(self):
        for line, wanted in self.LINES:
            with self.subTest(line=line):
                self.assertEqual(bool(new_kind.showing("Moved").search(line)), wanted)

    # a name, a text, and why there can be no such one
    REFUSED = [("say", "Say?", "capital letters"), ("SAY", "", "1 to 239 characters"), ("SAY", 'a"b', "1 to 239 characters"), ("SAY", "é", "and `é` is none"),
               ("SAY", "x" * 240, "1 to 239 characters .* and not 240"), ("MINUTES", "x", "the name of a number"),
               ("CHOICE_TITLE", "far too long", "CHOICE_TITLE has 12 characters, and the title of a list has room for 10"),
               ("TEXT_ITEM", "far too long", "an entry of a list has room for 10"), ("ASK_FOR_NOTE", "x" * 236, "GET INPUT has room for 235")]

    def test_refused(self):
        for name, text, said in self.REFUSED:
            with self.subTest(name=name, text=text), self.assertRaisesRegex(new_kind.Refused, said):
                new_kind.put_text(self.crates, name, text)
        self.assertEqual(self.changed(), set())


    def test_too_long_for_its_use(self):
        """A text that the definition comes to use where there is less room is told with the line."""
        new_kind.put_text(self.crates, "SAY", "far too long")
        self.change("GENERAL_BEEP)) 2\n    else done mind)", "GENERAL_BEEP)) 2\n    else turn mind (Send (SelectItem SAY.now [])) 2)",
                    "applet_trait", "specs", "Tables.antt")
        (path, line, why), = kind_faults.findings(self.crates)
        self.assertEqual(why, "item_chosen: SAY has 12 characters, and the title of a list has room for 10")
        self.assertIn("SelectItem SAY.now", self.text_of("applet_trait", "specs", "Tables.antt").split("\n")[line - 1])

    def test_the_longest(self):
        for name, count in (("TICK", 239), ("ASK_FOR_NOTE", 235), ("CHOICE_TITLE", 10)):
            new_kind.put_text(self.crates, name, "x" * count)
            self.assertEqual(kind_faults.findings(self.crates), [])


def new_kind_event(code, body):
    return kinds.evaluation.Made("Event", (code, body))


class Words(Copy):
    def told(self, *words, out_of_date=False):
        """The status, the lines and what is said on standard error; that the list of kinds is older than the sources stands among the lines only
        where that is asked for."""
        out, said = io.StringIO(), io.StringIO()
        place = os.path.join(self.folder, "kinds.json")
        if not os.path.exists(place):
            shutil.copy(kinds.PLACE, place)
        with mock.patch.object(applet, "CRATES", self.crates), mock.patch.object(kinds, "PLACE", place), mock.patch.object(process, "TOP", self.folder), \
                mock.patch.object(sys, "argv", ["applet", *words]), contextlib.redirect_stdout(out), contextlib.redirect_stderr(said):
            status = applet.main()
        shown = out.getvalue().splitlines()
        return status, [line for line in shown if out_of_date or not line.startswith("kinds.json has other definitions")], said.getvalue()

    def test_words(self):
        status, shown, _ = self.told("new", "parrot", "--does", "says again what is typed")
        self.assertEqual((status, shown[0]), (0, "kind 8, parrot, on shelf 31, where a watcher stood"))
        self.assertIn("new: crates/boxed_applets/src/parrots.rt", shown)
        self.assertIn("kinds.json: written", shown)
        self.assertTrue(all(os.path.exists(os.path.join(self.folder, line.split(": ")[1])) for line in shown if line.startswith(("new: ", "changed: "))))
        self.assertEqual(self.told("write")[1], ["kinds.json: as it is"])
        status, shown, _ = self.told("rows")
        self.assertEqual((status, shown), (0, ["356 rows, 0 differ"]))
        self.change("parrot mind _ = done mind", "parrot mind _ = turn mind TakeTimer 1", "applet_trait", "specs", "Tables.antt")
        status, shown, _ = self.told("rows")
        self.assertEqual((status, shown[-1]), (1, "356 rows, 5 differ"))
        self.assertRegex(shown[1], r"^    by the definitions take timer \(of the applet parrot, line \d+\)$")
        status, _, said = self.told("new", "parrot")
        self.assertEqual((status, said), (2, "applet: `parrot` is a name of the sources already\n"))
        status, shown, _ = self.told("text", "GREETING", "Moin")
        self.assertEqual((status, shown[0]), (0, "the text GREETING is `Moin`, and was `Hi`"))

    # what stands in the table of a new kind, and what `rows` says of it beside the rows; {at} is its first line
    TOLD = [
        ("parrot mind _ = turn mind (show (SAID.now ++ mind.kept)) 1", [
            "crates/applet_trait/specs/Tables.antt:{at}: parrot uses `++`, which the file neither defines nor imports",
            "crates/applet_trait/specs/Tables.antt:{at}: parrot uses `SAID`, which the file neither defines nor imports"]),
        ("parrot mind _ =\n    turn mind (Send (GetInput GREETING.now true 0)) 1",
         ["crates/applet_trait/specs/Tables.antt:{next}: parrot: GetInput stands with 3 parts, and has 4"]),
        ("parrot mind _ = turn mind (show mind.kept 1",
         ["crates/applet_trait/specs/Tables.antt:{at}: the definition of parrot isn't read: it ends where `)` has to stand"]),
        ("parrot mind _ = if in_phase 0 mind then done mind",
         ["crates/applet_trait/specs/Tables.antt:{at}: the definition of parrot isn't read: it ends where `else` has to stand"]),
        ("parrot mind _ = turn mind (show (mind.kept ++ 3)) 1",
         ["crates/applet_trait/specs/Tables.antt:{at}: parrot uses `++`, which the file neither defines nor imports"]),
    ]

    def test_what_the_prover_would_not_take(self):
        """A name that isn't there, an act that lacks a part and a bracket that is missing are told once, with their line, and the rows go on."""
        self.told("new", "parrot")
        old, place = "parrot mind _ = done mind", ("applet_trait", "specs", "Tables.antt")
        at = self.text_of(*place).split(old)[0].count("\n") + 1
        for new, wanted in self.TOLD:
            self.change(old, new, *place)
            with self.subTest(new=new):
                status, shown, said = self.told("rows")
                self.assertEqual((status, said), (1, ""))
                self.assertEqual([line for line in shown if line.startswith("crates/applet_trait")], [line.format(at=at, next=at + 1) for line in wanted])
                unknown = [line for line in shown if "not known: " in line]
                self.assertEqual(len(unknown), 1)
                self.assertEqual(shown[-1], "356 rows, 3 differ, 2 not tried")
            self.change(new, old, *place)
        self.assertEqual(self.told("rows")[:2], (0, ["356 rows, 0 differ"]))

    def test_a_stimulus_that_lacks_a_part(self):
        self.told("new", "parrot")
        old, place = "parrot mind _ = done mind", ("applet_trait", "specs", "Tables.antt")
        at = self.text_of(*place).split(old)[0].count("\n") + 1
        self.change(old, f"parrot mind (Event code) = done mind\n{old}", *place)
        self.assertIn(f"crates/applet_trait/specs/Tables.antt:{at}: parrot: Event stands with one part, and has 2, code and body", self.told("rows")[1])

    def test_a_head_of_another_name(self):
        """The line is that of the one that is meant."""
        self.told("new", "parrot")
        place = ("applet_trait", "specs", "Tables.antt")
        at = self.text_of(*place).split("abbrev pub parrot :")[0].count("\n") + 1
        self.change("abbrev pub parrot :", "abbrev pub parot :", *place)
        said = f"Tables.antt:{at}: the definition of parrot isn't read: no `abbrev` of parrot stands in Tables.antt: is it called `parot` there?"
        self.assertIn(said, "\n".join(self.told("rows")[1]))

    def test_articles(self):
        self.assertEqual([new_kind.with_article(name) for name in ("alarm", "reminder")], ["an alarm", "a reminder"])

    # the same, where each row comes to what it says by the definitions
    UNSEEN = [
        ("parrot mind (Event code []) = done mind\nparrot mind (Response 3 item text) = turn mind (Send (GetInkey GREETING)) 1\nparrot mind Went = done mind\n"
         "parrot mind (Response result item text) = turn mind (show GREETING.now) MINUTES.now",
         ["{at}: parrot: no clause is of the case `parrot _ Refused`", "{next}: parrot: GREETING is a text of the code, whose characters are GREETING.now",
          "{last}: parrot: MINUTES is a number of the code, and has no .now"]),
    ]

    def test_what_no_row_shows(self):
        """A case that no clause is of, a text without its letters and a number with some are told also where no row comes to them."""
        self.told("new", "parrot")
        old, place = "parrot mind _ = done mind", ("applet_trait", "specs", "Tables.antt")
        at = self.text_of(*place).split(old)[0].count("\n") + 1
        for new, wanted in self.UNSEEN:
            self.change(old, new, *place)
            status, shown, _ = self.told("rows")
            self.assertEqual(status, 1)
            told = [line.removeprefix("crates/applet_trait/specs/Tables.antt:") for line in shown if line.startswith("crates/applet_trait")]
            self.assertEqual(told, [line.format(at=at - 1, next=at + 1, last=at + 3) for line in wanted])
            self.change(new, old, *place)

    # clauses of a definition, and a case that none of them is of
    CASES = [
        (["f [] = 1", "f (a ∷ b) = 2"], None), (["f [] = 1"], ["(_ ∷ _)"]), (["f (a ∷ []) = 1", "f [] = 2"], ["(_ ∷ (_ ∷ _))"]), (["f 0 = 1"], ["_"]),
        (["f 0 = 1", "f n = 2"], None), (["f true 1 = 1", "f false n = 2"], ["true", "_"]), (["f (Some (a, [])) = 1", "f None = 2"], ["(Some (_, (_ ∷ _)))"]),
        (["f (Event c b) = 1", "f (Response r i t) = 1", "f Went = 1", "f Refused = 1"], ["(Timer _)"]), (["f = 1"], None),
        (["f m (Event c b) = 1", "f m _ = 2"], None), (["f (Other a) = 1"], None),
    ]

    def test_cases(self):
        for texts, wanted in self.CASES:
            with self.subTest(texts=texts):
                self.assertEqual(kind_faults.uncovered([antt.clause(text)[0] for text in texts]), wanted)

    def test_numbers_of_a_kind(self):
        """Another number of the kind in the code or in its mind, and a phase with a number to which no turn leads, are told."""
        self.told("new", "parrot")
        folder = "crates/boxed_applets/"
        for (place, old, new), wanted in (
                (("specs/Parrots.antt", "mind_of 8", "mind_of 7"), "specs/Parrots.antt:14: parrot is kind 8, and not 7"),
                (("src/parrots.rt", "    fn kind(&self) -> u8 {\n        8\n", "    fn kind(&self) -> u8 {\n        9\n"),
                 "src/parrots.rt:40: parrot is kind 8, and not 9"),
                (("src/parrots.rt", "fresh 8", "fresh 6"), "src/parrots.rt:25: parrot is kind 8, and not 6")):
            self.change(old, new, "boxed_applets", place)
            with self.subTest(new=new):
                self.assertEqual(self.told("rows")[:2], (1, [folder + wanted, "356 rows, 0 differ"]))
            self.change(new, old, "boxed_applets", place)
        self.change("    Ready,\n", "    Ready,\n    /// It asked.\n    Asking,\n", "boxed_applets", "src", "parrots.rt")
        self.change("phase_of Ready = 0\n", "phase_of Ready = 0\nphase_of Asking = 2\n", "boxed_applets", "specs", "Parrots.antt")
        self.change("TheVariants.{Ready}", "TheVariants.{Ready, Asking}", "boxed_applets", "specs", "Parrots.antt")
        said = folder + "specs/Parrots.antt:10: phase_of gives Asking the number 2, to which no turn of parrot leads"
        self.assertEqual(self.told("rows")[:2], (1, [said, "356 rows, 0 differ"]))
        self.change("parrot mind _ = done mind", "parrot mind (Event 0x41 body) = turn mind (show GREETING.now) 2\nparrot mind _ = done mind",
                    "applet_trait", "specs", "Tables.antt")
        self.assertEqual(self.told("rows")[:2], (0, ["356 rows, 0 differ"]))

    # a row of the new kind in the place of a good one, and what is said of it
    NO_ROWS = [
        ("on event 43 00 => done", "on event 43 => done", "`event CODE BODY` lacks BODY, which is `-` where it is empty"),
        ("on event 43 00 => done", "on event 4Q 00 => done", "CODE is a byte in two hexadecimal digits, and not `4Q`"),
        ("on event 43 00 => done", "on event 43 0 => done", "`0` is no bytes: these are pairs of hexadecimal digits, a text in quotes, or `-` for none"),
        ("on event 43 00 => done", "on event 43 00 00 => done", "`event CODE BODY` has one part too many"),
        ("on event 43 00 => done", "on respond 00 0 - => done", "a stimulus is event, response, timer, went, refused, and not `respond`"),
        ("on event 43 00 => done", "on response 00 0 1 => done", "`1` is no bytes: these are pairs of hexadecimal digits, a text in quotes, or `-` for none"),
        ("on event 43 00 => done", "on response 00 x - => done", "ITEM is a number from 0 to 255, and not `x`"),
        ("on event 43 00 => done", "in event 43 00 => done", "a row is applet, wake, on, boxed, shelf, and not `in`"),
        ('boxed parrot "AB" event 40 - =>', 'boxed parrot =>', "it is `boxed KIND KEPT STIMULUS`"),
        ("applet parrot - => kind 8", "applet parrt - => kind 8",
         "there is no kind parrt: greeter, menu, clock, watcher, barrier, notebook, table, parrot"),
        ("shelf 31 => kind 8", "shelf 32 => kind 8", "the shelf is a number from 0 to 31, and not `32`"),
    ]

    def test_what_is_not_a_row(self):
        """A line that isn't a row is told in words of rows, and those of its applet after it aren't tried."""
        self.told("new", "parrot")
        place, path = ("unit_trials", "data", "applets.table"), "crates/unit_trials/data/applets.table"
        good = self.text_of(*place)
        at = good.split("applet parrot - => kind 8")[0].count("\n") + 1
        for old, new, said in self.NO_ROWS:
            self.assertIn(old, good[good.index("applet parrot"):])
            with open(os.path.join(self.crates, *place), "w", encoding="utf-8") as out:
                out.write(good[:good.index("applet parrot")] + good[good.index("applet parrot"):].replace(old, new, 1))
            with self.subTest(new=new):
                status, shown, _ = self.told("rows")
                self.assertEqual((status, shown[1]), (1, f"    by the definitions not a row: {said}"))
                self.assertEqual(shown[0].partition(": ")[2], " => ".join(part.strip() for part in new.partition("=>")[::2]) if "done" in new or "kind" in new
                                 else shown[0].partition(": ")[2])
                lost = {"applet": 3, "on": 1}.get(new.split()[0], 0)
                line = at + (new.split()[0] == "on") * 2
                self.assertEqual(shown[2:-1], [f"{path}:{line + 1}: " + ("on event 40 - => done" if lost == 3 else "on response 00 0 - => done"),
                                               f"    not tried, after line {line}" + ("; the same in 2 more rows" if lost == 3 else "")] if lost else [])
                self.assertEqual(shown[-1], "356 rows, 1 differ" + (f", {lost} not tried" if lost else ""))

    def test_the_list_is_behind(self):
        """That the list of kinds has other definitions than the sources is told until it is written."""
        self.told("new", "parrot")
        self.change("parrot mind _ = done mind", "parrot mind Refused = done mind\nparrot mind _ = done mind", "applet_trait", "specs", "Tables.antt")
        status, shown, _ = self.told("rows", out_of_date=True)
        self.assertEqual((status, shown[0]), (0, "356 rows, 0 differ"))
        self.assertRegex(shown[1], r"^kinds\.json has other definitions, for the page and an installation: .* write$")
        self.told("write")
        self.assertEqual(self.told("rows", out_of_date=True)[1], ["356 rows, 0 differ"])

    def test_what_there_is_to_use(self):
        """The page names each function by which the code makes an act, as it stands in acts.rt, and each name of an act's definition."""
        with open(os.path.join(process.TOP, "docs", "APPLETS.md"), encoding="utf-8") as page:
            table = page.read().partition("## What a definition and the code may use")[2].partition("\n## ")[0]
        with open(os.path.join(CRATES, "boxed_applets", "src", "acts.rt"), encoding="utf-8") as source:
            acts = re.findall(r"^pub fn (\w+)\(does: &mut Act((?:, \w+: [^,)]+)*)\)", source.read(), re.MULTILINE)
        called = [f"{name}({', '.join(['does', *found])})" for name, found in ((name, re.findall(r", (\w+):", parts)) for name, parts in acts)]
        self.assertEqual(sorted(called), sorted(re.findall(r"`((?!self)\w+\(does[^)]*\))`", table)))

    def test_phases_without_a_number(self):
        """A phase of the code that has no number, and one whose name isn't imported, are told; the rows know nothing of them."""
        self.told("new", "parrot")
        self.change("    Ready,\n", "    Ready,\n    /// It asked.\n    Asking,\n", "boxed_applets", "src", "parrots.rt")
        place = "crates/boxed_applets/specs/Parrots.antt:10: "
        shown = [place + "phase_of has no number for Asking, a phase of boxed_applets/src/parrots.rt", "356 rows, 0 differ"]
        self.assertEqual(self.told("rows")[:2], (1, shown))
        self.change("phase_of Ready = 0\n", "phase_of Ready = 0\nphase_of Asking = 1\n", "boxed_applets", "specs", "Parrots.antt")
        unreached = place + "phase_of gives Asking the number 1, to which no turn of parrot leads"
        shown[:1] = place + "phase_of uses `Asking`, which the file neither defines nor imports", unreached
        self.assertEqual(self.told("rows")[:2], (1, shown))
        self.change("parrot mind _ = done mind", "parrot mind (Event 0x41 body) = turn mind (show GREETING.now) 1\nparrot mind _ = done mind",
                    "applet_trait", "specs", "Tables.antt")
        del shown[1]
        self.assertEqual(self.told("rows")[:2], (1, shown))
        self.change("TheVariants.{Ready}", "TheVariants.{Ready, Asking}", "boxed_applets", "specs", "Parrots.antt")
        self.assertEqual(self.told("rows")[:2], (0, shown[1:]))
        self.change("phase_of Asking = 1", "phase_of Asking = 0", "boxed_applets", "specs", "Parrots.antt")
        self.assertEqual(self.told("rows")[:2], (1, [place + "phase_of gives Ready and Asking the same number, 0", *shown[1:]]))

    def test_a_file_that_is_missing(self):
        """The code of a kind without its mind, and its mind without the code, are told."""
        self.told("new", "parrot")
        for gone, said in (("specs/Parrots.antt", "crates/boxed_applets/src/parrots.rt:1: no file of boxed_applets/specs gives its phases numbers (phase_of)"),
                           ("src/parrots.rt", "crates/boxed_applets/specs/Parrots.antt:10: boxed_applets/src/parrots.rt, whose phases have numbers here, "
                                              "has no phases or isn't there")):
            path = os.path.join(self.crates, "boxed_applets", gone)
            os.rename(path, os.path.join(self.folder, "gone"))
            with self.subTest(gone=gone):
                self.assertEqual(self.told("rows")[:2], (1, [said, "356 rows, 0 differ"]))
            os.rename(os.path.join(self.folder, "gone"), path)

    def test_texts_in_digits(self):
        """A row that differs by the spelling of a text alone is told why."""
        table = ("unit_trials", "data", "applets.table")
        self.told("text", "GREETING", "How much?")
        self.change('shelf 0 400300 event 40 - => kind 1, send display text "Hi"', 'shelf 0 400300 event 40 - => kind 1, send display text "How much?"', *table)
        _, shown, _ = self.told("rows")
        at = next(number for number, line in enumerate(shown) if "shelf 0 400300 event 40" in line)
        self.assertEqual(shown[at + 1], "    by the definitions kind 1, send display text 486F77206D7563683F")
        self.assertIn("none is a space, and otherwise in hexadecimal digits", shown[at + 2])
        self.assertEqual(len([line for line in shown if "hexadecimal" in line]), 1)

    def test_text_counts(self):
        _, shown, _ = self.told("text", "TICK", "Tock")
        places = [re.fullmatch(r"yours to look at: .*, where `Tick` is in (\d+) lines?", line) for line in shown]
        counts = [int(found[1]) for found in places if found]
        self.assertRegex(shown[-1], rf"^yours to look at: {sum(counts)} lines in {len(counts)} files?$")

    def test_help_names_the_call(self):
        for words, name in (([os.path.join(common.TOOLS, "applet")], "tools/applet"), ([os.path.join(process.TOP, "uicc"), "applet"], "uicc applet")):
            with self.subTest(name=name):
                done = subprocess.run([sys.executable, "-B", *words, "--help"], capture_output=True, text=True, check=True)
                self.assertTrue(done.stdout.startswith(f"usage: {name} "), done.stdout[:60])

    def test_list(self):
        path = os.path.join(common.TOOLS, "applet")
        done = subprocess.run([sys.executable, "-B", path, "list"], capture_output=True, text=True, check=True)
        lines = done.stdout.splitlines()
        self.assertEqual(len(lines), len(kinds.of_file()["kinds"]))
        self.assertRegex(lines[0], r"^1  greeter +greets +shelves 0, 7, 14, 21, 28$")

    def test_without_sources(self):
        shutil.rmtree(self.crates)
        status, _, said = self.told("new", "parrot")
        self.assertEqual(status, 2)
        self.assertIn("the sources are not here", said)


if __name__ == "__main__":
    unittest.main()
