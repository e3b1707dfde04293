"""What tools/definitions reads in sources, by tables."""
import contextlib
import io
import subprocess
import sys
import unittest
from unittest import mock

from common import TOOLS, load
from uicc import sources

definitions = load("definitions")


class Sources(unittest.TestCase):
    SPEC = """-- What a file is about.
use Rattle.one_crate.specs.Runs.{IsRun, IsLate as Late}

-- one line
-- and another
abbrev pub is_off : Bool
is_off = true

unfoldable pub bare : ℕ

-- ---- a part

pub record IsRun (a : ℕ) : Type 0 where
  pub given : ℕ

pub data Mode : Type 0 where
  Play : Mode

-- an operator
infixl 10 ◌>>=◌
abbrev pub ◌>>=◌ : ℕ

-- one of two
abbrev mutual
  pub record One : Type 0 where
    pub a : ℕ

  pub two : ℕ
""".splitlines()
    # name, kind, line, comment, what it stands in
    OF_SPEC = [
        ("is_off", "definition", 6, "one line and another", ""),
        ("bare", "definition", 9, "", ""),
        ("IsRun", "record", 13, "", ""), ("given", "field", 14, "", "IsRun"),
        ("Mode", "data", 16, "", ""), ("Play", "field", 17, "", "Mode"),
        ("◌>>=◌", "definition", 21, "an operator", ""),
        ("One", "record", 25, "one of two", ""), ("a", "field", 26, "", "One"), ("two", "definition", 28, "", ""),
    ]
    SOURCE = """/// How long a line is.
pub const LONGEST: usize = 600;

/// What ends.
#[derive(Drop)]
pub enum End {
    /// It ended.
    Finished,
    Bad(u64),
}

pub struct Plan {
    pub call: u32,
}

/// Runs.
pub fn run(x: u8) -> u8
    requires small { x < 9 }
    // Why.
    ensures trace { IsRun x }
    ensures { x ≡ x }
{
    x
}

/// Makes one.
#[macro_export]
macro_rules! made {
    ($x:expr) => {};
}
""".splitlines()
    OF_SOURCE = [
        ("LONGEST", "const", 2, "How long a line is.", ""),
        ("End", "enum", 6, "What ends.", ""), ("Finished", "variant", 8, "", "End"), ("Bad", "variant", 9, "", "End"),
        ("Plan", "struct", 12, "", ""), ("call", "field", 13, "", "Plan"),
        ("run", "fn", 17, "Runs.", ""), ("small", "clause", 18, "", "run"), ("trace", "clause", 20, "Why.", "run"),
        ("made", "macro_rules", 28, "Makes one.", ""),
    ]
    # a line that uses something: the name in the file, the crate, the module, the name there, whether it is handed on
    USED = [
        ("use Rattle.card_model.specs.Runs.{IsRun, armed as set}",
         [("IsRun", "card_model", "Runs", "IsRun", False), ("set", "card_model", "Runs", "armed", False)]),
        ("pub use Rattle.card_state.specs.Used.{HasNode}", [("HasNode", "card_state", "Used", "HasNode", True)]),
        ("ghost use Rattle.card_state.specs.declared.entries.Loaded.{Loaded};",
         [("Loaded", "card_state", "declared", "Loaded", False)]),
        ("use Rattle.card_state.specs as state", []),
        ("    ghost use Rattle.uicc_types.specs.declared.plans.TheConstants.Plan.{NONE};",
         [("NONE", "uicc_types", "declared", "NONE", False)]),
        ("ghost use Rattle.uicc_types.specs.declared.runs.Step.TheVariants as step;", []),
        ("use Rattle.std.specs.Prelude.{ℕ}", [("ℕ", "std", "Prelude", "ℕ", False)]),
        ("use crate::Writes;", []),
    ]
    # a path, lines, and each line that may cite something with its item and its clause
    PLACES = [
        ("crates/a/src/b.rt", SOURCE[16:21], [("run", ""), ("run", "small"), ("run", "trace"), ("run", "ensures")]),
        ("crates/a/specs/B.antt", SPEC[5:9], [("is_off", ""), ("is_off", ""), ("is_off", ""), ("bare", "")]),
    ]

    def test_declared(self):
        for found, wanted in ((sources.declared_by_spec("a", "crates/a/specs/B.antt", self.SPEC), self.OF_SPEC),
                              (sources.declared_by_source("a", "crates/a/src/b.rt", self.SOURCE), self.OF_SOURCE)):
            self.assertEqual([(one.name, one.kind, one.line, one.comment, one.inside) for one in found], wanted)

    def test_used(self):
        for line, wanted in self.USED:
            self.assertEqual(list(sources.used([line])), wanted)

    def test_places(self):
        for path, lines, wanted in self.PLACES:
            self.assertEqual([(item, clause) for _, item, clause in sources.places(path, lines)], wanted)

    def test_crates(self):
        self.assertEqual(sources.crates("# NAME: x\n\na:\nb: a memchr\n"), {"a": [], "b": ["a", "memchr"]})

    # a definition, and some of those that cite it: by its own module, by another name, and handed on by a module
    CITED = [
        (("card_model", "Runs", "IsRun"), ("crates/run_steps/specs/Views.antt", "IsRunOf", "")),
        (("script_reader", "Behind", "StopsReading"), ("crates/phone_runs/specs/Lines.antt", "PhoneEnds", "")),
        (("uicc_run", "Endings", "status_for"), ("crates/uicc_run/src/running.rt", "close", "status")),
        (("card_state", "Persistent", "Pin"), ("crates/card_model/specs/Answers.antt", "with_pins", "")),
        (("uicc_run", "Playing", "Reaches"), ("crates/uicc_run/specs/Playing.antt", "BreaksSo", "")),
        (("card_state", "Used", "HasNode"), ("crates/card_commits/src/entries.rt", "node_of", "there")),
        (("byte_streams", "Lines", "LineList"), ("crates/phone_runs/specs/Lines.antt", "AreServed", "")),
    ]

    # what stands with a definition, by its name
    TEXTS = {"is_off": ["-- one line", "-- and another", "abbrev pub is_off : Bool", "is_off = true"], "bare": ["unfoldable pub bare : ℕ"],
             "IsRun": ["pub record IsRun (a : ℕ) : Type 0 where", "  pub given : ℕ"], "◌>>=◌": ["abbrev pub ◌>>=◌ : ℕ"]}
    # definitions that a clause of a run or of the program reaches, and some that only other clauses and proofs cite
    REACHED = [("uicc_run", "Running", "RunsAsAsked"), ("card_model", "Answers", "answer"), ("handset_model", "Legal", "IsLegal"),
               ("boxed_applets", "Casts", "program_boxes")]
    OTHERS = [("uicc_run", "Making", "IsMade"), ("script_reader", "Behind", "GivesLine"), ("card_core", "Parts", "CardParts")]

    def test_text_of(self):
        named = {one.name: one for one in sources.declared_by_spec("a", "crates/a/specs/B.antt", self.SPEC)}
        with mock.patch.object(sources, "lines_of", return_value=self.SPEC):
            for name, wanted in self.TEXTS.items():
                self.assertEqual(sources.text_of(named[name]), wanted)

    def test_of_theorem(self):
        found = {(one.crate, one.home, one.name) for one in sources.of_theorem()}
        for one in self.REACHED:
            self.assertIn(one, found)
        for one in self.OTHERS:
            self.assertNotIn(one, found)

    def test_citations(self):
        cited = sources.citations()
        for key, place in self.CITED:
            self.assertIn(place, cited[key])


class Told(unittest.TestCase):
    # places of citations, and the lines that tell them
    CITING = [
        ([], []),
        ([("a.rt", "run", "trace"), ("a.rt", "run", "usage"), ("a.rt", "run", "trace"), ("b.antt", "Is", "")],
         ["    cited by a.rt: run (trace, usage)", "    cited by b.antt: Is"]),
    ]
    # the words, the status, and a part of what is printed
    RUNS = [
        (["card_laws"], 0, "tells_tries"),
        (["crates/card_laws/", "--word", "63CX"], 0, "crates/card_laws/specs/Guesses.antt:"),
        (["--word", "tells_tries", "--cited-by"], 0, "cited by crates/card_laws/specs/Guesses.antt: is_guess"),
        (["card_laws", "--word", "no such word"], 1, "nothing is found"),
        (["card_state", "file_model", "toolkit_model", "handset_model", "--theorem", "--bare"], 1, "nothing is found"),
        (["none"], 2, "there is no crate none"),
        ([], 2, "name a crate"),
    ]

    def test_citing(self):
        for places, lines in self.CITING:
            self.assertEqual(list(definitions.citing(places)), lines)

    # of the definitions above, those without a comment directly above
    BARE = ["bare", "IsRun", "Mode", "two"]

    def test_bare(self):
        found = [one for one in sources.declared_by_spec("a", "crates/a/specs/B.antt", Sources.SPEC) if one.kind in sources.CITED]
        self.assertEqual([one.name for one in found if definitions.is_wanted(one, [], None, True)], self.BARE)

    def test_runs(self):
        for words, status, part in self.RUNS:
            said = io.StringIO()
            with mock.patch.object(sys, "argv", ["definitions", *words]), contextlib.redirect_stdout(said), contextlib.redirect_stderr(said):
                try:
                    ended = definitions.main()
                except SystemExit as end:
                    ended = end.code
            self.assertEqual(ended, status, words)
            self.assertIn(part, said.getvalue())

    def test_closed_pipe(self):
        words = f"{sys.executable} -B {TOOLS}/definitions card_state | head -n 1"
        done = subprocess.run(["bash", "-c", words], stdout=subprocess.PIPE, stderr=subprocess.PIPE, text=True, check=False)
        self.assertEqual((done.stderr, done.stdout.count("\n")), ("", 1))


if __name__ == "__main__":
    unittest.main()
