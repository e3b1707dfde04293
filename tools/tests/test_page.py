"""tools/page: its modules become one script, and a module of LLVM one for another target."""
import json
import os
import shutil
import subprocess
import sys
import tempfile
import unittest

from common import TOOLS, load

sys.path.insert(0, os.path.join(TOOLS, "page"))
import bundle
import making
import test_contents
from uicc import contents, names


class Bundles(unittest.TestCase):
    # a module's text, and what becomes of it
    TABLE = [
        ("export const A = 1;\n", "const A = 1;", "return { A };"),
        ("export function f() {}\n", "function f() {}", "return { f };"),
        ("export async function g() {}\nexport class C {}\n", "async function g() {}\nclass C {}", "return { g, C };"),
        ('import { A, B } from "./other.js";\n', "const { A, B } = of_other;", "return {  };"),
        ("const exported = 1;\n", "const exported = 1;", "return {  };"),
    ]
    REFUSED = ["export default 1;\n", 'import x from "./other.js";\n', 'import "./other.js";\n', "export { a };\n"]

    def test_bodies(self):
        for text, code, answer in self.TABLE:
            with self.subTest(text=text):
                found = bundle.body("some", text)
                self.assertIn(code, found)
                self.assertIn(answer, found)
                self.assertTrue(found.startswith("const of_some = (() => {"))

    def test_refused(self):
        for text in self.REFUSED:
            with self.subTest(text=text), self.assertRaises(ValueError):
                bundle.body("some", text)

    def test_order(self):
        """Each module stands once, after those that it imports."""
        made = {
            "top": 'import { a } from "./left.js";\nimport { b } from "./right.js";\n',
            "left": 'import { c } from "./below.js";\nexport const a = c;\n',
            "right": 'import { c } from "./below.js";\nexport const b = c;\n',
            "below": "export const c = 1;\n",
        }
        text = bundle.bundle("top", made)
        places = [text.index(f"const of_{name} =") for name in ("below", "left", "right", "top")]
        self.assertEqual(places, sorted(places))
        self.assertEqual(text.count("const of_below ="), 1)

    def test_missing(self):
        """A name that isn't exported is refused."""
        made = {"top": 'import { a, b } from "./below.js";\n', "below": "export const a = 1;\nconst b = 2;\n"}
        with self.assertRaisesRegex(ValueError, "top.js imports b of below.js, which exports no such name"):
            bundle.bundle("top", made)

    def test_words(self):
        """What comes later is said to be after, and terms are those of the standard."""
        texts = {name: bundle.read(name.removesuffix(".js")) for name in os.listdir(bundle.SCRIPTS)}
        with open(os.path.join(TOOLS, "page", "page.html"), encoding="utf-8") as page:
            texts["page.html"] = page.read()
        for name, text in texts.items():
            for words in ("behind", "without an answer", "memory failed"):
                with self.subTest(name=name, words=words):
                    self.assertFalse(words in text.lower(), f"`{words}` stands in {name}")

    def test_page(self):
        """The page's own modules are of the forms that are understood."""
        made = {"tables": "export const tables = {};\n",
                "packed": "".join(f"export const {name} = 0;\n" for name in ("packedModule", "workerText", "examples", "madeFrom"))}
        self.assertIn("const of_page =", bundle.bundle("page", made))
        self.assertIn("const of_worker =", bundle.bundle("worker"))


OF_CONTENTS = """import { meaningOf } from "./contents.js";
const requests = JSON.parse(require("fs").readFileSync(0));
console.log(JSON.stringify(requests.map(([kind, bytes]) => meaningOf(kind, bytes))));
"""
# the kinds of content that the page decodes
OF_PAGE = ("iccid", "imsi", "plmns", "plmns-act", "dialling", "spn", "acc", "ad", "loci", "psloci", "languages", "application", "ecc", "sms", "smsp",
           "minutes6", "keys")


@unittest.skipUnless(shutil.which("node"), "node isn't here")
class Contents(unittest.TestCase):
    # what files hold, beside what test_contents has
    MORE = [("spn", "0341FFFF"), ("spn", "0041FFFF"), ("acc", "0200"), ("acc", "0808"), ("acc", "0000"), ("minutes6", "05"), ("minutes6", "00"),
            ("ecc", "11F0FF506F6C03"), ("ecc", "11F0FF506F6CFF"), ("ecc", "11F0FF00"),
            ("smsp", "5343FFFFE005919471F1FFFFFFFFFFFFFF0791947101670000FFFFFFFF0000A7"), ("smsp", "5343FFFFEFFFFFFFFFFFFFFFFFFFFFFFFFFFFFFFFFFFFFFFFFFFFFFFFF0B")]

    def test_the_page_says_what_the_tools_say(self):
        requests = [(kind, bytes.fromhex(digits)) for kind, digits, *_ in [*test_contents.Contents.DECODED, *self.MORE] if kind in OF_PAGE]
        script = bundle.bundle("top", {"tables": making.tables(), "top": OF_CONTENTS})
        with tempfile.NamedTemporaryFile("w", suffix=".js", encoding="utf-8") as text:
            text.write(script)
            text.flush()
            done = subprocess.run(["node", text.name], input=json.dumps([(kind, list(content)) for kind, content in requests]), capture_output=True,
                                  text=True, check=True)
        said = json.loads(done.stdout)
        self.assertGreater(len(said), 25)
        for (kind, content), found in zip(requests, said):
            with self.subTest(kind=kind, content=content.hex()):
                self.assertEqual(found, contents.decode(kind, content))


OF_COMMANDS = """import { Apdu, titleOf } from "./decode.js";
import { shownPath } from "./names.js";
const { commands, paths } = JSON.parse(require("fs").readFileSync(0));
console.log(JSON.stringify([commands.map((bytes) => titleOf(new Apdu(Uint8Array.from(bytes)))), paths.map((path) => shownPath(path, true))]));
"""


@unittest.skipUnless(shutil.which("node"), "node isn't here")
class Commands(unittest.TestCase):
    # a file of the MF without a name has the MF before it, also where cuts and the shell show it
    PATHS = {(): "3F00 MF", ("2FE2",): "2FE2 EF.ICCID", ("6F50",): "3F00/6F50", ("7F10", "6F99"): "7F10/6F99", ("7F20", "6F07"): "7F20/6F07 EF.IMSI"}

    def test_the_page_names_what_the_tools_name(self):
        """Commands, also bytes that are none, and files."""
        titles = test_contents.Commands.TITLES
        with tempfile.NamedTemporaryFile("w", suffix=".js", encoding="utf-8") as text:
            text.write(bundle.bundle("top", {"tables": making.tables(), "top": OF_COMMANDS}))
            text.flush()
            given = {"commands": [list(bytes.fromhex(digits)) for digits, _ in titles], "paths": [list(path) for path in self.PATHS]}
            done = subprocess.run(["node", text.name], input=json.dumps(given), capture_output=True, text=True, check=True)
        shown, paths = json.loads(done.stdout)
        self.assertEqual(dict(zip((digits for digits, _ in titles), shown)), dict(titles))
        self.assertEqual(paths, list(self.PATHS.values()))
        self.assertEqual([names.shown(path) for path in self.PATHS], list(self.PATHS.values()))


class Rewriting(unittest.TestCase):
    # lines of a module's text, before and after
    TABLE = [
        ('target datalayout = "e-m:e"', 'target datalayout = "of another"'),
        ('target triple = "x86_64-unknown-linux-gnu"', 'target triple = "wasm64-unknown-unknown"'),
        ('attributes #0 = { nounwind "probe-stack"="inline-asm" "target-cpu"="x86-64" }', "attributes #0 = { nounwind }"),
        ('attributes #1 = { "target-features"="+cx8,+sse" cold }', "attributes #1 = { cold }"),
        ('@text = constant [12 x i8] c"target-cpu\\22\\00"', '@text = constant [12 x i8] c"target-cpu\\22\\00"'),
    ]

    def test_lines(self):
        wasm_clang = load("page/wasm_clang")
        for before, after in self.TABLE:
            with self.subTest(before=before):
                self.assertEqual(wasm_clang.rewritten(before + "\n", 'target datalayout = "of another"'), after + "\n")


if __name__ == "__main__":
    unittest.main()
