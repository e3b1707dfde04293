"""Makes the page: the module of the proved program, and the one file that runs it in a browser."""
import base64
import gzip
import hashlib
import json
import os
import re
import shlex
import shutil
import subprocess
import sys

import bundle

HERE = os.path.dirname(os.path.abspath(__file__))
TOP = os.path.dirname(os.path.dirname(HERE))
CRATES = os.path.join(TOP, "crates")
DATA = os.path.join(TOP, "tools", "uicc", "data")
EXAMPLES = os.path.join(TOP, "examples")
PROGRAM = "uicc_program"
# the digits of a commit that are shown
SHORT = 12
STACK = 8 << 20
RELEASED = os.path.join(TOP, "dist", "uicc_run.html")
TABLES = ("alphabet", "commands", "files", "kinds", "status", "toolkit")
PACKED = re.compile(r'(?<=const packedModule = ")[^"]*')
GIVEN = "The module of this page was given and not built with it, so that nothing is known of its proof."
TAKEN = "The module of this page was taken from the released one, and the rest of it is what stood beside it."
HANDSET_WORDS = ("user ", "net ", "time ")


class Failed(Exception):
    pass


def read(*parts):
    with open(os.path.join(*parts), encoding="utf-8") as text:
        return text.read()


def said(*words):
    done = subprocess.run(words, cwd=TOP, stdout=subprocess.PIPE, stderr=subprocess.PIPE, text=True, errors="replace", check=False)
    if done.returncode:
        raise Failed(f"{words[0]} ended with {done.returncode}: {done.stderr.strip()}")
    return done.stdout.strip()


def told_by_rt(word):
    if not shutil.which("rt"):
        raise Failed("the Rattle toolchain (rt) is not on the PATH")
    return said("rt", word)


def kit():
    """The folder of the kit, in which the page to read first lies. The `rt` on the path may be a script that starts the kit's."""
    return os.path.dirname(told_by_rt("doc"))


# the module

def libraries():
    """What crates.txt says each crate stands on."""
    rows = (line.partition("#")[0].strip() for line in read(TOP, "crates.txt").splitlines())
    heads = (row.partition(":") for row in rows if row)
    return {head.split()[0]: uses.split() for head, _, uses in heads}


def below(name, uses):
    found = []
    for other in uses[name]:
        if other in uses:
            found += [each for each in [*below(other, uses), other] if each not in found]
    return found


def rlib_folder(name):
    return os.path.join(CRATES, name, "out", "rlib")


def build_words(kit_folder, toolchain, program):
    """The words of `rattle build` for the program, over what ./uicc_run --build left."""
    uses, rlibs = libraries(), os.path.join(kit_folder, "rlibs")
    words = ["--crate-name", PROGRAM, "src/main.rt", "--extern", f"std={rlibs}/std.rlib", "-L", f"dependency={rlibs}"]
    for name in uses[PROGRAM]:
        words += ["--extern", f"{name}=" + os.path.join(rlib_folder(name) if name in uses else rlibs, f"{name}.rlib")]
    for name in below(PROGRAM, uses):
        words += ["-L", f"dependency={rlib_folder(name)}"]
    # the first processor of the list: a program for another checks at its start that it runs on it
    return [*words, "--antt-project", os.path.join(kit_folder, "rattle", "logic", "antt-project.json"),
            "--logic-built", os.path.join(kit_folder, "logic_built"), "--cpu", "x86-64", "--backend", "llvm",
            "--incremental", "out/incremental", "--toolchain", toolchain, "-o", program]


def stand_in(kit_folder, folder):
    """A toolchain's folder with wasm_clang in the place of its clang."""
    real, programs = os.path.join(kit_folder, "toolchain"), os.path.join(folder, "bin")
    os.makedirs(programs)
    os.symlink(os.path.join(real, "lib"), os.path.join(folder, "lib"))
    for name in os.listdir(os.path.join(real, "bin")):
        if name != "clang":
            os.symlink(os.path.join(real, "bin", name), os.path.join(programs, name))
    clang = os.path.join(programs, "clang")
    words = [sys.executable, os.path.join(HERE, "wasm_clang"), os.path.join(real, "bin", "clang")]
    with open(clang, "w", encoding="utf-8") as text:
        text.write(f'#!/bin/sh\nexec {shlex.join(words)} "$@"\n')
    os.chmod(clang, 0o755)
    return folder


def ran(words, **how):
    done = subprocess.run(words, stdout=subprocess.PIPE, stderr=subprocess.STDOUT, text=True, errors="replace", **how)
    if done.returncode:
        raise Failed(f"{os.path.basename(words[0])} ended with {done.returncode}:\n" + done.stdout[-3000:])
    return done.stdout


def built_module(folder):
    """The bytes of the program's module."""
    kit_folder = kit()
    crate, real = os.path.join(CRATES, PROGRAM), os.path.join(kit_folder, "toolchain", "bin")
    if not os.path.exists(os.path.join(crate, "out", PROGRAM)):
        raise Failed(f"the program isn't built; type: {TOP}/uicc_run --build")
    clang = os.path.join(real, "clang")
    program, host, module = (os.path.join(folder, name) for name in ("program.o", "host.o", "module.wasm"))
    toolchain = stand_in(kit_folder, os.path.join(folder, "toolchain"))
    ran([os.path.join(kit_folder, "bin", "rattle"), "build", *build_words(kit_folder, toolchain, program)], cwd=crate)
    ran([clang, "--target=wasm64-unknown-unknown", "-mcpu=lime1", "-O2", "-Wall", "-Wextra", "-Werror", "-ffreestanding",
         "-c", os.path.join(HERE, "host.c"), "-o", host])
    ran([os.path.join(real, "ld.lld"), "-flavor", "wasm", "-mwasm64", "--no-entry", "--gc-sections", "--strip-all", "--stack-first",
         "-z", f"stack-size={STACK}", "-o", module, program, host])
    with open(module, "rb") as content:
        return content.read()


def module_in(page):
    """The module that the text of a page holds; None where it holds none."""
    found = PACKED.search(page)
    return gzip.decompress(base64.b64decode(found[0])) if found else None


def released_module():
    """The module of the released page."""
    module = module_in(read(RELEASED))
    if module is None:
        raise Failed(f"no module is in {RELEASED}")
    return module


# the page

def sources():
    """What the page is made of, but for the program and the kit: files, from the top of the repository on."""
    own = ["bundle.py", "host.c", "making.py", "page.css", "page.html", "wasm_clang"]
    found = [os.path.join(HERE, name) for name in own]
    found += [os.path.join(DATA, name + ".json") for name in TABLES]
    for folder, ending in ((bundle.SCRIPTS, ".js"), (EXAMPLES, ".script")):
        found += [os.path.join(folder, name) for name in os.listdir(folder) if name.endswith(ending)]
    return sorted(os.path.relpath(path, TOP) for path in found)


def mode_of(script):
    """How an example is played: its lines say for what they are."""
    lines = [line for line in script.splitlines() if line and not line.startswith("#")]
    if any(line.startswith("cmd ") for line in lines):
        return "bip"
    if lines[0] == "start":
        return "open"
    return "phone" if any(line.startswith(HANDSET_WORDS) for line in lines) else "play"


def examples():
    names = sorted(name.removesuffix(".script") for name in os.listdir(EXAMPLES) if name.endswith(".script"))
    scripts = ((name, read(EXAMPLES, name + ".script")) for name in names)
    # the page has no terminal with channels
    return [{"name": name, "mode": mode_of(script), "script": script} for name, script in scripts if mode_of(script) != "bip"]


def constant(name, value):
    return f"export const {name} = {json.dumps(value, ensure_ascii=False)};\n"


def in_page(text):
    """A script as it may stand in a page."""
    return text.replace("</script", "<\\/script").replace("<!--", "<\\!--")


def commit_here():
    changed = said("git", "status", "--porcelain", "--untracked-files=no")
    return said("git", "rev-parse", "HEAD")[:SHORT] + " with changes" * bool(changed)


def kit_name():
    return told_by_rt("version")


def size_of(module):
    return f"the module has {len(module):,} bytes, SHA-256 {hashlib.sha256(module).hexdigest()}."


def made_from(module, commit):
    return f"Made from commit {commit}, with {kit_name()}; {size_of(module)}"


def tables():
    return constant("tables", {name: json.loads(read(DATA, name + ".json")) for name in TABLES})


def page_of(module, told):
    """The text of a page over a module; `told` says what both were made from."""
    packed = base64.b64encode(gzip.compress(module, 9, mtime=0)).decode()
    made = {
        "tables": tables(),
        "packed": constant("packedModule", packed) + constant("workerText", bundle.bundle("worker"))
        + constant("examples", examples()) + constant("madeFrom", told),
    }
    page = read(HERE, "page.html").replace("/* STYLE */", read(HERE, "page.css"))
    return page.replace("/* SCRIPT */", in_page(bundle.bundle("page", made)))
