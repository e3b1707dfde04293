"""The command `uicc`: the simulated smart card of a mobile telephone, with its tools as words.

    uicc play [--store STORE] [--image FILE] < SCRIPT
    uicc WORD ..
    uicc WORD --help
    uicc --draft WORD ..
    uicc --version

play, open, phone, load and bip run the program with these words; `uicc_run --help` has them, the lines of a script, and how a
run ends. With --draft a program of the sources as they stand is run, of which nothing is proved, by the tools too; it is built where a
source changed, and wants a clone. Each other word is a tool:

{tools}

{page}

Ends as the program or the tool does, and with 2 where there is no such word, or what is to be run isn't there."""
import difflib
import os
import pathlib
import runpy
import subprocess
import sys
import webbrowser

from . import __version__, image, lint, process, terminal

PROGRAM_WORDS = ("play", "open", "phone", "load", "bip")
OWN_WORDS = ("page",)
TOOLS = os.path.join(process.TOP, "tools")
SUMMARY = '"""'
WRONG = 2


def tools():
    """The tools that are here, in order: files of Python with no ending, which say in their first lines what they do."""
    names = os.listdir(TOOLS) if os.path.isdir(TOOLS) else []
    return sorted(name for name in names if "." not in name and os.path.isfile(os.path.join(TOOLS, name)))


def summary_of(tool):
    """What a tool does, in a line: the first one of its text."""
    with open(os.path.join(TOOLS, tool), encoding="utf-8") as text:
        return next((line.removeprefix(SUMMARY).strip() for line in text if line.startswith(SUMMARY)), "")


def page_of(summaries):
    """The page of help with these tools, each with what it does in a line."""
    width = max(map(len, [*summaries, *OWN_WORDS]))
    listed = "\n".join(f"    {tool:<{width}}  {summary}" for tool, summary in summaries.items())
    return __doc__.format(tools=listed, page=f"    {'page':<{width}}  opens the page that runs the program in a browser; --path writes where it lies")


def help_page():
    return page_of({tool: summary_of(tool) for tool in tools()})


def version_page():
    """Which module this is, which program it runs, and of which versions scripts and images are."""
    lines = [f"uicc {__version__}"]
    try:
        lines.append(f"program: {process.told_of_program()}")
    except process.NotBuilt as fault:
        lines.append(f"program: none; {fault}")
    lines.append(f"formats: scripts {lint.LANGUAGE}, images of layouts {' and '.join(map(str, image.LAYOUTS))}")
    return "\n".join(lines)


def run_program(words):
    """The launcher runs the program, and says what mends a run that ended badly."""
    return subprocess.run([process.LAUNCHER, *words], check=False, env=os.environ | {"UICC_CALLED": "uicc"}).returncode


def run_tool(tool, words):
    terminal.CALLED = f"uicc {tool}"
    sys.argv = [terminal.CALLED, *words]
    path = os.path.join(TOOLS, tool)
    sys.path.insert(0, TOOLS)
    runpy.run_path(path, run_name="__main__")
    return 0


def open_page(words):
    if words not in ([], ["--path"]):
        return refused("usage: uicc page [--path]")
    path = process.page() or process.RELEASED_PAGE
    if not os.path.exists(path):
        return refused(f"the page isn't here: {path}")
    if words:
        print(path)
    elif not webbrowser.open(pathlib.Path(path).as_uri()):
        return refused(f"no browser could be started; the page is {path}")
    return 0


def refused(why):
    print(f"uicc: {why}", file=sys.stderr)
    return WRONG


def carried_out(words):
    word, rest = words[0], words[1:]
    if word in ("--help", "-h", "help"):
        return carried_out([rest[0], "--help"]) if rest else print(help_page()) or 0
    if word == "--draft":
        os.environ["UICC_RUN"] = process.DRAFT
        return carried_out(rest) if rest else run_program(["--draft"])
    if word == "--version":
        return print(version_page()) or 0
    if word in PROGRAM_WORDS:
        return run_program(["--help"] if rest in (["--help"], ["-h"]) else words)
    if word == "page":
        return open_page(rest)
    if word in tools():
        return run_tool(word, rest)
    near = difflib.get_close_matches(word, [*PROGRAM_WORDS, *OWN_WORDS, *tools()], 1)
    return refused(f"there is no word `{word}`" + (f"; is it `{near[0]}`?" if near else "") + " `uicc --help` has all of them")


def main():
    words = sys.argv[1:]
    if not words:
        print(help_page(), file=sys.stderr)
        return WRONG
    try:
        return terminal.ended(lambda: carried_out(words))
    except (OSError, process.NotBuilt) as fault:
        return refused(fault)
