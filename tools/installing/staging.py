"""What an installation has, by the places of a clone: the Debian package and the wheel are both made of it.

In a clone a tool is called `tools/NAME`; where it is installed it is a word of the command `uicc`. So each text that is installed
calls it so."""
import os
import re

HERE = os.path.dirname(os.path.abspath(__file__))
TOOLS = os.path.dirname(HERE)
TOP = os.path.dirname(TOOLS)
# what has a use without the sources of the program
WORDS = ("applet", "capture", "cuts", "expect", "explain", "lint", "modem", "ofono", "profile", "reader", "sequence", "shell")
# what a tool starts as a process of its own
HELPERS = ("modemmanager_client.py", "ofono_client.py")
LAUNCHER, PROGRAM, PAGE, LIST = "uicc_run", "dist/uicc_program", "dist/uicc_run.html", "dist/release.txt"
# what tells of the sources alone
OF_SOURCES = ("docs/ARCHITECTURE.md", "docs/DECISIONS.md")
CALLED = re.compile(rf"(?<![\w./$])tools/(check|{'|'.join(WORDS)})(?![\w/]|\.\w)")
STARTED = re.compile(r"(?<![\w/$])\./uicc_run\b")
INTERPRETER = "#!/usr/bin/env python3\n"
VERSION = re.compile(r'^__version__ = "([0-9.]+)"$', re.MULTILINE)


class Missing(Exception):
    """Something that is to be installed isn't here."""


def read(path):
    try:
        with open(os.path.join(TOP, path), "rb") as content:
            return content.read()
    except FileNotFoundError:
        raise Missing(f"{path} isn't here") from None


def version():
    """The version of the module, which is that of all that is installed."""
    return VERSION.search(read("tools/uicc/__init__.py").decode())[1]


def as_installed(text):
    """A text with the tools called as they are installed."""
    return STARTED.sub("uicc_run", CALLED.sub(r"uicc \1", text))


def text_of(path, python=None):
    """A text file as it is installed; `python` is the interpreter that its first line names."""
    text = as_installed(read(path).decode())
    return (text.replace(INTERPRETER, f"#!{python}\n", 1) if python else text).encode()


def below(folder):
    """The files below a folder, in order, without what Python leaves there."""
    for place, folders, names in os.walk(os.path.join(TOP, folder)):
        folders[:] = sorted(name for name in folders if name != "__pycache__")
        yield from (os.path.relpath(os.path.join(place, name), TOP) for name in sorted(names))


def module():
    """The files of the module, by their places in it."""
    return {path.removeprefix("tools/"): text_of(path) if path.endswith(".py") else read(path) for path in below("tools/uicc")}


def tools(python=None):
    """The tools, by their names. What tries a clone is another one than what tries an installation."""
    found = {name: text_of(f"tools/{name}", python) for name in (*WORDS, *HELPERS)}
    return {**found, "check": text_of("tools/installing/check", python)}


def examples():
    return {path: read(path) for path in below("examples")}


def documents():
    """The documents, by their places, but for those that tell of the sources."""
    paths = ["README.md", "CHANGELOG.md", *(path for path in below("docs") if path not in OF_SOURCES)]
    return {path: text_of(path) for path in paths}


def is_program(content):
    """Whether a file is to be run: a program of Linux, or a text that names its interpreter."""
    return content.startswith((b"\x7fELF", b"#!"))
