"""The scripts that are stored: the examples, and the runs of the stored cases; and what a program leaves of one."""
import os
import subprocess

from . import cases, process

EXAMPLES = os.path.join(process.TOP, "examples")
CASES = os.path.join(process.TOP, "crates", "run_cases", "data")
RUNS = ("play", "phone", "open", "load")
OVER_NO_MEMORY = ("bip",)
OF_TERMINAL = (b"cmd ", b"net echo ", b"net drop ")
OF_HANDSET = (b"user ", b"net ", b"time ")


def read(path):
    with open(path, "rb") as content:
        return content.read()


def example(name):
    return read(os.path.join(EXAMPLES, name + ".script"))


def mode_of(script):
    """How an example is played: its lines say for what they are."""
    lines = [line for line in script.split(b"\n") if line and not line.startswith(b"#")]
    if any(line.startswith(OF_TERMINAL) for line in lines):
        return "bip"
    if lines[0] == b"start":
        return "open"
    return "phone" if any(line.startswith(OF_HANDSET) for line in lines) else "play"


def names_in(folder, ending):
    return sorted(name for name in os.listdir(folder) if name.endswith(ending)) if os.path.isdir(folder) else []


def runs(begun_by=RUNS):
    """The words and the script of each example and of each run of the stored cases that begins with one of these words; an image is
    named by who plays it."""
    scripts = [read(os.path.join(EXAMPLES, name)) for name in names_in(EXAMPLES, ".script")]
    found = [([mode_of(script)], script) for script in scripts]
    for name in names_in(CASES, ".cases"):
        for case in cases.read(read(os.path.join(CASES, name)).decode(process.ENCODING), name):
            found += [(run.words, run.script.encode(process.ENCODING)) for run in case.runs]
    return [(words, script) for words, script in found if words and words[0] in begun_by and "--image" not in words]


def left_by(program, words, script, image=b""):
    """The trace, the status and the image that a program leaves of a script."""
    with process.folder_in_memory() as folder:
        path = os.path.join(folder, "card.img")
        with open(path, "wb") as content:
            content.write(image)
        memory = [] if words[0] in OVER_NO_MEMORY else ["--image", path]
        done = subprocess.run([program, *words, *memory], input=script, stdout=subprocess.PIPE, stderr=subprocess.DEVNULL,
                              check=False)
        return done.stdout, done.returncode, read(path)
