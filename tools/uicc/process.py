"""The simulator as a process: a dialogue with it, a line at a time, and whole runs.

The environment's UICC_RUN names another program than the built or the released one of this repository; where it is `draft`, that is the
one of the sources as they stand (tools/draft)."""
import functools
import os
import subprocess
import sys
import tempfile
import threading

PACKAGE = os.path.dirname(os.path.abspath(__file__))
# what a clone has at its top stands beside an installed module, in a folder or a link of this name
TREE = os.path.join(PACKAGE, "tree")
TOP = os.path.realpath(TREE) if os.path.isdir(TREE) else os.path.dirname(os.path.dirname(PACKAGE))
LAUNCHER = os.path.join(TOP, "uicc_run")
BUILT = os.path.join(TOP, "crates", "uicc_program", "out", "uicc_program")
RELEASED = os.path.join(TOP, "dist", "uicc_program")
DRAFT = "draft"
BUILT_PAGE = os.path.join(TOP, "tools", "page", "out", "index.html")
RELEASED_PAGE = os.path.join(TOP, "dist", "uicc_run.html")

CUT = "! cut"
OFF = "! off"
RESET = "! reset"
LONGEST_COMMAND = 261
IN_MEMORY = "/dev/shm"
# the comments of a script may be in any encoding, so each byte is a letter; a letter that is no byte becomes `?`
ENCODING = "latin-1"

# what each status of the program says
STATUSES = {
    1: "the words of its command line are in no form",
    2: "a line of the script is wrong, or the script ended without a start",
    3: "the script could not be read on",
    4: "the trace could not be written on",
    5: "there was no memory to begin with",
    6: "memory problem, or the power was lost, before the card was open or in a reset; or the file of the image can't be had",
    7: "the memory holds no card that can be opened",
    8: "there is no room on the card for what a line describes",
}


class Ended(Exception):
    """The simulator ended; `line` is the last line that it wrote, `status` its exit status, `said` what it said on standard
    error."""

    def __init__(self, line, status, said=""):
        why = STATUSES.get(status, "by a signal" if status < 0 else "")
        parts = [f"uicc_run ended with status {status}", f" ({why})" * bool(why), f": {line or 'no last line'}",
                 "".join(f"; {text}" for text in said.splitlines())]
        super().__init__("".join(parts))
        self.line, self.status, self.said = line, status, said


class Closed(ValueError):
    """The simulator was closed, and takes no more commands."""

    def __init__(self):
        super().__init__("the card is closed, by `close` or at the end of its `with`: it takes no more commands")


class NotBuilt(Exception):
    """The launcher can run the source too, but only with a script that is whole: it holds no dialogue."""

    def __init__(self, why=f"the program isn't built, and no released one runs here; type: {LAUNCHER} --build"):
        super().__init__(why)


@functools.cache
def runs(path):
    """Whether a program can be started here, and takes the processor: the released one is for x86-64 Linux."""
    quiet = {"stdin": subprocess.DEVNULL, "stdout": subprocess.DEVNULL, "stderr": subprocess.DEVNULL}
    try:
        return subprocess.run([path, "--version"], check=False, **quiet).returncode == 0
    except OSError:
        return False


@functools.cache
def draft():
    """The program of the sources as they stand, with nothing proved, which is built where one of them changed."""
    tool = os.path.join(TOP, "tools", DRAFT)
    if not os.path.exists(tool):
        raise NotBuilt(f"UICC_RUN asks for a draft, and the sources are not here: {TOP}")
    made = subprocess.run([sys.executable, "-B", tool], stdin=subprocess.DEVNULL, stdout=subprocess.PIPE, text=True, check=False)
    if made.returncode:
        raise NotBuilt("the draft could not be built")
    print("uicc_run: the draft runs, which is of the sources as they stand: nothing of it is proved", file=sys.stderr, flush=True)
    return made.stdout.strip()


def program():
    """The program that is to be started: the one that the environment names, or else, as the launcher has it, the built one, or
    the released one."""
    named = os.environ.get("UICC_RUN")
    if named:
        return draft() if named == DRAFT else named
    if os.access(BUILT, os.X_OK):
        return BUILT
    if runs(RELEASED):
        return RELEASED
    raise NotBuilt


def told_of_program():
    """The program that is to be started, in words: where it lies, its version, and which one it is."""
    path = program()
    version = subprocess.run([path, "--version"], stdin=subprocess.DEVNULL, stdout=subprocess.PIPE, stderr=subprocess.DEVNULL, text=True,
                             check=False).stdout.strip()
    named = "a draft, of which nothing is proved" if os.environ.get("UICC_RUN") == DRAFT else "named by UICC_RUN"
    which = {BUILT: "built here", RELEASED: "the released one"}.get(path, named)
    return f"{path}, {version or 'of no version'}, {which}"


def page():
    """The page that is to be tried: the one that is built, or else the released one beside the released program; None where there
    is none."""
    if os.path.exists(BUILT_PAGE):
        return BUILT_PAGE
    return RELEASED_PAGE if program() == RELEASED and os.path.exists(RELEASED_PAGE) else None


class Simulator:
    """A card in a running uicc_run. `words` are those of its command line, `section` the lines before `start`.

    The simulator is in a session of its own, so that an interrupt at the keyboard ends it through `close` and not in the middle of
    a write; it ends by itself too where its standard input is closed. What it says on standard error is passed on as it comes, and
    kept for the fault that ends it."""

    def __init__(self, words, section=()):
        self.process = subprocess.Popen([program(), *words], stdin=subprocess.PIPE, stdout=subprocess.PIPE, stderr=subprocess.PIPE,
                                        encoding=ENCODING, errors="replace", bufsize=1, start_new_session=True)
        self._last, self._said, self._fault = "", [], None
        self._listener = threading.Thread(target=self._listen, daemon=True)
        self._listener.start()
        for line in section:
            self.say(line)
        self.say("start")

    def _listen(self):
        with self.process.stderr as text:
            for line in text:
                self._said.append(line)
                print(line, end="", file=sys.stderr, flush=True)

    def expect_on(self):
        """Closed, or Ended once more, where the simulator takes no more lines."""
        if self._fault:
            raise self._fault
        if self.process.stdin.closed:
            raise Closed()

    def say(self, line):
        self.expect_on()
        try:
            self.process.stdin.write(line + "\n")
            self.process.stdin.flush()
        except BrokenPipeError:
            self._end()

    def hear(self):
        line = self.process.stdout.readline().rstrip("\n")
        if not line:
            self._end()
        self._last = line
        return line

    def _end(self):
        try:
            self.process.stdin.close()
        except BrokenPipeError:
            pass
        rest = self.process.stdout.read().split("\n")
        status = self.process.wait()
        self._listener.join()
        self._fault = Ended(next((line for line in reversed(rest) if line), self._last), status, "".join(self._said))
        raise self._fault

    def exchange(self, command, word="apdu"):
        """The answer (data and status) to the bytes of a command, or of a TPDU (`tpdu`), up to the longest; None where power was lost
        or is off."""
        self.say(f"{word} {command.hex().upper()}")
        self._not_last(self.hear(), "> ")
        line = self.hear()
        if line in (CUT, OFF):
            return None
        self._not_last(line, "< ")
        return bytes.fromhex(line[2:])

    def reset(self):
        """True where the card is on again, False where power was lost in the reset."""
        self.say("reset")
        line = self.hear()
        self._not_last(line, "! ")
        return line == RESET

    def _not_last(self, line, beginning):
        """Ended, where the line is none of a dialogue: then it is the last line of the run."""
        if not line.startswith(beginning):
            self._end()

    def close(self):
        """Ends the simulator, and answers its status."""
        try:
            self.process.stdin.close()
        except BrokenPipeError:
            pass
        if not self.process.stdout.closed:
            self.process.stdout.read()
            self.process.stdout.close()
        status = self.process.wait()
        self._listener.join()
        return status


def lines_in(text):
    """The lines of a script's text, without their ends."""
    lines = [line.removesuffix("\r") for line in text.split("\n")]
    return lines[:-1] if lines[-1] == "" else lines


def lines_of(path):
    """The lines of a script in a file."""
    with open(path, encoding=ENCODING, newline="\n") as text:
        return lines_in(text.read())


def card_section(lines):
    """The lines of a script before its `start`, and those after it."""
    at = next((n for n, line in enumerate(lines) if line == "start"), len(lines))
    return lines[:at], lines[at + 1:]


def file_in_memory():
    return open(os.memfd_create("uicc_run"), "w+b") if hasattr(os, "memfd_create") else tempfile.TemporaryFile()


def folder_in_memory():
    """A folder for images that are gone with the run: in memory, where the system has such a place. On a disk each write of the card's
    memory is synced, for minutes in all."""
    return tempfile.TemporaryDirectory(prefix="uicc-image-", dir=IN_MEMORY if os.access(IN_MEMORY, os.W_OK) else None)


def played(words, text):
    """The trace of a script's text, as lines, the exit status, and what was said on standard error. They go through files and not
    through pipes, so that nothing is woken but when the run has ended."""
    with file_in_memory() as script, file_in_memory() as shown, file_in_memory() as said:
        script.write(text.encode(ENCODING, "replace"))
        script.seek(0)
        status = subprocess.run([program(), *words], stdin=script, stdout=shown, stderr=said, check=False).returncode
        shown.seek(0)
        said.seek(0)
        return shown.read().decode(ENCODING).splitlines(), status, said.read().decode(ENCODING)


def run(words, lines):
    """The trace of a whole script, as lines, and the exit status. What is said on standard error is passed on."""
    trace, status, said = played(words, "".join(line + "\n" for line in lines))
    print(said, end="", file=sys.stderr, flush=True)
    return trace, status
