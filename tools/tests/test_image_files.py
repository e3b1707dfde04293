"""What the program and the launcher say and do of the file of an image, and that one program at a time has it. Wants the built
program."""
import contextlib
import os
import shutil
import signal
import socket
import subprocess
import tempfile
import unittest

from common import TOOLS
from installing import manual
from uicc import NotBuilt, process

SCRIPT = "ef 2FE2 t 4 2 -\nstart\napdu 00D6820002AABB\n"
READ_BACK = "start\napdu 00B0820004\n"
SIZE = 65_536
NOBODY = 65_534
# a file system of 16 KB, which takes an image's beginning
FULL = 'mount -t tmpfs -o size=16k full "$1" && shift && exec "$@"'
UNSHARE = ("unshare", "--map-root-user", "--mount")


def is_built():
    try:
        return bool(process.program())
    except NotBuilt:
        return False


def has_namespaces():
    tried = shutil.which(UNSHARE[0]) and subprocess.run([*UNSHARE, "true"], stderr=subprocess.DEVNULL, check=False)
    return bool(tried) and tried.returncode == 0


def ended(words, text, seconds=60, **how):
    """The last line of the trace, the status, and what was said on standard error."""
    done = subprocess.run(words, input=text, capture_output=True, text=True, timeout=seconds, check=False, **how)
    return (done.stdout.splitlines() or [""])[-1], done.returncode, done.stderr


@unittest.skipUnless(is_built(), "the program isn't built")
class Images(unittest.TestCase):
    def setUp(self):
        folder = tempfile.TemporaryDirectory()
        self.addCleanup(folder.cleanup)
        self.folder, self.path = folder.name, os.path.join(folder.name, "card.img")

    def words(self, word, *more):
        return [process.program(), word, *more, "--image", self.path]

    def content(self):
        with open(self.path, "rb") as image:
            return image.read()

    def make(self, size=SIZE):
        """An image with a card, or its beginning."""
        self.assertEqual(ended(self.words("play"), SCRIPT), ("< 9000", 0, ""))
        os.truncate(self.path, size)

    # whether an image is there, how long it is, the words of a run and its script, and the last line, the status and what is said
    TABLE = [
        (None, "play", SCRIPT, ("< 9000", 0, "")),
        (0, "play", SCRIPT, ("< 9000", 0, "")),
        (SIZE, "play", SCRIPT, ("< 9000", 0, "uicc_run: {path}: what it held is written over by a new card\n")),
        (SIZE, "phone", "ef 2FE2 t 4 2 -\nstart\n", ("* service", 0, "uicc_run: {path}: what it held is written over by a new card\n")),
        (SIZE, "open", READ_BACK, ("< AABBFFFF9000", 0, "")),
        (SIZE + 1, "open", READ_BACK, ("< AABBFFFF9000", 0, "")),
        (SIZE - 1, "open", READ_BACK, ("< AABBFFFF9000", 0, "uicc_run: {path}: it is filled up from 65535 to 65536 bytes\n")),
        (4096, "open", READ_BACK, ("not a card 63488", 7, "uicc_run: {path}: it is filled up from 4096 to 65536 bytes\n")),
        (0, "open", READ_BACK, ("not a card 0", 7, "uicc_run: {path}: it was not there, or empty, and is made; it holds no card\n")),
        (None, "open", READ_BACK, ("not a card 0", 7, "uicc_run: {path}: it was not there, or empty, and is made; it holds no card\n")),
    ]

    def test_what_is_made_or_written_over(self):
        for size, word, text, (line, status, said) in self.TABLE:
            with self.subTest(size=size, word=word):
                if os.path.exists(self.path):
                    os.remove(self.path)
                if size is not None:
                    self.make(size)
                found = ended(self.words(word), text)
                self.assertEqual(found[1:], (status, said.format(path=self.path)))
                if word != "phone":
                    self.assertEqual(found[0], line)

    def refused(self, why, words=None, text=SCRIPT, **how):
        """A run that can't have its image ends with 6, and says why in one line."""
        line, status, said = ended(words or self.words("play"), text, **how)
        self.assertEqual((line, status), ("eeprom failed", 6))
        self.assertEqual(said.count("\n"), 1)
        self.assertTrue(said.startswith(f"uicc_run: {self.path}: "), said)
        self.assertIn(why, said)

    def test_a_folder(self):
        os.mkdir(self.path)
        self.refused("directory")

    def test_a_folder_that_isnt_there(self):
        self.path = os.path.join(self.folder, "none", "card.img")
        self.refused("No such file")

    def test_no_regular_file(self):
        """A socket can't be opened, and a device isn't synchronised."""
        with socket.socket(socket.AF_UNIX) as one:
            one.bind(self.path)
        self.refused("No such device")
        self.path = os.devnull
        self.refused("Invalid argument")

    # the program looks for bytes in it before it asks for its length, and waits for them without an end
    def test_a_pipe(self):
        os.mkfifo(self.path)
        self.refused("seek", seconds=5)

    def test_no_permission(self):
        self.make()
        before = self.content()
        os.chmod(self.path, 0o400)
        how = {}
        if os.geteuid() == 0:
            # all is permitted to root; another user needs the folder, and the program where it can be reached
            os.chmod(self.folder, 0o755)
            program = shutil.copy(process.program(), self.folder)
            how = {"words": [program, "play", "--image", self.path], "user": NOBODY, "group": NOBODY, "extra_groups": []}
        self.refused("ermission denied", **how)
        self.assertEqual(self.content(), before)

    @unittest.skipUnless(has_namespaces(), "no namespaces can be made here")
    def test_a_full_disk(self):
        words = self.words("play")
        self.refused("No space left", [*UNSHARE, "sh", "-c", FULL, "sh", self.folder, *words])

    def held(self, *words):
        """A program that has the image, and is amid its script."""
        holder = subprocess.Popen(words, stdin=subprocess.PIPE, stdout=subprocess.PIPE, text=True)
        self.addCleanup(holder.stdout.close)
        self.addCleanup(holder.wait)
        self.addCleanup(holder.kill)
        holder.stdin.write("start\napdu 00B0820004\n")
        holder.stdin.flush()
        self.assertEqual([holder.stdout.readline() for _ in range(2)], ["> 00B0820004\n", "< AABBFFFF9000\n"])
        return holder

    def test_a_second_program(self):
        """Whatever would be done with an image that another program has, its bytes stay as they are; a program that is killed has it
        no more."""
        self.make()
        holder, before = self.held(*self.words("open")), self.content()
        for words in (("play",), ("open",), ("phone",), ("play", "--store", "pages")):
            with self.subTest(words=words):
                self.refused("another program has it open as the memory of a card", self.words(*words),
                             READ_BACK if words == ("open",) else SCRIPT)
                self.assertEqual(self.content(), before)
        holder.send_signal(signal.SIGKILL)
        holder.wait()
        holder.stdin.close()
        self.assertEqual(ended(self.words("open"), READ_BACK), ("< AABBFFFF9000", 0, ""))


@unittest.skipUnless(is_built(), "the program isn't built")
class Launched(unittest.TestCase):
    """The table of docs/CARDS.md, each row tried."""

    def setUp(self):
        folder = tempfile.TemporaryDirectory()
        self.addCleanup(folder.cleanup)
        self.path = os.path.join(folder.name, "card.img")
        self.held = contextlib.ExitStack()
        self.addCleanup(self.held.close)

    def put(self, content):
        with open(self.path, "wb") as image:
            image.write(content)

    def launch(self, word, *options, text=None):
        words = [process.LAUNCHER, word, *(("1", "1") if word == "load" else ()), *options, "--image", self.path]
        text = text or (READ_BACK if word == "open" else "ef 2FE2 t 4 2 -\nstart\n" if word == "phone" else SCRIPT)
        return ended(words, text)

    def image_of(self, *options):
        self.assertEqual(self.launch("play", *options)[1], 0)

    def hold(self):
        """Another program has the file."""
        self.image_of()
        other = subprocess.Popen([process.LAUNCHER, "open", "--image", self.path], stdin=subprocess.PIPE, stdout=subprocess.PIPE, text=True)
        self.held.callback(lambda: (other.communicate("reset\n", timeout=60)))
        other.stdin.write("start\napdu 00\n")
        other.stdin.flush()
        self.assertEqual(other.stdout.readline(), "> 00\n")

    # each file of the table, by how it is made
    FILES = {
        "isn't there": [lambda self: None], "is empty": [lambda self: self.put(b"")],
        "is an image of the store that is named": [lambda self: self.image_of()],
        "is an image of the other store": [lambda self: self.image_of("--store", "pages")],
        "is a blank memory: all FF, or all 00": [lambda self: self.put(b"\xFF" * SIZE), lambda self: self.put(bytes(SIZE))],
        "is no image: of another size, or it begins with other bytes": [
            lambda self: self.put(b"start\n"), lambda self: self.put(bytes(SIZE + 1)), lambda self: self.put(b"#" * SIZE)],
        "can't be opened, or another program has it": [lambda self: os.mkdir(self.path), hold],
    }

    def test_table(self):
        with open(os.path.join(os.path.dirname(TOOLS), "docs", "CARDS.md"), encoding="utf-8") as text:
            head, rows = manual.images_in(text.read())
        self.assertEqual([row[0] for row in rows], list(self.FILES))
        for file, *ends in rows:
            for words, end in zip(head[1:], ends):
                for word in words.replace("`", "").split(", "):
                    for make in self.FILES[file]:
                        with self.subTest(file=file, word=word):
                            self.judge(word, end, make)

    def judge(self, word, end, make):
        make(self)
        before = self.content()
        line, status, said = self.launch(word)
        self.held.close()
        if end[0].isdigit():
            self.assertEqual(status, int(end[0]), said)
            self.assertTrue(line.startswith(end.split("`")[1] if "`" in end else ""), line)
            self.assertTrue(said or status == 7)
            self.assertEqual(self.content(), before)
        else:
            self.assertEqual(status, 0, said)
            self.assertEqual(len(self.content()), SIZE if not before or len(before) == SIZE else len(before))
        if "over the old one" in end:
            self.assertIn("written over", said)
        if os.path.isdir(self.path):
            os.rmdir(self.path)
        elif os.path.exists(self.path):
            os.remove(self.path)

    def content(self):
        if not os.path.isfile(self.path):
            return None
        with open(self.path, "rb") as image:
            return image.read()


if __name__ == "__main__":
    unittest.main()
