"""A fresh Debian in a folder, into which the package is put by its own package manager: what somebody has who installs it. It wants root, debootstrap,
and the mirror that this machine's packages come from."""
import glob
import os
import re
import subprocess

SUITE = "bookworm"
MIRROR = "http://deb.debian.org/debian"
# how long a step may take, of a machine that does other things beside it
SECONDS = 3600
# a mirror of Debian itself, in a line of sources.list or in a field of a .sources file
OF_LINE = re.compile(r"^deb\s+(?:\[[^]]*\]\s+)?(\S+/debian)/?\s", re.MULTILINE)
OF_FIELD = re.compile(r"^URIs:\s*(\S+/debian)/?\s*$", re.MULTILINE)
# what shows a page of man and completes a word there
BESIDE = ("man-db", "bash-completion")
EXAMPLES = "/usr/share/doc/uicc-run/examples"
COMPLETED = """\
. /usr/share/bash-completion/bash_completion
for name in uicc uicc_run; do _completion_loader $name; complete -p $name; done
COMP_WORDS=(uicc li); COMP_CWORD=1; _uicc; echo "${COMPREPLY[@]}"
"""
MODULE = f"""\
import uicc
with uicc.Card("{EXAMPLES}/usim.script") as card:
    card.select("EF.ICCID")
    print(uicc.__file__, card.read_binary().hex())
"""
# what is tried, the words of it, and what has to stand in what it writes
TRIES = (
    ("an example, played", ["sh", "-c", f"uicc play < {EXAMPLES}/first.script | diff - {EXAMPLES}/first.trace && echo the same"], "the same"),
    ("uicc check", ["uicc", "check"], "7 of 7 are as they must be"),
    ("man uicc-lint", ["man", "uicc-lint"], "uicc-lint - What is wrong with a script?"),
    ("man uicc_run", ["man", "uicc_run"], "uicc_run - plays a script"),
    ("completion of both commands", ["bash", "-c", COMPLETED], "-F _uicc uicc\ncomplete -o filenames -F _uicc_run uicc_run\nlint\n"),
    ("the module of Python", ["python3", "-c", MODULE], "/usr/lib/python3/dist-packages/uicc/__init__.py 989909010000103254f0"),
    ("no sources", ["sh", "-c", "uicc applet rows 2>&1 || true"], "the sources are not here"),
    ("the files of the package", ["dpkg", "--verify", "uicc-run"], ""),
)
# what is left of it when it was removed; man keeps pages that it has shown, whose package is none of its matters
LEFT = ["find", "/", "-xdev", "(", "-path", "/proc", "-o", "-path", "/tmp", "-o", "-path", "/var/cache/man", ")", "-prune", "-o", "-name", "*uicc*", "-print"]


class Failed(Exception):
    """Something in the fresh Debian isn't as it must be."""


class NotHere(Exception):
    """No fresh Debian can be had here."""


def mirror():
    """The mirror of Debian that this machine's packages come from."""
    for path in ["/etc/apt/sources.list", *sorted(glob.glob("/etc/apt/sources.list.d/*"))]:
        try:
            with open(path, encoding="utf-8") as text:
                found = mirror_in(text.read())
        except OSError:
            continue
        if found:
            return found
    return MIRROR


def mirror_in(text):
    """The mirror that a file of apt's sources names; None where it names none of Debian itself."""
    found = OF_LINE.search(text) or OF_FIELD.search(text)
    return found and found[1]


def carried_out(words):
    """What a command writes, which has to end with 0. It has no terminal, and nobody is asked anything."""
    environment = {"PATH": "/usr/sbin:/usr/bin:/sbin:/bin", "HOME": "/root", "LANG": "C.UTF-8", "DEBIAN_FRONTEND": "noninteractive"}
    done = subprocess.run(words, env=environment, stdin=subprocess.DEVNULL, stdout=subprocess.PIPE, stderr=subprocess.STDOUT, text=True, check=False,
                          timeout=SECONDS)
    if done.returncode:
        raise Failed(f"{words[0]} ended with {done.returncode}: {' / '.join(done.stdout.strip().splitlines()[-3:])}")
    return done.stdout


class Fresh:
    """A Debian with the least that there is, in a folder, and the package beside it."""

    def __init__(self, root, package):
        self.root, self.package = root, f"/tmp/{os.path.basename(package)}"
        try:
            carried_out(["debootstrap", "--variant=minbase", SUITE, root, mirror()])
        except Failed as fault:
            raise NotHere(str(fault)) from None
        with open(package, "rb") as content, open(root + self.package, "wb") as out:
            out.write(content.read())
        if os.path.exists("/etc/resolv.conf"):
            with open("/etc/resolv.conf", "rb") as content, open(os.path.join(root, "etc", "resolv.conf"), "wb") as out:
                out.write(content.read())

    def told(self, *words):
        """What a command writes that is carried out in it."""
        return carried_out(["chroot", self.root, *words])

    def install(self):
        """Puts the package in, with what it asks for and no more."""
        self.told("apt-get", "update", "-q")
        said = self.told("apt-get", "install", "-y", "-q", "--no-install-recommends", self.package)
        self.told("apt-get", "install", "-y", "-q", "--no-install-recommends", *BESIDE)
        # the pages were put in before there was anything that shows them
        return next((line for line in said.splitlines() if "newly installed" in line), "installed")

    def tried(self, words, wanted):
        """Carries a command out, which has to write something."""
        said = self.told(*words)
        if wanted not in said or (not wanted and said):
            raise Failed(f"`{wanted}` isn't in what it writes: {said.strip()[-200:]}")

    def remove(self):
        """Takes the package away, of which nothing is to be left."""
        self.told("apt-get", "remove", "-y", "-q", "uicc-run")
        left = self.told(*LEFT)
        if left:
            raise Failed(f"this is left of it: {', '.join(left.split())}")
