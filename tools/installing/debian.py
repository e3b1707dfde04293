"""The Debian package: what stands where on a system, and `dpkg-deb`, which packs it. The same files give the same bytes."""
import gzip
import hashlib
import os
import re
import shutil
import subprocess
import tempfile

from uicc import command

from . import changes, manual, staging

PACKAGE = "uicc-run"
PYTHON = "/usr/bin/python3"
LIB, SHARE, DOC = (f"usr/{place}/{PACKAGE}" for place in ("lib", "share", "share/doc"))
MODULE = "usr/lib/python3/dist-packages"
MAN = "usr/share/man/man1"
COMPLETIONS = "usr/share/bash-completion/completions"
GLIBC = re.compile(rb"GLIBC_(\d+)\.(\d+)")
COMMAND = f"""#!{PYTHON}
import sys

from uicc.command import main

sys.exit(main())
"""
CONTROL = """\
Package: {package}
Version: {version}
Architecture: amd64
Maintainer: {maintainer}
Installed-Size: {size}
Depends: libc6 (>= {libc}), python3 (>= 3.11)
Suggests: ofono, pcscd, tshark, vsmartcard-vpcd
Section: utils
Priority: optional
Description: simulated smart card (UICC) of a mobile telephone
 The card has files, PINs, access rules, logical channels and the toolkit,
 and a handset serves it. A script says what the card holds and what is done
 to it; the trace shows each command and answer, and what a loss of power
 in the midst of any write leaves.
 .
 The command uicc runs it, and has its tools as words: they test scripts,
 explain traces, cut the power, build cards from profiles, and put the card
 into a reader or a modem. The module uicc of Python has the card for tests
 of applets and terminals. Nothing has to be proved or built: the program was
 proved when it was released.
"""
COPYRIGHT = """\
Format: https://www.debian.org/doc/packaging-manuals/copyright-format/1.0/
Upstream-Name: uicc_run
Upstream-Contact: {maintainer}

Files: *
Copyright: {year} Wulidang
License: unstated
 The sources of uicc_run state no licence.
"""
# as Debian's own packages of Python modules have them: the module is compiled when it is put in, and that is taken away with it
AFTER = f"""#!/bin/sh
set -e
if [ "$1" = configure ] && command -v py3compile > /dev/null 2>&1; then
    py3compile -p {PACKAGE}
fi
"""
BEFORE_REMOVAL = f"""#!/bin/sh
set -e
if command -v py3clean > /dev/null 2>&1; then
    py3clean -p {PACKAGE}
fi
"""
# what lintian is told
OVERRIDES = f"""\
# the program has the bytes that were released, of which the list of the release has the sum
{PACKAGE}: unstripped-binary-or-object [{LIB}/{staging.PROGRAM}]
"""
LINKS = {
    "usr/bin/uicc_run": f"../lib/{PACKAGE}/uicc_run",
    f"{LIB}/tools": f"../../share/{PACKAGE}/tools",
    f"{LIB}/examples": f"../../share/{PACKAGE}/examples",
    f"{LIB}/dist/uicc_run.html": f"../../../share/{PACKAGE}/uicc_run.html",
    f"{DOC}/examples": f"../../{PACKAGE}/examples",
    f"{DOC}/uicc_run.html": f"../../{PACKAGE}/uicc_run.html",
    f"{MODULE}/uicc/tree": f"../../../{PACKAGE}",
    # bash looks for a file of the command's own name
    f"{COMPLETIONS}/uicc_run": "uicc",
}


class Failed(Exception):
    """The package can't be made."""


def packed(content):
    return gzip.compress(content, 9, mtime=0)


def manual_pages(tools, version):
    """The pages of man by their names; `tools` are the texts of the tools."""
    day = version.day.strftime("%Y-%m-%d")
    pages = {f"uicc-{name}": manual.page_of(f"uicc-{name}", text, version.number, day) for name, text in tools.items()}
    text = command.page_of({name: text.partition("\n")[0] for name, text in sorted(tools.items())})
    pages["uicc"] = manual.page_of("uicc", text.removeprefix("The command `uicc`: "), version.number, day)
    pages["uicc_run"] = manual.program_page(program_help(), staging.read("docs/CARDS.md").decode(), version.number, day)
    return pages


def program_help():
    program = os.path.join(staging.TOP, staging.PROGRAM)
    try:
        return subprocess.run([program, "--help"], stdin=subprocess.DEVNULL, stdout=subprocess.PIPE, text=True, check=True).stdout
    except (OSError, subprocess.SubprocessError) as fault:
        raise Failed(f"the released program doesn't run here: {fault}") from None


def files(version):
    """What the package has, by places from the root of a system."""
    tools = staging.tools(PYTHON)
    texts = {name: manual.text_in(content.decode()) for name, content in tools.items() if "." not in name}
    documents = {os.path.basename(path): content for path, content in staging.documents().items()}
    found = {
        "usr/bin/uicc": COMMAND.encode(),
        f"{LIB}/uicc_run": staging.read(staging.LAUNCHER),
        f"{LIB}/{staging.PROGRAM}": staging.read(staging.PROGRAM),
        f"{LIB}/{staging.LIST}": staging.read(staging.LIST),
        f"{SHARE}/uicc_run.html": staging.read(staging.PAGE),
        f"{COMPLETIONS}/uicc": completion(texts).encode(),
        f"usr/share/lintian/overrides/{PACKAGE}": OVERRIDES.encode(),
        f"{DOC}/changelog.gz": packed(changes.for_debian().encode()),
        f"{DOC}/copyright": COPYRIGHT.format(maintainer=changes.MAINTAINER, year=version.day.year).encode(),
    }
    found |= {f"{SHARE}/tools/{name}": content for name, content in tools.items()}
    found |= {f"{SHARE}/{path}": content for path, content in staging.examples().items()}
    found |= {f"{MODULE}/{path}": content for path, content in staging.module().items()}
    found |= {f"{DOC}/{name}": content for name, content in documents.items() if name != "CHANGELOG.md"}
    found |= {f"{MAN}/{name}.1.gz": packed(page.encode()) for name, page in manual_pages(texts, version).items()}
    return found


def completion(texts):
    return manual.completion(texts, command.PROGRAM_WORDS)


def libc_of(program):
    """The version of the C library that a program was linked with: the highest of its symbols."""
    return ".".join(map(str, max((int(one), int(other)) for one, other in GLIBC.findall(program))))


def control(version, found):
    # a package's size is told in units of 1,024 bytes, and each file, link and folder takes a whole one
    size = sum(-(-len(content) // 1024) for content in found.values()) + len(LINKS) + len(folders_of(found))
    return CONTROL.format(package=PACKAGE, version=version.number, maintainer=changes.MAINTAINER, size=size,
                          libc=libc_of(found[f"{LIB}/{staging.PROGRAM}"]))


def folders_of(found):
    places = set()
    for path in [*found, *LINKS]:
        while path := os.path.dirname(path):
            places.add(path)
    return places


def in_package(found, version):
    """All files of the package's tree: those that are installed, and those that the package manager reads."""
    sums = "".join(f"{hashlib.md5(content).hexdigest()}  {path}\n" for path, content in sorted(found.items()))
    return {**found, "DEBIAN/control": control(version, found).encode(), "DEBIAN/md5sums": sums.encode(),
            "DEBIAN/postinst": AFTER.encode(), "DEBIAN/prerm": BEFORE_REMOVAL.encode()}


def write(top, contents, seconds):
    """Writes a tree, with the same time and the same modes whoever writes it."""
    for path, content in contents.items():
        whole = os.path.join(top, path)
        os.makedirs(os.path.dirname(whole), exist_ok=True)
        with open(whole, "wb") as out:
            out.write(content)
        os.chmod(whole, 0o755 if staging.is_program(content) else 0o644)
    for path, target in LINKS.items():
        os.makedirs(os.path.dirname(os.path.join(top, path)), exist_ok=True)
        os.symlink(target, os.path.join(top, path))
    for place, folders, names in os.walk(top, topdown=False):
        for name in [*folders, *names]:
            os.utime(os.path.join(place, name), (seconds, seconds), follow_symlinks=False)
        os.chmod(place, 0o755)
    os.utime(top, (seconds, seconds))


def make(folder):
    """Makes the package in a folder, and answers its path."""
    if not shutil.which("dpkg-deb"):
        raise Failed("dpkg-deb isn't here; on Debian it is a part of dpkg")
    version = changes.versions()[0]
    if version.number != staging.version():
        raise Failed(f"CHANGELOG.md begins with version {version.number}, and the module is of {staging.version()}")
    contents = in_package(files(version), version)
    os.makedirs(folder, exist_ok=True)
    path = os.path.join(folder, f"{PACKAGE}_{version.number}_amd64.deb")
    with tempfile.TemporaryDirectory(prefix="uicc-package-") as place:
        tree = os.path.join(place, "tree")
        os.mkdir(tree)
        write(tree, contents, version.seconds)
        words = ["dpkg-deb", "--root-owner-group", "-Zxz", "-z9", "--threads-max=1", "--build", tree, path]
        environment = {**os.environ, "SOURCE_DATE_EPOCH": str(version.seconds)}
        done = subprocess.run(words, env=environment, stdout=subprocess.PIPE, stderr=subprocess.STDOUT, text=True, check=False)
    if done.returncode:
        raise Failed(f"dpkg-deb ended with {done.returncode}: {done.stdout.strip()}")
    return path
