"""What pip asks to build a wheel (PEP 517, PEP 660), with Python alone, so that it works without a network.

A wheel is made of the same files as the Debian package. The program is in it where it is made on Linux for x86-64, for which it is;
elsewhere the module and the tools are in it, and the environment's UICC_RUN names a program."""
import base64
import hashlib
import os
import platform
import sys
import tarfile
import tomllib
import zipfile

from . import staging

NAME = "uicc_run"
TREE = "uicc/tree"
# a wheel's files have no time of their own; a zip's times begin here
TIME = (1980, 1, 1, 0, 0, 0)
METADATA = """\
Metadata-Version: 2.1
Name: {name}
Version: {version}
Summary: {description}
Requires-Python: {requires}
Description-Content-Type: text/markdown

{readme}"""
WHEEL = """\
Wheel-Version: 1.0
Generator: uicc_run
Root-Is-Purelib: {is_pure}
Tag: {tag}
"""


def has_program():
    return sys.platform == "linux" and platform.machine() == "x86_64" and os.path.exists(os.path.join(staging.TOP, staging.PROGRAM))


def tag():
    return "py3-none-linux_x86_64" if has_program() else "py3-none-any"


def project():
    return tomllib.loads(staging.read("pyproject.toml").decode())["project"]


def information():
    """What a wheel says of itself, by places."""
    given, folder = project(), f"{NAME}-{staging.version()}.dist-info"
    metadata = METADATA.format(name=given["name"], version=staging.version(), description=given["description"],
                               requires=given["requires-python"], readme=staging.text_of("README.md").decode())
    scripts = "".join(f"{name} = {called}\n" for name, called in given["scripts"].items())
    return folder, {
        f"{folder}/METADATA": metadata.encode(),
        f"{folder}/WHEEL": WHEEL.format(tag=tag(), is_pure=str(not has_program()).lower()).encode(),
        f"{folder}/entry_points.txt": f"[console_scripts]\n{scripts}".encode(),
    }


def files():
    """The module, and beside it the places of a clone that it looks into."""
    places = {staging.PAGE: staging.read(staging.PAGE), **staging.examples(), **staging.documents()}
    if has_program():
        places |= {name: staging.read(name) for name in (staging.LAUNCHER, staging.PROGRAM, staging.LIST)}
    places |= {f"tools/{name}": content for name, content in staging.tools().items()}
    return staging.module() | {f"{TREE}/{path}": content for path, content in places.items()}


def written(folder, contents):
    """Writes a wheel into a folder, with the sum of each file, and answers its name."""
    place, about = information()
    name = f"{NAME}-{staging.version()}-{tag()}.whl"
    contents = {**contents, **about}
    record = "".join(f"{path},sha256={sum_of(content)},{len(content)}\n" for path, content in contents.items())
    contents[f"{place}/RECORD"] = f"{record}{place}/RECORD,,\n".encode()
    with zipfile.ZipFile(os.path.join(folder, name), "w", zipfile.ZIP_DEFLATED) as out:
        for path, content in contents.items():
            entry = zipfile.ZipInfo(path, TIME)
            entry.compress_type = zipfile.ZIP_DEFLATED
            entry.external_attr = (0o100755 if staging.is_program(content) else 0o100644) << 16
            out.writestr(entry, content)
    return name


def sum_of(content):
    return base64.urlsafe_b64encode(hashlib.sha256(content).digest()).rstrip(b"=").decode()


# what pip calls, by the names that it has for them

def build_wheel(wheel_directory, config_settings=None, metadata_directory=None):
    return written(wheel_directory, files())


def build_editable(wheel_directory, config_settings=None, metadata_directory=None):
    """A wheel that names this clone's module, which is used as it stands here."""
    return written(wheel_directory, {f"{NAME}.pth": f"{staging.TOOLS}\n".encode()})


def build_sdist(sdist_directory, config_settings=None):
    """The files of which a wheel is made, by their places in a clone."""
    name = f"{NAME}-{staging.version()}"
    paths = ["pyproject.toml", staging.LAUNCHER, staging.PROGRAM, staging.PAGE, staging.LIST, *staging.documents(), *staging.examples(),
             *staging.below("tools/uicc"), *staging.below("tools/installing"), *(f"tools/{tool}" for tool in (*staging.WORDS, *staging.HELPERS))]
    with tarfile.open(os.path.join(sdist_directory, f"{name}.tar.gz"), "w:gz", format=tarfile.PAX_FORMAT) as out:
        for path in paths:
            out.add(os.path.join(staging.TOP, path), f"{name}/{path}")
    return f"{name}.tar.gz"
