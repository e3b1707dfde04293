"""What a card is made of: a script's path or text, a profile, or the image of one; and which of them something is."""
import os
import typing

from . import image, lint, process, profile

SCRIPT, TEXT, PROFILE, IMAGE = "script", "text", "profile", "image"
PROFILE_ENDING = ".toml"


class Source(typing.NamedTuple):
    """What a card was made of: its kind, its path (`name`), and but for an image the text of its script."""
    kind: str
    name: str
    text: str = ""

    def __str__(self):
        return f"{self.kind} {self.name}".rstrip()


def of(given) -> Source:
    """What something is: a dict is a profile, a text of several lines is a script's; any other text is a path, and what lies there
    says which it is."""
    if isinstance(given, Source):
        return given
    if isinstance(given, dict):
        return of_profile(given)
    if isinstance(given, str) and "\n" in given:
        return of_text(given)
    path = os.fspath(given)
    if path.endswith(PROFILE_ENDING):
        return of_profile(path)
    with open(path, "rb") as file:
        content = file.read()
    # a text has no byte 00: such a file is an image, or what is left of one, of which is said what it lacks
    return Source(IMAGE, path) if image.is_image(content) or image.is_blank_memory(content) or b"\0" in content else Source(SCRIPT, path, content.decode(process.ENCODING))


def of_text(text) -> Source:
    return Source(TEXT, "", text)


def of_profile(given) -> Source:
    """The source that a profile is: a dict with its tables, or the path of its file."""
    if isinstance(given, dict):
        return Source(PROFILE, "", "".join(line + "\n" for line in profile.build(profile.over_template(given))))
    path = os.fspath(given)
    return Source(PROFILE, path, profile.made_of(path).text)


def script_of(source):
    """The script of a source that is no image. lint.BadScript, where a line up to its `start` is bad."""
    return lint.described_in(source.text, source.name or "the " + source.kind)


def store_of(path):
    """The store of an image, as the program has it named; None where no file is there."""
    if not os.path.exists(path):
        return None
    with open(path, "rb") as content:
        return "pages" if image.is_paged(content.read()) else "journal"
