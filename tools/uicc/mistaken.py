"""Which kind of file was given, so that a tool that takes another kind says so in one line."""
import os
import re

from . import image

IMAGE, SCRIPT, PROFILE, TRACE, LIST, SEQUENCE = "image", "script", "profile", "trace", "list", "sequence"
# what each is called, and what takes it
ABOUT = {
    IMAGE: ("the image of a card", "tools/profile tree shows it, export makes a profile of it, and tools/shell --image opens it"),
    SCRIPT: ("a script", "uicc_run plays it, tools/lint checks it, tools/profile tree shows its card, and export makes a profile of it"),
    PROFILE: ("a profile", "tools/profile build makes a script of it"),
    TRACE: ("a trace", "tools/explain shows it"),
    LIST: ("a list of cards", "tools/profile batch PROFILE LIST.csv -o FOLDER takes it"),
    SEQUENCE: ("a file of sequences", "tools/sequence plays it to a terminal"),
}
# how a profile begins, after empty lines and comments: with the head of a table, or with a key
OF_PROFILE = re.compile(rb"\s*(?:#[^\n]*\n\s*)*(?:\[|[\w\"'.-]+[ \t]*=)")
OF_SCRIPT = re.compile(rb"(?:start|(?:df|ef|fill|rec|pin|row) [0-9A-Fa-f]+ .*|df [0-9A-Fa-f]+)\s*")
OF_SEQUENCE = re.compile(rb"sequence [^=]*")
OF_TRACE = re.compile(rb"[<>] [0-9A-Fa-f]+\s*|! (?:reset|cut|off)\s*|\* .*|@ [0-9]+\.[0-9]{6}\s*")


# what Notepad and other programs put before a text in UTF-8
BYTE_ORDER_MARK = b"\xEF\xBB\xBF"
# how a text in UTF-16 begins, which is none in UTF-8
OF_UTF_16 = (b"\xFF\xFE", b"\xFE\xFF")


def is_profile(content):
    """Whether a file's bytes begin as a profile's do."""
    return OF_PROFILE.match(content.removeprefix(BYTE_ORDER_MARK)) is not None


class Mistaken(Exception):
    """A file is of another kind than the one that is wanted."""


def kind_of(content):
    """Of which kind a file's bytes are; None where they show none."""
    if content[:4] == b"UICC" or image.is_blank_memory(content) or len(content) in (image.JOURNAL_SIZE, image.PAGES_SIZE) and b"\0" in content:
        return IMAGE
    content = content.removeprefix(BYTE_ORDER_MARK)
    lines = (line.strip() for line in content.splitlines())
    first = next((line for line in lines if line and not line.startswith(b"#")), b"")
    if b"iccid" in [cell.strip(b' "').lower() for cell in re.split(rb"[,;\t]", first)] and OF_PROFILE.match(first) is None:
        return LIST
    for kind, form in ((SCRIPT, OF_SCRIPT), (TRACE, OF_TRACE), (SEQUENCE, OF_SEQUENCE)):
        if form.fullmatch(first):
            return kind
    return PROFILE if is_profile(content) else None


def expect(content, path, *wanted, is_text=True):
    """Mistaken, where a file's bytes are of a kind that isn't wanted, or of none and no text at all, if it has to be one."""
    kind = kind_of(content)
    if is_text and kind is None and IMAGE not in wanted and b"\0" in content and not content.startswith(OF_UTF_16):
        raise Mistaken(f"{path} is no text: a byte 00 stands in line {content[:content.index(0)].count(10) + 1}")
    if kind and kind not in wanted:
        what, by = ABOUT[kind]
        raise Mistaken(f"{path} is {what}: {by}")


def text_of(content, path):
    """The text of a file's bytes. Mistaken, with the place of the first byte that is none in UTF-8."""
    try:
        return content.decode()
    except UnicodeDecodeError as fault:
        before = content[:fault.start]
        line, column = before.count(b"\n") + 1, len(before) - before.rfind(b"\n")
        raise Mistaken(f"{path}: the file is no text in UTF-8: the byte {content[fault.start]:02X} stands in line {line}, at {column}") from None


def expect_card(path):
    """Mistaken, where a file neither describes a card nor is its image; the bytes of the file."""
    with open(path, "rb") as file:
        content = file.read()
    expect(content, path, SCRIPT, PROFILE, IMAGE)
    return content


def told(fault):
    """What is wrong, in words; of a fault of the system with the file that it is of."""
    if not isinstance(fault, OSError) or not isinstance(fault.filename, str):
        return str(fault)
    path = fault.filename
    above = os.path.dirname(path) or "."
    if isinstance(fault, FileNotFoundError):
        return f"{path}: no file is there" if os.path.isdir(above) else f"{path}: the folder {above} isn't there"
    if isinstance(fault, IsADirectoryError):
        return f"{path} is a folder, and a file is wanted"
    if isinstance(fault, FileExistsError):
        return f"{path} is a file, and a folder is wanted"
    return f"{path}: {fault.strerror}"
