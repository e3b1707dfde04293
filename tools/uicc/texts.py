"""The text that a standard file or a record of it holds, as a name, among its other bytes."""
from .contents import BadContent, coded_text, encode_spn

# how many bytes at the end of a record with a name come after that
AFTER_NAME = {"dialling": 14, "smsp": 28}


def with_text(kind, content, text):
    """The bytes of a file or a record of this kind (None: no kind that is known), with another text in the place of theirs."""
    if kind == "spn":
        shown = content[0] if content[0] != 0xFF else 1
        return encode_spn(text, len(content), shown)
    if kind is not None and kind not in AFTER_NAME:
        raise BadContent("this file holds no text: its bytes are written as HEX")
    room = len(content) - AFTER_NAME.get(kind, 0)
    return coded_text(text, room).ljust(room, b"\xFF") + content[room:]
