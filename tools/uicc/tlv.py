"""Comprehension-TLV objects and BER templates of the toolkit (ETSI TS 101 220, 7; ETSI TS 102 223), and the objects of an FCP."""


class BadTlv(ValueError):
    pass


def length_at(content, at):
    """A length at a place, and the place after it."""
    if at >= len(content):
        raise BadTlv("a length is missing")
    first = content[at]
    if first < 0x80:
        return first, at + 1
    if first in (0x81, 0x82):
        size = first - 0x80
        if at + size >= len(content):
            raise BadTlv("a length is cut short")
        return int.from_bytes(content[at + 1:at + 1 + size], "big"), at + 1 + size
    raise BadTlv(f"{first:02X} begins no length")


def objects(content):
    """Each object of a list: its tag without the flag, the flag, and its value."""
    at = 0
    while at < len(content):
        first = content[at]
        if first in (0x00, 0x80, 0xFF):
            raise BadTlv(f"{first:02X} is no tag")
        if first == 0x7F:
            if at + 2 >= len(content):
                raise BadTlv("a tag is cut short")
            number = int.from_bytes(content[at + 1:at + 3], "big")
            tag, flag, at = number & 0x7FFF, bool(number >> 15), at + 3
        else:
            tag, flag, at = first & 0x7F, bool(first >> 7), at + 1
        length, at = length_at(content, at)
        if at + length > len(content):
            raise BadTlv(f"the object {tag:02X} has {length} bytes, and {len(content) - at} are there")
        yield tag, flag, content[at:at + length]
        at += length


def template(content):
    """The tag and the content of a BER template that is the whole."""
    if not content:
        raise BadTlv("nothing is there")
    length, at = length_at(content, 1)
    if at + length != len(content):
        raise BadTlv(f"the template has {length} bytes, and {len(content) - at} are there")
    return content[0], content[at:]


def written(tag, value, flag=True):
    """An object, with the shortest length."""
    return bytes((tag | 0x80 * flag,)) + length_of(value) + value


def length_of(value):
    """The shortest form of a value's length."""
    length = len(value)
    return bytes((length,)) if length < 0x80 else bytes((0x81, length)) if length < 0x100 else b"\x82" + length.to_bytes(2, "big")


def first(content, tag):
    """The value of the first object with a tag; None where there is none."""
    return next((value for found, _, value in objects(content) if found == tag), None)
