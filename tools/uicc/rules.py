"""Access rules: the records of an EF_ARR, read, and written from words (ETSI TS 102 221, 9.2; ISO 7816-4, 5.4.3).

In words a rule is a mapping of operations to conditions: `{"read": "always", "update": "pin1 or adm"}`. An operation is read,
update, deactivate, activate or increase; a condition is always, never, pin1, pin2, adm, or several of these joined by `or` or
`and`, of which `and` binds first, with brackets where it is to be otherwise."""
import re

OPERATIONS = {"read": 0x01, "update": 0x02, "deactivate": 0x08, "activate": 0x10}
INCREASE = 0x32
# what bits of an operation and bytes of an instruction are called
INSTRUCTIONS = {0xB0: "read binary", 0xB2: "read record", 0xA2: "search record", 0xD6: "update binary", 0xDC: "update record",
                INCREASE: "increase", 0x04: "deactivate", 0x44: "activate"}
KEYS = {"pin1": 0x01, "pin2": 0x81, "adm": 0x0A}
# what is written for a condition that has another name here
SLIPS = {"nobody": "never", "everybody": "always", "all": "always", "adm1": "adm", "alw": "always", "nev": "never", "chv1": "pin1", "chv2": "pin2", "1": "pin1", "2": "pin2"}
KNOWN = f"always, never, {', '.join(KEYS)}, joined by `or` or `and`"
KEY_NAMES = {key: name for name, key in KEYS.items()}
ALWAYS, NEVER, BY_KEY, ONE_OF, ALL_OF = 0x90, 0x97, 0xA4, 0xA0, 0xAF
DEEPEST = 4


class NoRule(ValueError):
    """The bytes are no rule, or the words."""


def objects(content):
    """Each tag and value of a list of objects whose lengths are below 256."""
    at = 0
    while at < len(content):
        tag, head = content[at], at + 1
        if head >= len(content):
            raise NoRule(f"the object {tag:02X} has no length")
        length, start = content[head], head + 1
        if length == 0x81 and start < len(content) and content[start] >= 0x80:
            length, start = content[start], start + 1
        elif length > 0x7F:
            raise NoRule(f"the object {tag:02X} has no length of this form: {length:02X}")
        if start + length > len(content):
            raise NoRule(f"the object {tag:02X} has {length} bytes, and {len(content) - start} are there")
        yield tag, content[start:start + length]
        at = start + length


def pairs(record):
    """The pairs of a record: the tag and the byte that say what may be done, and the condition as a tree: ALWAYS or NEVER alone, BY_KEY
    with a key, or ONE_OF or ALL_OF with conditions."""
    content = record.rstrip(b"\xFF")
    found = list(objects(content))
    if not found:
        raise NoRule("it is empty")
    if len(found) % 2:
        raise NoRule("an operation has no condition")
    return [(*found[n], condition(*found[n + 1], DEEPEST)) for n in range(0, len(found), 2)]


def read(record):
    """The pairs of a record: what may be done, as (names of operations), and the condition in words."""
    return [(operations(tag, value), in_words(tree)) for tag, value, tree in pairs(record)]


def operations(tag, value):
    if tag == 0x80 and len(value) == 1:
        named = tuple(name for name, bit in OPERATIONS.items() if value[0] & bit)
        other = value[0] & ~sum(OPERATIONS.values())
        return named + ((f"bits {other:02X}",) if other else ())
    if tag == 0x84 and len(value) == 1:
        return (INSTRUCTIONS.get(value[0], f"instruction {value[0]:02X}"),)
    raise NoRule(f"{tag:02X} of {len(value)} bytes names no operation")


def condition(tag, value, levels):
    if tag in (ALWAYS, NEVER) and not value:
        return (tag,)
    if tag == BY_KEY and len(value) == 6 and value[:2] == b"\x83\x01" and value[3:] == b"\x95\x01\x08":
        return (tag, value[2])
    if tag in (ONE_OF, ALL_OF):
        if not levels:
            raise NoRule(f"conditions stand more than {DEEPEST} deep")
        inner = [condition(*each, levels - 1) for each in objects(value)]
        if not inner:
            raise NoRule(f"{tag:02X} holds no condition")
        return (tag, *inner)
    raise NoRule(f"{tag:02X} with {value.hex().upper() or 'nothing'} is no condition")


def in_words(tree):
    """A condition in words."""
    tag, *inner = tree
    if tag in (ALWAYS, NEVER):
        return "always" if tag == ALWAYS else "never"
    if tag == BY_KEY:
        return KEY_NAMES.get(inner[0], f"key reference {inner[0]:02X}, which no card has")
    texts = map(in_words, inner)
    return (" or " if tag == ONE_OF else " and ").join(f"({text})" if " " in text and len(inner) > 1 else text for text in texts)


def shown(record):
    """A rule in one line of words."""
    return "; ".join(f"{', '.join(names) or 'nothing'}: {who}" for names, who in read(record))


# from words

def spelled(tag, value):
    if len(value) > 0xFF:
        raise NoRule(f"the object {tag:02X} would have {len(value)} bytes, and has at most 255")
    head = bytes((tag, len(value))) if len(value) < 0x80 else bytes((tag, 0x81, len(value)))
    return head + value


def condition_of(words):
    """The bytes of a condition in words. `and` binds before `or`, and brackets before both."""
    parts = re.findall(r"[()]|[^\s()]+", words)
    content = one_of(parts, 1)
    if parts:
        raise NoRule(f"`{words.strip()}` is no condition: a bracket is closed that isn't open")
    return content


def one_of(parts, levels):
    return several_of(parts, "or", ONE_OF, lambda rest: several_of(rest, "and", ALL_OF, lambda last: single(last, levels)))


def several_of(parts, word, tag, one):
    """The bytes of conditions that are joined by a word; those of the condition itself where it is alone. What was read is taken away."""
    found = [one(parts)]
    while parts and parts[0] == word:
        del parts[0]
        found.append(one(parts))
    return spelled(tag, b"".join(found)) if len(found) > 1 else found[0]


def single(parts, levels):
    """The bytes of a condition without `or` and `and`, or of one in brackets."""
    if parts[:1] == ["("]:
        if levels > DEEPEST:
            raise NoRule(f"brackets stand more than {DEEPEST} deep")
        del parts[0]
        content = one_of(parts, levels + 1)
        if parts[:1] != [")"]:
            raise NoRule("a bracket isn't closed in a condition")
        del parts[0]
        return content
    end = next((place for place, part in enumerate(parts) if part in ("or", "and", "(", ")")), len(parts))
    words = " ".join(parts[:end])
    del parts[:end]
    if not words:
        raise NoRule(f"a condition is missing{f' before `{parts[0]}`' if parts else ''}: {KNOWN}")
    if words in ("always", "never"):
        return bytes((ALWAYS if words == "always" else NEVER, 0))
    if words in KEYS:
        return bytes((BY_KEY, 6, 0x83, 1, KEYS[words], 0x95, 1, 8))
    meant = SLIPS.get(words.lower(), words.lower())
    hint = f", but `{meant}` is" if meant in (*KEYS, "always", "never") else ""
    if any(word in ("AND", "OR", "And", "Or") for word in words.split()):
        hint = ", but `and` and `or` in lower-case letters join some"
    raise NoRule(f"`{words}` is no condition{hint}: {KNOWN}")


def written(words):
    """The bytes of a rule in words; operations with the same condition share a pair."""
    by_condition = {}
    for operation, who in words.items():
        if operation not in OPERATIONS and operation != "increase":
            raise NoRule(f"`{operation}` is no operation: {', '.join(OPERATIONS)}, increase")
        by_condition.setdefault(who, []).append(operation)
    content = b""
    for who, named in by_condition.items():
        bits = sum(OPERATIONS[name] for name in named if name in OPERATIONS)
        if bits:
            content += bytes((0x80, 1, bits)) + condition_of(who)
        if "increase" in named:
            content += bytes((0x84, 1, INCREASE)) + condition_of(who)
    return content
