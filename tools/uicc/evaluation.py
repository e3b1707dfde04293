"""What definitions come to that `antt` read: numbers, truths, lists (tuples of Python), records (dictionaries), and what constructors make
(`Made`). `tools/page/scripts/evaluation.js` is the same for the page."""
import collections

from . import tlv

# what a constructor makes of its parts
Made = collections.namedtuple("Made", "name parts")
NONE = Made("None", ())


class Unknown(Exception):
    """What a definition comes to can't be worked out."""


def value_in(tag, content):
    """The value of the first object with a tag; None where there is none, or the bytes are no objects."""
    try:
        found = [tuple(value) for one, _, value in tlv.objects(bytes(content)) if one == tag]
    except tlv.BadTlv:
        return NONE
    return Made("Some", (found[0],)) if found else NONE


def mapped_option(does, option):
    return option if option.name == "None" else Made("Some", (does(option.parts[0]),))


def found_first(does, items):
    return next((Made("Some", (item,)) for item in items if does(item)), NONE)


def taken_while(does, items):
    return items[:next((at for at, item in enumerate(items) if not does(item)), len(items))]


def dropped_while(does, items):
    return items[len(taken_while(does, items)):]


def numbered_from(first, items):
    return tuple(enumerate(items, first))


def item_or(items, at, otherwise):
    return items[at] if at < len(items) else otherwise


# the words of the standard library that the tables may use: how many parts each takes, and what it comes to
WORDS = {
    "not": (1, lambda truth: not truth), "nat_eq": (2, lambda one, other: one == other), "nat_le": (2, lambda one, other: one <= other),
    "nat_lt": (2, lambda one, other: one < other), "min": (2, min), "max": (2, max), "length": (1, len),
    "map": (2, lambda does, items: tuple(map(does, items))), "filter": (2, lambda does, items: tuple(filter(does, items))),
    "take": (2, lambda count, items: items[:count]), "drop": (2, lambda count, items: items[count:]), "reverse": (1, lambda items: items[::-1]),
    "take_while": (2, taken_while), "drop_while": (2, dropped_while), "find": (2, found_first),
    "flat_map": (2, lambda does, items: tuple(each for item in items for each in does(item))), "enumerate_from": (2, numbered_from),
    "starts_with": (3, lambda same, items, first: len(first) <= len(items) and all(map(same, items, first))),
    "list_any": (2, lambda does, items: any(map(does, items))), "list_all": (2, lambda does, items: all(map(does, items))),
    "unwrap_or": (2, lambda option, other: option.parts[0] if option.parts else other), "option_map": (2, mapped_option),
    "slice_index": (2, lambda items, at: item_or(items, at, 0)), "slice_index_or": (3, item_or), "get_or": (3, item_or),
    "replicate": (2, lambda count, item: (item,) * count), "codes": (1, lambda text: text), "value_in": (2, value_in),
}
OPERATIONS = {
    "==": lambda one, other: one == other, "∷": lambda head, rest: (head, *rest), "++": lambda one, other: one + other,
    "+": lambda one, other: one + other, "-": lambda one, other: max(0, one - other), "*": lambda one, other: one * other,
    # as the logic has them, where the divisor is 0
    "/": lambda one, other: one // other if other else 0, "%": lambda one, other: one % other if other else one,
}


def bound_by(pattern, value):
    """The names that a pattern binds to parts of a value; None where the value isn't of the pattern."""
    kind = pattern[0]
    if kind in ("any", "bound"):
        return {} if kind == "any" else {pattern[1]: value}
    if kind in ("number", "truth"):
        return {} if value == pattern[1] else None
    if kind == "empty":
        return {} if value == () else None
    if kind == "made" and isinstance(value, Made) and value.name == pattern[1]:
        if len(pattern[2]) != len(value.parts):
            count, given = len(value.parts), len(pattern[2])
            raise Unknown(f"`{value.name}` has {count} part{'s' * (count != 1)}, and a clause has it with {given}")
        return all_bound(pattern[2], value.parts)
    if kind == "made":
        return None
    if kind == "head":
        return all_bound(pattern[1:], (value[0], value[1:])) if value else None
    return all_bound(pattern[1:], value)


def all_bound(patterns, values):
    found = {}
    for pattern, value in zip(patterns, values, strict=True):
        names = bound_by(pattern, value)
        if names is None:
            return None
        found.update(names)
    return found


class Definitions:
    """Definitions by their names, and constants, a text as a list of bytes."""

    def __init__(self, definitions, constants):
        self.definitions = definitions
        self.constants = {name: tuple(value) if isinstance(value, list) else value for name, value in constants.items()}

    def call(self, name, *values):
        """What a definition comes to for these values."""
        try:
            return self._called(name, values)
        except RecursionError:
            raise Unknown(f"{name} has no end that is reached") from None
        except (AttributeError, IndexError, KeyError, TypeError, ValueError):
            # what the prover takes has each part where it is looked for
            raise Unknown(f"{name} is made of parts that don't fit") from None

    def _called(self, name, values):
        for patterns, body in self.definitions[name]:
            names = all_bound(patterns, values)
            if names is not None:
                return self._value(body, names)
        raise Unknown(f"{name} says nothing of this case")

    def _named(self, name, names):
        if name in names:
            return names[name]
        if name in self.constants:
            return self.constants[name]
        if name in self.definitions:
            count = len(self.definitions[name][0][0])
            return self._called(name, ()) if count == 0 else self._partly(count, lambda *values: self._called(name, values))
        if name in WORDS:
            return self._partly(*WORDS[name])
        if name[:1].isupper():
            return Made(name, ())
        raise Unknown(f"{name} isn't known")

    def _partly(self, count, does, *given):
        """A function that waits for the rest of its parts."""
        def called(*more):
            values = (*given, *more)
            if len(values) < count:
                return self._partly(count, does, *values)
            found = does(*values[:count])
            return found(*values[count:]) if len(values) > count else found
        return called

    def _value(self, body, names):
        kind = body[0]
        if kind in VALUES:
            return VALUES[kind](self, body, names)
        if kind in ("&&", "||"):
            first = self._value(body[1], names)
            return self._value(body[2], names) if first == (kind == "&&") else first
        return OPERATIONS[kind](self._value(body[1], names), self._value(body[2], names))

    def _call(self, body, names):
        does, values = self._value(body[1], names), [self._value(part, names) for part in body[2]]
        return Made(does.name, (*does.parts, *values)) if isinstance(does, Made) else does(*values)

    def _lambda(self, body, names):
        def does(*values):
            return self._value(body[2], {**names, **dict(zip(body[1], values))})
        return self._partly(len(body[1]), does)

    def _record(self, body, names):
        base = self._value(body[1], names) if body[1] else {}
        return {**base, **{name: self._value(value, names) for name, value in body[2].items()}}

    def _field(self, body, names):
        value, field = self._value(body[1], names), body[2]
        if isinstance(value, dict):
            return value[field]
        if isinstance(value, Made):
            raise Unknown(f"{value.name}.{field} isn't known")
        # a constant of Rust that is a slice, or a part of a pair
        return value if field == "now" else value[int(field)]


VALUES = {
    "number": lambda of, body, names: body[1], "truth": lambda of, body, names: body[1], "name": lambda of, body, names: of._named(body[1], names),
    "if": lambda of, body, names: of._value(body[2 if of._value(body[1], names) else 3], names),
    "let": lambda of, body, names: of._value(body[3], {**names, body[1]: of._value(body[2], names)}),
    "list": lambda of, body, names: tuple(of._value(item, names) for item in body[1:]),
    "pair": lambda of, body, names: (of._value(body[1], names), of._value(body[2], names)),
    "call": Definitions._call, "lambda": Definitions._lambda, "record": Definitions._record, "field": Definitions._field,
}
