"""Who may do what with the files of a card: what their rules say, and what comes of it with the PINs that the card has."""
from . import decode, names, rules
from .rules import ALL_OF, ALWAYS, BY_KEY, NEVER, ONE_OF

OPERATIONS = (*rules.OPERATIONS, "increase")
# the instruction of an operation on a transparent file, and on one with records
INSTRUCTIONS = {"read": (decode.READ_BINARY, decode.READ_RECORD), "update": (decode.UPDATE_BINARY, decode.UPDATE_RECORD),
                "deactivate": (0x04, 0x04), "activate": (0x44, 0x44), "increase": (rules.INCREASE, rules.INCREASE)}
EVERYBODY, NOBODY = (ALWAYS,), (NEVER,)


def operations_on(file):
    """What may be done with a file at all."""
    return OPERATIONS if file.structure == "c" else OPERATIONS[:-1]


def condition(card, file, operation):
    """The condition of an operation, as its rule says it: a tree of `rules`."""
    if not file.rule:
        return EVERYBODY
    if card.about_rule(file):
        return NOBODY
    record = card.rule_file(file).record(file.rule[1])
    instruction = INSTRUCTIONS[operation][file.structure != "t"]
    found = [tree for tag, value, tree in rules.pairs(record) if is_named(tag, value[0], operation, instruction)]
    return joined(ONE_OF, found) if found else NOBODY


def is_named(tag, byte, operation, instruction):
    return bool(byte & rules.OPERATIONS.get(operation, 0)) if tag == 0x80 else byte == instruction


def joined(tag, trees):
    """Several conditions as one; a condition that stands there twice is told once."""
    trees = list(dict.fromkeys(trees))
    return trees[0] if len(trees) == 1 else (tag, *trees)


def keys_of(tree):
    """The keys that a condition asks for."""
    tag, *inner = tree
    if tag == BY_KEY:
        return {inner[0]}
    return set().union(*map(keys_of, inner)) if tag in (ONE_OF, ALL_OF) else set()


def effective(card, tree):
    """What is left of a condition: a key whose PIN is off counts as verified, and one that the card hasn't got never does."""
    def of_key(tree):
        pin = card.pins.get(tree[1])
        return NOBODY if pin is None else tree if pin.enabled else EVERYBODY
    return left_of(tree, of_key)


def left_of(tree, of_key=lambda tree: tree):
    """A condition without what makes no difference in it, where `of_key` says what one by a key comes to."""
    tag, *inner = tree
    if tag == BY_KEY:
        return of_key(tree)
    if tag not in (ONE_OF, ALL_OF):
        return tree
    decides, other = (EVERYBODY, NOBODY) if tag == ONE_OF else (NOBODY, EVERYBODY)
    left = [one for one in (left_of(each, of_key) for each in inner) if one != other]
    if decides in left or not left:
        return decides if decides in left else other
    return joined(tag, left)


def outcome(tree):
    """What an effective condition comes to, in words."""
    return "everybody may" if tree == EVERYBODY else "nobody may" if tree == NOBODY else f"what is left is `{rules.in_words(tree)}`"


def about_keys(card, keys):
    """Which of some keys are off, and which aren't there."""
    texts = []
    for key in sorted(keys, key=lambda key: (key == 0x0A, key)):
        pin = card.pins.get(key)
        if pin is None:
            texts.append(f"{names.key(key)}, which the card hasn't got")
        elif not pin.enabled:
            texts.append(f"{names.key(key)}, which is off")
    return " and ".join(texts)


def pointless(card):
    """Each rule that asks for a key that is off or that the card hasn't got: the files that name it, and what comes of it."""
    by_rule = {}
    for file in card.files.values():
        if file.rule and not card.about_rule(file):
            by_rule.setdefault((card.rule_file(file).path, file.rule), []).append(file)
    for (_, rule), files in by_rule.items():
        by_condition = {}
        for operation in operations_on(files[0]):
            tree = condition(card, files[0], operation)
            if about_keys(card, keys_of(tree)):
                by_condition.setdefault(tree, []).append(operation)
        for tree, named in by_condition.items():
            yield files, rule, (f"{', '.join(named)}: it asks for {about_keys(card, keys_of(tree))}, so that "
                                f"{outcome(effective(card, tree))}")


def others(files):
    """How many files go by a rule beside the first."""
    return f" (and {len(files) - 1} more files go by it)" if len(files) > 2 else " (and one more file goes by it)" if len(files) == 2 else ""
