"""What stays of a file where some parts of what it holds are written: those that aren't named."""
from . import coding, fields, forms
from .coding import BadContent
from .structured import MAILBOXES

# Where each part stands in contents of a fixed form, by their kinds. A byte that is of no part stays as it is.
PLACES = {
    "spn": {"name": (1, None), "with_network": (0, 1), "abroad": (0, 1)},
    "ad": {"mode": (0, 1), "network_digits": (3, 4)},
    "dialling": {"name": (0, -14), "number": (-14, None)},
    "barred": {"name": (0, -15), "number": (-15, -1)},
    "ecc": {"number": (0, 3), "name": (3, -1), "category": (-1, None)},
    "smsp": {"name": (0, -28), "destination": (-27, -15), "centre": (-15, -3), "protocol": (-3, -2), "coding": (-2, -1), "validity": (-1, None)},
    "loci": {"tmsi": (0, 4), "plmn": (4, 7), "area": (7, 9), "status": (10, 11)},
    "psloci": {"ptmsi": (0, 4), "signature": (4, 7), "plmn": (7, 10), "area": (10, 12), "routing": (12, 13), "status": (13, 14)},
    "epsloci": {"guti": (0, 12), "plmn": (12, 15), "area": (15, 17), "status": (17, 18)},
    "5gsloci": {"guti": (0, 13), "plmn": (13, 16), "area": (16, 19), "status": (19, 20)},
    "opl": {"plmn": (0, 3), "from": (3, 5), "to": (5, 7), "name": (7, 8)},
    "opl5g": {"plmn": (0, 3), "from": (3, 6), "to": (6, 9), "name": (9, 10)},
    "mbi": {key: (place, place + 1) for place, key in enumerate(MAILBOXES)},
}
# what goes with every part: the byte that says which parameters of a short message are there
WITH_ALL = {"smsp": (-28, -27)}


def is_in_parts(key, value, entry):
    """Whether a key's value names parts of what a file holds, so that others may stay."""
    kind = fields.KINDS.get((entry or {}).get("content"))
    if kind is None or kind.key != key or forms.table_in(kind.form) is None:
        return False
    given = value if kind.of_records and isinstance(value, list) else [value]
    return any(isinstance(one, dict) for one in given) or not kind.of_records and isinstance(value, str)


def written(key, value, entry, before):
    """The bytes of a file, or of a record, that held others before: with the parts that the value names, and the others as they were. A record
    that a text alone says is that text. BadContent, where it can't be known what would stay."""
    kind = fields.KINDS[entry["content"]]
    keys = list(forms.table_in(kind.form).keys)
    if coding.is_blank(before) or kind.of_records and not isinstance(value, dict):
        return encoded(kind, key, value, entry, len(before))
    given = value if isinstance(value, dict) else {keys[0]: value}
    told = parts_of(kind, key, keys, before, entry)
    if told is None and any(name not in given for name in keys):
        raise BadContent(f"nothing is written: no words say what is there, {before.hex().upper()}, and beside {', '.join(given)} nothing of it would "
                         f"stay; say all of {', '.join(keys)}, or write its bytes")
    after = encoded(kind, key, {**(told or {}), **given}, entry, len(before))
    places = PLACES.get(entry["content"])
    if places is None:
        if told is not None and encoded(kind, key, told, entry, len(before)) != before:
            raise BadContent(f"nothing is written: {before.hex().upper()} is there, of which {key} says a part alone, and the rest would be lost; "
                             "write its bytes")
        return after
    kept = bytearray(before)
    for place in [*(places[name] for name in given), *([WITH_ALL[entry["content"]]] if entry["content"] in WITH_ALL else ())]:
        kept[slice(*place)] = after[slice(*place)]
    return bytes(kept)


def encoded(kind, key, value, entry, size):
    content = fields.written(key, [value] if kind.of_records else value, entry, size)
    return content[0] if kind.of_records else content


def parts_of(kind, key, keys, content, entry):
    """What bytes say, as a table that can be written; None where no words say it."""
    try:
        value = kind.value(content)
        encoded(kind, key, value, entry, len(content))
    except (ValueError, KeyError, IndexError):
        return None
    return value if isinstance(value, dict) else {keys[0]: value}
