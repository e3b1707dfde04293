"""What an image holds: the stable bytes of its store, and the card that they stand for.

The image of a journal has 65,536 bytes, that of pages that move 71,680. A commit that was begun and not finished is finished here, as
the card does it when it is opened next."""
import dataclasses

from .grammar import DEEPEST, PIN_KEYS, RESERVED
from .layout import LONGEST_KEPT, LONGEST_MENU_TEXT, LOWER_SHELVES, SHELVES, Card, File, PinState, Registered

PAGE = 64
JOURNAL_SIZE, PAGES_SIZE = 65_536, 71_680
PAGES_MARK = 0x01
GATE, OPEN_GATE, ENTRIES, ENTRIES_END = 64, 0x5A, 128, 832
MOST_PIECES, MOST_PIECE_BYTES = 4, 640
FIRST_MAPPED, LOGICAL_PAGES, MAP = 13, 1024, 832
POOL = range(45, 1120)
PINS, PIN_WIDTH = 832, 20
ROWS, ROW_STRIDE, UPPER_ROWS, KEPT_APART = 896, 64, 63_488, 64_512
NODES, NODE_WIDTH, NODE_COUNT = 1_920, 16, 128
DF, STRUCTURES = 0x78, {0x41: "t", 0x42: "l", 0x46: "c"}
# the layouts that an image may be of: its byte 4
LAYOUTS = NARROW, WIDE = 1, 2
EVENT_BITS = (0x00, 0x01, 0x02, 0x03, 0x04, 0x05, 0x07, 0x09, 0x0A, 0x40, 0x41, 0x45)


class NoCard(Exception):
    """The bytes hold no card."""


def expect_store(content, store, path):
    """NoCard, where a file is no image, or not one of the store (the journal, where none is named): the program would lengthen a file
    that is too short for it."""
    if not content:
        raise NoCard(f"it has 0 bytes, and holds no card; `uicc_run play --image {path} < SCRIPT` makes one in it")
    if len(content) not in (JOURNAL_SIZE, PAGES_SIZE):
        raise NoCard(f"it is no image of a card: it has {len(content):,} bytes, and an image has {JOURNAL_SIZE:,}, or {PAGES_SIZE:,} with "
                     "--store pages")
    if store != "pages" and is_paged(content):
        raise NoCard("it is an image of the other store: --store pages opens it")
    if store == "pages" and not is_paged(content):
        raise NoCard("it is an image of the other store: it is opened without --store pages")


def expect_card(content, store, path):
    """The card of an image of this store; NoCard, which names the file, where it holds none."""
    try:
        expect_store(content, store, path)
        return card_in(content)
    except NoCard as fault:
        raise NoCard(f"{path}: {fault}") from None


def pieces(content):
    """The pieces of a commit whose gate is open; none where they aren't well formed."""
    if content[GATE] != OPEN_GATE:
        return []
    count, at, found = content[ENTRIES], ENTRIES + 1, []
    if not 1 <= count <= MOST_PIECES:
        return []
    for _ in range(count):
        if at + 4 > ENTRIES_END:
            return []
        place, length = (int.from_bytes(content[n:n + 2], "big") for n in (at, at + 2))
        at += 4
        part = content[at:at + length]
        at += length
        if length < 1 or at > ENTRIES_END or place + length > len(content) or place < ENTRIES_END and place + length > GATE:
            return []
        found.append((place, bytes(part)))
    return found if sum(len(part) for _, part in found) <= MOST_PIECE_BYTES else []


def recovered(content):
    """The bytes with a begun commit finished."""
    content = bytearray(content)
    for place, part in pieces(content):
        content[place:place + len(part)] = part
    return bytes(content)


def stable(image):
    """The 65,536 bytes that the image of either store stands for."""
    if len(image) >= PAGES_SIZE and is_paged(image):
        return through_map(recovered_inner(image))
    return recovered(image[:JOURNAL_SIZE])


def settled(image):
    """The stable bytes without what the journal notes: images with the same ones hold the same card."""
    content = stable(image)
    return content[:GATE] + b"\xFF" * (ENTRIES_END - GATE) + content[ENTRIES_END:]


def is_unfinished(image):
    """Whether a commit was begun, and is to be finished when the card is opened next."""
    return len(image) > GATE and image[GATE] == OPEN_GATE


def is_paged(image):
    return len(image) >= PAGES_SIZE and image[5] == PAGES_MARK


def recovered_inner(image):
    """The commit of pages that move is one of a journal, whose places are those of the device."""
    return recovered(image[:JOURNAL_SIZE]) + image[JOURNAL_SIZE:]


def through_map(image):
    entries = [int.from_bytes(image[MAP + 2 * n:MAP + 2 * n + 2], "big") for n in range(LOGICAL_PAGES - FIRST_MAPPED)]
    if len(set(entries)) != len(entries) or not all(entry in POOL for entry in entries):
        return b"\xFF" * JOURNAL_SIZE
    return image[:FIRST_MAPPED * PAGE] + b"".join(image[entry * PAGE:(entry + 1) * PAGE] for entry in entries)


def is_image(content):
    """Whether a file's bytes are those of an image that holds a card, and not of a text."""
    return len(content) >= JOURNAL_SIZE and content[:4] == b"UICC"


def is_blank_memory(content):
    """Whether a file's bytes are a memory in which nothing was written."""
    return len(content) in (JOURNAL_SIZE, PAGES_SIZE) and content.strip(content[:1]) == b"" and content[:1] in (b"\x00", b"\xFF")


def no_beginning(image):
    """Why no card begins in an image."""
    if is_blank_memory(image):
        return f"the memory is blank: all its bytes are {image[0]:02X}, and no card was made in it"
    return f"it holds no card: it begins with {image[:4].hex(' ').upper()}, and a card with 55 49 43 43"


def card_in(image):
    """The card that an image holds."""
    content = stable(image)
    if content[:4] != b"UICC":
        raise NoCard(no_beginning(image))
    if content[4] not in LAYOUTS:
        raise NoCard(f"the image is of layout {content[4]}, and layouts {LAYOUTS[0]} and {LAYOUTS[-1]} are known here")
    card = Card()
    for slot in range(3):
        pin = pin_at(content[PINS + PIN_WIDTH * slot:PINS + PIN_WIDTH * (slot + 1)])
        if pin:
            card.pins[pin.key] = pin
    wide = card.was_wide = content[4] == WIDE
    for shelf in range(SHELVES if wide else LOWER_SHELVES):
        row = row_at(content, shelf, wide)
        if row:
            card.rows[shelf] = row
    paths = {}
    for number in range(NODE_COUNT):
        add_node(card, paths, number, content)
    return card


def sound_card_in(image):
    """The card that an image holds, where a script could describe it. NoCard, where bytes of it can't be a card's."""
    if len(image) not in (JOURNAL_SIZE, PAGES_SIZE):
        raise NoCard(f"it is no image of a card: it has {len(image):,} bytes, and an image has {JOURNAL_SIZE:,}, or {PAGES_SIZE:,}")
    try:
        card = card_in(image)
    except (ZeroDivisionError, IndexError):
        raise NoCard("the image holds a file without bytes") from None
    why = unsound(card)
    if why:
        raise NoCard(f"the image holds no card that could be: {why}")
    return card


def unsound(card):
    """What of a card no script could describe; None where there is nothing."""
    for key, pin in card.pins.items():
        if key not in PIN_KEYS or pin.tries > 3 or pin.unblock_tries > 10:
            return f"a PIN has the key {key:02X} and {pin.tries} and {pin.unblock_tries} tries"
    for row in card.rows.values():
        if len(row.text) > LONGEST_MENU_TEXT or len(row.kept) > LONGEST_KEPT or not row.priority:
            return f"the applet on shelf {row.shelf} has a text of {len(row.text)} bytes, and keeps {len(row.kept)}"
    for path, file in card.files.items():
        above = card.files.get(path[:-1])
        if path and (above is None or not above.is_df or path[-1] in RESERVED or len(path) > DEEPEST):
            return f"the file {'/'.join(path)} has no place"
        if not file.is_df and not sound_shape(file):
            return f"the file {'/'.join(path)} has {file.size} bytes in its records, and {len(file.content)} are there"
    return None


def sound_shape(file):
    most = 32_767 if file.structure == "t" else 255
    return (1 <= file.length <= most and 1 <= file.count <= 254 and len(file.content) == file.size and (file.short or 1) <= 30
            and (not file.rule or 1 <= file.rule[1] <= 254))


def pin_at(part):
    if part[0] == 0:
        return None
    return PinState(part[0], bytes(part[4:12]), part[1] == 1, bytes(part[12:20]), part[2], part[3])


def row_at(content, shelf, wide):
    at = ROWS + ROW_STRIDE * shelf if shelf < LOWER_SHELVES else UPPER_ROWS + ROW_STRIDE * (shelf - LOWER_SHELVES)
    part = content[at:at + ROW_STRIDE]
    if part[0] != 1:
        return None
    bits, text_length, kept_length = int.from_bytes(part[5:7], "big"), part[7], part[18]
    kept = bytes(part[19:51])
    if wide:
        apart = KEPT_APART + 32 * shelf
        kept += bytes(content[apart:apart + 32])
    events = tuple(code for bit, code in enumerate(EVENT_BITS) if bits >> bit & 1)
    row = Registered(shelf, part[2], events, bytes(part[8:8 + text_length]), kept[:kept_length])
    row.sequence = int.from_bytes(part[3:5], "big")
    return row


def add_node(card, paths, number, content):
    node = content[NODES + NODE_WIDTH * number:NODES + NODE_WIDTH * (number + 1)]
    if node[0] != 1:
        return
    if number == 0:
        paths[0] = ()
        return
    path = (*paths.get(node[4], ("????",)), node[2:4].hex().upper())
    paths[number] = path
    if node[1] == DF:
        card.files[path] = File(path)
        return
    place, size = (int.from_bytes(node[n:n + 2], "big") for n in (10, 12))
    structure, length = STRUCTURES.get(node[1], "t"), node[14] or size
    count = size // length
    held = bytes(content[place:place + size])
    head = node[15] if structure == "c" else 0
    ordered = held[head * length:] + held[:head * length]
    card.files[path] = File(path, structure, length, count, node[5] or None, (node[8:10].hex().upper(), node[7]) if node[7] else None,
                            bytearray(ordered), node[6] != 0x04)


def state(image):
    """What a card holds, entry by entry, so that two can be compared: its PINs, rows and files; `None` where it holds none."""
    try:
        card = card_in(image)
    except NoCard:
        return None
    entries = {("pin", key): (pin.value, pin.enabled, pin.unblock, pin.tries, pin.unblock_tries) for key, pin in card.pins.items()}
    entries |= {("row", shelf): dataclasses.astuple(row) + (row.sequence,) for shelf, row in card.rows.items()}
    entries |= {("file", path): (file.active, bytes(file.content)) for path, file in card.files.items()}
    return entries
