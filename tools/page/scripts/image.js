// The card in the bytes of its memory, of either store. A commit that was begun is to be finished before, by opening the card.
import { bigEndian, hexed, isPart } from "./bytes.js";
import { Card, File } from "./layout.js";

export const SIZES = { journal: 65_536, pages: 71_680 };

const PAGE = 64;
const MARK = [0x55, 0x49, 0x43, 0x43];
const FORM = 4;
const WIDE = 2;
const STORE = 5;
const PAGED = 1;
const FIRST_MAPPED = 13;
const LOGICAL_PAGES = 1024;
const MAP = 832;
const PINS = { at: 832, width: 20, count: 3 };
const ROWS = 896;
const ROW_STRIDE = 64;
const LOWER_SHELVES = 16;
const SHELVES = 32;
const UPPER_ROWS = 63_488;
const KEPT_APART = 64_512;
const KEPT_HALF = 32;
const NODES = { at: 1_920, width: 16, count: 128 };
const DF = 0x78;
const STRUCTURES = { 0x41: "t", 0x42: "l", 0x46: "c" };
const DEACTIVATED = 0x04;
const EVENT_BITS = [0x00, 0x01, 0x02, 0x03, 0x04, 0x05, 0x07, 0x09, 0x0a, 0x40, 0x41, 0x45];

export function isPaged(image) {
    return image.length >= SIZES.pages && image[STORE] === PAGED;
}

// The pages in their logical order. Those before the first that is mapped stand where they are.
function throughMap(image) {
    const content = new Uint8Array(SIZES.journal);
    content.set(image.slice(0, FIRST_MAPPED * PAGE));
    for (let page = FIRST_MAPPED; page < LOGICAL_PAGES; page += 1) {
        const entry = MAP + 2 * (page - FIRST_MAPPED);
        const place = bigEndian(image.slice(entry, entry + 2)) * PAGE;
        content.set(image.slice(place, place + PAGE), page * PAGE);
    }
    return content;
}

function pinIn(part) {
    const [key, enabled, tries, unblockTries] = part;
    return { key, enabled: enabled === 1, tries, unblockTries, value: part.slice(4, 12), unblock: part.slice(12, 20) };
}

function rowIn(content, shelf, isWide) {
    const at = shelf < LOWER_SHELVES ? ROWS + ROW_STRIDE * shelf : UPPER_ROWS + ROW_STRIDE * (shelf - LOWER_SHELVES);
    const part = content.slice(at, at + ROW_STRIDE);
    if (part[0] !== 1) {
        return null;
    }
    const bits = bigEndian(part.slice(5, 7));
    const apart = KEPT_APART + KEPT_HALF * shelf;
    const kept = [...part.slice(19, 19 + KEPT_HALF), ...(isWide ? content.slice(apart, apart + KEPT_HALF) : [])];
    return {
        shelf, priority: part[2], sequence: bigEndian(part.slice(3, 5)), events: EVENT_BITS.filter((_, bit) => (bits >> bit) & 1),
        text: part.slice(8, 8 + part[7]), kept: Uint8Array.from(kept.slice(0, part[18])),
    };
}

function fileIn(content, node, path) {
    if (node[1] === DF) {
        return new File(path);
    }
    const place = bigEndian(node.slice(10, 12));
    const size = bigEndian(node.slice(12, 14));
    const structure = STRUCTURES[node[1]];
    const length = node[14] || size;
    const held = content.slice(place, place + size);
    // the newest record of a cyclic file stands at its head
    const head = structure === "c" ? node[15] * length : 0;
    return new File(path, {
        structure, length, count: size / length, short: node[5] || null, active: node[6] !== DEACTIVATED,
        rule: node[7] ? { file: hexed(node.slice(8, 10)), record: node[7] } : null,
        content: Uint8Array.from([...held.slice(head), ...held.slice(0, head)]),
    });
}

function putFiles(card, content) {
    const paths = [[]];
    for (let number = 1; number < NODES.count; number += 1) {
        const at = NODES.at + NODES.width * number;
        const node = content.slice(at, at + NODES.width);
        if (node[0] === 1) {
            paths[number] = [...(paths[node[4]] ?? ["????"]), hexed(node.slice(2, 4))];
            card.put(fileIn(content, node, paths[number]));
        }
    }
}

// The card that a memory holds; null where it holds none.
export function cardIn(image) {
    const content = isPaged(image) ? throughMap(image) : image.slice(0, SIZES.journal);
    if (!isPart(content, MARK)) {
        return null;
    }
    const card = new Card();
    for (let place = 0; place < PINS.count; place += 1) {
        const at = PINS.at + PINS.width * place;
        if (content[at]) {
            card.pins.set(content[at], pinIn(content.slice(at, at + PINS.width)));
        }
    }
    const isWide = content[FORM] === WIDE;
    // a card of the older form becomes one of the newer, where its files leave room, when it is opened
    card.wasWide = isWide || null;
    for (let shelf = 0; shelf < (isWide ? SHELVES : LOWER_SHELVES); shelf += 1) {
        const row = rowIn(content, shelf, isWide);
        if (row) {
            card.rows.set(shelf, row);
        }
    }
    putFiles(card, content);
    return card;
}

// What a card holds, entry by entry, each by its parts, so that two can be compared.
export function entriesOf(card) {
    const entries = new Map();
    const put = (name, ...parts) => entries.set(name, parts.map((part) => (typeof part === "object" ? hexed(part) : String(part))));
    for (const pin of card?.pins.values() ?? []) {
        put(`pin ${pin.key}`, pin.enabled, pin.value, pin.unblock, pin.tries, pin.unblockTries);
    }
    for (const row of card?.rows.values() ?? []) {
        put(`row ${row.shelf}`, row.priority, row.sequence, row.events, row.text, row.kept);
    }
    for (const file of card?.files.values() ?? []) {
        put(`file ${file.path.join("/")}`, file.active, file.content);
    }
    return entries;
}

export function isSame(parts, others) {
    return parts?.join() === others?.join();
}

// The names of the entries that aren't the same in two cards.
export function changesBetween(old, now) {
    const names = new Set([...old.keys(), ...now.keys()]);
    return new Set([...names].filter((name) => !isSame(old.get(name), now.get(name))));
}
