// What a card holds, as the lines before `start` describe it or its memory has it, and its bounds.
import { hexByte } from "./bytes.js";
import { Wrong } from "./grammar.js";

export const MOST_FILES = 128;
export const ALL_BYTES = 61_568;
// with more bytes of files than this a card has no room for rows that only a wide one holds
export const WIDE_BYTES = 59_520;
const SHELVES = 32;
export const LOWER_SHELVES = 16;
export const NARROW_KEPT = 32;
const LONGEST_KEPT = 64;
const LONGEST_MENU_TEXT = 10;
export const MOST_MENU_ENTRIES = 16;
export const EVENTS = [0x00, 0x01, 0x02, 0x03, 0x04, 0x05, 0x07, 0x09, 0x0a, 0x40, 0x41, 0x45];
export const CALL_CONTROL = 0x45;

// There is no room for what a line describes.
export class NoRoom extends Wrong {}

function shown(path) {
    return path.length ? path.join("/") : "the MF";
}

// A file of the card. A transparent EF has one record, a DF no structure. `line` is that of the script, where it has one.
export class File {
    constructor(path, said = {}, line = 0) {
        this.path = path;
        this.structure = said.structure ?? null;
        this.length = said.length ?? 0;
        this.count = said.count ?? 0;
        this.short = said.short ?? null;
        this.rule = said.rule ?? null;
        this.content = said.content ?? new Uint8Array(this.size).fill(0xff);
        this.active = said.active ?? true;
        this.line = line;
    }

    get isDf() {
        return this.structure === null;
    }

    get size() {
        return this.length * this.count;
    }

    record(number) {
        return this.content.slice((number - 1) * this.length, number * this.length);
    }

    records() {
        return Array.from({ length: this.count }, (_, place) => this.record(place + 1));
    }
}

// A length, so many bytes, and what stands after them.
function counted(what, content) {
    if (!content.length) {
        throw new Wrong(`HEX ends before the length of ${what}`);
    }
    const [count] = content;
    const rest = content.slice(1);
    if (count > rest.length) {
        throw new Wrong(`HEX ends in ${what}: ${count} bytes are to come, and ${rest.length} are there`);
    }
    return [rest.slice(0, count), rest.slice(count)];
}

// What the data of a `row` line or of INSTALL say.
export function installation(content) {
    const [codes, after] = counted("the codes of events", content);
    const [text, kept] = counted("the menu text", after);
    codes.forEach((code, place) => {
        if (!EVENTS.includes(code)) {
            throw new Wrong(`${hexByte(code)} is no event that an applet is registered for: these are ${EVENTS.map(hexByte).join(" ")}`);
        }
        if (codes.indexOf(code) < place) {
            throw new Wrong(`the event ${hexByte(code)} stands there twice`);
        }
    });
    if (text.length > LONGEST_MENU_TEXT) {
        throw new Wrong(`a menu text has at most ${LONGEST_MENU_TEXT} bytes, and not ${text.length}`);
    }
    if (kept.length > LONGEST_KEPT) {
        throw new Wrong(`an applet keeps at most ${LONGEST_KEPT} bytes, and not ${kept.length}`);
    }
    return { events: [...codes], text, kept };
}

// Whether an applet wants the room that only a card with few bytes of files has.
export function needsWide(shelf, kept) {
    return shelf >= LOWER_SHELVES || kept.length > NARROW_KEPT;
}

// The files by their paths, joined by slashes, in the order in which they were described, with the MF first; the PINs and rows
// by their keys and shelves.
export class Card {
    constructor() {
        this.files = new Map([["", new File([])]]);
        this.pins = new Map();
        this.rows = new Map();
        this.wasWide = null;
    }

    // Whether it has room for 32 applets, which is settled when it is made.
    get isWide() {
        return this.wasWide ?? this.total <= WIDE_BYTES;
    }

    file(path) {
        return this.files.get(path.join("/"));
    }

    children(path) {
        return [...this.files.values()].filter((file) => file.path.length === path.length + 1
            && path.every((identifier, depth) => file.path[depth] === identifier));
    }

    // A card of the same, of which some may be taken away and others put in their place.
    copy() {
        const copy = new Card();
        copy.files = new Map(this.files);
        copy.pins = new Map(this.pins);
        copy.rows = new Map(this.rows);
        copy.wasWide = this.isWide;
        return copy;
    }

    remove(path) {
        this.files.delete(path.join("/"));
    }

    put(file) {
        this.files.set(file.path.join("/"), file);
    }

    // Adds what a line says. Throws Wrong, and adds nothing, where it may not stand there; NoRoom where there is none for it.
    add(said, line) {
        const adding = {
            df: () => this.addFile(new File(said.path, {}, line)), ef: () => this.addEf(said, line),
            fill: () => this.fill(said), rec: () => this.setRecord(said), pin: () => this.addPin(said, line),
            row: () => this.addRow(said, line),
        };
        adding[said.word]();
    }

    get total() {
        return [...this.files.values()].reduce((sum, file) => sum + file.size, 0);
    }

    checkPlace(path) {
        for (let depth = 1; depth < path.length; depth += 1) {
            const above = path.slice(0, depth);
            const found = this.file(above);
            if (!found) {
                throw new Wrong(`${shown(above)} isn't there: \`df ${above.join("")}\` has to stand before this line`);
            }
            if (!found.isDf) {
                throw new Wrong(`${shown(above)} is an EF, and no DF (line ${found.line})`);
            }
        }
        if (this.file(path)) {
            throw new Wrong(`${shown(path)} is there already (line ${this.file(path).line})`);
        }
    }

    addFile(file) {
        this.checkPlace(file.path);
        if (this.files.size >= MOST_FILES) {
            throw new NoRoom(`a card has at most ${MOST_FILES} files, the MF counted with them`);
        }
        const total = this.total + file.size;
        const wide = [...this.rows.values()].find((row) => needsWide(row.shelf, row.kept));
        const most = wide ? WIDE_BYTES : ALL_BYTES;
        if (total > most) {
            const where = wide ? `with the applet on shelf ${wide.shelf} (line ${wide.line}) ` : "";
            throw new NoRoom(`${where}all files have at most ${most} bytes together: with these ${file.size} they would have ${total}`);
        }
        this.put(file);
    }

    addEf(said, line) {
        this.checkPlace(said.path);
        const taken = said.short && this.children(said.path.slice(0, -1)).find((file) => file.short === said.short);
        if (taken) {
            throw new Wrong(`the SFI ${said.short} is taken by ${shown(taken.path)} (line ${taken.line})`);
        }
        this.addFile(new File(said.path, said, line));
    }

    found(path) {
        for (let depth = 1; depth <= path.length; depth += 1) {
            const part = path.slice(0, depth);
            const file = this.file(part);
            if (!file) {
                throw new Wrong(`${shown(part)} isn't there: a line before has to describe it`);
            }
            if (!file.isDf && depth < path.length) {
                throw new Wrong(`${shown(part)} is an EF, and no DF (line ${file.line})`);
            }
        }
        if (this.file(path).isDf) {
            throw new Wrong(`${shown(path)} is a DF, and has no bytes of its own`);
        }
        return this.file(path);
    }

    fill(said) {
        const file = this.found(said.path);
        if (file.structure !== "t") {
            throw new Wrong(`${shown(said.path)} has records (line ${file.line}): rec PATH NUMBER HEX writes one`);
        }
        const end = said.offset + said.content.length;
        if (end > file.size) {
            throw new Wrong(`${shown(said.path)} has ${file.size} bytes (line ${file.line}), and HEX would end after byte ${end}`);
        }
        file.content.set(said.content, said.offset);
    }

    setRecord(said) {
        const file = this.found(said.path);
        if (file.structure === "t") {
            throw new Wrong(`${shown(said.path)} is transparent (line ${file.line}): fill PATH OFFSET HEX writes its bytes`);
        }
        if (said.number < 1 || said.number > file.count) {
            throw new Wrong(`NUMBER is 1 to ${file.count}, as ${shown(said.path)} has so many records (line ${file.line}), not ${said.number}`);
        }
        if (said.content.length > file.length) {
            throw new Wrong(`a record of ${shown(said.path)} has ${file.length} bytes (line ${file.line}), and HEX has ${said.content.length}`);
        }
        const at = (said.number - 1) * file.length;
        file.content.fill(0xff, at, at + file.length);
        file.content.set(said.content, at);
    }

    addPin(said, line) {
        if (this.pins.has(said.key)) {
            throw new Wrong(`the PIN ${hexByte(said.key)} is there already (line ${this.pins.get(said.key).line})`);
        }
        this.pins.set(said.key, { ...said, tries: 3, unblockTries: 10, line });
    }

    addRow(said, line) {
        if (said.shelf >= SHELVES) {
            throw new Wrong(`SHELF is 0 to ${SHELVES - 1}, not ${said.shelf}`);
        }
        const given = installation(said.content);
        const rows = [...this.rows.values()];
        if (this.rows.has(said.shelf)) {
            throw new Wrong(`an applet is registered on shelf ${said.shelf} already (line ${this.rows.get(said.shelf).line})`);
        }
        const control = rows.find((row) => row.events.includes(CALL_CONTROL));
        if (given.events.includes(CALL_CONTROL) && control) {
            throw new Wrong(`one applet at most has call control (event 45), and that on shelf ${control.shelf} has it (line ${control.line})`);
        }
        if (given.text.length && rows.filter((row) => row.text.length).length >= MOST_MENU_ENTRIES) {
            throw new Wrong(`at most ${MOST_MENU_ENTRIES} applets have an entry in the menu`);
        }
        if (this.total > WIDE_BYTES && needsWide(said.shelf, given.kept)) {
            throw new NoRoom(`where the files have more than ${WIDE_BYTES} bytes together (${this.total} here), there are shelves 0 to `
                + `${LOWER_SHELVES - 1} alone, and an applet keeps at most ${NARROW_KEPT} bytes`);
        }
        this.rows.set(said.shelf, { shelf: said.shelf, priority: said.priority, ...given, line });
    }

    // The EF whose records say who may do what with a file: that of the identifier in its own DF, or in the nearest above.
    ruleFile(file) {
        for (let depth = file.path.length - 1; depth >= 0; depth -= 1) {
            const found = this.file([...file.path.slice(0, depth), file.rule.file]);
            if (found && !found.isDf) {
                return found;
            }
        }
        return null;
    }
}
