// Follows the commands of a trace: which file is the current one on each logical channel, so that what is read can be decoded, and
// which PINs are verified and what was changed, so that a refusal can be explained.
import { bigEndian, hexed } from "./bytes.js";
import { meaningOf } from "./contents.js";
import {
    ACTIVATE, CHANNEL, CREATE_FILE, DEACTIVATE, DELETE_FILE, DISABLE_PIN, ENABLE_PIN, INCREASE, INSTALL, PINS, READ_BINARY, READ_RECORD, RESIZE_FILE,
    SEARCH_RECORD, SELECT, UNBLOCK_PIN, UPDATE_BINARY, UPDATE_RECORD, newFile,
} from "./decode.js";
import { File, installation } from "./layout.js";
import { standardFile } from "./names.js";

const BY_IDENTIFIER = 0x00;
const PARENT = 0x03;
const FROM_MF = 0x08;
const FROM_DF = 0x09;
const ABSOLUTE = 4;
export const ON_CHILDREN = [CREATE_FILE, DELETE_FILE, RESIZE_FILE];

// after these answers a command has made its file the current one; by 61XX the data of a TPDU wait
function isTaken(status) {
    return status === "9000" || status.startsWith("91") || status.startsWith("61") || status === "6282";
}

function shortIdentifier(apdu) {
    if ([READ_BINARY, UPDATE_BINARY, INCREASE].includes(apdu.ins)) {
        return apdu.p1 & 0x80 ? apdu.p1 & 31 : 0;
    }
    return [READ_RECORD, UPDATE_RECORD, SEARCH_RECORD].includes(apdu.ins) ? apdu.p2 >> 3 : 0;
}

// Whether 7F20 is a USIM's: a card with EF.DIR has one, or with a file of the MF or of it that only a USIM has.
export function isUsim(card) {
    return card.files.has("2F00") || card.files.has("7F20/6F08") || !card.files.has("7F20/6F20");
}

export class Follower {
    // What commands change is changed in a copy of the card.
    constructor(card) {
        this.card = card.copy();
        this.usim = isUsim(card);
        // the paths of EFs of whose records one was written that isn't known
        this.unsure = new Set();
        this.reset();
    }

    copy() {
        const copy = new Follower(this.card);
        copy.usim = this.usim;
        copy.unsure = new Set(this.unsure);
        copy.current = new Map(this.current);
        copy.verified = new Set(this.verified);
        return copy;
    }

    isUnsure(path) {
        return this.unsure.has(path.join("/"));
    }

    // Whether the condition of a PIN is met: it is on the card, and verified or disabled.
    meets(key) {
        const pin = this.card.pins.get(key);
        return pin !== undefined && (!pin.enabled || this.verified.has(key));
    }

    reset() {
        // of each channel that is open: the path of the current DF, and that of the current EF or null
        this.current = new Map([[0, { df: [], ef: null }]]);
        this.verified = new Set();
    }

    on(apdu) {
        return this.current.get(apdu.channel) ?? { df: [], ef: null };
    }

    // The path that a SELECT leads to; null where there is none.
    selected(apdu) {
        const { df } = this.on(apdu);
        const path = hexed(apdu.data).match(/..../g) ?? [];
        switch (apdu.p1) {
            case PARENT: return df.slice(0, -1);
            case FROM_MF: return path[0] === "3F00" ? path.slice(1) : path;
            case FROM_DF: return [...df, ...path];
            case BY_IDENTIFIER: return path.length ? this.byIdentifier(df, path[0]) : null;
            default: return null;
        }
    }

    byIdentifier(df, identifier) {
        if (identifier === "3F00") {
            return [];
        }
        if (df.at(-1) === identifier) {
            return df;
        }
        const below = [...df, identifier];
        const beside = [...df.slice(0, -1), identifier];
        if (this.card.file(below)) {
            return below;
        }
        if (df.at(-2) === identifier) {
            return df.slice(0, -1);
        }
        return df.length && this.card.file(beside)?.isDf ? beside : null;
    }

    // The path of the EF that a command works on; null where it isn't known.
    target(apdu) {
        const { df, ef } = this.on(apdu);
        const short = shortIdentifier(apdu);
        return short ? this.card.children(df).find((file) => file.short === short)?.path ?? null : ef;
    }

    // The path of the file that CREATE FILE makes, or that DELETE FILE or RESIZE FILE names; null where the data name none.
    child(apdu) {
        const made = apdu.ins === CREATE_FILE ? newFile(apdu.data) : null;
        if (apdu.isOnApplets || (apdu.ins === CREATE_FILE && made === null) || apdu.data.length < 2) {
            return null;
        }
        return [...this.on(apdu).df, made?.identifier ?? hexed(apdu.data.slice(0, 2))];
    }

    // Takes note of a command that was answered so.
    take(apdu, status) {
        if (!apdu.isCommand) {
            return;
        }
        if (apdu.isOnApplets) {
            this.changeApplets(apdu, status);
        } else if (PINS.includes(apdu.ins)) {
            this.takePin(apdu, status);
        } else if (apdu.ins === SELECT && (isTaken(status) || status === "6283")) {
            this.select(apdu);
        } else if (apdu.ins === CHANNEL && isTaken(status) && apdu.p1 === 0x80) {
            this.current.delete(apdu.p2 || apdu.channel);
        } else if (ON_CHILDREN.includes(apdu.ins) && isTaken(status)) {
            this.changeChild(apdu, this.child(apdu));
        } else if (isTaken(status)) {
            this.changeFile(apdu, this.target(apdu));
            if (shortIdentifier(apdu)) {
                this.current.set(apdu.channel, { df: this.on(apdu).df, ef: this.target(apdu) });
            }
        }
    }

    changeApplets(apdu, status) {
        if (isTaken(status) && apdu.ins === INSTALL) {
            this.card.rows.set(apdu.p2, { shelf: apdu.p2, priority: apdu.p1, ...installation(apdu.data) });
        } else if (isTaken(status)) {
            this.card.rows.delete(apdu.p2);
        }
    }

    takePin(apdu, status) {
        const key = apdu.p2;
        const pin = this.card.pins.get(key);
        if (!apdu.data.length || !pin) {
            return;
        }
        if (!isTaken(status)) {
            // a wrong value
            if (status.startsWith("63")) {
                this.verified.delete(key);
            }
        } else if (apdu.ins === DISABLE_PIN) {
            this.card.pins.set(key, { ...pin, enabled: false });
        } else {
            this.verified.add(key);
            this.card.pins.set(key, { ...pin, enabled: pin.enabled || [ENABLE_PIN, UNBLOCK_PIN].includes(apdu.ins) });
        }
    }

    // Takes note of what is done to an EF, as far as a refusal may come of it.
    changeFile(apdu, path) {
        const file = path && this.card.file(path);
        if (!file) {
            return;
        }
        if (apdu.ins === ACTIVATE || apdu.ins === DEACTIVATE) {
            this.card.put(new File(path, { ...file, active: apdu.ins === ACTIVATE }, file.line));
        } else if (apdu.ins === UPDATE_RECORD && file.structure === "l") {
            this.changeRecord(apdu, file);
        }
    }

    changeRecord(apdu, file) {
        const isKnown = (apdu.p2 & 7) === ABSOLUTE && apdu.p1 >= 1 && apdu.p1 <= file.count;
        if (!isKnown) {
            this.unsure.add(file.path.join("/"));
            return;
        }
        const content = file.content.slice();
        content.set(apdu.data, (apdu.p1 - 1) * file.length);
        this.card.put(new File(file.path, { ...file, content }, file.line));
    }

    changeChild(apdu, path) {
        const file = path && this.card.file(path);
        if (path && apdu.ins === CREATE_FILE) {
            const made = newFile(apdu.data);
            this.card.put(new File(path, made));
            this.current.set(apdu.channel, made.structure ? { df: path.slice(0, -1), ef: path } : { df: path, ef: null });
        } else if (path && apdu.ins === DELETE_FILE) {
            this.card.remove(path);
            const without = ({ df, ef }) => ({ df, ef: ef?.join("/") === path.join("/") ? null : ef });
            this.current = new Map([...this.current].map(([channel, selected]) => [channel, without(selected)]));
        } else if (file) {
            this.card.put(new File(path, { ...file, length: bigEndian(apdu.data.slice(2)), content: undefined }, file.line));
        }
    }

    select(apdu) {
        const path = this.selected(apdu);
        if (path === null) {
            this.current.set(apdu.channel, { df: this.on(apdu).df, ef: null });
        } else if (this.card.file(path)?.isDf ?? true) {
            this.current.set(apdu.channel, { df: path, ef: null });
        } else {
            this.current.set(apdu.channel, { df: path.slice(0, -1), ef: path });
        }
    }

    // A channel was opened from another one: it has its DF, or the MF where that is the basic one.
    open(channel, apdu) {
        this.current.set(channel, { df: apdu.channel ? this.on(apdu).df : [], ef: null });
    }

    // What a whole record or the whole of a file says; null where it isn't known.
    meaning(path, bytes) {
        const kind = standardFile(path, this.usim)?.content;
        const file = this.card.file(path);
        return kind && file?.length === bytes.length ? meaningOf(kind, bytes) : null;
    }
}
