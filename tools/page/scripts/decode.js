// Commands, answers, proactive commands and envelopes in words. What is decoded is a list of lines, each with its depth, a label and
// a text.
import { amount, bigEndian, hexByte, hexed, printable } from "./bytes.js";
import { dialledDigits, plmn } from "./contents.js";
import { isTable } from "./kinds.js";
import { installation } from "./layout.js";
import { instructionName, keyName, profileBits, qualifierName, toolkitName } from "./names.js";
import { shortObjects } from "./rules.js";
import { objectsOf, templateOf } from "./tlv.js";

export const SELECT = 0xa4;
export const STATUS = 0xf2;
export const READ_BINARY = 0xb0;
export const UPDATE_BINARY = 0xd6;
export const READ_RECORD = 0xb2;
export const UPDATE_RECORD = 0xdc;
export const SEARCH_RECORD = 0xa2;
export const INCREASE = 0x32;
export const DEACTIVATE = 0x04;
export const ACTIVATE = 0x44;
export const CHANNEL = 0x70;
export const PROFILE = 0x10;
export const FETCH = 0x12;
export const RESPONSE = 0x14;
export const ENVELOPE = 0xc2;
export const INSTALL = 0xe6;
const DELETE = 0xe4;
export const CREATE_FILE = 0xe0;
// it has its instruction byte from DELETE, and another class
export const DELETE_FILE = 0xe4;
export const RESIZE_FILE = 0xd4;
const OWN_CLASS = 0xf0;
export const GET_RESPONSE = 0xc0;
// the bytes of a command's header
const SHORTEST = 4;
const VERIFY_PIN = 0x20;
const CHANGE_PIN = 0x24;
export const DISABLE_PIN = 0x26;
export const ENABLE_PIN = 0x28;
export const UNBLOCK_PIN = 0x2c;
export const PINS = [VERIFY_PIN, CHANGE_PIN, DISABLE_PIN, ENABLE_PIN, UNBLOCK_PIN];
const SELECTIONS = { 0: "by identifier", 3: "the parent", 4: "by DF name (AID)", 8: "by path from the MF", 9: "by path" };
const RECORD_MODES = { 2: "the next record", 3: "the previous record" };

function line(depth, label, text = "") {
    return { depth, label, text };
}

// A command by its parts (ISO 7816-4, 5.1); `isCommand` is false where the bytes are no command of the short form.
export class Apdu {
    constructor(bytes) {
        const rest = bytes.slice(4);
        const [sent] = rest;
        const hasData = rest.length > 1;
        [this.size, this.lc] = [bytes.length, sent];
        this.isCommand = bytes.length >= 4 && (!hasData || (sent > 0 && (rest.length === 1 + sent || rest.length === 2 + sent)));
        [this.cla, this.ins, this.p1, this.p2] = bytes;
        this.data = hasData ? rest.slice(1, 1 + sent) : new Uint8Array();
        this.le = hasData ? rest[1 + sent] : sent;
    }

    // Why the bytes are no command, in words; null where they are one.
    get fault() {
        if (this.isCommand) {
            return null;
        }
        if (this.size < SHORTEST) {
            return `${amount(this.size)}, and a command has at least ${SHORTEST}`;
        }
        if (this.lc === 0) {
            return "it has 00 in the place of Lc, as lengths of two bytes begin, which no card here takes";
        }
        const count = this.size - SHORTEST - 1;
        return `Lc says ${this.lc}, and ${count} ${count === 1 ? "byte follows" : "bytes follow"}`;
    }

    // Whether its class is the one of INSTALL and DELETE.
    get isOnApplets() {
        return (this.cla & 0xf0) === OWN_CLASS;
    }

    // Of an interindustry class, or one of the toolkit.
    get channel() {
        return (this.cla & 0x70) === 0 ? this.cla & 3 : 0;
    }
}

const TITLES = {
    [SELECT](apdu) {
        const isPath = [0, 8, 9].includes(apdu.p1);
        const what = isPath ? hexed(apdu.data).match(/..../g)?.join("/") ?? "" : hexed(apdu.data);
        const back = { 0x04: "", 0x0c: ", no data returned" }[apdu.p2] ?? `, P2 ${hexByte(apdu.p2)}`;
        return `${SELECTIONS[apdu.p1] ?? `P1 ${hexByte(apdu.p1)}`} ${what}${back}`;
    },
    [READ_BINARY]: (apdu) => `${binaryPlace(apdu)}, ${apdu.le === 0 ? "all up to 256" : amount(apdu.le ?? 0)}`,
    [UPDATE_BINARY]: (apdu) => `${binaryPlace(apdu)}: ${amount(apdu.data.length)}`,
    [READ_RECORD]: recordPlace,
    [UPDATE_RECORD]: recordPlace,
    [SEARCH_RECORD](apdu) {
        const start = apdu.p1 ? `record ${apdu.p1}` : "the record pointer";
        return `${(apdu.p2 & 7) === 5 ? "backward" : "forward"} from ${start} for ${hexed(apdu.data)}${shortPlace(apdu.p2 >> 3)}`;
    },
    [INCREASE]: (apdu) => `by ${bigEndian(apdu.data)}${apdu.p1 & 0x80 ? shortPlace(apdu.p1 & 31) : ""}`,
    [CHANNEL]: (apdu) => (apdu.p1 === 0x80 ? `close ${apdu.p2 || apdu.channel}` : `open ${apdu.p2 || "the next free one"}`),
    [FETCH]: (apdu) => (apdu.le === undefined ? "" : amount(apdu.le || 256)),
    [GET_RESPONSE]: (apdu) => (apdu.le === undefined ? "" : amount(apdu.le || 256)),
    [STATUS]: (apdu) => (apdu.p2 === 0x0c ? "" : "with the FCP"),
    [INSTALL]: (apdu) => `on shelf ${apdu.p2}, priority ${apdu.p1}`,
    [DELETE]: (apdu) => (apdu.isOnApplets ? `of shelf ${apdu.p2}` : hexed(apdu.data)),
    [CREATE_FILE](apdu) {
        const made = newFile(apdu.data);
        if (made === null) {
            return "of no file: the template is none";
        }
        const size = made.structure === "t" ? amount(made.length) : `${made.count} records of ${amount(made.length)}`;
        return `${KINDS[made.kind] ?? `kind ${hexByte(made.kind)}`} ${made.identifier}${made.length ? ` of ${size}` : ""}`;
    },
    [RESIZE_FILE](apdu) {
        const identifier = hexed(apdu.data.slice(0, 2));
        return apdu.data.length === 4 ? `${identifier} to ${amount(bigEndian(apdu.data.slice(2)))}` : hexed(apdu.data);
    },
    ...Object.fromEntries(PINS.map((ins) => [
        ins, (apdu) => `of ${keyName(apdu.p2)}${apdu.data.length ? "" : ", asking for the tries that are left"}`,
    ])),
};

function shortPlace(short) {
    return short ? ` by SFI ${short}` : "";
}

function binaryPlace(apdu) {
    return apdu.p1 & 0x80 ? `by SFI ${apdu.p1 & 31}, from byte ${apdu.p2}` : `from byte ${(apdu.p1 << 8) | apdu.p2}`;
}

function recordPlace(apdu) {
    const mode = apdu.p2 & 7;
    const numbered = apdu.p1 ? String(apdu.p1) : "at the record pointer";
    return (mode === 4 ? numbered : RECORD_MODES[mode] ?? `mode ${mode}`) + shortPlace(apdu.p2 >> 3);
}

// A command in one line.
export function titleOf(apdu) {
    if (!apdu.isCommand) {
        return `no command: ${apdu.fault}`;
    }
    const name = instructionName(apdu.ins, apdu.cla);
    if (name === null) {
        return `unknown instruction ${hexByte(apdu.ins)}`;
    }
    const text = TITLES[apdu.ins]?.(apdu) ?? "";
    return `${name} ${text}`.trim() + (apdu.channel ? `, channel ${apdu.channel}` : "");
}

// What stands in the data of a command, object by object.
export function detailsOf(apdu) {
    if (!apdu.isCommand || !apdu.data.length) {
        return [];
    }
    if (PINS.includes(apdu.ins)) {
        return ["value", "new value"].slice(0, Math.ceil(apdu.data.length / 8))
            .map((label, place) => line(0, label, pinValue(apdu.data.slice(8 * place, 8 * place + 8))));
    }
    return decoded("bad data", () => {
        switch (apdu.ins) {
            case RESPONSE: return objectLines(apdu.data, 0);
            case ENVELOPE: return templateLines(apdu.data);
            case PROFILE: return [line(0, "the terminal knows", profileWords(apdu.data))];
            case CREATE_FILE: return parameterLines(apdu.data);
            case INSTALL: return appletLines(apdu.p2, installation(apdu.data));
            default: return [];
        }
    });
}

function decoded(label, decode) {
    try {
        return decode();
    } catch (fault) {
        return [line(0, label, fault.message)];
    }
}

export function pinValue(value) {
    const digits = printable(value).replace(/\.+$/, "");
    return /^[0-9]+$/.test(digits) ? digits : hexed(value);
}

function profileWords(data) {
    const known = Object.entries(profileBits()).filter(([place]) => {
        const [byte, bit] = place.split(".").map(Number);
        return (data[byte - 1] >> (bit - 1)) & 1;
    });
    return known.map(([, text]) => text).join(", ") || "nothing";
}

export function eventWords(code) {
    return `${hexByte(code)} ${toolkitName("events", code, "unknown")}`;
}

function action(code, value) {
    const name = toolkitName("action_names", code, "does nothing");
    if ([1, 6, 9].includes(code)) {
        return `${name} \`${printable([value])}\``;
    }
    if ([7, 8].includes(code)) {
        return `${name} ${eventWords(value)}`;
    }
    return [3, 10].includes(code) ? name : `${name} ${hexByte(value)}`;
}

// What an applet is registered for and keeps; one that is made of a table keeps triples.
export function appletLines(shelf, { events, text, kept }) {
    const lines = [line(0, "events", events.map(eventWords).join(", ") || "none")];
    if (text.length) {
        lines.push(line(0, "menu entry", printable(text)));
    }
    if (kept.length) {
        lines.push(line(0, "kept data", hexed(kept)));
    }
    for (let at = 0; isTable(shelf) && at + 2 < kept.length; at += 3) {
        lines.push(line(1, eventWords(kept[at]), action(kept[at + 1], kept[at + 2])));
    }
    return lines;
}

// objects of the toolkit

const OBJECTS = {
    0x01([number, command, qualifier]) {
        const text = qualifierName(command, qualifier) ?? (qualifier ? `qualifier ${hexByte(qualifier)}` : "");
        return `${toolkitName("commands", command, `type ${hexByte(command)}`)}, number ${number}${text ? `, ${text}` : ""}`;
    },
    0x02: (value) => Array.from(value, (byte) => toolkitName("devices", byte, hexByte(byte))).join(" to "),
    0x03([result, ...more]) {
        return `${hexByte(result)} ${toolkitName("results", result, "unknown")}${more.length ? `, ${hexed(more)}` : ""}`;
    },
    0x04: ([unit, count]) => `${count} ${["minutes", "seconds", "tenths of a second"][unit]}`,
    0x05: (value) => `\`${printable(value)}\``,
    0x06: (value) => dialledDigits(value.slice(1), value[0]) + ([0x81, 0x91].includes(value[0]) ? "" : ` type ${hexByte(value[0])}`),
    0x0d: textWords,
    0x0e: ([tone]) => `${hexByte(tone)} ${toolkitName("tones", tone, "unknown")}`,
    0x0f: (value) => (value.length ? `${value[0]} \`${printable(value.slice(1))}\`` : "none"),
    0x10: ([number]) => String(number),
    0x11: ([least, most]) => `${least} to ${most} characters`,
    0x13(value) {
        return value.length < 7 ? hexed(value)
            : `${plmn(value.slice(0, 3)) ?? "no PLMN"}, area ${hexed(value.slice(3, 5))}, cell ${hexed(value.slice(5))}`;
    },
    0x17: textWords,
    0x19: (value) => Array.from(value, eventWords).join(", ") || "none",
    0x1b: ([status]) => toolkitName("location_status", status, hexByte(status)),
    0x24: ([number]) => String(number),
    0x25: (value) => Array.from(value, (byte) => `${byte & 15}${byte >> 4}`).join(":"),
    0x2d: (value) => String.fromCharCode(...value),
};

// A text string object without its coding.
export function textIn(value) {
    const content = value.slice(1);
    if (value[0] !== 8) {
        return printable(content);
    }
    return hexed(content).match(/..../g)?.map((digits) => String.fromCharCode(parseInt(digits, 16))).join("") ?? "";
}

function textWords(value) {
    if (!value.length) {
        return "empty";
    }
    if (value[0] === 4 || value[0] === 8) {
        return `\`${textIn(value)}\``;
    }
    return `${toolkitName("data_codings", value[0], `coding ${hexByte(value[0])}`)} ${hexed(value.slice(1))}`;
}

function objectLines(content, depth) {
    return objectsOf(content).map(({ tag, value }) => line(depth, toolkitName("tags", tag, `object ${hexByte(tag)}`), objectWords(tag, value)));
}

function objectWords(tag, value) {
    try {
        return OBJECTS[tag]?.(value) ?? hexed(value);
    } catch (fault) {
        return `${hexed(value)} (${fault.message})`;
    }
}

function templateLines(data) {
    const { tag, value } = templateOf(data);
    return [line(0, toolkitName("templates", tag, `template ${hexByte(tag)}`)), ...objectLines(value, 1)];
}

// A proactive command, as FETCH answers it.
export function proactiveLines(data) {
    return decoded("bad proactive command", () => templateLines(data));
}

// control parameters

const KINDS = { 0x78: "DF", 0x38: "DF", 0x41: "transparent EF", 0x42: "linear fixed EF", 0x46: "cyclic EF" };
const LIVES = { 0x05: "activated", 0x04: "deactivated" };
const PARAMETERS = {
    0x82: ["file descriptor", (value) => {
        const kind = KINDS[value[0] & 0x7f] ?? hexByte(value[0]);
        return value.length === 5 ? `${kind}, ${value[4]} records of ${amount(bigEndian(value.slice(2, 4)))}` : kind;
    }],
    0x83: ["identifier", hexed],
    0x8a: ["life cycle", ([life]) => LIVES[life] ?? hexByte(life)],
    0x8b: ["security attributes", (value) => `record ${value[2]} of ${hexed(value.slice(0, 2))}`],
    0xc6: ["PINs", pinStatus],
    0x80: ["size", (value) => amount(bigEndian(value))],
    0x88: ["SFI", (value) => (value.length ? String(value[0] >> 3) : "none")],
};

const STRUCTURES = { 0x41: "t", 0x42: "l", 0x46: "c" };

// The file that a template asks for, as a line of a script would describe it, with the byte of its kind; null where the bytes are
// none, or one of its objects is missing.
export function newFile(data) {
    try {
        const found = new Map(shortObjects(templateOf(data).value).map(({ tag, value }) => [tag, value]));
        const descriptor = found.get(0x82);
        const [kind] = descriptor;
        const structure = STRUCTURES[kind] ?? null;
        const hasRecords = structure === "l" || structure === "c";
        const size = bigEndian(found.get(0x80) ?? []);
        const rule = found.get(0x8b);
        return {
            kind, structure, identifier: hexed(found.get(0x83)), length: hasRecords ? descriptor[3] : structure ? size : 0,
            count: hasRecords ? descriptor[4] : structure ? 1 : 0, short: found.get(0x88)?.[0] >> 3 || null,
            rule: rule ? [hexed(rule.slice(0, 2)), rule[2]] : null,
        };
    } catch {
        return null;
    }
}

// Which PINs are enabled: bits of the object 90, and the keys in objects 83 after it.
function pinStatus(value) {
    const keys = shortObjects(value).filter(({ tag }) => tag === 0x83).map((object) => object.value[0]);
    return keys.map((key, place) => `${keyName(key)} ${(value[2] >> (7 - place)) & 1 ? "enabled" : "disabled"}`).join(", ") || "none";
}

// The control parameters of a file (ETSI TS 102 221, 11.1.1.3).
export function parameterLines(data) {
    return decoded("bad FCP", () => {
        const found = shortObjects(templateOf(data).value).map(({ tag, value }) => {
            const [label, words] = PARAMETERS[tag] ?? [`object ${hexByte(tag)}`, hexed];
            return line(1, label, words(value));
        });
        return [line(0, "FCP"), ...found];
    });
}
