// The lines of a script: what each says, or what is wrong with it and what would be right.
import { bytesOfText, fromHex } from "./bytes.js";

const LONGEST_LINE = 600;
const MOST_BYTES_A_LETTER = 3;
const LONGEST_COMMAND = 261;
const MOST_OCTETS = 255;
const MOST_COUNT = 999_999_999;
const DEEPEST = 8;
const RESERVED = ["3F00", "7FFF"];
const PIN_KEYS = [0x01, 0x81, 0x0a];
const ADMINISTRATOR = 0x0a;
const LONGEST_TEXT = 30;
const MOST_DIGITS = 20;
const LONGEST_PLACE = 32;
const PAGE = 64;

// what stands in a line after its first word, as the documents show it
export const FORMS = {
    df: "df PATH",
    ef: "ef PATH t SIZE SHORT RULE, or ef PATH l (or c) LENGTH COUNT SHORT RULE",
    fill: "fill PATH OFFSET HEX",
    rec: "rec PATH NUMBER HEX",
    pin: "pin KEY VALUE on UNBLOCK (or off)",
    row: "row SHELF PRIORITY HEX",
    start: "start",
    apdu: "apdu HEX",
    tpdu: "tpdu HEX",
    reset: "reset",
    cut: "cut K, or cut K N XX",
    fail: "fail K XX",
    readfail: "readfail K",
    user: "user ok, end, back, none, press or idle, user type TEXT, user pick N, or user dial DIGITS",
    net: "net place HEX, or net poll",
    time: "time N",
};
const EF_FORMS = { t: "ef PATH t SIZE SHORT RULE", l: "ef PATH l LENGTH COUNT SHORT RULE", c: "ef PATH c LENGTH COUNT SHORT RULE" };
const PLAIN_ACTS = ["ok", "end", "back", "none", "press", "idle"];

// which first words describe the card, and which are a handset's
export const OF_CARD = ["df", "ef", "fill", "rec", "pin", "row"];
export const OF_HANDSET = ["user", "net", "time"];
export const PLANS = ["cut", "fail", "readfail"];
export const OF_COMMANDS = ["apdu", "tpdu"];

// Why a line is bad.
export class Wrong extends Error {}

// The words of a line that are still to be read.
class Words {
    constructor(line) {
        this.rest = line;
        this.form = null;
    }

    // The next word, which has this name in the form of the line.
    take(name) {
        const line = this.all(name);
        const space = line.indexOf(" ");
        const word = space < 0 ? line : line.slice(0, space);
        this.rest = space < 0 ? null : line.slice(space + 1);
        if (!word) {
            throw new Wrong(this.aboutSpace(name));
        }
        return word;
    }

    aboutSpace(name) {
        if (this.rest === null) {
            return this.form ? `a space stands at the end, and ${name} is missing` : "a space stands alone";
        }
        return this.form ? `two spaces stand before ${name}: words are parted by one` : "a space stands at the beginning";
    }

    // All that is left of the line, with its spaces.
    all(name) {
        if (this.rest === null) {
            throw new Wrong(`${name} is missing: ${this.form}`);
        }
        return this.rest;
    }

    takeAll(name) {
        const rest = this.all(name);
        this.rest = null;
        return rest;
    }

    isRead() {
        return this.rest === null;
    }

    end() {
        if (this.rest === null) {
            return;
        }
        throw new Wrong(this.rest.trim() ? `\`${this.rest}\` is too much: ${this.form}`
            : `nothing may stand after the last word, not even a space: ${this.form}`);
    }
}

function number(name, word, least, most) {
    if (!/^[0-9]+$/.test(word)) {
        throw new Wrong(`${name} is a decimal number, not ${word}`);
    }
    if (word.length > 1 && word[0] === "0") {
        throw new Wrong(`${name} has no leading zero: ${word.replace(/^0+(?=.)/, "")}, not ${word}`);
    }
    if (word.length > 9 || Number(word) < least || Number(word) > most) {
        throw new Wrong(`${name} is ${least} to ${most}, not ${word}`);
    }
    return Number(word);
}

function hexadecimal(name, word, most, exactly = null) {
    const other = word.match(/[^0-9A-Fa-f]/);
    if (other) {
        throw new Wrong(`${name} has hexadecimal digits alone, and no \`${other[0]}\``);
    }
    if (!word || word.length % 2) {
        throw new Wrong(`${name} has an even number of digits, at least two, and not ${word.length}`);
    }
    const length = word.length / 2;
    if (exactly !== null && length !== exactly) {
        const bytes = exactly === 1 ? "byte" : "bytes";
        throw new Wrong(`${name} is ${exactly} ${bytes}, which is ${2 * exactly} digits, and not ${word.length}`);
    }
    if (length > most) {
        throw new Wrong(`${name} has at most ${most} bytes, and not ${length}`);
    }
    return fromHex(word);
}

function byte(name, word) {
    return hexadecimal(name, word, 1, 1)[0];
}

function readPath(word) {
    hexadecimal("PATH", word, 2 * DEEPEST);
    if (word.length % 4) {
        throw new Wrong(`PATH is identifiers of four digits each, and ${word.length} digits are none`);
    }
    const path = word.toUpperCase().match(/..../g);
    const reserved = path.find((identifier) => RESERVED.includes(identifier));
    if (reserved) {
        throw new Wrong(reserved === "3F00"
            ? "3F00 is no identifier in a PATH: it leads from the MF down, without the MF's own"
            : `${reserved} is no identifier in a PATH: no file may have it`);
    }
    return path;
}

function readShort(word) {
    return word === "-" ? null : number("SHORT (or -)", word, 1, 30);
}

function readRule(word) {
    if (word === "-") {
        return null;
    }
    if (word[4] !== ":") {
        throw new Wrong(`RULE is the identifier of an EF_ARR, a colon and a record's number, as 2F06:1, or -, not ${word}`);
    }
    hexadecimal("the identifier in RULE", word.slice(0, 4), 2, 2);
    return { file: word.slice(0, 4).toUpperCase(), record: number("the record in RULE", word.slice(5), 1, 254) };
}

function readEf(words) {
    const path = readPath(words.take("PATH"));
    const structure = words.take("t, l or c");
    if (!EF_FORMS[structure]) {
        throw new Wrong(`the structure is t, l or c (transparent, linear fixed, cyclic), not ${structure}`);
    }
    words.form = EF_FORMS[structure];
    const isTransparent = structure === "t";
    const length = isTransparent ? number("SIZE", words.take("SIZE"), 1, 32_767) : number("LENGTH", words.take("LENGTH"), 1, 255);
    const count = isTransparent ? 1 : number("COUNT", words.take("COUNT"), 1, 254);
    return { path, structure, length, count, short: readShort(words.take("SHORT")), rule: readRule(words.take("RULE")) };
}

function readPin(words) {
    const word = words.take("KEY").toUpperCase();
    const key = PIN_KEYS.find((known) => known.toString(16).toUpperCase().padStart(2, "0") === word);
    if (key === undefined) {
        throw new Wrong(`KEY is 01, 81 or 0A, not ${word}`);
    }
    const value = hexadecimal("VALUE", words.take("VALUE"), 8, 8);
    const state = words.take("on or off");
    if (state !== "on" && state !== "off") {
        throw new Wrong(`a PIN is on or off, not ${state}`);
    }
    if (state === "off" && key === ADMINISTRATOR) {
        throw new Wrong("the PIN 0A is always on");
    }
    return { key, value, enabled: state === "on", unblock: hexadecimal("UNBLOCK", words.take("UNBLOCK"), 8, 8) };
}

function readCommand(words) {
    const digits = words.takeAll("HEX");
    if (digits.includes(" ")) {
        throw new Wrong("HEX is one word: no space stands between its bytes");
    }
    return { command: hexadecimal("HEX", digits, LONGEST_COMMAND) };
}

function readCut(words) {
    const call = number("K", words.take("K"), 1, MOST_COUNT);
    if (words.isRead()) {
        return { call };
    }
    return { call, kept: number("N", words.take("N"), 0, PAGE), rest: byte("XX", words.take("XX")) };
}

function readUser(words) {
    const act = words.take("what the user does");
    if (act === "type") {
        return { act, value: readTyped(words) };
    }
    if (act === "pick") {
        return { act, value: number("N", words.take("N"), 1, 255) };
    }
    if (act === "dial") {
        const digits = words.take("DIGITS");
        if (!/^[0-9]+$/.test(digits) || digits.length > MOST_DIGITS) {
            throw new Wrong(`DIGITS are 1 to ${MOST_DIGITS} decimal digits, not ${digits}`);
        }
        return { act, value: digits };
    }
    if (!PLAIN_ACTS.includes(act)) {
        throw new Wrong(`a user does no \`${act}\`: ${FORMS.user}`);
    }
    return { act };
}

function readTyped(words) {
    if (words.isRead()) {
        throw new Wrong("TEXT stands after a second space, also where it is empty: user type TEXT");
    }
    const text = words.takeAll("TEXT");
    if (text.length > LONGEST_TEXT) {
        throw new Wrong(`TEXT has at most ${LONGEST_TEXT} characters, and not ${text.length}`);
    }
    if (!/^[ -~]*$/.test(text)) {
        throw new Wrong("TEXT has printable characters of ASCII alone");
    }
    return text;
}

function readNet(words) {
    const act = words.take("what the network does");
    if (act === "place") {
        return { act, value: hexadecimal("HEX", words.take("HEX"), LONGEST_PLACE) };
    }
    if (act !== "poll") {
        throw new Wrong(`a network does no \`${act}\`: ${FORMS.net}`);
    }
    return { act };
}

const READERS = {
    df: (words) => ({ path: readPath(words.take("PATH")) }),
    ef: readEf,
    fill: (words) => ({
        path: readPath(words.take("PATH")), offset: number("OFFSET", words.take("OFFSET"), 0, 65_535),
        content: hexadecimal("HEX", words.take("HEX"), MOST_OCTETS),
    }),
    rec: (words) => ({
        path: readPath(words.take("PATH")), number: number("NUMBER", words.take("NUMBER"), 0, 255),
        content: hexadecimal("HEX", words.take("HEX"), MOST_OCTETS),
    }),
    pin: readPin,
    row: (words) => ({
        shelf: number("SHELF", words.take("SHELF"), 0, 255), priority: number("PRIORITY", words.take("PRIORITY"), 1, 255),
        content: hexadecimal("HEX", words.take("HEX"), MOST_OCTETS),
    }),
    start: () => ({}),
    apdu: readCommand,
    tpdu: readCommand,
    reset: () => ({}),
    cut: readCut,
    fail: (words) => ({ call: number("K", words.take("K"), 1, MOST_COUNT), rest: byte("XX", words.take("XX")) }),
    readfail: (words) => ({ call: number("K", words.take("K"), 1, MOST_COUNT) }),
    user: readUser,
    net: readNet,
    time: (words) => ({ seconds: number("N", words.take("N"), 0, MOST_COUNT) }),
};

// What a line says that is given without its end, by its first word; null where it is empty or a comment. Throws Wrong where it
// is in no form.
export function readLine(line) {
    if (line.length > LONGEST_LINE / MOST_BYTES_A_LETTER && bytesOfText(line).length > LONGEST_LINE) {
        throw new Wrong(`a line has at most ${LONGEST_LINE} bytes, also a comment`);
    }
    if (!line || line[0] === "#") {
        return null;
    }
    try {
        return statement(line);
    } catch (fault) {
        if (fault instanceof Wrong && line.includes("\t")) {
            throw new Wrong("a tab stands in the line: words are parted by one space");
        }
        throw fault;
    }
}

function statement(line) {
    const words = new Words(line);
    const word = words.take("the first word");
    if (!Object.hasOwn(READERS, word)) {
        if (word.startsWith("\ufeff")) {
            throw new Wrong(`a byte order mark stands before \`${word.slice(1)}\`: a script is saved without one`);
        }
        const near = word.toLowerCase();
        throw new Wrong(`no line begins with \`${word}\`${Object.hasOwn(FORMS, near) ? `: ${FORMS[near]}` : ""}`);
    }
    words.form = FORMS[word];
    const said = READERS[word](words);
    words.end();
    return { word, ...said };
}
