// The letters of names in files: the default alphabet of 3GPP TS 23.038, and the forms of UCS2 (ETSI TS 102 221, annex A).
import { tables } from "./tables.js";
import { bigEndian, hexByte, isBlank } from "./bytes.js";

const ESCAPE = 0x1b;
const WIDE = 0x80;
const NARROW = 0x81;
const NARROW_ANYWHERE = 0x82;
// how many letters of a base the bytes of a narrow form reach
const REACH = 0x80;
const UNSEEN = /[\p{C}\p{Zl}\p{Zp}]/u;

function letterAt(codes, at) {
    const escaped = codes[at] === ESCAPE && at + 1 < codes.length ? tables.alphabet.escaped[hexByte(codes[at + 1])] : undefined;
    const letter = escaped ?? tables.alphabet.basic[codes[at]];
    const bytes = codes.slice(at, at + (escaped === undefined ? 1 : 2));
    const digits = Array.from(bytes, (code) => `\\${hexByte(code)}`).join("");
    return { size: bytes.length, text: letter === undefined || UNSEEN.test(letter) ? digits : letter };
}

// The text of codes, one a byte. What is no letter that can be shown is `\` with its two digits.
function lettersOf(codes) {
    let text = "";
    for (let at = 0; at < codes.length;) {
        const letter = letterAt(codes, at);
        text += letter.text;
        at += letter.size;
    }
    return text;
}

function wideText(bytes) {
    return new TextDecoder("utf-16be", { ignoreBOM: true }).decode(Uint8Array.from(bytes));
}

// The text of one byte a letter; codes of the alphabet stand together, since one may be an escape.
function narrowText(bytes, base) {
    const parts = [];
    let codes = [];
    for (const byte of bytes) {
        if (byte < REACH) {
            codes.push(byte);
        } else {
            const letter = (base + byte - REACH) & 0xffff;
            parts.push(lettersOf(codes), wideText([letter >> 8, letter & 0xff]));
            codes = [];
        }
    }
    return parts.join("") + lettersOf(codes);
}

// The name that bytes say, up to the FF that fill them up.
export function nameOf(content) {
    const bytes = Array.from(content);
    if (bytes[0] === WIDE) {
        let end = 1;
        while (end < bytes.length && !isBlank(bytes.slice(end, end + 2))) {
            end += 2;
        }
        return wideText(bytes.slice(1, end));
    }
    if (bytes[0] === NARROW && bytes.length >= 3) {
        return narrowText(bytes.slice(3, 3 + bytes[1]), bytes[2] * REACH);
    }
    if (bytes[0] === NARROW_ANYWHERE && bytes.length >= 4) {
        return narrowText(bytes.slice(4, 4 + bytes[1]), bigEndian(bytes.slice(2, 4)));
    }
    const end = bytes.indexOf(0xff);
    return lettersOf(end < 0 ? bytes : bytes.slice(0, end));
}
