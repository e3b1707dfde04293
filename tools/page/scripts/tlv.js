// Comprehension-TLV objects and BER templates of the toolkit (ETSI TS 101 220, 7; ETSI TS 102 223).
import { bigEndian, hexByte } from "./bytes.js";

export class BadTlv extends Error {}

// A length at a place, and the place after it.
function lengthAt(content, at) {
    if (at >= content.length) {
        throw new BadTlv("a length is missing");
    }
    const first = content[at];
    if (first < 0x80) {
        return [first, at + 1];
    }
    const size = first - 0x80;
    if (size < 1 || size > 2 || at + size >= content.length) {
        throw new BadTlv(size < 1 || size > 2 ? `${hexByte(first)} begins no length` : "a length is cut short");
    }
    return [bigEndian(content.slice(at + 1, at + 1 + size)), at + 1 + size];
}

// Each object of a list: its tag without the flag, and its value.
export function objectsOf(content) {
    const found = [];
    for (let at = 0; at < content.length;) {
        const first = content[at];
        if (first === 0x00 || first === 0x80 || first === 0xff) {
            throw new BadTlv(`${hexByte(first)} is no tag`);
        }
        const isLong = first === 0x7f;
        const tag = isLong ? bigEndian(content.slice(at + 1, at + 3)) & 0x7fff : first & 0x7f;
        const [length, start] = lengthAt(content, at + (isLong ? 3 : 1));
        if (start + length > content.length) {
            throw new BadTlv(`the object ${hexByte(tag)} has ${length} bytes, and ${content.length - start} are there`);
        }
        found.push({ tag, value: content.slice(start, start + length) });
        at = start + length;
    }
    return found;
}

// The tag and the content of a BER template that is the whole.
export function templateOf(content) {
    const [length, at] = lengthAt(content, 1);
    if (at + length !== content.length) {
        throw new BadTlv(`the template has ${length} bytes, and ${content.length - at} are there`);
    }
    return { tag: content[0], value: content.slice(at) };
}

export function valueOf(content, tag) {
    return objectsOf(content).find((object) => object.tag === tag)?.value;
}
