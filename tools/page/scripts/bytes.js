// Bytes and their digits.

export function hexed(bytes) {
    return Array.from(bytes, (byte) => byte.toString(16).padStart(2, "0")).join("").toUpperCase();
}

export function hexByte(byte) {
    return byte.toString(16).padStart(2, "0").toUpperCase();
}

export function fromHex(digits) {
    const bytes = new Uint8Array(digits.length >> 1);
    for (let place = 0; place < bytes.length; place += 1) {
        bytes[place] = parseInt(digits.slice(2 * place, 2 * place + 2), 16);
    }
    return bytes;
}

export function printable(bytes) {
    return Array.from(bytes, (byte) => (byte >= 0x20 && byte < 0x7f ? String.fromCharCode(byte) : ".")).join("");
}

export function bigEndian(bytes) {
    return bytes.reduce((number, byte) => number * 256 + byte, 0);
}

export function isBlank(bytes) {
    return bytes.every((byte) => byte === 0xff);
}

// The bytes without the FF at their end.
export function trimmed(bytes) {
    let end = bytes.length;
    while (end > 0 && bytes[end - 1] === 0xff) {
        end -= 1;
    }
    return bytes.slice(0, end);
}

export function isPart(bytes, begin) {
    return begin.every((byte, place) => bytes[place] === byte);
}

const encoder = new TextEncoder();

// A text as it is handed to the program.
export function bytesOfText(text) {
    return encoder.encode(text);
}

export function amount(count) {
    return count === 1 ? "1 byte" : `${count} bytes`;
}

export function plural(count, what) {
    return `${count.toLocaleString("en")} ${what}${count === 1 ? "" : "s"}`;
}
