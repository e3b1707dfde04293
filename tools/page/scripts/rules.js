// Access rules: the records of an EF_ARR in words (ETSI TS 102 221, 9.2; ISO 7816-4, 5.4.3).
import { hexByte, hexed, trimmed } from "./bytes.js";

const OPERATIONS = { read: 0x01, update: 0x02, deactivate: 0x08, activate: 0x10 };
const INSTRUCTIONS = {
    0xb0: "read binary", 0xb2: "read record", 0xa2: "search record", 0xd6: "update binary", 0xdc: "update record",
    0x32: "increase", 0x04: "deactivate", 0x44: "activate",
};
// the operation that a byte of bits names, where it names that of an instruction
const BY_BITS = { 0xb0: "read", 0xb2: "read", 0xa2: "read", 0xd6: "update", 0xdc: "update" };
const KEYS = { 0x01: "pin1", 0x81: "pin2", 0x0a: "adm" };
const ALWAYS = 0x90;
const NEVER = 0x97;
const BY_KEY = 0xa4;
const ONE_OF = 0xa0;
const ALL_OF = 0xaf;
const DEEPEST = 4;

// The bytes are no rule.
export class NoRule extends Error {}

// Each tag and value of a list of objects whose lengths are below 256.
export function shortObjects(content) {
    const found = [];
    for (let at = 0; at < content.length;) {
        const tag = content[at];
        let length = content[at + 1];
        let start = at + 2;
        if (length === 0x81 && content[start] >= 0x80) {
            length = content[start];
            start += 1;
        } else if (length === undefined || length > 0x7f) {
            throw new NoRule(`the object ${hexByte(tag)} has no length of this form`);
        }
        if (start + length > content.length) {
            throw new NoRule(`the object ${hexByte(tag)} has ${length} bytes, and ${content.length - start} are there`);
        }
        found.push({ tag, value: content.slice(start, start + length) });
        at = start + length;
    }
    return found;
}

function operations({ tag, value }) {
    if (value.length === 1 && tag === 0x80) {
        return Object.entries(OPERATIONS).filter(([, bit]) => value[0] & bit).map(([name]) => name);
    }
    if (value.length === 1 && tag === 0x84) {
        return [INSTRUCTIONS[value[0]] ?? `instruction ${hexByte(value[0])}`];
    }
    throw new NoRule(`${hexByte(tag)} of ${value.length} bytes names no operation`);
}

// A condition as a tree.
function condition({ tag, value }, levels) {
    if (tag === ALWAYS && !value.length) {
        return { kind: "always" };
    }
    if (tag === NEVER && !value.length) {
        return { kind: "never" };
    }
    if (tag === BY_KEY && hexed(value).match(/^8301..950108$/)) {
        return { kind: "key", key: value[2] };
    }
    if ((tag === ONE_OF || tag === ALL_OF) && levels > 0) {
        const parts = shortObjects(value).map((each) => condition(each, levels - 1));
        if (parts.length) {
            return { kind: tag === ONE_OF ? "or" : "and", parts };
        }
    }
    throw new NoRule(`${hexByte(tag)} with ${hexed(value) || "nothing"} is no condition`);
}

function keyWord(key) {
    return KEYS[key] ?? `key reference ${hexByte(key)}, which no card has`;
}

// A condition in words, in which each PIN has its name.
export function conditionWords({ kind, key, parts }, nameOf = keyWord) {
    if (kind === "key") {
        return nameOf(key);
    }
    if (!parts) {
        return kind;
    }
    const words = parts.map((part) => conditionWords(part, nameOf));
    return words.map((text) => (parts.length > 1 && / (or|and) /.test(text) ? `(${text})` : text)).join(` ${kind} `);
}

// Whether a condition holds, where `isMet` says which PINs' conditions are met.
export function holds({ kind, key, parts }, isMet) {
    switch (kind) {
        case "key": return isMet(key);
        case "or": return parts.some((part) => holds(part, isMet));
        case "and": return parts.every((part) => holds(part, isMet));
        default: return kind === "always";
    }
}

export function keysIn({ kind, key, parts = [] }) {
    return kind === "key" ? [key] : parts.flatMap(keysIn);
}

// What an instruction does to a file, by the names that a rule may have for it.
export function operationsOf(ins) {
    return [BY_BITS[ins], INSTRUCTIONS[ins]].filter(Boolean);
}

// The pairs of a rule: operations, and the condition for them.
export function ruleIn(record) {
    const found = shortObjects(trimmed(record));
    if (!found.length || found.length % 2) {
        throw new NoRule(found.length ? "an operation has no condition" : "it is empty");
    }
    const pairs = [];
    for (let at = 0; at < found.length; at += 2) {
        pairs.push({ operations: operations(found[at]), condition: condition(found[at + 1], DEEPEST) });
    }
    return pairs;
}

// A rule in one line of words.
export function ruleWords(record) {
    return ruleIn(record).map((pair) => `${pair.operations.join(", ") || "nothing"}: ${conditionWords(pair.condition)}`).join("; ");
}
