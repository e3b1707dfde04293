// What the definitions of the applets' kinds come to, as tools/uicc/evaluation.py has it: numbers, truths, lists, records, and what
// constructors make, a name with its parts.
import { BadTlv, objectsOf } from "./tlv.js";

const NONE = made("None");

// What a definition comes to can't be worked out.
export class Unknown extends Error {}

export function made(name, ...parts) {
    return { name, parts };
}

// The value of the first object with a tag; none where there is none, or the bytes are no objects.
function valueIn(tag, content) {
    try {
        const found = objectsOf(Uint8Array.from(content)).find((each) => each.tag === tag);
        return found ? made("Some", [...found.value]) : NONE;
    } catch (fault) {
        if (fault instanceof BadTlv) {
            return NONE;
        }
        throw fault;
    }
}

function foundFirst(does, items) {
    const found = items.find((item) => does(item));
    return found === undefined ? NONE : made("Some", found);
}

function takenWhile(does, items) {
    const end = items.findIndex((item) => !does(item));
    return end < 0 ? items : items.slice(0, end);
}

// The words of the standard library that the tables may use: how many parts each takes, and what it comes to.
const WORDS = {
    not: [1, (truth) => !truth],
    nat_eq: [2, (one, other) => one === other],
    nat_le: [2, (one, other) => one <= other],
    nat_lt: [2, (one, other) => one < other],
    min: [2, Math.min],
    max: [2, Math.max],
    length: [1, (items) => items.length],
    map: [2, (does, items) => items.map((item) => does(item))],
    take: [2, (count, items) => items.slice(0, count)],
    drop: [2, (count, items) => items.slice(count)],
    reverse: [1, (items) => [...items].reverse()],
    filter: [2, (does, items) => items.filter((item) => does(item))],
    find: [2, foundFirst],
    take_while: [2, takenWhile],
    drop_while: [2, (does, items) => items.slice(takenWhile(does, items).length)],
    flat_map: [2, (does, items) => items.flatMap((item) => does(item))],
    starts_with: [3, (same, items, first) => first.length <= items.length && first.every((item, at) => same(items[at], item))],
    enumerate_from: [2, (first, items) => items.map((item, at) => [first + at, item])],
    unwrap_or: [2, (option, other) => option.parts[0] ?? other],
    option_map: [2, (does, option) => (option.parts.length ? made("Some", does(option.parts[0])) : option)],
    list_any: [2, (does, items) => items.some((item) => does(item))],
    list_all: [2, (does, items) => items.every((item) => does(item))],
    slice_index: [2, (items, at) => items[at] ?? 0],
    slice_index_or: [3, (items, at, other) => items[at] ?? other],
    get_or: [3, (items, at, other) => items[at] ?? other],
    codes: [1, (text) => text],
    replicate: [2, (count, item) => Array(count).fill(item)],
    value_in: [2, valueIn],
};
const OPERATIONS = {
    "==": (one, other) => one === other,
    "∷": (head, rest) => [head, ...rest],
    "++": (one, other) => [...one, ...other],
    "+": (one, other) => one + other,
    "-": (one, other) => Math.max(0, one - other),
    "*": (one, other) => one * other,
    // as the logic has them, where the divisor is 0
    "/": (one, other) => (other ? Math.floor(one / other) : 0),
    "%": (one, other) => (other ? one % other : one),
};

// The names that a pattern binds to parts of a value; null where the value isn't of the pattern.
const BOUND_BY = {
    any: () => ({}),
    bound: ([, name], value) => ({ [name]: value }),
    number: ([, number], value) => (value === number ? {} : null),
    truth: ([, truth], value) => (value === truth ? {} : null),
    empty: (_, value) => (value.length === 0 ? {} : null),
    made: ([, name, parts], value) => (value.name === name ? allBound(parts, value.parts) : null),
    head: ([, first, rest], value) => (value.length ? allBound([first, rest], [value[0], value.slice(1)]) : null),
    pair: ([, ...parts], value) => allBound(parts, value),
};

function allBound(patterns, values) {
    const found = patterns.map((pattern, at) => BOUND_BY[pattern[0]](pattern, values[at]));
    return found.includes(null) ? null : Object.assign({}, ...found);
}

// A function that waits for the rest of its parts.
function partly(count, does, ...given) {
    return (...more) => {
        const values = [...given, ...more];
        if (values.length < count) {
            return partly(count, does, ...values);
        }
        const found = does(...values.slice(0, count));
        return values.length > count ? found(...values.slice(count)) : found;
    };
}

// Definitions by their names, and constants.
export class Definitions {
    constructor(definitions, constants) {
        this.definitions = definitions;
        this.constants = constants;
    }

    // What a definition comes to for these values.
    call(name, ...values) {
        try {
            return this.called(name, values);
        } catch (fault) {
            throw fault instanceof RangeError ? new Unknown(`${name} has no end that is reached`) : fault;
        }
    }

    called(name, values) {
        for (const [patterns, body] of this.definitions[name]) {
            const names = allBound(patterns, values);
            if (names) {
                return this.value(body, names);
            }
        }
        throw new Unknown(`${name} says nothing of this case`);
    }

    named(name, names) {
        const found = [names, this.constants].find((each) => Object.hasOwn(each, name));
        if (found) {
            return found[name];
        }
        if (Object.hasOwn(this.definitions, name)) {
            const count = this.definitions[name][0][0].length;
            return count ? partly(count, (...values) => this.called(name, values)) : this.called(name, []);
        }
        if (Object.hasOwn(WORDS, name)) {
            return partly(...WORDS[name]);
        }
        if (/^[A-Z]/.test(name)) {
            return made(name);
        }
        throw new Unknown(`${name} isn't known`);
    }

    value(body, names) {
        const [kind, ...parts] = body;
        const how = VALUES[kind];
        if (how) {
            return how(this, parts, names);
        }
        const first = this.value(parts[0], names);
        if (kind === "&&" || kind === "||") {
            return first === (kind === "&&") ? this.value(parts[1], names) : first;
        }
        return OPERATIONS[kind](first, this.value(parts[1], names));
    }
}

const VALUES = {
    number: (of, [number]) => number,
    truth: (of, [truth]) => truth,
    name: (of, [name], names) => of.named(name, names),
    if: (of, [condition, yes, no], names) => of.value(of.value(condition, names) ? yes : no, names),
    let: (of, [name, value, body], names) => of.value(body, { ...names, [name]: of.value(value, names) }),
    list: (of, items, names) => items.map((item) => of.value(item, names)),
    pair: (of, both, names) => both.map((part) => of.value(part, names)),
    call: (of, [head, parts], names) => {
        const does = of.value(head, names);
        const values = parts.map((part) => of.value(part, names));
        return typeof does === "function" ? does(...values) : made(does.name, ...does.parts, ...values);
    },
    lambda: (of, [own, body], names) => partly(own.length, (...values) => of.value(
        body, { ...names, ...Object.fromEntries(own.map((name, at) => [name, values[at]])) })),
    record: (of, [base, fields], names) => ({
        ...(base ? of.value(base, names) : {}),
        ...Object.fromEntries(Object.entries(fields).map(([name, value]) => [name, of.value(value, names)])),
    }),
    // a constant of Rust that is a slice has its bytes as `now`
    field: (of, [whole, field], names) => {
        const found = of.value(whole, names);
        return Array.isArray(found) && field === "now" ? found : found[field];
    },
};
