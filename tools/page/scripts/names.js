// The names of commands, files, status words and the toolkit's objects, by the tables that the other tools read too.
import { tables } from "./tables.js";
import { hexByte } from "./bytes.js";

// what the folders at these identifiers hold: on this card the files of a USIM lie in 7F20 with those of GSM
const APPLICATIONS = {
    "7F10": ["TELECOM"], "7F20": ["USIM", "GSM"], "7F21": ["GSM"], "7FF0": ["USIM"], "7FF2": ["ISIM"], "7FFF": ["USIM"],
};

// A status word of four digits in words.
export function statusWords(word) {
    for (const [pattern, text] of tables.status.words) {
        if (new RegExp(`^${pattern.replaceAll("X", "[0-9A-F]")}$`).test(word)) {
            const low = parseInt(word.slice(2), 16) || 256;
            return text.replace("{low}", low).replace("{digit}", parseInt(word[3], 16));
        }
    }
    return "no status word of this card";
}

// The name of a command by its instruction byte, and where commands share it, by its class; null where there is none.
export function instructionName(ins, cla) {
    const entry = tables.commands.commands[hexByte(ins)];
    return entry?.classes?.[hexByte(cla & 0xf0)] ?? entry?.name ?? null;
}

export function keyName(reference) {
    return tables.commands.keys[hexByte(reference)] ?? `key reference ${hexByte(reference)}`;
}

// The name of a byte among the toolkit's `commands`, `tags`, `results` ..
export function toolkitName(kind, value, otherwise) {
    return tables.toolkit[kind][hexByte(value)] ?? otherwise;
}

export function qualifierName(command, value) {
    return tables.toolkit.qualifiers[hexByte(command)]?.[hexByte(value)];
}

export function profileBits() {
    return tables.toolkit.profile;
}

export function services(kind) {
    return tables.files[kind];
}

function filesOf(identifier) {
    return tables.files.files.filter((entry) => entry.id === identifier);
}

// What a folder may hold the standard files of, the likeliest first: those of a DF go by its name.
function places(folder, usim) {
    if (!folder.length) {
        return ["MF"];
    }
    const found = APPLICATIONS[folder.at(-1)];
    if (found) {
        return usim || found.length === 1 ? found : found.slice(1);
    }
    const entry = standardFile(folder, usim);
    return entry?.name.startsWith("DF.") ? [entry.name.slice(3)] : [];
}

// The standard file at a path from the MF; undefined where there is none: an identifier means something in its DF alone. In 7F20 it is
// that of a USIM where `usim` is so, else that of GSM.
export function standardFile(path, usim) {
    if (!path.length) {
        return filesOf("3F00")[0];
    }
    const found = filesOf(path.at(-1));
    return places(path.slice(0, -1), usim).map((place) => found.find((entry) => entry.in.includes(place))).find(Boolean);
}

// A path with its standard name after it. A file of the MF without one has the MF before it: else it would look like an identifier alone.
export function shownPath(path, usim) {
    const text = path.length ? path.join("/") : "3F00";
    const entry = standardFile(path, usim);
    if (entry) {
        return `${text} ${entry.name}`;
    }
    return path.length === 1 ? `3F00/${text}` : text;
}
