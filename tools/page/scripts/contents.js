// What the bytes of standard files say, by their kinds of content.
import { nameOf } from "./alphabet.js";
import { bigEndian, hexByte, hexed, isBlank } from "./bytes.js";
import { services } from "./names.js";
import { ruleWords, shortObjects } from "./rules.js";

// Bytes that can't be right.
export class BadContent extends Error {}

const DIALLED = "0123456789*#pw?F";
const ACCESS = { "UTRAN": 0x8000, "E-UTRAN": 0x4000, "GSM": 0x0080, "GSM COMPACT": 0x0040, "NG-RAN": 0x0800 };
const MODES = {
    0x00: "normal", 0x80: "type approval", 0x01: "normal, with features of the specification", 0x02: "maintenance", 0x04: "cell test",
};
const UPDATES = { 0: "updated", 1: "not updated", 2: "PLMN not allowed", 3: "location area not allowed", 7: "reserved" };
const MESSAGES = {
    1: "received, read", 3: "received, to be read", 5: "sent", 7: "to be sent", 0x0d: "sent, report asked for",
};

// The half bytes, the lower one of each byte first.
function halves(bytes) {
    return Array.from(bytes).flatMap((byte) => [byte & 15, byte >> 4]);
}

// Digits two a byte, up to the first half byte that is F.
function digitsOf(bytes) {
    const found = halves(bytes);
    const end = found.indexOf(15);
    const digits = end < 0 ? found : found.slice(0, end);
    const other = digits.find((half) => half > 9);
    if (other !== undefined) {
        throw new BadContent(`${other.toString(16).toUpperCase()} is no decimal digit`);
    }
    return digits.join("");
}

// The check digit after some digits (ITU-T E.118).
function luhn(digits) {
    const total = [...digits].reverse().reduce((sum, digit, place) => {
        const value = Number(digit) * (place % 2 ? 1 : 2);
        return sum + (value > 9 ? value - 9 : value);
    }, 0);
    return String((10 - (total % 10)) % 10);
}

function iccid(bytes) {
    const digits = digitsOf(bytes);
    if (digits.length < 18) {
        throw new BadContent(`an ICCID has 18 to 20 digits, and this one ${digits.length}`);
    }
    const check = luhn(digits.slice(0, -1));
    return digits + (digits.length === 18 || check === digits.at(-1) ? "" : ` (its check digit would be ${check})`);
}

function imsi(bytes) {
    const [length] = bytes;
    const coded = bytes.slice(1);
    if (length < 1 || length > 8 || length > coded.length) {
        throw new BadContent(`its length byte is 1 to 8, and not ${hexByte(length)}`);
    }
    const digits = digitsOf([(coded[0] >> 4) | 0xf0]) + digitsOf(coded.slice(1, length));
    const parity = coded[0] & 15;
    const right = digits.length % 2 ? 9 : 1;
    if (parity !== right) {
        throw new BadContent(`its parity half byte is ${parity.toString(16).toUpperCase()}, and ${right} for ${digits.length} digits`);
    }
    return digits;
}

export function plmn(bytes) {
    if (isBlank(bytes)) {
        return null;
    }
    const [a, b, c, f, d, e] = [bytes[0] & 15, bytes[0] >> 4, bytes[1] & 15, bytes[1] >> 4, bytes[2] & 15, bytes[2] >> 4];
    if ([a, b, c, d, e].some((half) => half > 9) || (f > 9 && f !== 15)) {
        throw new BadContent(`${hexed(bytes)} is no PLMN: its digits are decimal`);
    }
    return `${a}${b}${c}-${d}${e}${f === 15 ? "" : f}`;
}

// The whole parts of this length.
function parts(bytes, length) {
    return Array.from({ length: Math.floor(bytes.length / length) }, (_, place) => bytes.slice(place * length, (place + 1) * length));
}

function plmns(bytes) {
    return parts(bytes, 3).map(plmn).filter(Boolean).join(", ") || "none";
}

function plmnsByAccess(bytes) {
    const found = parts(bytes, 5).filter((part) => plmn(part.slice(0, 3))).map((part) => {
        const bits = bigEndian(part.slice(3));
        const by = Object.entries(ACCESS).filter(([, bit]) => bits & bit).map(([name]) => name).join("+");
        return `${plmn(part.slice(0, 3))} by ${by || hexed(part.slice(3))}`;
    });
    return found.join(", ") || "none";
}

export function dialledDigits(bytes, kind) {
    const digits = halves(bytes).map((half) => DIALLED[half]).join("").replace(/F+$/, "");
    return ((kind & 0x70) === 0x10 ? "+" : "") + digits;
}

function dialling(record) {
    if (record.length < 14) {
        throw new BadContent(`a record of numbers has at least 14 bytes, and not ${record.length}`);
    }
    const name = nameOf(record.slice(0, -14));
    const [length, kind, ...digits] = record.slice(-14);
    if (length === 0xff) {
        return `${name}: no number`;
    }
    if (length < 1 || length > 11) {
        throw new BadContent(`the length of its number is 1 to 11, and not ${hexByte(length)}`);
    }
    return `${name}: ${dialledDigits(digits.slice(0, length - 1), kind)}`;
}

function providerName(bytes) {
    const when = bytes[0] & 1 ? ["the network's name is shown too"] : ["the network's name isn't asked for at home"];
    if (bytes[0] & 2) {
        when.push("it isn't shown abroad");
    }
    return `${nameOf(bytes.slice(1))} (${when.join(", ")})`;
}

function accessClasses(bytes) {
    const bits = bigEndian(bytes);
    const classes = Array.from({ length: 16 }, (_, bit) => bit).filter((bit) => (bits >> bit) & 1 && bit !== 10);
    return classes.length ? `class${classes.length === 1 ? "" : "es"} ${classes.join(", ")}` : "no class";
}

function administrative(bytes) {
    const mode = `${MODES[bytes[0]] ?? `mode ${hexByte(bytes[0])}`} operation`;
    if (bytes.length < 4) {
        return mode;
    }
    const digits = bytes[3] & 15;
    if (digits !== 2 && digits !== 3) {
        throw new BadContent(`a network's code has 2 or 3 digits in an IMSI, and not ${digits}`);
    }
    return `${mode}, the network's code has ${digits} digits`;
}

function serviceName(kind, place) {
    const name = services(kind)[place];
    return name ? `${place + 1} ${name}` : String(place + 1);
}

function usimServices(bytes) {
    const places = Array.from({ length: 8 * bytes.length }, (_, place) => place);
    const found = places.filter((place) => (bytes[place >> 3] >> (place & 7)) & 1);
    return found.map((place) => serviceName("ust", place)).join(", ") || "none";
}

function simServices(bytes) {
    const found = [];
    for (let place = 0; place < 4 * bytes.length; place += 1) {
        const bits = (bytes[place >> 2] >> (2 * (place & 3))) & 3;
        if (bits) {
            found.push(serviceName("sst", place) + (bits === 3 ? "" : " (not active)"));
        }
    }
    return found.join(", ") || "none";
}

function area(bytes) {
    return `${plmn(bytes.slice(0, 3)) ?? "no PLMN"} area ${hexed(bytes.slice(3, 5))}`;
}

function updated(byte) {
    return UPDATES[byte & 7] ?? `status ${byte & 7}`;
}

function locationInformation(bytes) {
    return `TMSI ${hexed(bytes.slice(0, 4))}, ${area(bytes.slice(4, 9))}, ${updated(bytes[10])}`;
}

function packetLocation(bytes) {
    return `P-TMSI ${hexed(bytes.slice(0, 4))}, signature ${hexed(bytes.slice(4, 7))}, ${area(bytes.slice(7, 12))} routing area `
        + `${hexByte(bytes[12])}, ${updated(bytes[13])}`;
}

function languages(bytes) {
    return parts(bytes, 2).filter((pair) => !isBlank(pair)).map((pair) => String.fromCharCode(...pair)).join(", ") || "none";
}

function application(record) {
    if (record[0] !== 0x61) {
        throw new BadContent("an application begins with the template 61");
    }
    const found = shortObjects(record.slice(2, 2 + record[1]));
    const label = found.find(({ tag }) => tag === 0x50)?.value;
    const name = found.find(({ tag }) => tag === 0x4f)?.value;
    return `${label?.length ? nameOf(label) : "no label"}, ${hexed(name ?? [])}`;
}

// the services of an emergency call, by the bits of its category (3GPP TS 24.008, 10.5.4.33), and the byte of a number without category
const EMERGENCIES = ["police", "ambulance", "fire brigade", "marine guard", "mountain rescue", "manual eCall", "automatic eCall", "spare"];
const NO_CATEGORY = 0xff;

function emergencyCode(record) {
    const name = record.slice(3, -1);
    const bits = record.at(-1);
    const services = EMERGENCIES.filter((_, bit) => (bits >> bit) & 1).join(", ") || "none";
    const category = record.length > 3 && bits !== NO_CATEGORY ? `, category ${bits}: ${services}` : "";
    return digitsOf(record.slice(0, 3)) + (name.length && !isBlank(name) ? ` (${nameOf(name)})` : "") + category;
}

function shortMessage(record) {
    const state = record[0] & 0x1f;
    return state === 0 ? null : MESSAGES[state] ?? `status ${hexByte(record[0])}`;
}

function messageParameters(record) {
    const rest = record.slice(-28);
    const [length, kind, ...digits] = rest.slice(13, 25);
    const has = !(rest[0] & 0x02) && length >= 1 && length <= 11;
    const found = [nameOf(record.slice(0, -28)) || "no name", `centre ${has ? dialledDigits(digits.slice(0, length - 1), kind) : "none"}`];
    if (!(rest[0] & 0x01)) {
        found.push(`destination ${dialledDigits(rest.slice(3, 3 + ((rest[1] + 1) >> 1)), rest[2])}`);
    }
    for (const [bit, place, what] of [[0x04, 25, "protocol"], [0x08, 26, "coding"]]) {
        if (!(rest[0] & bit)) {
            found.push(`${what} ${rest[place]}`);
        }
    }
    if (!(rest[0] & 0x10)) {
        found.push(`validity ${minutesOf(rest[27])} minutes`);
    }
    return found.join(", ");
}

// The minutes of a validity period in one byte (3GPP TS 23.040, 9.2.3.12.1).
function minutesOf(validity) {
    if (validity < 144) {
        return 5 * (validity + 1);
    }
    if (validity < 168) {
        return 12 * 60 + 30 * (validity - 143);
    }
    return validity < 197 ? 24 * 60 * (validity - 166) : 7 * 24 * 60 * (validity - 192);
}

const DECODERS = {
    "iccid": iccid, "imsi": imsi, "plmns": plmns, "plmns-act": plmnsByAccess, "dialling": dialling, "spn": providerName,
    "acc": accessClasses, "ad": administrative, "ust": usimServices, "sst": simServices, "loci": locationInformation,
    "psloci": packetLocation, "languages": languages, "application": application, "rule": ruleWords, "ecc": emergencyCode,
    "sms": shortMessage, "smsp": messageParameters, "number": (bytes) => String(bigEndian(bytes)),
    "minutes6": ([count]) => (count ? `every ${6 * count} minutes` : "no search"),
    "keys": (bytes) => (bytes[0] === 7 ? "none" : `set ${bytes[0]}, ${hexed(bytes.slice(1))}`),
};

// What bytes of this kind say; null where they are blank or the kind isn't known. Bytes that can't be right are said to be so.
export function meaningOf(kind, bytes) {
    if (!DECODERS[kind] || !bytes.length || isBlank(bytes)) {
        return null;
    }
    try {
        return DECODERS[kind](bytes);
    } catch (fault) {
        return `not right: ${fault.message}`;
    }
}
