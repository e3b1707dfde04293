// Files that are loaded: what they hold, or why they hold nothing of the kind.
import { SIZES, isPaged } from "./image.js";
import { MOST_BYTES, linesOf } from "./lint.js";
import { isTraceLine } from "./trace.js";

const MEGABYTE = 1_048_576;
const MOST_MEMORY = MEGABYTE;
const MOST_TRACE = 256 * MEGABYTE;

// A file holds nothing of the kind; the message says why.
export class NotLoaded extends Error {}

function counted(number) {
    return number.toLocaleString("en");
}

async function bytesIn(file, most, kind) {
    if (file.size > most) {
        throw new NotLoaded(`it has ${counted(file.size)} bytes, and ${kind} has at most ${counted(most)}`);
    }
    return new Uint8Array(await file.arrayBuffer());
}

// The letters of a text, in UTF-8 or, where it isn't that, in Latin-1.
function decoded(bytes, kind) {
    const zero = bytes.indexOf(0);
    if (zero >= 0) {
        throw new NotLoaded(`its byte ${counted(zero)} is 00, and ${kind} is a text`);
    }
    try {
        return new TextDecoder("utf-8", { fatal: true }).decode(bytes);
    } catch {
        return new TextDecoder("latin1").decode(bytes);
    }
}

// The first line of a text that is neither empty nor a comment.
function firstLine(text) {
    return linesOf(text).map((line) => line.trim()).find((line) => line && !line.startsWith("#")) ?? "";
}

// What a text is that is no script; null where its first line shows none of these.
function otherKind(text) {
    const first = firstLine(text);
    if (/^(?:\[|[\w"'.-]+[ \t]*=)/.test(first)) {
        return "it is a profile, of which tools/profile build makes a script";
    }
    if (first.split(/[,;\t]/).some((cell) => cell.replaceAll(/[ "]/g, "").toLowerCase() === "iccid")) {
        return "it is a list of cards, of which tools/profile batch makes scripts";
    }
    return /^(?:[<>] [\dA-Fa-f]+|! (?:reset|cut|off)|@ \d+\.\d{6})$/.test(first) ? "it is a trace, which `Load` of the trace takes" : null;
}

export async function scriptIn(file) {
    const text = decoded(await bytesIn(file, MOST_BYTES, "a script"), "a script");
    const other = otherKind(text);
    if (other) {
        throw new NotLoaded(other);
    }
    return text;
}

// What a script is played to: a card where it sends commands itself, a handset where it says what happens at one, and a new card where it
// describes one. Where none of its lines says so, what it was before.
export function modeFor(script, mode) {
    const lines = linesOf(script);
    const has = (words) => lines.some((line) => words.includes(line.split(" ")[0]));
    const sends = has(["apdu", "tpdu"]);
    if (has(["user", "net", "time"]) && !sends) {
        return "phone";
    }
    return (sends && mode === "phone") || (mode === "open" && has(["df", "ef", "pin", "row"])) ? "play" : mode;
}

// The lines of a trace.
export async function traceIn(file) {
    const lines = linesOf(decoded(await bytesIn(file, MOST_TRACE, "a trace"), "a trace"));
    const other = lines.findIndex((line) => !isTraceLine(line));
    if (other >= 0) {
        throw new NotLoaded(`its line ${counted(other + 1)} is none of a trace`);
    }
    if (!lines.length) {
        throw new NotLoaded("it is empty");
    }
    return lines;
}

// The bytes of a memory. Whether a card is in them the program says.
export function memoryIn(file) {
    return bytesIn(file, MOST_MEMORY, "a memory");
}

export function storeOf(image) {
    return isPaged(image) ? "pages" : "journal";
}

// Why a card can't be opened in a memory, by the result of the run that was to open it; null where it can be.
export function whyNotOpened(image, { status, trace }) {
    if (status === 0) {
        return null;
    }
    const isOfSize = Object.values(SIZES).includes(image.length);
    const sizes = Object.values(SIZES).map(counted).join(" or ");
    const size = isOfSize ? "" : `; it has ${counted(image.length)} bytes, and a memory has ${sizes}`;
    const [, place] = trace.at(-1)?.match(/^not a card (\d+)$/) ?? [];
    const [, applet] = trace.at(-1)?.match(/^no applet (\d+)$/) ?? [];
    if (isOfSize && image.every((byte) => byte === image[0]) && [0x00, 0xff].includes(image[0])) {
        return `no card is in it: the memory is blank, all its bytes are ${image[0] ? "FF" : "00"}`;
    }
    if (place !== undefined) {
        return `no card is in it: byte ${counted(Number(place))} isn't as a card has it${size}`;
    }
    return applet === undefined ? `the run that opens it ended with status ${status}${size}` : `the applet ${applet} of its card isn't there`;
}
