// Why a command was refused, where its status word stands for several causes: which condition of the access rule isn't met (6982),
// which condition of use (6985), of what there is no room (6A84), and that a SELECT asks for an ADF (6A82, 6A86).
import { bigEndian } from "./bytes.js";
import {
    CHANNEL, CREATE_FILE, DELETE_FILE, ENABLE_PIN, FETCH, GET_RESPONSE, INSTALL, RESIZE_FILE, RESPONSE, SELECT, newFile,
} from "./decode.js";
import { ON_CHILDREN } from "./follow.js";
import { ALL_BYTES, CALL_CONTROL, LOWER_SHELVES, MOST_FILES, MOST_MENU_ENTRIES, NARROW_KEPT, WIDE_BYTES, installation, needsWide } from "./layout.js";
import { keyName, shownPath } from "./names.js";
import { NoRule, conditionWords, holds, keysIn, operationsOf, ruleIn } from "./rules.js";

const ADM1 = 0x0a;
const NO_ADF = "a card here has no ADF: the files of a USIM lie in 7F20, and those of an ISIM in 7FF2";
// P1 of a SELECT by a DF name (AID), and the identifier of the ADF that is active
const BY_NAME = 0x04;
const ACTIVE_ADF = 0x7fff;

function whyNoAccess(apdu, path, follower) {
    if (apdu.isOnApplets || ON_CHILDREN.includes(apdu.ins)) {
        return follower.meets(ADM1) ? null : `${keyName(ADM1)} ${whyNotMet(ADM1, follower)}`;
    }
    const file = path && follower.card.file(path);
    return file?.rule ? whyNotAllowed(apdu, file, follower) : null;
}

function whyNotMet(key, follower) {
    return follower.card.pins.has(key) ? "isn't verified" : "isn't on the card";
}

function whyNotAllowed(apdu, file, follower) {
    const { file: identifier, record } = file.rule;
    const rule = `rule ${identifier}:${record}`;
    const rules = follower.card.ruleFile(file);
    if (!rules) {
        return `${rule} allows nothing: ${identifier} is neither in its own DF nor in one above`;
    }
    if (rules.structure !== "l") {
        return `${rule} allows nothing: ${shownPath(rules.path, follower.usim)} is no linear fixed file`;
    }
    if (record > rules.count) {
        return `${rule} allows nothing: ${shownPath(rules.path, follower.usim)} has ${rules.count} records`;
    }
    if (follower.isUnsure(rules.path)) {
        return null;
    }
    try {
        return whyNotGranted(apdu, ruleIn(rules.record(record)), rule, follower);
    } catch (fault) {
        if (fault instanceof NoRule) {
            return `${rule} allows nothing: its record is no rule (${fault.message})`;
        }
        throw fault;
    }
}

function whyNotGranted(apdu, pairs, rule, follower) {
    const names = operationsOf(apdu.ins);
    const conditions = pairs.filter(({ operations }) => names.some((name) => operations.includes(name))).map(({ condition }) => condition);
    const isMet = (key) => follower.meets(key);
    if (conditions.some((condition) => holds(condition, isMet))) {
        return null;
    }
    const missing = [...new Set(conditions.flatMap(keysIn))].filter((key) => !isMet(key));
    if (!missing.length) {
        return `${rule} lets nobody ${names[0]}`;
    }
    const asked = conditions.filter((condition) => keysIn(condition).length).map((condition) => conditionWords(condition, keyName)).join(" or ");
    return `${rule} asks for ${asked} to ${names[0]}; ${missing.map((key) => `${keyName(key)} ${whyNotMet(key, follower)}`).join(", ")}`;
}

function whyNotUsed(apdu, path, follower) {
    if (apdu.isOnApplets) {
        return apdu.ins === INSTALL ? whyTaken(apdu, follower.card) : "the applet waits for a response, or to send";
    }
    switch (apdu.ins) {
        case FETCH: return "no command waits to be fetched";
        case RESPONSE: return "no command that was fetched waits for a response";
        case GET_RESPONSE: return "no data wait";
        case ENABLE_PIN: return "the PIN is enabled already";
        case CHANNEL: return "that channel is closed already";
        case DELETE_FILE: return whyInUse(path, follower);
        default: return path ? `${shownPath(path, follower.usim)} is deactivated` : null;
    }
}

function whyTaken(apdu, card) {
    const control = [...card.rows.values()].find((row) => row.events.includes(CALL_CONTROL));
    if (card.rows.has(apdu.p2)) {
        return "an applet is registered there already";
    }
    return control ? `the applet on shelf ${control.shelf} has call control already` : null;
}

function whyInUse(path, follower) {
    if (!path) {
        return null;
    }
    if (follower.card.children(path).length) {
        return `${shownPath(follower.card.children(path)[0].path, follower.usim)} lies in it`;
    }
    const channels = [...follower.current].filter(([, { df }]) => df.join("/") === path.join("/")).map(([channel]) => channel);
    return channels.length ? `it is the current DF of channel ${channels.join(", ")}` : null;
}

function whyNoRoom(apdu, follower) {
    if (apdu.isOnApplets) {
        return whyNoRoomForApplet(apdu, follower.card);
    }
    if (apdu.ins === RESIZE_FILE) {
        return whyNoBytes(bigEndian(apdu.data.slice(2)), follower.card);
    }
    if (follower.card.files.size >= MOST_FILES) {
        return `the card has ${MOST_FILES} files already`;
    }
    const made = apdu.ins === CREATE_FILE ? newFile(apdu.data) : null;
    if (made === null) {
        return null;
    }
    return made.structure ? whyNoBytes(made.length * made.count, follower.card) : "no number above that of its DF is free";
}

function whyNoBytes(size, card) {
    const free = (card.isWide ? WIDE_BYTES : ALL_BYTES) - card.total;
    const counted = (count) => count.toLocaleString("en");
    return size > free ? `${counted(size)} bytes are wanted, and ${counted(free)} are free`
        : `${counted(size)} bytes are wanted, and ${counted(free)} are free, not so many of them in one piece`;
}

function whyNoRoomForApplet(apdu, card) {
    const { text, kept } = installation(apdu.data);
    if (!card.isWide && needsWide(apdu.p2, kept)) {
        return `its files leave room for the shelves 0 to ${LOWER_SHELVES - 1} alone, and for ${NARROW_KEPT} bytes that an applet keeps`;
    }
    const entries = [...card.rows.values()].filter((row) => row.text.length).length;
    return text.length && entries >= MOST_MENU_ENTRIES ? `${entries} applets have an entry in the menu already` : "no sequence number is left";
}

// Why a command was answered so, by what was followed up to it; null where the status word says all, or nothing more is known.
// Whether a SELECT is of an ADF: by its AID, or by a path that begins with 7FFF.
function asksForAdf(apdu) {
    return apdu.ins === SELECT && (apdu.p1 === BY_NAME || bigEndian(apdu.data.slice(0, 2)) === ACTIVE_ADF);
}

export function causeOf(apdu, status, path, follower) {
    if (!apdu.isCommand) {
        return null;
    }
    switch (status) {
        case "6982": return whyNoAccess(apdu, path, follower);
        case "6985": return whyNotUsed(apdu, path, follower);
        case "6A84": return whyNoRoom(apdu, follower);
        case "6A82":
        case "6A86": return asksForAdf(apdu) ? NO_ADF : null;
        default: return null;
    }
}
