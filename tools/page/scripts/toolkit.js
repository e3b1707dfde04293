// What the toolkit of a card is doing, worked out from its registered applets and from the commands of a trace: which applet is idle,
// asked or waiting, for what; which events come late; which timers are held; which applets an event wakes, and in which order. What an
// applet does is what the definition of its kind says, and nothing of it stands here.
import { hexByte, hexed } from "./bytes.js";
import { ENVELOPE, FETCH, INSTALL, PROFILE, RESPONSE, STATUS, eventWords } from "./decode.js";
import { Unknown, made } from "./evaluation.js";
import { appletKind, fresh, turn } from "./kinds.js";
import { CALL_CONTROL, EVENTS, installation } from "./layout.js";
import { toolkitName } from "./names.js";
import { BadTlv, objectsOf, templateOf } from "./tlv.js";
import { RESET } from "./trace.js";

const KIND = {
    refresh: 0x01, moreTime: 0x02, pollInterval: 0x03, setUpEventList: 0x05, playTone: 0x20, displayText: 0x21, getInkey: 0x22, getInput: 0x23,
    selectItem: 0x24, setUpMenu: 0x25, localInformation: 0x26, timerManagement: 0x27, setUpIdleText: 0x28,
};
// where in a terminal's profile a command stands: a byte and a bit, both from 1 on
const IN_PROFILE = {
    0x01: [3, 8], 0x02: [3, 4], 0x03: [3, 6], 0x05: [5, 1], 0x20: [3, 5], 0x21: [3, 1], 0x22: [3, 2], 0x23: [3, 3], 0x24: [4, 1], 0x25: [4, 6],
    0x26: [4, 7], 0x27: [8, 1], 0x28: [8, 5],
};
// the same of the events that a terminal downloads
const EVENTS_IN_PROFILE = new Map([
    [0x00, [5, 2]], [0x01, [5, 3]], [0x02, [5, 4]], [0x03, [5, 5]], [0x04, [5, 6]], [0x05, [5, 7]], [0x07, [6, 1]], [0x09, [6, 3]], [0x0a, [6, 4]],
]);
const OF_THE_CARD = [KIND.setUpMenu, KIND.setUpEventList, KIND.pollInterval];
const PROFILE_DOWNLOAD = 0x40;
const STATUS_COMMAND = 0x41;
const MENU_SELECTION = 0x43;
const TIMER_EXPIRATION = 0x44;
const USER_ACTIVITY = 0x04;
const IDLE_SCREEN = 0x05;
const REPORTED_ONCE = [USER_ACTIVITY, IDLE_SCREEN];
const TO_TERMINAL = 0x82;
const TO_DISPLAY = 0x02;
const TO_EARPIECE = 0x03;
const BY_USER = 0x80;
const WITH_LETTERS = 0x01;
const START = 0x00;
const RESULT = 0x03;
const TEXT = 0x0d;
const ITEM = 0x10;
// the object that an envelope is about, by its template
const ABOUT = { 0xd3: 0x10, 0xd4: 0x06, 0xd6: 0x19, 0xd7: 0x24 };
const MENU = 0xd3;
const CALL = 0xd4;
const EXPIRATION = 0xd7;
const TIMERS = [1, 2, 3, 4, 5, 6, 7, 8];
const MOST_ACTS = 32;
const LONGEST_KEEP = 32;
const LONGEST_COMMAND = 255;
const HIGHEST_NUMBER = 254;
const SECONDS = 0x01;
const POLLED_EACH = 30;
const MEMORY_PROBLEM = "6581";
const DONE = "Done";
const WENT = made("Went");
const REFUSED = made("Refused");
const REFRESH_MODES = [0x03, 0x04];
const NO_ITEM = [0x8f, 0];
const MENU_TITLE = letters("Menu");
// the owner of a command, where the trace shows it and no applet is known that sends it
const NOBODY_KNOWN = -1;
const OTHER_APPLETS = "the card has another command for the terminal than these applets send by the definitions of their kinds";
const NOT_SETTLED = "a command was cut or failed, and what applets keep is as before or as after it";

function letters(text) {
    return Array.from(text, (letter) => letter.charCodeAt(0));
}

// An object with its flag.
function object(tag, value) {
    return [tag | 0x80, ...(value.length < 0x80 ? [value.length] : [0x81, value.length]), ...value];
}

// A proactive command, but for its number.
function command(kind, { qualifier = 0, destination = TO_TERMINAL, objects = [] } = {}) {
    return { kind, qualifier, destination, objects };
}

function spelled({ kind, qualifier, destination, objects }, number) {
    const content = [0x81, 3, number, kind, qualifier, 0x82, 2, 0x81, destination, ...objects];
    return [0xd0, ...(content.length < 0x80 ? [] : [0x81]), content.length, ...content];
}

function textObject(text) {
    return object(TEXT, [4, ...text]);
}

// A command with items, each a number and a text.
function choice(kind, title, items) {
    const listed = items.flatMap(([number, text]) => object(0x0f, [number, ...text]));
    return command(kind, { objects: [...object(0x05, title), ...(listed.length ? listed : NO_ITEM)] });
}

// A time is written in digits, the lower half of a byte first (ETSI TS 102 223, 8.38).
function timerCommand(action, timer, value) {
    const digits = [value.hours, value.minutes, value.seconds].map((part) => ((part % 10) << 4) | Math.floor(part / 10));
    return command(KIND.timerManagement, { qualifier: action, objects: [0xa4, 1, timer, ...(action === START ? object(0x25, digits) : [])] });
}

function numbered(items) {
    return items.map(({ id, text }) => [id, text]);
}

// The commands that an applet may send, as the definitions call them, with the parts that these have.
const SPELLED = {
    Refresh: (mode) => command(KIND.refresh, { qualifier: mode }),
    MoreTime: () => command(KIND.moreTime),
    PollInterval: (seconds) => command(KIND.pollInterval, { objects: object(0x04, [SECONDS, seconds]) }),
    SetUpEventList: (events) => command(KIND.setUpEventList, { objects: object(0x19, events) }),
    PlayTone: (tone) => command(KIND.playTone, { destination: TO_EARPIECE, objects: [0x8e, 1, tone] }),
    DisplayText: (text) => command(KIND.displayText, { qualifier: BY_USER, destination: TO_DISPLAY, objects: textObject(text) }),
    GetInkey: (text) => command(KIND.getInkey, { qualifier: WITH_LETTERS, objects: textObject(text) }),
    GetInput: (text, isOfDigits, least, most) => command(
        KIND.getInput, { qualifier: isOfDigits ? 0 : WITH_LETTERS, objects: [...textObject(text), 0x91, 2, least, most] }),
    SelectItem: (title, items) => choice(KIND.selectItem, title, numbered(items)),
    SetUpMenu: (title, items) => choice(KIND.setUpMenu, title, numbered(items)),
    LocalInformation: (what) => command(KIND.localInformation, { qualifier: what }),
    TimerManagement: timerCommand,
    IdleText: (text) => command(KIND.setUpIdleText, { objects: textObject(text) }),
};

// What happens where the bytes are no objects.
function orNull(read) {
    try {
        return read();
    } catch (fault) {
        if (fault instanceof BadTlv) {
            return null;
        }
        throw fault;
    }
}

// The value of the first object with a tag; null where there is none, or the bytes are no objects.
function valueIn(content, tag) {
    return orNull(() => objectsOf(Uint8Array.from(content)).find((each) => each.tag === tag)?.value ?? null);
}

// The number and the command of the bytes that were fetched; null where they are none.
function readCommand(data) {
    const content = orNull(() => templateOf(data))?.value ?? [];
    const details = valueIn(content, 0x01);
    const devices = valueIn(content, 0x02);
    if (details?.length !== 3 || devices?.length !== 2) {
        return null;
    }
    const [number, kind, qualifier] = details;
    return { number, command: command(kind, { qualifier, destination: devices[1], objects: [...content.slice(9)] }) };
}

function event(code, body) {
    return made("Event", code, [...body]);
}

// What the card tells an applet of the response to its command.
function response(body) {
    const found = objectsOf(Uint8Array.from(body));
    const result = found.find(({ tag, value }) => tag === RESULT && value.length);
    const item = found.find(({ tag, value }) => tag === ITEM && value.length === 1);
    const text = found.find(({ tag }) => tag === TEXT);
    return made("Response", result?.value[0] ?? 0, item?.value[0] ?? 0, [...(text?.value ?? [])].slice(1));
}

// A registered applet, and where it is in what it does.
class Applet {
    constructor(row, sequence) {
        this.row = row;
        this.sequence = sequence;
        this.events = new Set(row.events);
        this.kept = [...row.kept];
        this.wake();
    }

    get shelf() {
        return this.row.shelf;
    }

    wake() {
        this.mind = fresh(this.shelf, this.kept);
    }

    // What the applet does next.
    step(told) {
        const { does, next } = turn(this.mind, told);
        this.mind = next;
        return does;
    }
}

// The toolkit of a card with these rows, as it is switched on; `take` is given what it is sent.
export class Toolkit {
    constructor(rows) {
        this.sequence = 0;
        this.applets = new Map();
        // why what is worked out may not be so
        this.doubt = null;
        [...rows].sort((one, other) => (one.sequence ?? 0) - (other.sequence ?? 0)).forEach((row) => this.register(row));
        this.reset();
    }

    register(row) {
        this.sequence += 1;
        this.applets.set(row.shelf, new Applet(row, this.sequence));
    }

    // The card is reset: what is registered and kept stays.
    reset() {
        this.profile = null;
        this.out = null;
        this.waiting = [];
        this.late = [];
        this.timers = new Map();
        this.announcedEvents = [];
        this.announcedMenu = "[]";
        this.hasPoll = false;
        this.number = 0;
        this.applets.forEach((applet) => applet.wake());
    }

    // The power was lost in a command, or it met a memory problem.
    lose() {
        this.reset();
        this.doubts(NOT_SETTLED);
    }

    // Takes note of a command that was answered so.
    take(apdu, data, status) {
        if (!apdu.isCommand || !/^(9[01]|61)/.test(status)) {
            return;
        }
        if (apdu.isOnApplets) {
            this.change(apdu);
            this.drive();
        } else if (apdu.ins === FETCH) {
            this.fetched(data);
            return;
        } else if (this.carryOut(apdu)) {
            this.drive();
        }
        this.told(status);
    }

    // Whether a command waits to be fetched, and how long it is, stands in the status: what it tells is so.
    told(status) {
        const waits = this.out && !this.out.isFetched ? this.out : null;
        if (status.startsWith("91") && !(waits && (!waits.command || isToldBy(waits, status)))) {
            this.doubts(OTHER_APPLETS);
            this.out = { owner: NOBODY_KNOWN, command: null, number: 0, isFetched: false };
        } else if (status === "9000" && waits) {
            this.doubts(OTHER_APPLETS);
            this.out = null;
        }
    }

    // The first thing that can't be known is what is told.
    doubts(why) {
        this.doubt ??= why;
    }

    // Whether a command is one of the toolkit, which is carried out.
    carryOut(apdu) {
        const carry = {
            [PROFILE]: () => this.toldProfile(apdu.data), [STATUS]: () => this.trigger(this.order(STATUS_COMMAND), STATUS_COMMAND, []),
            [RESPONSE]: () => this.responded(apdu.data), [ENVELOPE]: () => this.enveloped(apdu.data),
        }[apdu.ins];
        carry?.();
        return carry !== undefined;
    }

    change(apdu) {
        if (apdu.ins === INSTALL) {
            this.register({ shelf: apdu.p2, priority: apdu.p1, ...installation(apdu.data) });
            return;
        }
        this.applets.delete(apdu.p2);
        TIMERS.filter((timer) => this.timers.get(timer) === apdu.p2).forEach((timer) => this.timers.delete(timer));
    }

    fetched(data) {
        if (!this.out?.command || hexed(data) !== hexed(spelled(this.out.command, this.out.number))) {
            this.doubts(OTHER_APPLETS);
            const found = readCommand(data);
            if (found) {
                this.number = found.number;
                this.out = { ...found, owner: this.ownerOf(found.command) };
            }
        }
        if (this.out) {
            this.out.isFetched = true;
        }
    }

    // Whose a command is that wasn't worked out.
    ownerOf({ kind }) {
        if (OF_THE_CARD.includes(kind)) {
            return null;
        }
        return this.applets.size === 1 ? [...this.applets.keys()][0] : NOBODY_KNOWN;
    }

    toldProfile(profile) {
        this.profile = profile;
        this.trigger(this.order(PROFILE_DOWNLOAD), PROFILE_DOWNLOAD, profile);
    }

    responded(body) {
        const owner = this.applets.get(this.out?.owner);
        this.out = null;
        if (owner) {
            this.run(owner, response(body), true);
        }
    }

    enveloped(envelope) {
        const template = orNull(() => templateOf(envelope));
        const value = template && ABOUT[template.tag] ? valueIn(template.value, ABOUT[template.tag]) : null;
        if (value?.length) {
            this.happened(template, value);
        }
    }

    happened({ tag, value: content }, value) {
        const [code] = value;
        if (tag === MENU) {
            const entry = this.applets.get(code - 1);
            this.trigger(entry?.row.text.length ? [entry] : [], MENU_SELECTION, value, true);
        } else if (tag === EXPIRATION) {
            const owner = this.applets.get(this.timers.get(code));
            this.trigger(owner ? [owner] : [], TIMER_EXPIRATION, value, true);
        } else if (tag === CALL) {
            this.trigger(this.order(CALL_CONTROL), CALL_CONTROL, value, true);
        } else {
            if (REPORTED_ONCE.includes(code)) {
                this.announcedEvents = this.announcedEvents.filter((each) => each !== code);
            }
            this.trigger(this.order(code), code, content, true);
        }
    }

    // The applets that are registered for an event, in the order in which it wakes them.
    order(code) {
        return [...this.applets.values()].filter((applet) => applet.events.has(code))
            .sort((one, other) => one.row.priority - other.row.priority || other.sequence - one.sequence);
    }

    isIdle(shelf) {
        return this.out?.owner !== shelf && this.waiting.every((each) => each.shelf !== shelf);
    }

    trigger(applets, code, body, isKept = false) {
        for (const applet of applets) {
            if (this.isIdle(applet.shelf)) {
                this.run(applet, event(code, body));
            } else if (isKept) {
                this.late.push({ shelf: applet.shelf, code, body });
            }
        }
    }

    run(applet, begun, isResumed = false) {
        try {
            if (this.hasEnded(applet, begun, isResumed)) {
                return;
            }
        } catch (fault) {
            if (!(fault instanceof Unknown)) {
                throw fault;
            }
            this.doubts(`what the applet on shelf ${applet.shelf} does isn't known: ${fault.message}`);
        }
        applet.wake();
    }

    // Whether an applet is done, or has a command to send, before it did too many acts.
    hasEnded(applet, begun, isResumed) {
        const isCallControl = begun.name === "Event" && begun.parts[0] === CALL_CONTROL;
        let told = begun;
        for (let count = 0; count < MOST_ACTS; count += 1) {
            const { name, parts } = applet.step(told);
            if (name === DONE) {
                return true;
            }
            const sent = name === "Send" ? SPELLED[parts[0].name](...parts[0].parts) : null;
            if (sent && !isCallControl && this.admits(applet, sent)) {
                this.send(applet, sent, isResumed);
                return true;
            }
            told = sent ? REFUSED : this.done(applet, name, parts[0]);
        }
        return false;
    }

    // Carries out an act that sends nothing, and answers what the applet is told.
    done(applet, name, value) {
        const acts = {
            Keep: () => this.keep(applet, value), Register: () => this.changeEvents(applet, "add", value), Answer: () => WENT,
            Deregister: () => this.changeEvents(applet, "delete", value), TakeTimer: () => this.takeTimer(applet),
            FreeTimer: () => (this.timers.get(value) === applet.shelf && this.timers.delete(value) ? WENT : REFUSED),
        };
        return acts[name]();
    }

    keep(applet, content) {
        if (content.length > LONGEST_KEEP) {
            return REFUSED;
        }
        applet.kept = [...content];
        return WENT;
    }

    takeTimer(applet) {
        const free = TIMERS.find((timer) => !this.timers.has(timer));
        if (free === undefined) {
            return REFUSED;
        }
        this.timers.set(free, applet.shelf);
        return made("Timer", free);
    }

    changeEvents(applet, how, code) {
        const isTaken = code === CALL_CONTROL && this.order(code).some((other) => other !== applet);
        if (!EVENTS.includes(code) || (how === "add" && isTaken)) {
            return REFUSED;
        }
        applet.events[how](code);
        return WENT;
    }

    allows([byte, bit]) {
        return this.profile !== null && ((this.profile[byte - 1] >> (bit - 1)) & 1) === 1;
    }

    admits(applet, sent) {
        const isOwn = sent.kind !== KIND.timerManagement || this.timers.get(sent.objects[2]) === applet.shelf;
        const hasMode = sent.kind !== KIND.refresh || REFRESH_MODES.includes(sent.qualifier);
        return !OF_THE_CARD.includes(sent.kind) && this.allows(IN_PROFILE[sent.kind]) && isOwn && hasMode
            && spelled(sent, 1).length <= LONGEST_COMMAND;
    }

    send(applet, sent, isResumed) {
        if (isResumed) {
            this.putOut(applet.shelf, sent);
        } else {
            this.waiting.push({ shelf: applet.shelf, command: sent });
        }
    }

    // Has the terminal asked for a command of an applet, or of the card itself, whose owner is null.
    putOut(owner, sent) {
        this.number = (this.number % HIGHEST_NUMBER) + 1;
        this.out = { owner, command: sent, number: this.number, isFetched: false };
    }

    drive() {
        for (;;) {
            const at = this.late.findIndex(({ shelf }) => this.isIdle(shelf));
            if (at < 0) {
                break;
            }
            const [{ shelf, code, body }] = this.late.splice(at, 1);
            this.run(this.applets.get(shelf), event(code, body));
        }
        if (this.out) {
            return;
        }
        const own = this.ofTheCard();
        if (own) {
            this.putOut(null, own);
        } else if (this.waiting.length) {
            const { shelf, command: sent } = this.waiting.shift();
            this.putOut(shelf, sent);
        }
    }

    // The command that the card itself has next for the terminal; null where it has none.
    ofTheCard() {
        const events = [...EVENTS_IN_PROFILE].filter(([code, place]) => this.order(code).length && this.allows(place)).map(([code]) => code);
        if (events.join() !== this.announcedEvents.join() && this.allows(IN_PROFILE[KIND.setUpEventList])) {
            this.announcedEvents = events;
            return SPELLED.SetUpEventList(events);
        }
        const entries = this.byShelf().filter(({ row }) => row.text.length).map(({ shelf, row }) => [shelf + 1, [...row.text]]);
        if (JSON.stringify(entries) !== this.announcedMenu && this.allows(IN_PROFILE[KIND.setUpMenu])) {
            this.announcedMenu = JSON.stringify(entries);
            return choice(KIND.setUpMenu, MENU_TITLE, entries);
        }
        if (this.order(STATUS_COMMAND).length && !this.hasPoll && this.allows(IN_PROFILE[KIND.pollInterval])) {
            this.hasPoll = true;
            return SPELLED.PollInterval(POLLED_EACH);
        }
        return null;
    }

    byShelf() {
        return [...this.applets.values()].sort((one, other) => one.shelf - other.shelf);
    }

    // What an applet is doing.
    stateOf(shelf) {
        if (this.out?.owner === shelf) {
            return `asked: waits for the response to ${commandName(this.out.command)}`;
        }
        const place = this.waiting.findIndex((each) => each.shelf === shelf);
        return place < 0 ? "idle"
            : `waiting: has ${commandName(this.waiting[place].command)} to send, as number ${place + 1} of ${this.waiting.length}`;
    }

    // What the toolkit is doing, in lines that have a depth, a label and a text.
    lines() {
        const line = (label, text) => ({ depth: 0, label, text });
        const woken = EVENTS.map((code) => [code, this.order(code)]).filter(([, applets]) => applets.length);
        return [
            line("terminal profile", this.profile ? "received" : "none since the reset"),
            line("outstanding command", this.outWords()),
            ...this.byShelf().map(({ shelf, row }) => line(
                `applet on shelf ${shelf} (${appletKind(shelf)}, priority ${row.priority})`, this.stateOf(shelf))),
            ...this.late.map(({ shelf, code }, place) => line(`late event ${place + 1}`, `${eventWords(code)} for the applet on shelf ${shelf}`)),
            ...TIMERS.filter((timer) => this.timers.has(timer)).map((timer) => line(
                `timer ${timer}`, `held by the applet on shelf ${this.timers.get(timer)}`)),
            ...woken.map(([code, applets]) => line(
                `event ${eventWords(code)}`, `wakes ${applets.map(({ shelf, row }) => `shelf ${shelf} (priority ${row.priority})`).join(", ")}`)),
            ...(this.doubt ? [line("not sure", this.doubt)] : []),
        ];
    }

    outWords() {
        if (!this.out) {
            return "none";
        }
        const { owner, number, isFetched } = this.out;
        const state = isFetched ? "fetched, waits for its response" : "waits to be fetched";
        return `${commandName(this.out.command)}${this.out.command ? `, number ${number}` : ""}, of ${ownerWords(owner)}: ${state}`;
    }
}

function ownerWords(owner) {
    if (owner === null) {
        return "the card itself";
    }
    return owner === NOBODY_KNOWN ? "an applet that isn't known" : `the applet on shelf ${owner}`;
}

function commandName(sent) {
    return sent ? toolkitName("commands", sent.kind, `type ${hexByte(sent.kind)}`) : "a command that isn't known yet";
}

// Whether a status tells of a command that waits, by its length.
function isToldBy({ command: sent, number }, status) {
    return status === `91${hexByte(spelled(sent, number).length & 0xff)}`;
}

// The toolkit after some steps of a trace that begin with a card of these rows.
export function toolkitAfter(rows, steps) {
    const toolkit = new Toolkit(rows);
    for (const step of steps) {
        if (step.text === RESET) {
            toolkit.reset();
        } else if (step.isCommand && (!step.status || step.status === MEMORY_PROBLEM)) {
            toolkit.lose();
        } else if (step.isCommand) {
            toolkit.take(step.apdu, step.data, step.status);
        }
    }
    return toolkit;
}
