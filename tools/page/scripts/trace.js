// A trace by its steps, and each step in words.
import { fromHex, hexed } from "./bytes.js";
import {
    ACTIVATE, Apdu, CHANNEL, DEACTIVATE, ENVELOPE, FETCH, GET_RESPONSE, INCREASE, READ_BINARY, READ_RECORD, RESPONSE, SEARCH_RECORD,
    SELECT, STATUS, UPDATE_BINARY, UPDATE_RECORD, detailsOf, parameterLines, proactiveLines, titleOf,
} from "./decode.js";
import { causeOf } from "./causes.js";
import { Follower, ON_CHILDREN } from "./follow.js";
import { shownPath, statusWords } from "./names.js";

export const CUT = "! cut";
export const RESET = "! reset";

const PAGE = 400;
// what a file's control parameters begin with
const CONTROL_PARAMETERS = 0x62;
const ON_FILES = [READ_BINARY, UPDATE_BINARY, READ_RECORD, UPDATE_RECORD, SEARCH_RECORD, INCREASE, DEACTIVATE, ACTIVATE];
const MARKS = {
    "! cut": "the power was lost", "! off": "the card has no power", "! reset": "the card was reset",
    "usage": "the words are in no form", "read failed": "the script could not be read on", "no memory": "there was no memory to begin with",
    "eeprom failed": "memory problem, or the power was lost, in a reset or before the card was open",
    line: "line {} ends the run", "not a card": "the memory holds no card that can be opened: byte {}",
    "no applet": "applet {} of the card isn't there",
};
const NOTES = {
    text: "shows a text", ask: "asks for", choose: "offers a choice; items:", menu: "has a menu; entries:", tone: "plays the tone",
    idle: "shows when idle", call: "the call is allowed", barred: "the call is barred",
    busy: "the card was too busy to take the envelope",
};

// A command with its answer, or a line alone. `at` is the number of its first line in the trace, counted from 0; `line` that of the
// script's line, counted from 1.
class Step {
    constructor(line, at, text) {
        this.line = line;
        this.at = at;
        this.text = text;
        this.answer = null;
    }

    get isCommand() {
        return this.text.startsWith("> ");
    }

    get isNote() {
        return this.text.startsWith("* ");
    }

    get apdu() {
        return new Apdu(fromHex(this.text.slice(2)));
    }

    // The data and the status word of the answer; without power both are empty.
    get data() {
        return this.answer?.startsWith("< ") ? fromHex(this.answer.slice(2, -4)) : new Uint8Array();
    }

    get status() {
        return this.answer?.startsWith("< ") ? this.answer.slice(-4) : "";
    }
}

// Whether a line is one that a run shows.
export function isTraceLine(line) {
    return /^([<>] ([0-9A-F]{2})+|! (cut|off|reset)|\* .+|(line|not a card|no applet) \d+|lines \d+ .+)$/.test(line) || Object.hasOwn(MARKS, line);
}

export function stepsOf(trace, places) {
    const steps = [];
    let open = null;
    trace.forEach((text, at) => {
        if (open && (text.startsWith("< ") || text === CUT || text === "! off")) {
            open.answer = text;
            open = null;
            return;
        }
        const step = new Step(places[at], at, text);
        open = step.isCommand ? step : null;
        steps.push(step);
    });
    return steps;
}

// A line of a trace that is no exchange, in words. Why a line of the script ends a run stands at that line.
export function markWords(text) {
    const [word, number] = text.split(/ (?=\d+$)/);
    return MARKS[word]?.replace("{}", number) ?? text;
}

function noteWords(text) {
    const [word] = text.slice(2).split(" ");
    return `the handset: ${NOTES[word] ?? word}${text.slice(2 + word.length)}`;
}

// The steps with their words, page by page. What a page needs to know of the ones before it is kept.
export class TraceReader {
    constructor(steps, card) {
        this.steps = steps;
        this.followers = [new Follower(card)];
    }

    get pageCount() {
        return Math.max(1, Math.ceil(this.steps.length / PAGE));
    }

    pageOf(number) {
        return Math.floor(number / PAGE);
    }

    // The follower as it stands before a page.
    follower(page) {
        while (this.followers.length <= page) {
            const last = this.followers.length - 1;
            const next = this.followers[last].copy();
            this.steps.slice(last * PAGE, (last + 1) * PAGE).forEach((step) => passOver(next, step));
            this.followers.push(next);
        }
        return this.followers[page].copy();
    }

    // Each step of a page, with its number and its words.
    page(page) {
        const follower = this.follower(page);
        return this.steps.slice(page * PAGE, (page + 1) * PAGE).map((step, place) => {
            const words = wordsOf(step, follower);
            passOver(follower, step);
            return { step, number: page * PAGE + place, ...words };
        });
    }
}

function passOver(follower, step) {
    if (step.text === RESET) {
        follower.reset();
    } else if (step.isCommand && step.status) {
        const { apdu } = step;
        follower.take(apdu, step.status);
        if (apdu.ins === CHANNEL && apdu.p1 === 0 && step.status === "9000") {
            follower.open(apdu.p2 || step.data[0], apdu);
        }
    }
}

// A step in words: its title, what came of it, and lines with what stands in it.
function wordsOf(step, follower) {
    if (!step.isCommand) {
        return { title: step.isNote ? noteWords(step.text) : markWords(step.text), outcome: "", details: [] };
    }
    const { apdu } = step;
    const path = pathOf(apdu, follower);
    const name = path ? shownPath(path, follower.usim) : "";
    const where = path ? (apdu.ins === SELECT || ON_CHILDREN.includes(apdu.ins) ? ` (${name})` : ` in ${name}`) : "";
    const details = [...detailsOf(apdu), ...answerLines(step, apdu, path, follower)];
    const cause = causeOf(apdu, step.status, path, follower);
    return { title: titleOf(apdu) + where + aboutToolkit(apdu, details), outcome: outcomeOf(step) + (cause ? `: ${cause}` : ""), details };
}

// What a command of the toolkit carries: the command that is fetched, the result of one, or what happened.
function aboutToolkit(apdu, details) {
    const found = {
        [FETCH]: () => details.find(({ label }) => label === "command details")?.text.split(",")[0],
        [RESPONSE]: () => details.find(({ label }) => label === "result")?.text.slice(3),
        [ENVELOPE]: () => details[0]?.label,
    }[apdu.ins]?.();
    return apdu.isCommand && found ? `: ${found}` : "";
}

// The path of the file that a command selects or works on; null where it isn't known.
function pathOf(apdu, follower) {
    if (!apdu.isCommand) {
        return null;
    }
    if (apdu.ins === SELECT) {
        return follower.selected(apdu);
    }
    if (ON_CHILDREN.includes(apdu.ins)) {
        return follower.child(apdu);
    }
    return ON_FILES.includes(apdu.ins) ? follower.target(apdu) : null;
}

function outcomeOf(step) {
    if (step.answer === null) {
        return "the trace ends here";
    }
    return step.status ? `${step.status} ${statusWords(step.status)}` : markWords(step.answer);
}

function answerLines(step, apdu, path, follower) {
    const { data } = step;
    if (apdu.ins === FETCH && data.length) {
        return proactiveLines(data);
    }
    if ((apdu.ins === SELECT || apdu.ins === STATUS || apdu.ins === GET_RESPONSE) && data[0] === CONTROL_PARAMETERS) {
        return parameterLines(data);
    }
    const written = [UPDATE_BINARY, UPDATE_RECORD].includes(apdu.ins) ? apdu.data : data;
    const lines = data.length ? [{ depth: 0, label: "answers", text: hexed(data) }] : [];
    const meaning = path && written.length ? follower.meaning(path, written) : null;
    return meaning ? [...lines, { depth: 0, label: "which says", text: meaning }] : lines;
}
