// What a handset shows at the end of a trace.
import { printable } from "./bytes.js";
import { FETCH, RESPONSE, textIn } from "./decode.js";
import { BadTlv, objectsOf, templateOf } from "./tlv.js";
import { CUT, RESET } from "./trace.js";

const DETAILS = 0x01;
const TITLE = 0x05;
const TEXT = 0x0d;
const ITEM = 0x0f;
const LENGTHS = 0x11;
const SET_UP_MENU = 0x25;
const SET_UP_IDLE_TEXT = 0x28;
// what waits for the user
const WAITING = { 0x21: "text", 0x22: "ask", 0x23: "ask", 0x24: "choose" };
const MEMORY_FAILED = "6581";

// A proactive command by what a screen needs of it; null where its bytes can't be read.
function proactiveIn(data) {
    try {
        const objects = objectsOf(templateOf(data).value);
        const value = (tag) => objects.find((object) => object.tag === tag)?.value;
        const text = value(TEXT);
        return {
            type: value(DETAILS)?.[1],
            title: printable(value(TITLE) ?? []),
            text: text?.length ? textIn(text) : "",
            lengths: value(LENGTHS) ?? null,
            items: objects.filter(({ tag, value: item }) => tag === ITEM && item.length)
                .map(({ value: item }) => ({ number: item[0], text: printable(item.slice(1)) })),
        };
    } catch (fault) {
        if (fault instanceof BadTlv) {
            return null;
        }
        throw fault;
    }
}

class Screen {
    constructor() {
        this.begin();
        this.notes = [];
    }

    begin() {
        this.isOn = true;
        this.idle = "";
        this.menu = null;
        this.pending = null;
        this.asked = null;
    }

    take(step) {
        if (step.text === RESET) {
            this.begin();
        } else if (step.text === CUT || step.answer === CUT || step.status === MEMORY_FAILED) {
            this.isOn = false;
            this.pending = null;
        } else if (step.isCommand) {
            this.exchange(step);
        }
    }

    exchange(step) {
        const ins = parseInt(step.text.slice(4, 6), 16);
        if (ins === FETCH && step.data.length) {
            this.asked = proactiveIn(step.data);
            this.pending = this.asked && WAITING[this.asked.type] ? { kind: WAITING[this.asked.type], ...this.asked } : null;
        } else if (ins === RESPONSE) {
            this.answered();
        }
    }

    // The command that was fetched is answered: what it set up stands now.
    answered() {
        if (this.asked?.type === SET_UP_MENU) {
            this.menu = this.asked.items.length ? { title: this.asked.title, items: this.asked.items } : null;
        } else if (this.asked?.type === SET_UP_IDLE_TEXT) {
            this.idle = this.asked.text;
        }
        this.pending = null;
        this.asked = null;
    }
}

// The screen after the steps of a trace, with the notes that the last line of the script that shows something brought.
export function screenAfter(steps) {
    const screen = new Screen();
    steps.forEach((step) => screen.take(step));
    const last = steps.at(-1)?.line;
    screen.notes = steps.filter((step) => step.line === last && step.isNote).map((step) => step.text.slice(2));
    return screen;
}
