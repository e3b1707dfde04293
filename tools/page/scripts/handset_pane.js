// The handset: its screen and its keys. Each key adds a line to the script.
import { byId, button, element } from "./dom.js";

const OFF = "The card doesn't answer.";
const TIMES = [["1 minute", 60], ["5 minutes", 300], ["1 hour", 3600]];
// what ends the screen that is seen
const ANSWER = /^(reset|user (ok|back|end|none|pick .*|type .*))$/;
const NOTES = {
    call: "The call is allowed.", barred: "The call is barred.", busy: "The card was too busy to take the event.",
};

// What a screen reader says of a screen.
function said({ isOn, notes, pending, idle, menu }) {
    if (!isOn) {
        return OFF;
    }
    const items = (list) => list.map(({ number, text }) => `${number} ${text}`);
    const asked = { text: [pending?.text], ask: [pending?.text], choose: [pending?.title, ...items(pending?.items ?? [])] }[pending?.kind];
    return [...notes.map(noteWords), ...(asked ?? [idle, menu?.title, ...items(menu?.items ?? [])])].filter(Boolean).join(", ");
}

// A field with a button, whose content makes a line.
function field(label, send, attributes, made) {
    const input = element("input", { autocomplete: "off", ...attributes });
    const submit = (event) => {
        event.preventDefault();
        made(input.value);
    };
    return element("form", { submit }, element("label", {}, label, input), element("button", {}, send));
}

function noteWords(note) {
    const [word, ...rest] = note.split(" ");
    return word === "tone" ? `♪ tone ${rest.join(" ")}` : NOTES[word] ?? null;
}

export class HandsetPane {
    // `add` adds a line to the script, and ends once it is played.
    constructor(add) {
        this.add = add;
        this.part = byId("handset-part");
        this.place = element("div");
        // it stays, since a screen reader hears changes in what was there before alone
        this.voice = element("div", { class: "unseen", role: "status" });
        this.isPressed = false;
        this.isAnswering = false;
        byId("handset").append(this.voice, this.place, this.fields());
    }

    // Shows a screen. Where it comes of a key, it is said too, and the focus goes to it.
    show(screen) {
        this.part.hidden = screen === null;
        byId("to-handset").hidden = screen === null;
        if (screen === null) {
            return;
        }
        const focused = this.place.contains(document.activeElement) ? document.activeElement : null;
        const isByKeyboard = focused?.matches(":focus-visible");
        this.place.replaceChildren(this.screen(screen), this.keys(screen));
        this.voice.replaceChildren(this.isPressed ? said(screen) : "");
        this.isPressed = false;
        if (focused) {
            this.focus(focused.dataset.key, isByKeyboard);
        }
    }

    // Puts the focus on the key that was pressed, or else on what the screen asks for. It never goes to a choice, which a second press
    // would pick unseen.
    focus(key, isByKeyboard) {
        const same = key && !ANSWER.test(key) ? this.place.querySelector(`[data-key="${key}"]:enabled`) : null;
        const next = same ?? this.place.querySelector(".screen input") ?? this.place.querySelector(".screen");
        next.focus({ preventScroll: true });
        if (isByKeyboard) {
            next.scrollIntoView({ block: "nearest" });
        }
    }

    press(line) {
        this.isPressed = true;
        return this.add(line);
    }

    // Answers what the card asked for. Until that is played the screen is an old one, and nothing more answers it.
    async answer(line) {
        if (this.isAnswering) {
            return;
        }
        this.isAnswering = true;
        try {
            await this.press(line);
        } finally {
            this.isAnswering = false;
        }
    }

    key(text, line, attributes = {}) {
        const press = () => (ANSWER.test(line) ? this.answer(line) : this.press(line));
        return button(text, press, { "data-key": line, title: line, ...attributes });
    }

    screen(screen) {
        const isOff = !screen.isOn;
        const notes = screen.notes.map(noteWords).filter(Boolean).map((text) => element("div", {}, text));
        const shown = isOff ? [element("div", { class: "shown" }, OFF), this.key("Switch off and on", "reset")] : [...notes, ...this.shown(screen)];
        return element("div", { class: isOff ? "screen off" : "screen", role: "group", "aria-label": "Screen", tabindex: -1 }, ...shown);
    }

    shown({ pending, idle, menu }) {
        const shown = (text) => element("div", { class: "shown" }, text || "(an empty text)");
        switch (pending?.kind) {
            case "text": return [shown(pending.text)];
            case "ask": return [shown(pending.text), this.answerField(pending)];
            case "choose": return [shown(pending.title), this.choices(pending.items)];
            default: return [element("div", { class: "shown" }, idle), ...(menu ? [element("h3", {}, menu.title), this.choices(menu.items)] : [])];
        }
    }

    answerField({ lengths }) {
        const [least, most] = lengths ?? [1, 1];
        return field("", "Send", { "aria-label": "Answer", maxlength: 30, placeholder: `${least} to ${most} characters` },
            (text) => this.answer(`user type ${text}`));
    }

    choices(items) {
        return element("ol", { class: "choices" }, ...items.map(({ number, text }) => element(
            "li", {}, this.key(`${number}  ${text}`, `user pick ${number}`))));
    }

    keys({ pending, isOn }) {
        const isWaiting = { disabled: !isOn || pending === null };
        return element(
            "div", { class: "bar" },
            this.key("OK", "user ok", { disabled: !isOn || pending?.kind !== "text" }), this.key("Back", "user back", isWaiting),
            this.key("End", "user end", isWaiting), this.key("No answer", "user none", isWaiting),
            this.key("Press a key", "user press"), this.key("Idle screen", "user idle"), this.key("Poll", "net poll"),
            this.key("Off and on", "reset"));
    }

    fields() {
        return element(
            "div", { class: "fields" },
            element("div", { class: "bar" }, "Time passes:", ...TIMES.map(([text, seconds]) => this.key(text, `time ${seconds}`))),
            field("Call", "Dial", { inputmode: "numeric", pattern: "[0-9]{1,20}", required: true, placeholder: "digits" },
                (digits) => this.press(`user dial ${digits}`)),
            field("Move to", "Move", { pattern: "([0-9A-Fa-f]{2}){1,32}", required: true, value: "00F11000010002" },
                (place) => this.press(`net place ${place}`)));
    }
}
