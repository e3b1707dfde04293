// The trace, step by step, in words, each with the line of the script that it belongs to.
import { plural } from "./bytes.js";
import { byId, element, objectList, scrollWithin } from "./dom.js";
import { TraceReader } from "./trace.js";

const FARTHER = 10;

// Whether a line of a trace tells of what went wrong. A reset is no such line.
function isLoss(text) {
    return !/^([>*] |! reset$)/.test(text);
}

// What kind of answer a step has: one that is done, a warning (SW1 62 or 63), or a refusal.
function kindOf({ answer, status }) {
    if (!answer || /^(9[01]|61)/.test(status)) {
        return "";
    }
    return /^6[23]/.test(status) ? "warning" : "refused";
}

// Whether a line of a trace has bytes that passed, after its sign: they are broken at the end of a line, and stand beside the sign.
function isOfBytes(line) {
    return /^[<>] /.test(line);
}

export class TracePane {
    // `chosen` is told the script's line of the step that is chosen, and its number.
    constructor(chosen) {
        this.list = byId("trace");
        this.chosen = chosen;
        this.reader = null;
        this.page = 0;
        this.number = -1;
        this.list.addEventListener("keydown", (event) => this.press(event));
        new ResizeObserver(() => this.reveal()).observe(this.list);
        byId("page-before").addEventListener("click", () => this.turn(this.page - 1));
        byId("page-after").addEventListener("click", () => this.turn(this.page + 1));
    }

    // Shows the steps of a run; `card` is what its script describes, `lines` are those of the script.
    show(steps, card, lines) {
        this.reader = new TraceReader(steps, card);
        this.lines = lines;
        this.number = -1;
        this.turn(0);
    }

    turn(page) {
        this.page = Math.max(0, Math.min(page, this.reader.pageCount - 1));
        this.entries = this.reader.page(this.page);
        this.list.replaceChildren(...this.entries.map((entry) => this.row(entry)));
        const { length } = this.reader.steps;
        byId("pages").hidden = this.reader.pageCount < 2;
        byId("page-shown").textContent = this.entries.length
            ? `${this.entries[0].number + 1} to ${this.entries.at(-1).number + 1} of ${plural(length, "step")}` : "";
        byId("page-before").disabled = this.page === 0;
        byId("page-after").disabled = this.page === this.reader.pageCount - 1;
        this.mark();
    }

    row({ step, number, title, outcome }) {
        const kind = step.isNote ? "note" : isLoss(step.text) ? "lost" : "";
        return element(
            "li", { id: `step-${number}`, role: "option", "aria-selected": "false", click: () => this.choose(number) },
            element("span", { class: "line" }, step.line ? String(step.line) : ""),
            element("span", {}, element("span", { class: kind }, title), " ",
                element("span", { class: `outcome ${kindOf(step)}` }, outcome)));
    }

    // Chooses a step, and shows what stands in it.
    choose(number) {
        const { length } = this.reader.steps;
        if (!length) {
            return;
        }
        this.number = Math.max(0, Math.min(number, length - 1));
        if (this.reader.pageOf(this.number) === this.page) {
            this.mark();
        } else {
            this.turn(this.reader.pageOf(this.number));
        }
        this.chosen(this.reader.steps[this.number].line, this.number);
    }

    // Chooses the last step that a line of the script or one before it sends, or else the first.
    chooseLine(line) {
        const after = this.reader.steps.findIndex((step) => step.line > line);
        this.choose(after < 0 ? this.reader.steps.length - 1 : after - 1);
    }

    mark() {
        this.list.querySelector("[aria-selected=true]")?.setAttribute("aria-selected", "false");
        this.list.querySelector(".more")?.remove();
        const entry = this.entries.find(({ number }) => number === this.number);
        if (!entry) {
            this.list.removeAttribute("aria-activedescendant");
            return;
        }
        const row = byId(`step-${entry.number}`);
        row.setAttribute("aria-selected", "true");
        row.append(this.more(entry));
        this.list.setAttribute("aria-activedescendant", row.id);
        this.reveal();
    }

    // Brings the chosen step into sight.
    reveal() {
        const row = byId(`step-${this.number}`);
        if (row) {
            scrollWithin(this.list, row);
        }
    }

    more({ step, details }) {
        const line = this.lines[step.line - 1];
        return element(
            "div", { class: "more", click: (event) => event.stopPropagation() },
            line === undefined ? null : element("div", { class: "bytes faint" }, `line ${step.line}: ${line}`),
            element("div", { class: isOfBytes(step.text) ? "bytes passed" : "bytes" }, step.text),
            step.answer === null ? null : element("div", { class: isOfBytes(step.answer) ? "bytes passed" : "bytes" }, step.answer),
            details.length ? objectList(details) : null);
    }

    press(event) {
        const last = (this.reader?.steps.length ?? 0) - 1;
        const next = {
            ArrowDown: this.number + 1, ArrowUp: this.number - 1, Home: 0, End: last,
            PageDown: this.number + FARTHER, PageUp: this.number - FARTHER,
        }[event.key];
        if (next !== undefined && last >= 0) {
            event.preventDefault();
            this.choose(next);
        }
    }
}
