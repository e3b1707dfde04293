// The script: its text, the numbers of its lines, the line of the chosen step, and the first bad line with its reason.
import { byId } from "./dom.js";

const AWAIT_TYPING = 300;

export class ScriptPane {
    // `changed` is called when the text was changed by the user, `asked` when it is to be played at once, and `moved` when the user went
    // to another line without changing anything.
    constructor(changed, asked, moved) {
        this.area = byId("script");
        this.gutter = byId("gutter");
        this.numbers = byId("numbers");
        this.message = byId("bad-line");
        this.bands = { chosen: { band: byId("band-chosen"), line: 0 }, bad: { band: byId("band-bad"), line: 0 } };
        this.lineCount = 0;
        this.isTyping = false;
        this.isChosenInSight = false;
        this.lastCaretLine = 0;
        this.area.addEventListener("input", () => this.hearTyping(changed));
        this.area.addEventListener("blur", () => { this.lastCaretLine = 0; });
        document.addEventListener("selectionchange", () => this.hearCaret(moved));
        this.area.addEventListener("scroll", () => this.place());
        this.area.addEventListener("keydown", (event) => {
            if (event.key === "Enter" && (event.ctrlKey || event.metaKey)) {
                event.preventDefault();
                asked();
            }
        });
        new ResizeObserver(() => this.hearResize()).observe(this.area);
    }

    get text() {
        return this.area.value;
    }

    get isFocused() {
        return document.activeElement === this.area;
    }

    // The line that the user is in; 0 where the user isn't in the script.
    get caretLine() {
        return this.isFocused ? this.text.slice(0, this.area.selectionStart).split("\n").length : 0;
    }

    hearTyping(changed) {
        this.count();
        this.isTyping = true;
        clearTimeout(this.typingTimer);
        this.typingTimer = setTimeout(() => {
            this.isTyping = false;
            changed();
        }, AWAIT_TYPING);
    }

    hearCaret(moved) {
        clearTimeout(this.caretTimer);
        if (this.isFocused) {
            this.caretTimer = setTimeout(() => this.followCaret(moved), AWAIT_TYPING);
        }
    }

    followCaret(moved) {
        const line = this.caretLine;
        // what is typed is played, and its step chosen then
        if (line && line !== this.lastCaretLine && !this.isTyping) {
            this.lastCaretLine = line;
            moved(line);
        }
    }

    set text(text) {
        clearTimeout(this.typingTimer);
        this.isTyping = false;
        this.area.value = text;
        this.count();
    }

    // The text with a line at its end.
    withLine(line) {
        const { text } = this;
        return `${text}${text === "" || text.endsWith("\n") ? "" : "\n"}${line}\n`;
    }

    // The text with a line before the line of a number.
    withLineBefore(number, line) {
        return this.text.split("\n").toSpliced(number - 1, 0, line).join("\n");
    }

    count() {
        this.lineCount = this.text.split("\n").length;
        this.gutter.style.width = `calc(${Math.max(2, String(this.lineCount).length)}ch + 0.9rem)`;
        this.place();
    }

    // Marks the line of the chosen step; 0 marks none.
    choose(line) {
        this.bands.chosen.line = line;
        this.reveal(line);
        this.place();
    }

    // Marks the first bad line with its reason; null marks none.
    blame(bad) {
        this.bands.bad.line = bad?.line ?? 0;
        this.message.hidden = !bad;
        this.message.textContent = bad ? `Line ${bad.line}: ${bad.reason}` : "";
        this.area.setAttribute("aria-invalid", String(Boolean(bad)));
        this.place();
    }

    lineHeight() {
        return parseFloat(getComputedStyle(this.area).lineHeight);
    }

    topOf(line) {
        return parseFloat(getComputedStyle(this.area).paddingTop) + (line - 1) * this.lineHeight();
    }

    isInSight(line) {
        const top = this.topOf(line);
        const { scrollTop, clientHeight } = this.area;
        return top >= scrollTop && top + this.lineHeight() <= scrollTop + clientHeight;
    }

    // The chosen line stays in sight where it was, as on a screen that is turned.
    hearResize() {
        if (this.isChosenInSight) {
            this.reveal(this.bands.chosen.line);
        }
        this.place();
    }

    // Brings a line into sight, unless the user is in the script: the place where somebody writes isn't moved.
    reveal(line) {
        if (line && !this.isFocused && !this.isInSight(line)) {
            this.area.scrollTop = Math.max(0, this.topOf(line) - this.area.clientHeight / 3);
        }
    }

    // Shows the numbers of the lines that are in sight, and puts the bands under their lines.
    place() {
        const { scrollTop, clientHeight } = this.area;
        const height = this.lineHeight();
        const first = Math.floor(scrollTop / height);
        const count = Math.min(Math.ceil(clientHeight / height) + 1, this.lineCount - first);
        this.numbers.textContent = Array.from({ length: Math.max(0, count) }, (_, place) => first + place + 1).join("\n");
        this.numbers.style.transform = `translateY(${first * height - scrollTop}px)`;
        for (const { band, line } of Object.values(this.bands)) {
            band.hidden = line === 0;
            band.style.top = `${this.topOf(line) - scrollTop}px`;
        }
        this.isChosenInSight = this.isInSight(this.bands.chosen.line);
    }
}
