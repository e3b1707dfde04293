// A script as a whole: its lines, what stands after `start`, and the first line that is bad.
import { bytesOfText } from "./bytes.js";
import { OF_CARD, OF_COMMANDS, OF_HANDSET, PLANS, Wrong, readLine } from "./grammar.js";
import { Card } from "./layout.js";

export const MOST_BYTES = 16_777_216;
const LINE_FEED = 10;
// how many lines of a trace a line of a script for a card shows
const LINES_SHOWN = { apdu: 2, tpdu: 2, reset: 1 };

// The lines of a text, without the ends of lines.
export function linesOf(text) {
    const lines = text.split("\n").map((line, place, all) => (place < all.length - 1 && line.endsWith("\r") ? line.slice(0, -1) : line));
    return lines.at(-1) === "" ? lines.slice(0, -1) : lines;
}

// The number of the line that holds the first byte too much, its end counted with it; none has it where it is infinite.
function lineTooMuch(text) {
    const bytes = text.length > MOST_BYTES / 3 ? bytesOfText(text) : [];
    return bytes.length > MOST_BYTES ? 1 + bytes.subarray(0, MOST_BYTES).filter((byte) => byte === LINE_FEED).length : Infinity;
}

// Why a line may not stand after `start`; null where it may.
function whyNotAfter(said, mode) {
    if (said.word === "start") {
        return "`start` stands once";
    }
    if (OF_CARD.includes(said.word)) {
        return "this line describes the card, and stands before `start`";
    }
    if (mode === "phone" && OF_COMMANDS.includes(said.word)) {
        return `a handset sends all commands itself: \`${said.word}\` is for a card without one`;
    }
    if (mode !== "phone" && OF_HANDSET.includes(said.word)) {
        return "this line is for a handset";
    }
    return null;
}

function whyNotBefore(said, mode) {
    if ([...OF_COMMANDS, "reset", ...PLANS, ...OF_HANDSET].includes(said.word)) {
        return "no `start` stands before this line";
    }
    if (mode === "open" && said.word !== "start") {
        return "the card is taken from the memory: no line before `start` describes one";
    }
    return null;
}

// What was made of a script: the card that the lines before `start` describe, the lines after it by their numbers, the number of
// `start`, and the first line that is bad with its reason, or null.
export class Script {
    constructor(text, mode) {
        this.lines = linesOf(text);
        this.card = new Card();
        this.steps = new Map();
        this.startsAt = 0;
        this.firstBad = null;
        this.read(mode, lineTooMuch(text));
    }

    read(mode, tooMuch) {
        for (let number = 1; number <= this.lines.length; number += 1) {
            try {
                if (number === tooMuch) {
                    throw new Wrong(`a script has at most ${MOST_BYTES.toLocaleString("en")} bytes, and this line ends after them`);
                }
                this.take(number, mode);
            } catch (fault) {
                if (!(fault instanceof Wrong)) {
                    throw fault;
                }
                this.firstBad = { line: number, reason: fault.message };
                return;
            }
        }
        if (!this.startsAt) {
            this.firstBad = { line: this.lines.length + 1, reason: "the script ends, and no line `start` stands in it" };
        }
    }

    take(number, mode) {
        const said = readLine(this.lines[number - 1]);
        if (said === null) {
            return;
        }
        const why = this.startsAt ? whyNotAfter(said, mode) : whyNotBefore(said, mode);
        if (why) {
            throw new Wrong(why);
        }
        if (said.word === "start") {
            this.startsAt = number;
        } else if (this.startsAt) {
            this.steps.set(number, said);
        } else {
            this.card.add(said, number);
        }
    }

    // The script up to a line, without that line's own plans, for another plan to stand there.
    before(number) {
        let end = number - 1;
        while (end > this.startsAt && !this.isCarriedOut(end)) {
            end -= 1;
        }
        return this.lines.slice(0, end);
    }

    // For each line of a kept trace the script's line that shows it; 0 where it isn't known, as for a handset's.
    placesOf(trace, mode) {
        const shown = [...this.steps].flatMap(([number, { word }]) => Array(LINES_SHOWN[word] ?? 0).fill(number));
        return trace.map((_, at) => (mode === "phone" ? 0 : shown[at] ?? 0));
    }

    isCarriedOut(number) {
        const said = this.steps.get(number);
        return said !== undefined && !PLANS.includes(said.word);
    }
}
