// What a loss of power in one line of a script leaves: every write of it cut in three ways, and failing.
import { bytesOfText } from "./bytes.js";
import { ENVELOPE, FETCH, PROFILE, RESPONSE, STATUS } from "./decode.js";
import { OF_COMMANDS } from "./grammar.js";
import { cardIn, changesBetween, entriesOf, isSame } from "./image.js";
import { memoryAfter, writesIn } from "./memory.js";
import { CUT } from "./trace.js";

// Each way by a word, its name, and its line of a script, of the K-th write of so many bytes.
export const WAYS = [
    { short: "none", name: "none of it written, all FF", plan: (call) => `cut ${call} 0 FF` },
    { short: "half", name: "half of it written, then 5A", plan: (call, length) => `cut ${call} ${Math.floor(length / 2)} 5A` },
    { short: "all", name: "all of it written", plan: (call, length) => `cut ${call} ${length} FF` },
    { short: "fails", name: "fails, all FF", plan: (call) => `fail ${call} FF` },
];

// What stands after a cut, in one word, its letter and in words.
export const STATES = {
    before: { letter: "b", words: "what was before" },
    after: { letter: "a", words: "what is after" },
    between: { letter: "m", words: "some of several commits that this line makes" },
    same: { letter: "=", words: "the line changes nothing" },
    neither: { letter: "!", words: "neither what was before nor what is after" },
};

// Whether a PIN is as it was but for one try, or one of its unblock value.
function isTryTaken(old, found) {
    const [enabled, value, unblock, tries, unblockTries] = old;
    return [[tries - 1, unblockTries], [tries, unblockTries - 1]].some((left) => isSame(found, [enabled, value, unblock, ...left]));
}

// Whether an entry is as after, or is a row of which each part is as before or after.
function isPassed(name, found, old, now) {
    const hasAll = found && old && now;
    return isSame(found, now) || (name.startsWith("row ") && hasAll && found.every((part, place) => part === old[place] || part === now[place]));
}

// Whether what stands is between two commits of a line: PINs have lost a try, or applets have committed some of what they do.
function isBetween(entries, { old, now }, mayMakeSeveral) {
    return [...changesBetween(old, entries)].every((name) => {
        const [found, before, after] = [entries, old, now].map((each) => each.get(name));
        const isPin = name.startsWith("pin ") && found && before;
        return (isPin && isTryTaken(before, found)) || (mayMakeSeveral && isPassed(name, found, before, after));
    });
}

function stateOf(entries, around, mayMakeSeveral) {
    const isOld = changesBetween(around.old, entries).size === 0;
    const isNew = changesBetween(around.now, entries).size === 0;
    if (isOld || isNew) {
        return isOld && isNew ? "same" : isOld ? "before" : "after";
    }
    return isBetween(entries, around, mayMakeSeveral) ? "between" : "neither";
}

// The trials of one line. `played` is the whole run with its script and request; `stands` opens the card in a memory.
export class Trials {
    constructor(played, line) {
        this.played = played;
        this.line = line;
        const first = played.steps.find((step) => step.line === line);
        // a plan is for the first command of the line alone
        const shown = first ? first.at + 1 : Infinity;
        this.writes = first ? writesIn(played.result.writes, line, first.isCommand ? shown + 1 : shown) : [];
        this.outcomes = new Map();
    }

    // Carries the trials out by `run`, one after the other, as long as `each`, called before each of them, says so.
    async carryOut(run, stands, each) {
        const { result, request } = this.played;
        const before = memoryAfter(request.image, result.writes, this.line - 1);
        this.old = cardIn(await stands(before));
        this.around = {
            old: entriesOf(this.old), now: entriesOf(cardIn(await stands(memoryAfter(request.image, result.writes, this.line)))),
        };
        for (const [number, write] of this.writes.entries()) {
            for (const [way, { plan }] of WAYS.entries()) {
                if (!each()) {
                    return;
                }
                this.outcomes.set(keyOf(number, way), await this.trial(run, plan(number + 1, write.bytes.length)));
            }
        }
        each();
    }

    async trial(run, plan) {
        const { script, request } = this.played;
        const lines = [...script.before(this.line), plan, script.lines[this.line - 1]];
        const result = await run({ ...request, script: bytesOfText(`${lines.join("\n")}\n`), reopens: true });
        const card = cardIn(result.stands);
        const mayMakeSeveral = !OF_COMMANDS.includes(script.steps.get(this.line).word) || this.isOfToolkit();
        const shown = result.trace.slice(result.places.indexOf(lines.length));
        return {
            plan, card, state: stateOf(entriesOf(card), this.around, mayMakeSeveral), changes: changesBetween(this.around.old, entriesOf(card)),
            shown: shown.includes(CUT) ? CUT : shown.find((line) => line.startsWith("< ")) ?? "",
        };
    }

    // Applets may run in a command of the toolkit, and commit on their own.
    isOfToolkit() {
        return [PROFILE, FETCH, RESPONSE, ENVELOPE, STATUS].includes(this.played.script.steps.get(this.line).command[1]);
    }

    outcome(number, way) {
        return this.outcomes.get(keyOf(number, way)) ?? null;
    }
}

function keyOf(number, way) {
    return number * WAYS.length + way;
}
