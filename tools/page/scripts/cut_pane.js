// Cuts the power in each write of the chosen line, and shows what stands after it.
import { hexed, plural } from "./bytes.js";
import { STATES, Trials, WAYS } from "./cut.js";
import { byId, button, element } from "./dom.js";

const PLACE_DIGITS = 5;

function placeDigits(place) {
    return place.toString(16).toUpperCase().padStart(PLACE_DIGITS, "0");
}

export class CutPane {
    // `run` and `stands` carry scripts out, `chosen` is told the outcome of the cut that the user chooses, or null, and `added` the plan
    // that is to be put before the line.
    constructor(run, stands, chosen, added) {
        Object.assign(this, { run, stands, chosen, added });
        this.place = byId("cut");
        this.trials = null;
    }

    clear() {
        this.trials = null;
        this.place.replaceChildren();
    }

    // Ends the trials of a line that is left. They stay in sight up to those of the next line, and nothing of them can be chosen.
    leave() {
        this.trials = null;
        this.place.inert = true;
    }

    // Tries every cut of a line of a run; nothing where it can't be cut.
    async show(played, line) {
        const trials = played.script.isCarriedOut(line) ? new Trials(played, line) : null;
        this.trials = trials;
        this.at = null;
        this.place.inert = false;
        if (!trials?.writes.length) {
            this.place.replaceChildren(element("p", { class: "faint" }, trials ? `Line ${line} writes nothing to the card's memory.`
                : "Choose a step of the trace that a line of the script sends."));
            return;
        }
        this.place.replaceChildren(...this.parts());
        this.draw();
        await trials.carryOut(this.run, this.stands, () => {
            const isWanted = this.trials === trials;
            if (isWanted) {
                this.draw();
            }
            return isWanted;
        });
    }

    parts() {
        const { line, writes } = this.trials;
        this.grid = element("div", { class: "grid-frame" });
        this.legend = element("div", { class: "legend" });
        this.slider = element("input", {
            type: "range", min: 0, max: writes.length, value: 0, "aria-label": "The write in which the power is cut; 0 is none",
            input: () => this.pick(Number(this.slider.value) - 1, this.at?.way ?? 0),
        });
        this.way = element("select", { change: () => this.pick(this.at?.number ?? 0, Number(this.way.value)) },
            ...WAYS.map(({ name }, way) => element("option", { value: way }, name)));
        this.told = element("div", { "aria-live": "polite" });
        return [
            element("p", {}, `Line ${line} makes ${plural(writes.length, "write")} to the memory. Each is cut with none, half or all of it `
                + "written, and fails:"), this.grid,
            this.legend, element("label", { class: "slider" }, "Cut in write", this.slider), element("label", {}, "left so: ", this.way), this.told,
        ];
    }

    draw() {
        const { writes } = this.trials;
        const cells = (number) => WAYS.map((_, way) => element("td", {}, this.cell(number, way)));
        this.grid.replaceChildren(element(
            "table", { class: "grid" },
            element("tr", {}, element("th", {}, "write"), ...WAYS.map(({ short, name }) => element("th", { scope: "col", title: name }, short))),
            ...writes.map((_, number) => element("tr", {}, element("th", { scope: "row" }, String(number + 1)), ...cells(number)))));
        const outcomes = [...this.trials.outcomes.values()];
        this.legend.replaceChildren(...Object.entries(STATES).map(([state, { letter, words }]) => {
            const count = outcomes.filter((outcome) => outcome.state === state).length;
            return count ? element("span", {}, element("span", { class: `swatch ${state}` }, letter), ` ${words}: ${count}`) : null;
        }).filter(Boolean));
        if (this.at) {
            this.tell();
        }
    }

    cell(number, way) {
        const outcome = this.trials.outcome(number, way);
        const state = outcome?.state;
        const isChosen = this.at?.number === number && this.at.way === way;
        return button(state ? STATES[state].letter : "·", () => this.pick(number, way), {
            class: state ?? "", "aria-pressed": String(isChosen), tabindex: -1,
            "aria-label": `write ${number + 1}, ${WAYS[way].name}: ${state ? STATES[state].words : "not tried yet"}`,
        });
    }

    // Chooses a cut; a number below 0 is none.
    pick(number, way) {
        this.at = number < 0 ? null : { number, way };
        this.slider.value = number + 1;
        this.way.value = way;
        this.draw();
        if (!this.at) {
            this.told.replaceChildren();
        }
        this.chosen(this.at ? this.trials.outcome(number, way) : null);
    }

    tell() {
        const { number, way } = this.at;
        const { place, bytes } = this.trials.writes[number];
        const outcome = this.trials.outcome(number, way);
        this.told.replaceChildren(
            element("p", {}, `Write ${number + 1}: ${plural(bytes.length, "byte")} at ${placeDigits(place)}`),
            element("p", { class: "bytes" }, hexed(bytes)),
            ...(outcome ? [
                element("p", {}, `The trace shows `, element("code", {}, outcome.shown || "nothing"), `; when the card is opened again, `,
                    element("strong", {}, STATES[outcome.state].words), " stands there (below)."),
                button(`Put \`${outcome.plan}\` before line ${this.trials.line}`, () => this.added(this.trials.line, outcome.plan)),
            ] : []));
    }
}
