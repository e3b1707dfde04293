// The page: what is played, and what of it is shown.
import { bytesOfText, plural } from "./bytes.js";
import { CutPane } from "./cut_pane.js";
import { byId, element, save } from "./dom.js";
import { FilesPane } from "./files_pane.js";
import { screenAfter } from "./handset.js";
import { HandsetPane } from "./handset_pane.js";
import { HelpPane } from "./help_pane.js";
import { History } from "./history.js";
import { cardIn, changesBetween, entriesOf } from "./image.js";
import { linkOf, linked } from "./link.js";
import { Script } from "./lint.js";
import { NotLoaded, memoryIn, modeFor, scriptIn, storeOf, traceIn, whyNotOpened } from "./loading.js";
import { memoryAfter, memoryAt } from "./memory.js";
import { examples, madeFrom } from "./packed.js";
import { NotRunnable, Runner, Stopped } from "./runner.js";
import { ScriptPane } from "./script_pane.js";
import { toolkitAfter } from "./toolkit.js";
import { ToolkitPane } from "./toolkit_pane.js";
import { TracePane } from "./trace_pane.js";
import { RESET, markWords, stepsOf } from "./trace.js";

const SHOW_PROGRESS_AFTER = 300;
const FIRST_EXAMPLE = "day";
const NOTHING = new Uint8Array();
const ENDS = { 0: "played to its end" };

// How a run ended.
function endOf({ status, trace }) {
    return ENDS[status] ?? markWords(trace.at(-1) ?? "");
}

function exampleOf(name) {
    const { mode, script } = examples.find((each) => each.name === name);
    return { mode, script };
}

class Page {
    constructor() {
        this.runner = new Runner();
        this.script = new ScriptPane(() => this.play(), () => this.play(), (line) => this.visit(line));
        this.trace = new TracePane((line, number) => this.chooseStep(line, number));
        this.handset = new HandsetPane((line) => this.addLine(line));
        this.cut = new CutPane((request) => this.runner.run(request), (memory) => this.opened(memory), (outcome) => this.showCut(outcome),
            (line, plan) => this.putPlan(line, plan));
        this.files = new FilesPane();
        this.help = new HelpPane();
        this.toolkit = new ToolkitPane();
        // the memory that a card is opened in
        this.image = NOTHING;
        this.played = null;
        this.asked = 0;
        this.history = new History();
        this.hearControls();
        this.hearFiles();
        this.tellHistory();
    }

    hearControls() {
        const chooser = byId("example");
        chooser.append(...examples.map(({ name }) => element("option", { value: name }, name)));
        chooser.addEventListener("change", () => this.useExample(chooser));
        byId("mode").addEventListener("change", () => this.play());
        byId("store").addEventListener("change", () => this.play());
        byId("play").addEventListener("click", () => this.play());
        byId("stop").addEventListener("click", () => this.runner.stop());
        byId("undo").addEventListener("click", () => this.undo());
        byId("redo").addEventListener("click", () => this.redo());
        byId("link").addEventListener("click", () => this.makeLink());
        byId("go-on").addEventListener("click", () => this.goOn());
        globalThis.addEventListener("hashchange", () => this.useLink());
        byId("about").addEventListener("click", () => byId("about-text").showModal());
        byId("made-from").textContent = madeFrom;
    }

    hearFiles() {
        byId("save-script").addEventListener("click", () => save("card.script", this.script.text));
        byId("save-trace").addEventListener("click", () => save("card.trace", this.played?.result.trace.map((line) => `${line}\n`).join("") ?? ""));
        byId("save-image").addEventListener("click", () => save("card.img", this.played?.result.image ?? NOTHING));
        this.hearLoad("script", async (file) => {
            const script = await scriptIn(file);
            this.replace(file.name, { script, mode: modeFor(script, this.mode) });
        });
        this.hearLoad("trace", async (file) => this.showTrace(await traceIn(file), file.name));
        this.hearLoad("image", async (file) => this.goOnWith(await memoryIn(file), file.name));
    }

    // Loads a file that the user chose. What can't be loaded is refused, and takes the place of nothing.
    hearLoad(kind, load) {
        const input = byId(`load-${kind}`);
        input.addEventListener("change", async () => {
            const [file] = input.files;
            if (file) {
                await this.unlessRefused(kind, file.name, () => load(file));
                input.value = "";
            }
        });
    }

    async unlessRefused(kind, name, load) {
        const told = byId(`${kind}-told`);
        told.textContent = "";
        try {
            await load();
        } catch (fault) {
            told.textContent = `${name}: ${fault.message}. Nothing was replaced.`;
        }
    }

    // All that is played: the script, how it is played, and the memory that a card is opened in.
    get state() {
        return { script: this.script.text, mode: this.mode, store: this.store, image: this.image };
    }

    set state({ script, mode, store, image }) {
        byId("mode").value = mode;
        byId("store").value = store;
        this.image = image;
        this.script.text = script;
    }

    // Plays something else, so that what stood before can be had again.
    replace(reason, change) {
        this.history.keep(this.state, reason);
        this.state = { ...this.state, ...change };
        this.tellHistory();
        return this.play();
    }

    undo() {
        if (this.history.earlier.length) {
            this.goTo(this.history.undone(this.state));
        }
    }

    redo() {
        if (this.history.later.length) {
            this.goTo(this.history.redone(this.state));
        }
    }

    goTo(state) {
        this.state = state;
        this.tellHistory();
        this.play();
    }

    // Tells what can be taken back and done again. What was refused before is told no longer.
    tellHistory() {
        for (const kind of ["script", "trace", "image"]) {
            byId(`${kind}-told`).textContent = "";
        }
        const { earlier, later } = this.history;
        for (const [id, words, list] of [["undo", "Take back", earlier], ["redo", "Do again", later]]) {
            const reason = list.at(-1)?.reason;
            byId(id).title = reason ? `${words}: ${reason}` : "";
            byId(id).setAttribute("aria-disabled", String(!reason));
        }
    }

    // Begins with the script of the link, or else with an example.
    async begin() {
        this.goTo({ ...this.state, ...await linked(location.hash) ?? exampleOf(FIRST_EXAMPLE) });
    }

    useExample(chooser) {
        const name = chooser.value;
        // so that the same one can be chosen again
        chooser.value = "";
        this.replace(`the example ${name}`, exampleOf(name));
    }

    async useLink() {
        const found = await linked(location.hash);
        if (found) {
            this.replace("the link", found);
        }
    }

    async makeLink() {
        const hash = await linkOf({ mode: this.mode, store: this.store, script: this.script.text });
        history.replaceState(null, "", hash);
        const told = byId("script-told");
        try {
            await navigator.clipboard.writeText(location.href);
            told.textContent = "copied";
        } catch {
            told.textContent = "it stands in the address of the page";
        }
    }

    get mode() {
        return byId("mode").value;
    }

    get store() {
        return byId("store").value;
    }

    // Goes on with the card that the last run left.
    goOn() {
        return this.unlessRefused("image", "The memory of the last run", () => {
            if (!this.played) {
                throw new NotLoaded("no run is shown");
            }
            return this.goOnWith(this.played.result.image, "Go on with it");
        });
    }

    // Plays a new script to the card in a memory, where one can be opened there.
    async goOnWith(image, reason) {
        const store = storeOf(image);
        const why = whyNotOpened(image, await this.opening(image, store));
        if (why) {
            throw new NotLoaded(why);
        }
        await this.replace(reason, { script: "start\n", mode: "open", store, image });
    }

    addLine(line) {
        return this.replace(line, { script: this.script.withLine(line) });
    }

    putPlan(line, plan) {
        this.replace(plan, { script: this.script.withLineBefore(line, plan) });
        // what was pressed is gone, and the trace shows what comes of it
        byId("trace").focus({ preventScroll: true });
    }

    read(text, mode) {
        return new Script(text, mode);
    }

    // Plays the script as it stands, and shows its end. Only the last run that was asked for is shown.
    async play() {
        this.asked += 1;
        const { asked } = this;
        const { mode, store } = this;
        const script = this.read(this.script.text, mode);
        const request = {
            words: [mode, "--store", store], script: bytesOfText(this.script.text), image: mode === "open" ? this.image : NOTHING,
        };
        if (this.isRunning) {
            this.runner.stop();
        }
        this.script.choose(0);
        this.script.blame(script.firstBad);
        const result = await this.watched(this.runner.run(request, (line) => this.tellProgress(line, script.lines.length)), asked);
        if (result && asked === this.asked) {
            this.show({ script, request, mode, result, steps: stepsOf(result.trace, result.places) });
        }
    }

    // Awaits a run: it can be stopped, and what went wrong is told.
    async watched(run, asked) {
        this.isRunning = true;
        clearTimeout(this.showAfter);
        byId("stop").disabled = false;
        this.tell("playing ..");
        this.showAfter = setTimeout(() => { byId("progress").hidden = false; }, SHOW_PROGRESS_AFTER);
        try {
            return await run;
        } catch (fault) {
            if (asked === this.asked) {
                this.tellFault(fault);
            }
            return null;
        } finally {
            if (asked === this.asked) {
                this.isRunning = false;
                clearTimeout(this.showAfter);
                byId("progress").hidden = true;
                byId("stop").disabled = true;
            }
        }
    }

    tellProgress(line, count) {
        byId("progress").value = line / count;
        this.tell(`line ${line.toLocaleString("en")} of ${count.toLocaleString("en")}`);
    }

    tellFault(fault) {
        if (fault instanceof Stopped) {
            this.tell("stopped");
        } else if (fault instanceof NotRunnable) {
            this.tell(`this browser can't run the program: it wants WebAssembly with memories of 64 bits (${fault.message})`);
        } else {
            this.tell(`the module stopped, and was made anew: ${fault.message}`);
        }
    }

    tell(text) {
        byId("status").textContent = text;
    }

    show(played) {
        const { script, result, steps, mode } = played;
        this.played = played;
        this.stands = new Map();
        this.tell(`${endOf(result)}, ${plural(steps.length, "step")}`);
        this.blame(played);
        this.trace.show(steps, mode === "open" ? cardIn(played.request.image) ?? script.card : script.card, script.lines);
        this.handset.show(mode === "phone" ? screenAfter(steps) : null);
        const caret = this.script.caretLine;
        this.help.mark(script.lines[caret - 1] ?? "");
        if (steps.length) {
            this.trace.chooseLine(caret || Infinity);
        } else {
            this.toolkit.show(null);
            this.chooseLine(script.lines.length);
        }
    }

    // Chooses the step of the line that the user went to, and has help for it.
    visit(line) {
        this.help.mark(this.played?.script.lines[line - 1] ?? "");
        if (this.played?.steps.length && !this.isRunning) {
            this.trace.chooseLine(line);
        }
    }

    // Shows a trace that was kept, beside the script as it stands. Nothing is played, so of the card nothing more is known.
    showTrace(trace, reason) {
        this.history.keep(this.state, reason);
        this.tellHistory();
        const script = this.read(this.script.text, this.mode);
        const steps = stepsOf(trace, script.placesOf(trace, this.mode));
        this.asked += 1;
        this.played = null;
        this.described = script.card;
        this.tell(`a kept trace of ${plural(steps.length, "step")}`);
        this.trace.show(steps, script.card, script.lines);
        this.handset.show(this.mode === "phone" ? screenAfter(steps) : null);
        this.cut.clear();
        this.files.clear();
        this.trace.choose(0);
    }

    // The program says which line is bad, and this page why. Where they don't agree the program counts.
    blame({ script, result }) {
        const named = [2, 8].includes(result.status) ? Number(result.trace.at(-1).replace("line ", "")) : 0;
        const reason = script.firstBad?.line === named ? script.firstBad.reason : "the program says so";
        this.script.blame(named ? { line: named, reason } : null);
    }

    chooseStep(line, number) {
        this.toolkit.show(this.toolkitAt(number));
        return this.chooseLine(line);
    }

    // What the toolkit is doing after a step. A reset begins anew, with the applets that the memory holds then.
    toolkitAt(number) {
        const { steps } = this.trace.reader;
        if (!this.played) {
            return toolkitAfter(this.described.rows.values(), steps.slice(0, number + 1));
        }
        const reset = steps.findLastIndex((step, place) => place <= number && step.text === RESET);
        const { request, result } = this.played;
        const card = cardIn(memoryAt(request.image, result.writes, steps[Math.max(0, reset)].at));
        return card ? toolkitAfter(card.rows.values(), steps.slice(reset + 1, number + 1)) : null;
    }

    async chooseLine(line) {
        const { played } = this;
        this.line = line;
        this.script.choose(line);
        this.cut.leave();
        if (!played) {
            return;
        }
        try {
            await this.showFiles(line);
            if (this.played === played && this.line === line) {
                await this.cut.show(played, line);
            }
        } catch (fault) {
            // a run that was asked for since tells of itself
            if (!(fault instanceof Stopped)) {
                this.tellFault(fault);
            }
        }
    }

    // What stands in a memory once the card in it was opened again.
    async opened(memory) {
        return (await this.opening(memory, this.played.request.words[2])).image;
    }

    opening(image, store) {
        return this.runner.run({ words: ["open", "--store", store], script: bytesOfText("start\n"), image });
    }

    async cardAfter(line) {
        const { played, stands } = this;
        if (!stands.has(line)) {
            const memory = memoryAfter(played.request.image, played.result.writes, line);
            stands.set(line, cardIn(await this.opened(memory)));
        }
        return stands.get(line);
    }

    async showFiles(line) {
        const { played } = this;
        const [before, card] = [await this.cardAfter(line - 1), await this.cardAfter(line)];
        if (this.played === played && this.line === line) {
            const changes = before ? changesBetween(entriesOf(before), entriesOf(card)) : new Set();
            this.files.show(card, changes, `As it stands after line ${line}, and as the card is found when it is opened next.`);
        }
    }

    showCut(outcome) {
        if (outcome) {
            this.files.show(outcome.card, outcome.changes, `As it stands when the card is opened after \`${outcome.plan}\` in line ${this.line}.`);
        } else {
            this.showFiles(this.line);
        }
    }
}

const page = new Page();
// for the check, and for the console
globalThis.uicc = page;
page.begin();
