// Help for the words of a script: the form of each line, as the linter has it, what it says, and lines as they may stand.
import { byId, element, scrollWithin } from "./dom.js";
import { FORMS } from "./grammar.js";

// where lines stand, with the words that begin them: what each says, and lines of it
const PLACES = {
    "Before start: what the card holds": {
        df: ["A DF, which is a folder of files. PATH has four digits for each DF from the MF down, without the MF's own, and for itself.",
            "df 7F10"],
        ef: ["An EF: transparent with SIZE bytes (t), or with COUNT records of LENGTH bytes, linear fixed (l) or cyclic (c). SHORT is its "
            + "SFI (short identifier), or -. RULE is the record of an EF_ARR that says who may do what, as 2F06:1, or - for everybody.",
        "ef 2FE2 t 10 2 -", "ef 7F106F3A l 28 10 - -"],
        fill: ["The bytes of a transparent EF from OFFSET on.", "fill 2FE2 0 98101032547698103254"],
        rec: ["The beginning of record NUMBER of an EF. The rest of it becomes FF.", "rec 7F106F3A 1 416E6E61"],
        pin: ["A PIN. KEY is 01 (PIN 1), 81 (PIN 2) or 0A (ADM1). VALUE and UNBLOCK are eight bytes.",
            "pin 01 31323334FFFFFFFF on 3132333435363738"],
        row: ["A registered applet. SHELF, 0 to 31, says which one, PRIORITY when it runs. HEX has its events, its menu entry and its data.",
            "row 1 1 00044D656E75"],
        start: ["The card is opened.", "start"],
    },
    "After start: what is done": {
        apdu: ["A command is sent to the card.", "apdu 00B0820004"],
        tpdu: ["A TPDU is sent to the card by the protocol T=0.", "tpdu 00B0820004"],
        reset: ["The card is reset, and has power again.", "reset"],
    },
    "After start: what goes wrong": {
        cut: ["The power is lost in memory write K of the next command: its first N bytes are written, the others become XX, or all FF.",
            "cut 2", "cut 1 4 00"],
        fail: ["Memory write K of the next command fails, and leaves its bytes XX.", "fail 1 FF"],
        readfail: ["Memory read K of the next command fails.", "readfail 1"],
    },
    "After start: at a handset": {
        user: ["The user has read a text (ok), ends it, goes back, doesn't answer (none), presses a key, is at the idle screen again "
            + "(idle), types a text, picks an item, or dials.", "user pick 2", "user type Milk", "user ok"],
        net: ["The network tells the telephone where it is, or the telephone polls the card.", "net place 00F11000010002", "net poll"],
        time: ["N seconds pass.", "time 300"],
    },
};

export class HelpPane {
    constructor() {
        this.part = byId("help");
        this.list = byId("help-words");
        this.list.append(...Object.entries(PLACES).flatMap(([place, words]) => [
            element("h3", {}, place), element("dl", {}, ...Object.entries(words).flatMap(([word, said]) => this.entry(word, ...said))),
        ]));
        this.list.append(element("p", {}, "A line that begins with # is a comment."));
        this.part.addEventListener("toggle", () => this.reveal());
    }

    entry(word, says, ...lines) {
        return [
            element("dt", { "data-word": word }, element("code", {}, FORMS[word])),
            element("dd", {}, `${says} `, ...lines.map((line) => element("code", { class: "example" }, line))),
        ];
    }

    // Marks the word that a line begins with.
    mark(line) {
        const [word] = line.split(" ");
        this.list.querySelector(".current")?.classList.remove("current");
        this.list.querySelector(`[data-word="${CSS.escape(word)}"]`)?.classList.add("current");
        this.reveal();
    }

    reveal() {
        const current = this.list.querySelector(".current");
        if (this.part.open && current) {
            // what the line says, and above it its form
            scrollWithin(this.list, current.nextElementSibling);
            scrollWithin(this.list, current);
        }
    }
}
