// The card as a tree of its files with what they hold, its PINs and its applets, with what a step changed.
import { hexed, isBlank, plural, trimmed } from "./bytes.js";
import { meaningOf } from "./contents.js";
import { appletLines, pinValue } from "./decode.js";
import { byId, element, objectList } from "./dom.js";
import { isUsim } from "./follow.js";
import { appletKind } from "./kinds.js";
import { keyName, standardFile } from "./names.js";

const STRUCTURES = { t: "transparent", l: "linear fixed", c: "cyclic" };
const LONGEST = 240;
// nothing unblocks the administrator's key
const ADM1 = 0x0a;

function factsOf(file) {
    const facts = [file.structure === "t" ? `${STRUCTURES.t}, ${plural(file.size, "byte")}`
        : `${STRUCTURES[file.structure]}, ${plural(file.count, "record")} of ${plural(file.length, "byte")}`];
    if (file.short) {
        facts.push(`SFI ${file.short}`);
    }
    if (file.rule) {
        facts.push(`rule ${file.rule.file}:${file.rule.record}`);
    }
    if (!file.active) {
        facts.push("deactivated");
    }
    return facts.join(", ");
}

function shortened(text) {
    return text.length > LONGEST ? `${text.slice(0, LONGEST)} ..` : text;
}

// What bytes hold: what they say and themselves; null where they are blank.
function contentOf(kind, bytes, label) {
    if (isBlank(bytes)) {
        return null;
    }
    const meaning = meaningOf(kind, bytes);
    const used = trimmed(bytes);
    const digits = shortened(hexed(used) + (used.length < bytes.length ? " FF\u00A0.." : ""));
    return element("div", { class: "content" }, label ? element("span", { class: "faint" }, label) : null, meaning ? `${meaning} ` : null,
        element("span", { class: meaning ? "bytes faint" : "bytes" }, digits));
}

export class FilesPane {
    constructor() {
        this.place = byId("files");
        this.closed = new Set();
    }

    clear() {
        this.place.replaceChildren();
    }

    // Shows a card, with the entries that are changed marked; `when` says when it stands so.
    show(card, changes, when) {
        if (!card) {
            this.place.replaceChildren(element("p", { class: "faint" }, "The memory holds no card."));
            return;
        }
        this.changes = changes;
        this.usim = isUsim(card);
        this.place.replaceChildren(
            element("p", { class: "faint" }, when), ...this.listed("Files", [this.directory(card, card.file([]))]),
            ...this.listed("PINs", [...card.pins.values()].map((pin) => this.pin(pin))),
            ...this.listed("Applets", [...card.rows.values()].map((row) => this.row(row))));
    }

    listed(title, items) {
        return items.length ? [element("h3", {}, title), element("ul", { class: "tree" }, ...items)] : [];
    }

    classOf(name) {
        return this.changes.has(name) ? "changed" : "";
    }

    nameOf(file) {
        const entry = standardFile(file.path, this.usim);
        const more = this.usim && file.path.join("") === "7F20" ? " (the files of ADF.USIM here)" : "";
        return element("span", { class: "name", title: entry?.title ?? "" }, `${file.path.at(-1) ?? "3F00"} ${entry?.name ?? ""}`.trim() + more);
    }

    directory(card, df) {
        const path = df.path.join("/");
        const below = card.children(df.path).map((file) => (file.isDf ? this.directory(card, file) : this.file(file)));
        const toggle = ({ target }) => this.closed[target.open ? "delete" : "add"](path);
        return element("li", {}, element("details", { open: !this.closed.has(path), toggle, class: this.classOf(`file ${path}`) },
            element("summary", {}, this.nameOf(df)), element("ul", {}, ...below)));
    }

    file(file) {
        const entry = standardFile(file.path, this.usim);
        const kind = entry?.structure === file.structure ? entry.content : null;
        const contents = file.structure === "t" ? [contentOf(kind, file.content, "")]
            : file.records().map((record, place) => contentOf(kind, record, `${place + 1}: `));
        const shown = contents.filter(Boolean);
        return element("li", { class: this.classOf(`file ${file.path.join("/")}`) }, this.nameOf(file), " ",
            element("span", { class: "facts" }, factsOf(file) + (shown.length ? "" : ", blank")), ...shown);
    }

    pin(pin) {
        const unblocked = pin.key === ADM1 ? "can't be unblocked" : `UNBLOCK PIN ${pinValue(pin.unblock)}, ${pin.unblockTries} tries left`;
        return element("li", { class: this.classOf(`pin ${pin.key}`) }, element("span", { class: "name" }, keyName(pin.key)), " ",
            element("span", { class: "facts" }, `${pin.enabled ? "enabled" : "disabled"}, ${pinValue(pin.value)}, ${pin.tries} tries left; ${unblocked}`));
    }

    row(row) {
        return element("li", { class: this.classOf(`row ${row.shelf}`) }, element("span", { class: "name" }, `applet on shelf ${row.shelf}`), " ",
            element("span", { class: "facts" }, `${appletKind(row.shelf)}, priority ${row.priority}`), objectList(appletLines(row.shelf, row)));
    }
}
