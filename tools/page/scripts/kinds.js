// Which kinds of applets there are, on which shelves they stand, and what each does at an event, by the definitions of the sources.
import { Definitions, Unknown } from "./evaluation.js";
import { tables } from "./tables.js";

const TABLE = "table";
const meaning = new Definitions(tables.kinds.definitions, tables.kinds.constants);

function kindOn(shelf) {
    return tables.kinds.kinds[tables.kinds.shelves[shelf] - 1];
}

// What the applet on a shelf does.
export function appletKind(shelf) {
    return kindOn(shelf).does;
}

// Whether the applet on a shelf does what its bytes say.
export function isTable(shelf) {
    return kindOn(shelf).name === TABLE;
}

// The mind of the applet on a shelf that woke with what it keeps.
export function fresh(shelf, kept) {
    return meaning.call("fresh", tables.kinds.shelves[shelf], [...kept]);
}

// What an applet of this mind does at a stimulus, and its mind then.
export function turn(mind, stimulus) {
    const { name } = tables.kinds.kinds[mind.kind - 1];
    if (tables.kinds.unreadable[name]) {
        throw new Unknown(`the definition of ${name} is in a form that isn't read here: ${tables.kinds.unreadable[name]}`);
    }
    return meaning.call("act", mind, stimulus);
}
