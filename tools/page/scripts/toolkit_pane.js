// What the card's toolkit is doing after the chosen step.
import { byId, objectList } from "./dom.js";

export class ToolkitPane {
    constructor() {
        this.part = byId("toolkit-part");
        this.place = byId("toolkit");
    }

    // Shows a toolkit; nothing where the card has no applet, or none is known.
    show(toolkit) {
        const hasApplets = Boolean(toolkit?.applets.size);
        this.part.hidden = !hasApplets;
        this.place.replaceChildren(...(hasApplets ? [objectList(toolkit.lines())] : []));
    }
}
