// What was played before something else took its place, to be had again.

const MOST = 100;

export class History {
    constructor() {
        this.earlier = [];
        this.later = [];
    }

    // Keeps what stands, which is to be replaced for a reason.
    keep(state, reason) {
        this.earlier.push({ state, reason });
        this.earlier = this.earlier.slice(-MOST);
        this.later = [];
    }

    // What stood before the last replacement, which is kept to be made again.
    undone(state) {
        const { state: earlier, reason } = this.earlier.pop();
        this.later.push({ state, reason });
        return earlier;
    }

    redone(state) {
        const { state: later, reason } = this.later.pop();
        this.earlier.push({ state, reason });
        return later;
    }
}
