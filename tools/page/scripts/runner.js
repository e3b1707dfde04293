// Hands runs to a worker, and makes a new one where a run is stopped or the module trapped.
import { packedModule, workerText } from "./packed.js";

// A run was stopped by the user.
export class Stopped extends Error {
    constructor() {
        super("the run was stopped");
    }
}

// The module stopped in a way that no run of it should.
export class Trapped extends Error {}

// This browser can't run the module at all.
export class NotRunnable extends Error {}

async function unpacked(base64) {
    const packed = Uint8Array.from(atob(base64), (letter) => letter.charCodeAt(0));
    const stream = new Blob([packed]).stream().pipeThrough(new DecompressionStream("gzip"));
    return new Uint8Array(await new Response(stream).arrayBuffer());
}

export class Runner {
    constructor() {
        this.module = unpacked(packedModule);
        this.address = URL.createObjectURL(new Blob([workerText], { type: "text/javascript" }));
        this.waiting = new Map();
        this.count = 0;
        this.make();
    }

    make() {
        this.worker = new Worker(this.address);
        this.worker.addEventListener("message", ({ data }) => this.hear(data));
        const { worker } = this;
        this.ready = this.module.then((module) => this.send(worker, { module }, () => {}));
        this.ready.catch(() => {});
    }

    send(worker, request, progress) {
        this.count += 1;
        const id = this.count;
        return new Promise((resolve, reject) => {
            this.waiting.set(id, { request, resolve, reject, progress });
            worker.postMessage({ id, ...request });
        });
    }

    hear({ id, progress, result, trap }) {
        const waiting = this.waiting.get(id);
        if (!waiting) {
            return;
        }
        if (progress !== undefined) {
            waiting.progress(progress);
            return;
        }
        this.waiting.delete(id);
        if (trap === undefined) {
            waiting.resolve(result);
        } else if (waiting.request.module) {
            waiting.reject(new NotRunnable(trap));
        } else {
            waiting.reject(new Trapped(trap));
            this.stop();
        }
    }

    // Carries a script out over an image: words without `--image`, the script's bytes, the image's bytes, and whether the card is to be
    // opened again after it.
    async run(request, progress = () => {}) {
        await this.ready;
        return this.send(this.worker, request, progress);
    }

    // Ends all that runs, and makes a new worker.
    stop() {
        this.worker.terminate();
        const waiting = [...this.waiting.values()];
        this.waiting.clear();
        this.make();
        waiting.forEach(({ reject }) => reject(new Stopped()));
    }
}
