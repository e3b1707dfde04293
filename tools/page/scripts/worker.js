// The worker in which the program runs. A request is answered by one result or one trap, and by its progress before.
import { IMAGE, Run } from "./machine.js";

const EACH_MILLISECONDS = 60;
const EACH_LINES = 64;

let module = null;

// Tells the progress of a request now and then.
function teller(id) {
    let last = performance.now();
    return (line) => {
        if (line % EACH_LINES === 0 && performance.now() - last > EACH_MILLISECONDS) {
            last = performance.now();
            self.postMessage({ id, progress: line });
        }
    };
}

function carriedOut({ id, words, script, image }) {
    return new Run([...words, "--image", IMAGE], script, image, teller(id)).carryOut(module);
}

// What stands in a memory once the card in it was opened, which finishes what was begun.
function opened({ id, words, image }) {
    const store = words.slice(1);
    const script = new TextEncoder().encode("start\n");
    return carriedOut({ id, words: ["open", ...store], script, image });
}

function answered(request) {
    if (request.module) {
        module = new WebAssembly.Module(request.module);
        return {};
    }
    const result = carriedOut(request);
    return request.reopens ? { ...result, stands: opened({ ...request, image: result.image }).image } : result;
}

self.addEventListener("message", ({ data }) => {
    try {
        self.postMessage({ id: data.id, result: answered(data) });
    } catch (fault) {
        self.postMessage({ id: data.id, trap: `${fault.name}: ${fault.message}` });
    }
});
