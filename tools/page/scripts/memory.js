// The memory as it stood after a line of a script, by the writes of the run.

// The bytes that stood after a line, in a memory that held `image` before the run.
export function memoryAfter(image, writes, line) {
    return written(image, writes, writesUpTo(writes, line));
}

// An image with so many of the writes.
function written(image, writes, count) {
    let length = image.length;
    for (let number = 0; number < count; number += 1) {
        length = Math.max(length, writes.places[number] + writes.starts[number + 1] - writes.starts[number]);
    }
    const memory = new Uint8Array(length);
    memory.set(image);
    for (let number = 0; number < count; number += 1) {
        memory.set(bytesOf(writes, number), writes.places[number]);
    }
    return memory;
}

// The bytes that stood when so many lines of the trace were shown.
export function memoryAt(image, writes, shown) {
    const next = writes.shown.findIndex((each) => each > shown);
    return written(image, writes, next < 0 ? writes.lines.length : next);
}

// How many writes were made up to a line and in it.
function writesUpTo(writes, line) {
    const after = writes.lines.findIndex((each) => each > line);
    return after < 0 ? writes.lines.length : after;
}

function bytesOf(writes, number) {
    return writes.bytes.subarray(writes.starts[number], writes.starts[number + 1]);
}

// The writes of a line that were made before so many lines of the trace were shown: each with its place and its bytes.
export function writesIn(writes, line, shown) {
    const found = [];
    for (let number = writesUpTo(writes, line - 1); number < writesUpTo(writes, line); number += 1) {
        if (writes.shown[number] < shown) {
            found.push({ place: writes.places[number], bytes: bytesOf(writes, number) });
        }
    }
    return found;
}
