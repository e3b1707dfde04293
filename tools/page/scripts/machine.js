// Runs the program's module: its standard input is a script, its one file the image of a memory, and both stand in memory here.
//
// A line of the script is handed over by each call of `read`, and the program carries a line out before it asks for the next one. So
// what is shown and written between two calls belongs to the line that the first of them gave.

export const IMAGE = "card.img";

const INPUT = 0;
const OUTPUT = 1;
const IMAGE_FILE = 3;
const NO_SUCH_FILE = -2;
const BAD_FILE = -9;
const SEEK_SET = 0;
const SEEK_CUR = 1;
const LINE_FEED = 10;
const FIRST_ROOM = 131_072;

// A file in memory.
class MemoryFile {
    constructor(bytes) {
        this.bytes = new Uint8Array(Math.max(FIRST_ROOM, bytes.length));
        this.bytes.set(bytes);
        this.length = bytes.length;
        this.at = 0;
    }

    seek(offset, whence) {
        const from = { [SEEK_SET]: 0, [SEEK_CUR]: this.at }[whence] ?? this.length;
        this.at = from + offset;
        return this.at;
    }

    read(count) {
        const part = this.bytes.slice(this.at, Math.min(this.at + count, this.length));
        this.at += part.length;
        return part;
    }

    write(part) {
        const end = this.at + part.length;
        if (end > this.bytes.length) {
            const wider = new Uint8Array(2 * end);
            wider.set(this.bytes);
            this.bytes = wider;
        }
        this.bytes.set(part, this.at);
        this.at = end;
        this.length = Math.max(this.length, end);
    }

    content() {
        return this.bytes.slice(0, this.length);
    }
}

// Writes to the image, in order: for each the script's line in which it was made, how many lines of the trace were shown by then, its
// place, and where its bytes begin in `bytes`.
class WriteLog {
    constructor() {
        this.lines = [];
        this.shown = [];
        this.places = [];
        this.starts = [0];
        this.parts = [];
    }

    add(line, shown, place, part) {
        this.lines.push(line);
        this.shown.push(shown);
        this.places.push(place);
        this.starts.push(this.starts.at(-1) + part.length);
        this.parts.push(part);
    }

    packed() {
        const bytes = new Uint8Array(this.starts.at(-1));
        this.parts.forEach((part, number) => bytes.set(part, this.starts[number]));
        const numbers = (list) => Uint32Array.from(list);
        return {
            lines: numbers(this.lines), shown: numbers(this.shown), places: numbers(this.places), starts: numbers(this.starts), bytes,
        };
    }
}

// One run of the program.
export class Run {
    // `words` are those of the command line, `script` and `image` bytes; `progress` is told the number of each line that is handed over.
    constructor(words, script, image, progress) {
        this.words = ["uicc_run", ...words].map((word) => new TextEncoder().encode(word));
        this.script = script;
        this.progress = progress;
        this.image = new MemoryFile(image);
        this.taken = 0;
        this.line = 0;
        this.isAtLine = true;
        this.trace = [];
        this.places = [];
        this.begun = "";
        this.log = new WriteLog();
        this.decoder = new TextDecoder("latin1");
    }

    // Carries the script out, and answers the trace, the script's line of each of its lines, the status, the log and the image.
    carryOut(module) {
        const instance = new WebAssembly.Instance(module, { host: this.imports() });
        this.memory = instance.exports.memory;
        const status = instance.exports.run();
        if (this.begun) {
            this.show(this.begun);
        }
        return { status, trace: this.trace, places: this.places, writes: this.log.packed(), image: this.image.content() };
    }

    bytesAt(at, count) {
        return new Uint8Array(this.memory.buffer, Number(at), Number(count));
    }

    // What the module asks of its host. Lengths and places are of 64 bits; a negative answer is an error's number.
    imports() {
        return {
            read: (file, at, count) => BigInt(this.read(file, this.bytesAt(at, count))),
            write: (file, at, count) => BigInt(this.write(file, this.bytesAt(at, count))),
            open: (path, length) => this.open(new TextDecoder().decode(this.bytesAt(path, length))),
            seek: (file, offset, whence) => BigInt(file === IMAGE_FILE ? this.image.seek(Number(offset), whence) : BAD_FILE),
            word_count: () => this.words.length,
            word_length: (number) => this.words[number].length,
            copy_word: (number, at) => this.bytesAt(at, this.words[number].length).set(this.words[number]),
        };
    }

    open(path) {
        if (path !== IMAGE) {
            return NO_SUCH_FILE;
        }
        this.image.at = 0;
        return IMAGE_FILE;
    }

    read(file, out) {
        if (file !== INPUT && file !== IMAGE_FILE) {
            return BAD_FILE;
        }
        const part = file === INPUT ? this.nextOfScript(out.length) : this.image.read(out.length);
        out.set(part);
        return part.length;
    }

    // The next line, or as much of it as is wanted.
    nextOfScript(most) {
        if (this.isAtLine) {
            this.line += 1;
            this.progress(this.line);
        }
        const end = this.script.indexOf(LINE_FEED, this.taken);
        const next = Math.min(end < 0 ? this.script.length : end + 1, this.taken + most);
        const part = this.script.subarray(this.taken, next);
        this.taken = next;
        this.isAtLine = part.at(-1) === LINE_FEED;
        return part;
    }

    write(file, part) {
        if (file === IMAGE_FILE) {
            this.log.add(this.line, this.trace.length, this.image.at, part.slice());
            this.image.write(part);
        } else if (file === OUTPUT) {
            const lines = (this.begun + this.decoder.decode(part)).split("\n");
            this.begun = lines.pop();
            lines.forEach((line) => this.show(line));
        }
        return part.length;
    }

    show(line) {
        this.trace.push(line);
        this.places.push(this.line);
    }
}
