// A link that holds a script, and how it is to be played, after its `#`.

async function through(bytes, stream) {
    const piped = new Blob([bytes]).stream().pipeThrough(stream);
    return new Uint8Array(await new Response(piped).arrayBuffer());
}

function toLetters(bytes) {
    const letters = Array.from(bytes, (byte) => String.fromCharCode(byte)).join("");
    return btoa(letters).replaceAll("+", "-").replaceAll("/", "_").replace(/=+$/, "");
}

function fromLetters(letters) {
    const text = atob(letters.replaceAll("-", "+").replaceAll("_", "/"));
    return Uint8Array.from(text, (letter) => letter.charCodeAt(0));
}

export async function linkOf({ mode, store, script }) {
    const packed = await through(new TextEncoder().encode(script), new CompressionStream("deflate-raw"));
    return `#script=${mode}.${store}.${toLetters(packed)}`;
}

// What a link holds; null where it holds no script, or none that can be read.
export async function linked(hash) {
    const found = hash.match(/^#script=(play|phone|open)\.(journal|pages)\.([-\w]*)$/);
    if (!found) {
        return null;
    }
    try {
        const bytes = await through(fromLetters(found[3]), new DecompressionStream("deflate-raw"));
        return { mode: found[1], store: found[2], script: new TextDecoder().decode(bytes) };
    } catch {
        return null;
    }
}
