// The calls of the page, and what it gets for each.

import { Recording } from "./recording.mjs";

/** The memory of typed arrays in a result, which goes to the page instead of being copied. */
function buffersOf(result) {
    const found = new Set();
    const look = (value) => {
        if (ArrayBuffer.isView(value)) {
            found.add(value.buffer);
        } else if (typeof value === "object" && value !== null && Object.getPrototypeOf(value) === Object.prototype) {
            Object.values(value).forEach(look);
        } else if (Array.isArray(value) && value[0] instanceof Object && value.length <= 10000) {
            value.forEach(look);
        }
    };
    look(result);
    return [...found];
}

const CALLS = {
    lanes: (recording, words) => recording.lanes(words),
    flame: (recording, words) => recording.flame(words),
    tasks: (recording, words) => recording.tasksOf(words),
    records: (recording, words) => recording.records(words),
    frame: (recording, words) => recording.frame(words),
    bytes: (recording, words) => recording.bytesAt(words),
    symbols: (recording, words) => recording.addSymbols(words),
    export: (recording, words) => recording.exportAs(words),
};

/** What engines say if memory cannot be had. */
const NO_MEMORY = /allocation failed|array length|string length|out of memory/i;

function messageOf(error) {
    const message = error instanceof Error ? error.message : String(error);
    return NO_MEMORY.test(message) ? `out of memory: ${message}` : message;
}

/** Makes a function that takes the messages of a page. `library` is the library's module; `post` posts to the page. */
export function server(library, post) {
    let recording;
    const open = async ({ name, bytes, kind }) => {
        recording = undefined;
        const ped = await library.load();
        const note = (progress) => post({ progress }, []);
        recording = new Recording(library, ped, { name, bytes: new Uint8Array(bytes), kind }, note);
        return recording.overview;
    };
    const run = (call, words) => {
        if (call === "open") {
            return open(words);
        }
        if (!Object.hasOwn(CALLS, call)) {
            throw new RangeError(`there is no call ${call}`);
        }
        if (recording === undefined) {
            throw new RangeError("no recording is open");
        }
        return CALLS[call](recording, words);
    };
    return async ({ id, call, ...words }) => {
        try {
            const result = await run(call, words);
            post({ id, result }, buffersOf(result));
        } catch (error) {
            post({ id, error: messageOf(error) }, []);
        }
    };
}
