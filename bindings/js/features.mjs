// What is given to the library so that it finds the features of a file of `perf record`, which is what perf states beside
// the frames: their table follows the frames; in what perf writes to a pipe they are frames themselves, as are the
// attributes of events and their names.

import { isFile, isLittleFile, viewOf } from "./config.mjs";

// The bytes of the head of a file, where it has the place of the frames, and how many features there may be.
const [HEAD_BYTES, FRAMES, MOST] = [104, 40, 256];
const PLACE_BYTES = 16;
// The types of frames by which perf states something in a pipe, an attribute, a build id, what is new of an event, a
// feature, and of those that are compressed.
const HEADER_ATTR = 64;
const NOTES = new Set([HEADER_ATTR, 67, 78, 80, 81, 83]);
// The bytes of a pipe's head, whose second number is their count, and of a frame's header.
const [PIPE_HEAD, HEADER] = [16, 8];
// Where an attribute has its period.
const ATTRIBUTE_PERIOD = 16;
// The types whose frames announce bytes after them that are no frames, and the width of that number.
const ANNOUNCING = { 66: 4, 71: 8 };

/** How many bytes the frame at an offset takes with those that it announces: of TRACING_DATA in whole words of eight. */
export function lengthOf(view, at, isLittle) {
    const size = Math.max(view.getUint16(at + 6, isLittle), HEADER);
    const width = ANNOUNCING[view.getUint32(at, isLittle)];
    const body = at + HEADER;
    if (width === undefined || Math.min(at + size, view.byteLength) - body < width) {
        return size;
    }
    return size + (width === 8 ? Number(view.getBigUint64(body, isLittle))
        : Math.ceil(view.getUint32(body, isLittle) / 8) * 8);
}

/** Whether bytes are what perf writes to a pipe, by the size of their head. */
export function isPipe(bytes) {
    return bytes.length >= PIPE_HEAD && isFile(bytes)
        && viewOf(bytes).getBigUint64(8, isLittleFile(bytes)) === BigInt(PIPE_HEAD);
}

/** Where the frames of a pipe are by which perf states something: of each its type, its start and its end. */
function* notesIn(bytes) {
    const [view, isLittle] = [viewOf(bytes), isLittleFile(bytes)];
    for (let at = PIPE_HEAD; at + HEADER <= bytes.length; at += lengthOf(view, at, isLittle)) {
        const [type, size] = [view.getUint32(at, isLittle), view.getUint16(at + 6, isLittle)];
        if (NOTES.has(type)) {
            yield { type, start: at, end: Math.min(at + Math.max(size, HEADER), bytes.length) };
        }
    }
}

/** A pipe of nothing but the frames by which perf states something, and of each where it is there and in the pipe. */
export function notesOf(bytes) {
    const notes = Array.from(notesIn(bytes));
    const front = new Uint8Array(notes.reduce((sum, { start, end }) => sum + end - start, PIPE_HEAD));
    front.set(bytes.subarray(0, PIPE_HEAD));
    const places = [[0, 0]];
    notes.reduce((at, { start, end }) => {
        front.set(bytes.subarray(start, end), at);
        places.push([at, start]);
        return at + end - start;
    }, PIPE_HEAD);
    return { front, notes: places };
}

/** The period of each event of a pipe whose samples have none, by the attribute's own; `front` has all its notes. */
export function periodsOfPipe(front, isLittle) {
    const found = Array.from(notesIn(front)).filter(({ type }) => type === HEADER_ATTR);
    return found.map(({ start }) => viewOf(front).getBigUint64(start + HEADER + ATTRIBUTE_PERIOD, isLittle));
}

/** A file with the head of another one and its table of features, but frames of eight bytes, so that the library finds
 * the places of the features by it. What the other one lacks of the table has no place in any file. */
export function tableOf(bytes, isLittle) {
    const view = viewOf(bytes);
    const number = (at) => Number(view.getBigUint64(at, isLittle));
    const end = number(FRAMES) + number(FRAMES + 8);
    const start = HEAD_BYTES + HEADER;
    const made = new Uint8Array(start + PLACE_BYTES * MOST).fill(255);
    const table = bytes.subarray(end, end + PLACE_BYTES * MOST);
    made.set(bytes.subarray(0, HEAD_BYTES));
    made.set(table.subarray(0, table.length - table.length % PLACE_BYTES), start);
    viewOf(made).setBigUint64(FRAMES, BigInt(HEAD_BYTES), isLittle);
    viewOf(made).setBigUint64(FRAMES + 8, number(FRAMES + 8) === 0 ? 0n : BigInt(HEADER), isLittle);
    return made;
}

/** The texts at the front of bytes, so many, each after its length and before a zero; null if they are cut. */
export function textsIn(bytes, isLittle, count) {
    const view = viewOf(bytes);
    const texts = [];
    for (let at = 0; texts.length < count;) {
        const start = at + 4;
        at = start + (start <= bytes.length ? view.getUint32(start - 4, isLittle) : Infinity);
        if (at > bytes.length) {
            return null;
        }
        const text = bytes.subarray(start, at);
        const end = text.indexOf(0);
        texts.push(new TextDecoder().decode(end < 0 ? text : text.subarray(0, end)));
    }
    return texts;
}
