// The WebAssembly module: what is in its memory, and its calls.

import { Config, CONFIG_FIELDS } from "./config.mjs";

/** How many frames are read at once, at most, and the bytes of one. */
export const BATCH = 1024;
export const FRAME_BYTES = 320;
/** How a call ends, enum ped_end: at the end of the room, of the bytes, or before a header that is cut. */
export const [LIMIT, DONE, CUT_HEADER] = [0, 1, 2];
export const ENDS = ["limit", "done", "cut header"];

// The memory above the module's own: a configuration, what calls return, a file, a batch of frames and their entries, a
// piece of the input, and the events and ids of a file.
const CONFIG_BYTES = 64;
const RESULT_BYTES = 64;
const FILE_BYTES = 40;
const ENTRY_BYTES = 32;
const EVENT_BYTES = 104;
// Where an event has its type, what of that it counts, and the size of its name; and what a name takes beside that.
const [TYPE, EVENT, NAME_SIZE] = [56, 64, 96];
const NAME_BYTES = 32;
const NAME_ROOM = 64;
const PART_BYTES = 16;
const ID_BYTES = 16;
// More than the 65,535 bytes of the longest frame.
const PIECE_BYTES = 1 << 18;
const PAGE = 65536;
// How many parts a file has besides the ids of each event: its head, attributes and frames.
const OTHER_PARTS = 3;

const aligned = (at) => Math.ceil(at / 64) * 64;

/** The module: its memory, and where the places for its arguments begin. */
export class Machine {
    #tables;
    #isWide;

    /** `isWide` is whether the memory of the module has 64 bits, as its pages are counted by another type then. */
    constructor(instance, isWide) {
        this.#isWide = isWide;
        const { memory, __heap_base: base, ...calls } = instance.exports;
        this.calls = calls;
        this.memory = memory;
        this.config = aligned(Number(base.value));
        this.result = this.config + CONFIG_BYTES;
        this.file = this.result + RESULT_BYTES;
        this.frames = aligned(this.file + FILE_BYTES);
        this.entries = this.frames + BATCH * FRAME_BYTES;
        this.piece = this.entries + BATCH * ENTRY_BYTES;
        this.tables = this.piece + PIECE_BYTES;
        this.entryPlaces = Array.from({ length: BATCH }, (_, i) => BigInt(this.entries + ENTRY_BYTES * i));
        this.#needs(this.tables);
    }

    /** How many bytes of the input are read at once. */
    get pieceBytes() { return PIECE_BYTES; }

    #needs(bytes) {
        const more = bytes - this.memory.buffer.byteLength;
        if (more > 0) {
            const pages = Math.ceil(more / PAGE);
            this.memory.grow(this.#isWide ? BigInt(pages) : pages);
        }
    }

    /** A copy of a part of the memory. */
    #copy(at, length) {
        return new Uint8Array(this.memory.buffer.slice(at, at + length));
    }

    /** Copies the configuration to its place. */
    putConfig(config) {
        const view = new DataView(this.memory.buffer, this.config, CONFIG_BYTES);
        view.setUint32(0, config.version, true);
        view.setUint32(4, config.order, true);
        CONFIG_FIELDS.forEach((name, i) => view.setBigUint64(8 + 8 * i, config[name], true));
    }

    /** The configuration in bytes of the memory. */
    configIn(buffer, at) {
        const view = new DataView(buffer, at);
        const fields = { version: view.getUint32(0, true), order: view.getUint32(4, true) };
        CONFIG_FIELDS.forEach((name, i) => { fields[name] = view.getBigUint64(8 + 8 * i, true); });
        return new Config(fields);
    }

    /** The configuration at its place. */
    takeConfig() {
        return this.configIn(this.memory.buffer, this.config);
    }

    /** The number of eight bytes at the place for what a call returns. */
    takeResult() {
        return new DataView(this.memory.buffer).getBigUint64(this.result, true);
    }

    /** Makes room for a piece, which grows over the place of the tables if it is longer. */
    #needsPiece(length) {
        this.#needs(this.piece + length);
        if (length > PIECE_BYTES) {
            this.#tables = undefined;
        }
    }

    /** Copies bytes to the place of a piece. */
    putPiece(bytes) {
        this.#needsPiece(bytes.length);
        new Uint8Array(this.memory.buffer, this.piece, bytes.length).set(bytes);
    }

    /** The place of a piece. */
    pieceView() {
        return new Uint8Array(this.memory.buffer, this.piece, PIECE_BYTES);
    }

    /** Reads at most `room` frames of a piece of that many bytes: how many were read, the bytes that they take, and
     * how that ended. */
    readMany(length, room) {
        this.calls.ped_read_many(BigInt(this.result), BigInt(this.config), BigInt(this.piece), BigInt(length),
            BigInt(this.frames), BigInt(room));
        const view = new DataView(this.memory.buffer, this.result, RESULT_BYTES);
        return {
            count: Number(view.getBigUint64(0, true)), taken: Number(view.getBigUint64(8, true)),
            how: view.getUint32(16, true),
        };
    }

    // ---- files

    /** What is known of a file of that many bytes, and its events and ids, or why it is refused. `front` has its bytes
     * as far as they are read for this. */
    openFile(front, length) {
        this.putPiece(front);
        this.#tables = undefined;
        const bytes = [this.piece, length].map(BigInt);
        const refusal = this.calls.ped_file_open(...bytes, BigInt(this.file));
        if (refusal !== 0) {
            return { refusal };
        }
        const view = new DataView(this.memory.buffer.slice(this.file, this.file + FILE_BYTES));
        const [at, size, events, ids] = [8, 16, 24, 32].map((place) => Number(view.getBigUint64(place, true)));
        const file = { order: view.getUint32(0, true), isClosed: view.getUint32(4, true) !== 0, at, end: at + size };
        return { ...file, ...this.#readEvents(bytes, aligned(this.piece + front.length), events, ids) };
    }

    /** The events and ids of a file, which the module writes from `events` on, or why it is refused. */
    #readEvents(bytes, events, eventCount, idCount) {
        const parts = events + EVENT_BYTES * eventCount;
        const ids = parts + PART_BYTES * (eventCount + OTHER_PARTS);
        this.#needs(ids + ID_BYTES * idCount);
        const arrays = [events, eventCount, parts, eventCount + OTHER_PARTS, ids, idCount];
        const refusal = this.calls.ped_file_events(...bytes, ...arrays.map(BigInt));
        const tables = {
            events: this.#copy(events, EVENT_BYTES * eventCount), eventCount,
            ids: this.#copy(ids, ID_BYTES * idCount), idCount,
        };
        return { refusal, tables };
    }

    /** The numbers of each event: its configuration, its type, what of that it counts, and where its ids are. */
    eventsIn({ events, eventCount }) {
        const view = new DataView(events.buffer);
        return Array.from({ length: eventCount }, (_, number) => {
            const at = EVENT_BYTES * number;
            const [event, idsAt, ids] = [EVENT, 72, 80].map((place) => view.getBigUint64(at + place, true));
            const [config, type] = [this.configIn(events.buffer, at), view.getUint32(at + TYPE, true)];
            return { config, type, event, idsAt: Number(idsAt), ids: Number(ids) };
        });
    }

    /** The names of events, which are in the file of these bytes; without bytes, those by their numbers. */
    namesIn(bytes, { events, eventCount, ids, idCount }) {
        this.putPiece(bytes);
        this.#tables = undefined;
        const place = aligned(this.piece + bytes.length);
        const idPlace = place + events.length;
        const names = idPlace + ids.length;
        const text = names + NAME_BYTES * eventCount;
        this.#needs(text);
        new Uint8Array(this.memory.buffer, place, events.length).set(events);
        new Uint8Array(this.memory.buffer, idPlace, ids.length).set(ids);
        const file = [this.piece, bytes.length].map(BigInt);
        if (bytes.length > 0) {
            this.calls.ped_file_names(...file, ...[place, eventCount, idPlace, idCount, names, eventCount].map(BigInt));
        }
        return Array.from({ length: eventCount }, (_, number) => this.#nameOf(place + EVENT_BYTES * number, file, text));
    }

    /** The name of the event at a place. */
    #nameOf(place, file, text) {
        const room = 4 * Number(new DataView(this.memory.buffer).getBigUint64(place + NAME_SIZE, true)) + NAME_ROOM;
        this.#needs(text + room);
        const count = Number(this.calls.ped_event_name(BigInt(place), ...file, BigInt(text), BigInt(room)));
        return new TextDecoder().decode(this.#copy(text, count));
    }

    /** Where a feature is in a file of so many bytes, of which `front` has what is read for this; or the number of why it
     * is nowhere. */
    featurePlace(front, length, number) {
        this.putPiece(front);
        const refusal = this.calls.ped_file_feature(...[this.piece, length].map(BigInt), number, BigInt(this.result));
        const view = new DataView(this.memory.buffer, this.result, PART_BYTES);
        const [at, size] = refusal === 0 ? [0, 8].map((place) => Number(view.getBigUint64(place, true))) : [0, 0];
        return { refusal, at, size };
    }

    /** What perf calls an event of the kernel's own, by its numbers. */
    nameBy(type, event) {
        const events = new Uint8Array(EVENT_BYTES);
        const view = new DataView(events.buffer);
        view.setUint32(TYPE, type, true);
        view.setBigUint64(EVENT, event, true);
        return this.namesIn(new Uint8Array(), { events, eventCount: 1, ids: new Uint8Array(), idCount: 0 })[0];
    }

    /** Puts what is known of a file to its places, with a piece of that many bytes as its frames. Returns these as
     * arguments: the file, its bytes and its events, and the ids. */
    #fileWords({ order, tables }, length) {
        const { events, eventCount, ids, idCount } = tables;
        const idPlace = this.tables + aligned(events.length);
        this.#needs(idPlace + ids.length);
        if (this.#tables !== tables) {
            const memory = new Uint8Array(this.memory.buffer);
            memory.set(events, this.tables);
            memory.set(ids, idPlace);
            this.#tables = tables;
        }
        const view = new DataView(this.memory.buffer, this.file, FILE_BYTES);
        view.setUint32(0, order, true);
        [0, length, eventCount, idCount].forEach((it, i) => view.setBigUint64(8 + 8 * i, BigInt(it), true));
        return [[this.file, this.piece, length, this.tables, eventCount].map(BigInt), [idPlace, idCount].map(BigInt)];
    }

    /** Writes the entries of the first frames of a piece of that many bytes, at most a batch: how many there are, the
     * bytes that they take with those that they announce, and how that ended. Their offsets count from the piece. */
    readEntries(file, length) {
        const [words, ids] = this.#fileWords(file, length);
        const all = [...words, ...ids, BigInt(this.result)];
        new DataView(this.memory.buffer).setBigUint64(this.result, 0n, true);
        let [count, how] = [0, LIMIT];
        for (; count < BATCH; count++) {
            how = this.calls.ped_file_next(...all, this.entryPlaces[count]);
            if (how !== LIMIT) {
                break;
            }
        }
        return { count, taken: Number(this.takeResult()), how };
    }

    /** Reads the frames of the first entries, which are in a piece of that many bytes, each under its own event. */
    readFrames(file, length, count) {
        const [words] = this.#fileWords(file, length);
        this.calls.ped_file_read(...words, BigInt(this.entries), BigInt(count), BigInt(this.frames), BigInt(count));
    }

    /** Sorts entries, which are words of 32 bits in several parts, by time, in memory that grows to theirs. */
    sortEntries(parts) {
        const length = parts.reduce((sum, part) => sum + part.length, 0);
        this.#needsPiece(4 * length);
        const words = new Uint32Array(this.memory.buffer, this.piece, length);
        parts.reduce((at, part) => {
            words.set(part, at);
            return at + part.length;
        }, 0);
        this.calls.ped_file_sort(BigInt(this.piece), BigInt(4 * length / ENTRY_BYTES));
        return words.slice();
    }
}
