// Files that `perf record` wrote. The bytes of a file are never all in the module's memory: only those that opening
// reads, and then a piece of its frames, since the entry and the numbers of a frame depend on its own bytes alone.

import { numbersOf } from "./batch.mjs";
import { BIG, bytesOf, viewOf } from "./config.mjs";
import { ENTRY_WORDS, EVENT, NUMBER, OWNER, putOffset } from "./entries.mjs";
import { isPipe, lengthOf, notesOf, tableOf, textsIn } from "./features.mjs";
import { FILE_REFUSALS } from "./fields.mjs";
import { FileFrames } from "./file_frames.mjs";
import { PieceReader } from "./file_readers.mjs";
import { ENDS } from "./machine.mjs";

// The bytes of a frame's header, and of the head of a file; where the head has the size of an entry of the attributes
// and the place of all, of two numbers; and the least size of an entry.
const HEADER_BYTES = 8;
const HEAD_BYTES = 104;
const [ENTRY_SIZE, ENTRIES] = [16, 24];
const LEAST_ENTRY = 80;
const PLACE_BYTES = 16;
// Where the head has the place of the frames, and the bits of the features; that of the descriptions of events.
const [FRAMES, FEATURES] = [40, 72];
const DESCRIPTIONS = 12;
// The numbers of features that are texts, and of the words of the command.
const [HOSTNAME, OSRELEASE, CMDLINE] = [3, 4, 11];

// The number that the library returns for a feature that the file does not have, and what is said of one that is damaged.
const NO_FEATURE = 20;
const SHORT_FEATURE = "the feature is damaged: copy the file again, or record again";

/** What the page reads of a recording besides: the name of a member. */
export const FRONT = Symbol.for("perf-event-data: front");

/** Why a file or a feature is refused, and what to do. */
export class RefusedFile extends RangeError {
    constructor(kind, message) {
        super(message);
        this.kind = kind;
    }

    get name() { return "RefusedFile"; }
}

/** The front of a file, up to the last byte that opening reads: of its head, its attributes, and the ids of each event,
 * whose place is at the end of its entry. A part that ends beyond the file is not read, as the library refuses it. */
function frontOf(bytes) {
    if (bytes.length < HEAD_BYTES) {
        return bytes;
    }
    const view = viewOf(bytes);
    const number = (at) => Number(view.getBigUint64(at, bytes[0] === "P".charCodeAt(0)));
    let end = HEAD_BYTES;
    const reach = (at) => {
        const there = number(at) + number(at + 8);
        end = there <= bytes.length ? Math.max(end, there) : end;
        return there;
    };
    const [size, last] = [number(ENTRY_SIZE), reach(ENTRIES)];
    if (size >= LEAST_ENTRY && last <= bytes.length) {
        for (let at = number(ENTRIES) + size; at <= last; at += size) {
            reach(at - PLACE_BYTES);
        }
    }
    return bytes.subarray(0, end);
}

/** A file with the front of another one, whose frames are eight bytes, and whose only feature is the descriptions of
 * events: all that the library reads to find their names. Without descriptions it has no bytes. */
function namedFront(front, described, isLittle) {
    if (described === undefined) {
        return new Uint8Array();
    }
    const table = front.length + 8;
    const made = new Uint8Array(table + PLACE_BYTES + described.length);
    made.set(front);
    made.fill(0, FEATURES, HEAD_BYTES);
    made.set(described, table + PLACE_BYTES);
    const numbers = [[FRAMES, front.length], [FRAMES + 8, 8], [FEATURES, 2 ** DESCRIPTIONS],
        [table, table + PLACE_BYTES], [table + 8, described.length]];
    numbers.forEach(([at, number]) => viewOf(made).setBigUint64(at, BigInt(number), isLittle));
    return made;
}

/** The bytes of a file, what the library states of it, and when they are needed its entries in order of time. */
class Source {
    #machine;
    #notes;
    #table;
    #ended;
    #byTime;
    #names;

    /** `notes` are where the notes of a pipe are, in its front and in its bytes. */
    constructor(machine, bytes, { front, notes }, file) {
        this.#machine = machine;
        this.#notes = notes;
        this.bytes = bytes;
        this.front = front;
        this.view = viewOf(bytes);
        this.file = file;
        this.order = file.order;
        this.isLittle = file.order !== BIG;
        this.events = machine.eventsIn(file.tables).map((event, number) => new FileEvent(this, number, event));
    }

    /** The names of its events. */
    get names() {
        this.#names ??= this.#machine.namesIn(this.#notes !== undefined ? this.front
            : namedFront(this.front, this.feature(DESCRIPTIONS).bytes, this.isLittle), this.file.tables);
        return this.#names;
    }

    /** The bytes of a feature, or the number of why there are none. */
    feature(number) {
        const { refusal, at, size } = this.#notes === undefined ? this.#placeInFile(number)
            : this.#placeInPipe(number);
        return refusal === 0 ? { refusal, bytes: this.bytes.subarray(at, at + size) } : { refusal };
    }

    #placeInFile(number) {
        this.#table ??= tableOf(this.bytes, this.isLittle);
        return this.#machine.featurePlace(this.#table, this.bytes.length, number);
    }

    #placeInPipe(number) {
        const { refusal, at, size } = this.#machine.featurePlace(this.front, this.front.length, number);
        const [to, from] = this.#notes.findLast(([place]) => place <= at);
        return { refusal, at: from + at - to, size };
    }

    typeAt(at) { return this.view.getUint32(at, this.isLittle); }
    miscAt(at) { return this.view.getUint16(at + 4, this.isLittle); }
    sizeAt(at) { return this.view.getUint16(at + 6, this.isLittle); }

    /** How many bytes a frame takes with those that it announces. */
    lengthAt(at) { return lengthOf(this.view, at, this.isLittle); }

    frames(entries) { return new FileFrames(this.#machine, this, entries); }

    /** Reads the entries of all frames, and calls `each` with those of a batch, where they begin, and how many. */
    #readEntries(each) {
        const reader = new PieceReader(this.#machine, this);
        while (reader.next() > 0) {
            each(reader.entries, reader.starts, reader.last);
        }
        this.#ended = { count: reader.count, taken: reader.taken, how: reader.how };
    }

    /** How many frames there are, where they end, and how. */
    get ended() {
        if (this.#ended === undefined) {
            this.#readEntries(() => {});
        }
        return this.#ended;
    }

    get byTime() {
        if (this.#byTime === undefined) {
            const parts = [];
            this.#readEntries((entries, starts, count) => {
                const part = entries.slice(0, ENTRY_WORDS * count);
                for (let i = 0; i < count; i++) {
                    putOffset(part, i, starts[i]);
                }
                parts.push(part);
            });
            this.#byTime = this.#machine.sortEntries(parts);
        }
        return this.#byTime;
    }

    /** The entries of an event's frames, in order of time. */
    entriesOf(event) {
        const all = this.byTime;
        const places = [];
        for (let at = 0; at < all.length; at += ENTRY_WORDS) {
            if (all[at + OWNER] === EVENT && all[at + NUMBER] === event) {
                places.push(at);
            }
        }
        const found = new Uint32Array(ENTRY_WORDS * places.length);
        places.forEach((at, i) => found.set(all.subarray(at, at + ENTRY_WORDS), ENTRY_WORDS * i));
        return found;
    }
}

/** An event of a file. */
export class FileEvent {
    #source;

    constructor(source, number, { config, type, event, idsAt, ids }) {
        this.#source = source;
        this.number = number;
        this.config = config;
        this.type = type;
        this.event = event;
        this.ids = numbersOf(source.front.subarray(idsAt, idsAt + 8 * ids), source.order);
    }

    /** Its name, as `perf_data events` prints it. */
    get name() { return this.#source.names[this.number]; }

    /** Its frames, in order of time. Those of tasks and mappings are of the first event of the file. */
    get frames() { return this.#source.frames(this.#source.entriesOf(this.number)); }
}

/** A file of `perf record`, all of whose bytes are in memory. */
export class Recording {
    #source;

    constructor(machine, data) {
        const bytes = bytesOf(data);
        const isPiped = isPipe(bytes);
        const parts = isPiped ? notesOf(bytes) : { front: frontOf(bytes) };
        const file = machine.openFile(parts.front, isPiped ? parts.front.length : bytes.length);
        if (file.refusal !== 0) {
            throw new RefusedFile(...FILE_REFUSALS[file.refusal]);
        }
        file.end = isPiped ? bytes.length : file.end;
        this.#source = new Source(machine, bytes, parts, file);
        this.bytes = bytes;
        this.order = file.order;
        this.isClosed = file.isClosed;
        this.events = this.#source.events;
    }

    /** How reading the frames ended. */
    get end() { return ENDS[this.#source.ended.how]; }

    /** What opening read of the bytes: of a pipe, all that perf states. */
    get [FRONT]() { return this.#source.front; }

    /** The bytes of a feature, by the number that perf gives it, or undefined. */
    feature(number) {
        if (!(Number.isInteger(number) && number >= 0 && number < 256)) {
            throw new RangeError("the number of a feature is below 256");
        }
        const { refusal, bytes } = this.#source.feature(number);
        if (refusal !== 0 && refusal !== NO_FEATURE) {
            throw new RefusedFile(...FILE_REFUSALS[refusal]);
        }
        return bytes;
    }

    /** The machine on which was recorded, the release of its kernel, and the words of the command. */
    get hostname() { return this.#textsOf(HOSTNAME)?.[0]; }
    get osRelease() { return this.#textsOf(OSRELEASE)?.[0]; }
    get commandLine() { return this.#textsOf(CMDLINE); }

    #textsOf(number) {
        const found = this.feature(number);
        if (found === undefined) {
            return undefined;
        }
        const { isLittle } = this.#source;
        const isCounted = number === CMDLINE;
        const count = !isCounted ? 1 : found.length < 4 ? 0 : viewOf(found).getUint32(0, isLittle);
        const texts = isCounted && found.length < 4 ? null : textsIn(found.subarray(isCounted ? 4 : 0), isLittle, count);
        if (texts === null) {
            throw new RefusedFile("Short", SHORT_FEATURE);
        }
        return texts;
    }

    /** All frames, in order of "time" or in that of the "file". */
    frames(order = "time") {
        if (order !== "time" && order !== "file") {
            throw new RangeError('the order is "time" or "file"');
        }
        return this.#source.frames(order === "time" ? this.#source.byTime : undefined);
    }
}
