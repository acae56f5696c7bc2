// Frames of a file, each read under its own event.

import { ENTRY_WORDS, EVENT, NUMBER, OWNER, SHORT, UNKNOWN } from "./entries.mjs";
import { EntryReader, PieceReader } from "./file_readers.mjs";
import { COLUMNS, Frame, FRAME, Frames, READER } from "./frames.mjs";
import { ENDS } from "./machine.mjs";

// Why there is no record in a frame without an event, by its owner: this kind, and this text.
const UNSUPPORTED_CONFIG = 3;
const NO_EVENT = { [UNKNOWN]: "its id is that of no event of the file", [SHORT]: "it is too short for an id" };

/** A frame of a file. */
export class FileFrame extends Frame {
    #batch;
    #index;

    constructor(batch, index) {
        super(batch, index);
        this.#batch = batch;
        this.#index = index;
    }

    #word(place) { return this.#batch.entries[ENTRY_WORDS * this.#index + place]; }

    /** Whose it is: the number of one of OWNERS. */
    get owner() { return this.#word(OWNER); }

    /** The event that wrote it; undefined if perf wrote it for itself, or the event is not known. */
    get event() { return this.owner === EVENT ? this.#batch.source.events[this.#word(NUMBER)] : undefined; }

    /** The id by which it names an event that the file does not have; undefined for other frames. */
    get unknownId() {
        return this.owner === UNKNOWN ? BigInt(this.#word(NUMBER + 1)) << 32n | BigInt(this.#word(NUMBER)) : undefined;
    }

    get message() { return this.refusal === UNSUPPORTED_CONFIG && NO_EVENT[this.owner] || super.message; }
}

/** A column of a word of each entry, 0 where it is absent. */
function columnOfEntries(place, has) {
    const put = (batch, array, to) => {
        for (let i = 0; i < batch.count; i++) {
            array[to + i] = has(batch, i) ? batch.entries[ENTRY_WORDS * i + place] : 0;
        }
    };
    return { type: Uint32Array, has, put };
}

const FILE_COLUMNS = {
    event: columnOfEntries(NUMBER, (batch, i) => batch.entries[ENTRY_WORDS * i + OWNER] === EVENT),
    owner: columnOfEntries(OWNER, () => true),
};

/** Frames of a file, each read under its own event: those of entries, or all in the order of the file. */
export class FileFrames extends Frames {
    #machine;
    #source;
    #entries;

    constructor(machine, source, entries) {
        super();
        this.#machine = machine;
        this.#source = source;
        this.#entries = entries;
        this.bytes = source.bytes;
        this.order = source.order;
    }

    [FRAME](batch, index) { return new FileFrame(batch, index); }

    get [COLUMNS]() { return FILE_COLUMNS; }

    [READER]() {
        return this.#entries === undefined ? new PieceReader(this.#machine, this.#source)
            : new EntryReader(this.#machine, this.#source, this.#entries);
    }

    get count() { return this.#entries === undefined ? this.#source.ended.count : this.#entries.length / ENTRY_WORDS; }
    get taken() { return this.#source.ended.taken; }
    get end() { return ENDS[this.#source.ended.how]; }
}
