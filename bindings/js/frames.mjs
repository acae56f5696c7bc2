// A frame, and frames that are read a batch at a time.

import { OWN } from "./batch.mjs";
import { emptyColumn, PresenceColumn } from "./columns.mjs";
import { FIELDS, KIND_TEXTS, REASONS, TYPES } from "./fields.mjs";

/** A frame: its numbers, and the record in it or why there is none. What it does not have is undefined. */
export class Frame {
    #batch;
    #index;

    constructor(batch, index) {
        this.#batch = batch;
        this.#index = index;
    }

    #own(name) {
        const [width, place, flags] = OWN[name];
        return flags === 0 || this.#batch.hasFlag(this.#index, flags)
            ? this.#batch.own(this.#index, width, place) : undefined;
    }

    get type() { return this.#own("type"); }
    get misc() { return this.#own("misc"); }
    get size() { return this.#own("size"); }
    get read() { return this.#own("read"); }
    get refusal() { return this.#own("refusal"); }
    get reason() { return this.#own("reason"); }
    get present() { return this.#own("present"); }
    get read_format() { return this.#own("read_format"); }
    get pid() { return this.#own("pid"); }
    get tid() { return this.#own("tid"); }
    get time() { return this.#own("time"); }
    get id() { return this.#own("id"); }
    get stream_id() { return this.#own("stream_id"); }
    get cpu() { return this.#own("cpu"); }

    /** Where it begins in the input. */
    get at() { return this.#batch.starts[this.#index]; }

    /** The same. */
    get start() { return this.at; }

    /** Its bytes in the input, with the header; as many as are left if it is cut short. */
    get bytes() {
        return this.#batch.source.bytes.subarray(this.at, this.at + this.#batch.size(this.#index));
    }

    /** The name of the record's type, as "comm"; "refused" if there is no record. */
    get name() { return this.refusal ? "refused" : TYPES[this.read]; }

    /** Why there is no record; "" if there is one. */
    get message() { return REASONS[this.reason] ?? KIND_TEXTS[this.refusal] ?? ""; }

    /** The record's fields that are present, by the names of the C header: numbers, views of the input, and lists. */
    get fields() {
        const found = {};
        if (this.refusal) {
            return found;
        }
        const { numbers, spans } = FIELDS[this.read];
        for (const { name, place, rule } of numbers) {
            if (this.#batch.hasField(this.#index, rule)) {
                found[name] = this.#batch.number(this.#index, place);
            }
        }
        for (const field of spans) {
            if (this.#batch.hasField(this.#index, field.rule)) {
                found[field.name] = this.#batch.span(this.#index, field);
            }
        }
        return found;
    }

    /** How many numbers an item of a list has; undefined if that is no list of this record. */
    itemLength(name) {
        const list = this.refusal ? undefined : FIELDS[this.read].spans.find((it) => it.name === name && it.isList);
        const entry = 1 + (this.read_format >> 2 & 1) + (this.read_format >> 4 & 1);
        return list === undefined ? undefined : list.each || entry;
    }
}

/** What a class of frames has: how its batches are read, how a frame of one is made, columns of its own, and what is done
 * after the last batch. */
export const READER = Symbol("reader");
export const FRAME = Symbol("frame");
export const COLUMNS = Symbol("columns");
export const ENDED = Symbol("ended");

/** Frames, which each loop and column reads anew, a batch at a time. */
export class Frames {
    [FRAME](batch, index) { return new Frame(batch, index); }

    get [COLUMNS]() { return {}; }

    [ENDED]() {}

    *[Symbol.iterator]() {
        const reader = this[READER]();
        while (reader.next() > 0) {
            const batch = reader.batch().copy();
            for (let index = 0; index < batch.count; index++) {
                yield this[FRAME](batch, index);
            }
        }
        this[ENDED](reader);
    }

    #fill(columns) {
        const reader = this[READER]();
        while (reader.next() > 0) {
            const batch = reader.batch();
            columns.forEach((column) => column.add(batch));
        }
        this[ENDED](reader);
        return columns.map((column) => column.done());
    }

    /** One field of all frames: a typed array of numbers, 0 where one is absent, or an array of byte strings or
     * lists, undefined where one is absent. */
    column(name) { return this.columns([name])[0]; }

    /** Several columns, for which the frames are read once. */
    columns(names) { return this.#fill(names.map((name) => emptyColumn(name, this[COLUMNS]))); }

    /** Of each frame 1 if it has the field of that column, else 0. */
    present(name) { return this.#fill([new PresenceColumn(name, this[COLUMNS])])[0]; }
}
