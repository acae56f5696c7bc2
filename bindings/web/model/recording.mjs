// A recording: everything that the page shows of one, made of its bytes once.

import { exported } from "./exporting.mjs";
import { fieldsOf, hexBytes, summaryOf } from "./fields.mjs";
import { flame } from "./flame.mjs";
import { History, NO_NAME } from "./history.mjs";
import { openInput } from "./input.mjs";
import { lanes } from "./lanes.mjs";
import { orderOf } from "./order.mjs";
import { overviewOf } from "./overview.mjs";
import { Reading } from "./reading.mjs";
import { recordName } from "./record_names.mjs";
import { ShownPlaces, Symbols } from "./symbols.mjs";
import { records, tasks } from "./tables.mjs";
import { hexOf, nameOf } from "./text.mjs";
import { EVENT_DEPTH } from "./tree.mjs";

const MOST_BYTES = 65536;
const HEADER = 8;

export class Recording {
    #library;
    #ped;

    /** Opens the bytes of a recording. `library` is the library's module, `ped` what its `load` returned, and `note` is
     * called with how far that is. */
    constructor(library, ped, { name, bytes, kind }, note = () => {}) {
        [this.#library, this.#ped] = [library, ped];
        Object.assign(this, { name, bytes, input: openInput(library, ped, bytes, kind) });
        const of = bytes.length;
        const reading = new Reading(library, this.input);
        reading.read((done) => note({ done, of, what: "reading the records" }));
        this.#follow(reading, (share) => note({ done: Math.floor(of * share), of, what: "following the call chains" }));
        this.overview = overviewOf(this, reading);
    }

    /** Applies the records in order of time. */
    #follow(reading, note) {
        const { frames, texts, tasks: all, places, table, start, duration } = reading;
        const order = orderOf(frames.column("time"));
        const eventNames = this.input.events.map((event) => texts.numberOf(nameOf(event.name)));
        const history = new History(reading, eventNames);
        history.run(order, duration, (done) => note(done / Math.max(order.length, 1)));
        const { tree, samples, running, marks, names, placeOfSample } = history;
        Object.assign(this, {
            events: this.input.events, frames, texts, tasks: all, places, table, start, duration, order, tree,
            samples, running, marks, names, placeOfSample,
        });
        this.times = Float64Array.from(order, (index) => frames.time[index]);
        this.symbols = new Symbols();
        this.shown = new ShownPlaces(places, this.symbols);
    }

    isSample(index) { return this.frames.extra[index] >= 0 && this.kindOf(index) === "sample"; }

    /** The name of a frame's record type, or "refused". */
    kindOf(index) {
        const { isRefused, type } = this.frames;
        return isRefused[index] ? "refused" : recordName(type[index], this.#library.TYPES);
    }

    /** What the thread of a frame was called by then; "" without a thread. */
    nameAt(index) {
        const name = this.names[index];
        return name === NO_NAME ? "" : this.texts.list[name];
    }

    /** The text of the place of a sample, or "". */
    placeOf(index) {
        const node = this.samples.node[this.placeOfSample[this.frames.extra[index]]];
        return this.tree.depth(node) > EVENT_DEPTH ? this.shown.textOf(this.shown.of(this.tree.what(node))) : "";
    }

    /** A frame as the library reads it; undefined if no event has it. */
    frameAt(index) {
        const { at, size, event } = this.frames;
        const [start, number] = [at[index], event[index]];
        if (number < 0) {
            return undefined;
        }
        const bytes = this.bytes.subarray(0, start + Math.max(size[index], HEADER));
        const [frame] = this.#ped.stream(bytes, this.events[number].reading, { start, limit: 1 });
        return frame;
    }

    /** Why a frame is refused; "" if it is not. */
    messageAt(index) { return this.frames.isRefused[index] ? this.texts.list[this.frames.extra[index]] : ""; }

    /** What a frame's record says in a few words: of a sample its place, of a refused one the reason. */
    summaryAt(index) {
        if (this.isSample(index)) {
            return this.placeOf(index);
        }
        const message = this.messageAt(index);
        const frame = message === "" ? this.frameAt(index) : undefined;
        return frame === undefined ? message : summaryOf(frame);
    }

    /** A frame's fields in full. */
    frame({ index }) {
        const { at, size, event } = this.frames;
        if (!(Number.isInteger(index) && index >= 0 && index < this.frames.count)) {
            throw new RangeError("there is no such frame");
        }
        const frame = this.frameAt(index);
        return {
            index, at: at[index], size: size[index], name: this.kindOf(index),
            event: event[index] < 0 ? undefined : event[index], message: this.messageAt(index),
            fields: frame === undefined ? this.#headerFields(index) : fieldsOf(frame),
        };
    }

    /** What a frame without an event has: its header and its bytes. */
    #headerFields(index) {
        const { at, size, type, misc } = this.frames;
        const body = this.bytes.subarray(at[index] + HEADER, at[index] + size[index]);
        return [["type", String(type[index])], ["misc", hexOf(0, misc[index])], ["data", hexBytes(body)]];
    }

    /** A copy of bytes of the file. */
    bytesAt({ at, size }) {
        return this.bytes.slice(at, at + Math.min(size, MOST_BYTES));
    }

    /** Adds a text of symbols: how many it has, and whether the recording has the file that they are of. */
    addSymbols({ text, file }) {
        const { count, name } = this.symbols.add(text, file, (...words) => this.#biasOf(...words));
        this.shown = new ShownPlaces(this.places, this.symbols);
        return { count, isUsed: count > 0 && (name === undefined || this.places.files.numbers.has(name)) };
    }

    /** How far offsets in a file are below its addresses: in a program that is always at one place, by its mapping. */
    #biasOf(name, symbols) {
        const file = this.places.files.numbers.get(name);
        const { table } = this;
        const middle = symbols.addressOf(symbols.count >>> 1);
        for (let mapping = 0; mapping < table.count; mapping++) {
            const [first, last] = [table.number("first", mapping), table.number("last", mapping)];
            const isFile = table.file[mapping] === file && !table.keepsAddress[mapping];
            if (isFile && first <= middle && middle <= last) {
                return first - table.number("offset", mapping);
            }
        }
        return 0;
    }

    lanes(words) { return lanes(this, words); }

    flame(words) { return flame(this, words); }

    tasksOf(words) { return tasks(this, words); }

    records(words) { return records(this, words); }

    exportAs(words) { return exported(this, words); }
}
