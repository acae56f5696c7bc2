// Columns: one field of all frames.

import { NUMBERS, OWN, putNumbers } from "./batch.mjs";
import { FIELDS, TYPES } from "./fields.mjs";
import { Growing } from "./growing.mjs";
import { BATCH, FRAME_BYTES } from "./machine.mjs";

/** A column of numbers of a type, which are 0 until they are put. */
class Column extends Growing {
    constructor(Type) { super(Type, BATCH); }

    done() { return this.array.slice(0, this.length); }
}

/** A column of numbers of 16, 32 or 64 bits, 0 where one is absent. Those of 64 bits are put as two halves. */
class NumberColumn extends Column {
    constructor({ width, place, has }) {
        super(width === 16 ? Uint16Array : Uint32Array);
        this.width = width;
        this.each = width === 64 ? 2 : 1;
        this.place = place;
        this.has = has;
    }

    done() {
        const numbers = super.done();
        return this.width === 64 ? new BigUint64Array(numbers.buffer) : numbers;
    }

    add(batch) {
        const { each, has, place, width } = this;
        const to = this.extend(batch.count * each);
        const { array } = this;
        const [from, row] = [width === 16 ? batch.halves : batch.words, FRAME_BYTES / Math.min(width / 8, 4)];
        for (let i = 0; i < batch.count; i++) {
            if (has(batch, i)) {
                for (let half = 0; half < each; half++) {
                    array[to + each * i + half] = from[row * i + each * place + half];
                }
            }
        }
    }
}

/** A column of byte strings or lists, undefined where one is absent. The lists of a batch are parts of one array. */
class SpanColumn {
    constructor({ span, has }) {
        this.span = span;
        this.has = has;
        this.found = [];
    }

    add(batch) {
        const { has, span } = this;
        const put = span.isList ? this.#lists(batch) : (i) => batch.bytesOf(i, span.place);
        for (let i = 0; i < batch.count; i++) {
            this.found.push(has(batch, i) ? put(i) : undefined);
        }
    }

    /** Returns what copies a list of a batch to its part of one array. */
    #lists(batch) {
        const { has, span: { place } } = this;
        let [length, at] = [0, 0];
        for (let i = 0; i < batch.count; i++) {
            length += has(batch, i) ? batch.listLength(i, place) : 0;
        }
        const numbers = new BigUint64Array(length);
        return (i) => {
            putNumbers(numbers, at, batch.bytesOf(i, place), batch.source.order);
            at += batch.listLength(i, place);
            return numbers.subarray(at - batch.listLength(i, place), at);
        };
    }

    done() { return this.found; }
}

/** A column of 1 for each frame that has the field of a column, else 0. */
export class PresenceColumn extends Column {
    constructor(name, others) {
        super(Uint8Array);
        this.has = columnOf(name, others).has;
    }

    add(batch) {
        const to = this.extend(batch.count);
        for (let i = 0; i < batch.count; i++) {
            this.array[to + i] = this.has(batch, i) ? 1 : 0;
        }
    }
}

/** A column of what is no number of a frame: `put` writes those of a batch to an array from a place on. */
class OtherColumn extends Column {
    constructor({ put, type }) {
        super(type);
        this.put = put;
    }

    add(batch) {
        const to = this.extend(batch.count);
        this.put(batch, this.array, to);
    }
}

// A column of what is no number of a frame: where it begins.
const putStarts = ({ starts, count }, array, to) => array.set(starts.subarray(0, count), to);
const PLACES = { at: { type: Float64Array, has: () => true, put: putStarts } };

/** What a column is of: a number of each frame, or a field of the records of a type; `others` are further ones. */
function columnOf(name, others) {
    if (Object.hasOwn(OWN, name)) {
        const [width, place, flags] = OWN[name];
        return { width, place, has: flags === 0 ? () => true : (batch, index) => batch.hasFlag(index, flags) };
    }
    const other = Object.hasOwn(PLACES, name) ? PLACES[name] : Object.hasOwn(others, name) ? others[name] : undefined;
    if (other !== undefined) {
        return other;
    }
    const [record, field, ...rest] = String(name).split(".");
    const type = TYPES.indexOf(record);
    const number = FIELDS[type]?.numbers.find((it) => it.name === field);
    const span = FIELDS[type]?.spans.find((it) => it.name === field);
    if (rest.length > 0 || (number ?? span) === undefined) {
        throw new RangeError(`there is no column ${name}`);
    }
    const { rule } = number ?? span;
    const has = (batch, index) => batch.own(index, 16, 6) === 0 && batch.own(index, 32, 2) === type
        && batch.hasField(index, rule);
    return number ? { width: 64, place: NUMBERS + number.place, has } : { span, has };
}

/** A column of that name without frames; `others` are the columns of a class of frames. */
export function emptyColumn(name, others) {
    const it = columnOf(name, others);
    return it.span ? new SpanColumn(it) : it.put ? new OtherColumn(it) : new NumberColumn(it);
}
