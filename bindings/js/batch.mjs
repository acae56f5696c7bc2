// Frames that were read at once.

import { BIG, LITTLE, viewOf } from "./config.mjs";
import { FLAGS, isPresent } from "./fields.mjs";
import { FRAME_BYTES } from "./machine.mjs";

// Where a frame has its own numbers: the width in bits, the place among numbers of that width, and the bits of
// `present` of which one is set if it is there; 0 if it always is.
const flagOf = (...names) => names.reduce((flags, name) => flags | Number(FLAGS[name]), 0);
export const OWN = {
    type: [32, 0, 0], misc: [16, 2, 0], size: [16, 3, 0], read: [32, 2, 0], refusal: [16, 6, 0], reason: [16, 7, 0],
    present: [64, 2, 0], pid: [32, 6, flagOf("TID")], tid: [32, 7, flagOf("TID")], time: [64, 4, flagOf("TIME")],
    id: [64, 5, flagOf("ID", "IDENTIFIER")], stream_id: [64, 6, flagOf("STREAM_ID")], cpu: [32, 14, flagOf("CPU")],
    read_format: [32, 15, 0],
};
// The places in a frame of the two halves of `present`, of the first number and of the first span.
const PRESENT = 4;
export const NUMBERS = 8;
const SPANS = 64;

/** Frames that were read at once, and the input that they are of. */
export class Batch {
    /** Takes the frames in a buffer from `at` on, where each begins in the input, and of a file their entries. */
    constructor(source, count, buffer, at, starts, entries) {
        this.source = source;
        this.count = count;
        this.starts = starts;
        this.entries = entries;
        this.halves = new Uint16Array(buffer, at, count * FRAME_BYTES / 2);
        this.words = new Uint32Array(buffer, at, count * FRAME_BYTES / 4);
        this.numbers = new BigUint64Array(buffer, at, count * FRAME_BYTES / 8);
    }

    /** The same frames, in memory of their own. */
    copy() {
        const { buffer, byteOffset, byteLength } = this.words;
        return new Batch(this.source, this.count, buffer.slice(byteOffset, byteOffset + byteLength), 0,
            this.starts.slice(0, this.count), this.entries?.slice());
    }

    /** A frame's own number, of that width at that place. */
    own(index, width, place) {
        if (width === 16) {
            return this.halves[index * (FRAME_BYTES / 2) + place];
        }
        return width === 32 ? this.words[index * (FRAME_BYTES / 4) + place]
            : this.numbers[index * (FRAME_BYTES / 8) + place];
    }

    /** Whether one of these bits is set in the lower half of a frame's `present`. */
    hasFlag(index, flags) {
        return (this.words[index * (FRAME_BYTES / 4) + PRESENT] & flags) !== 0;
    }

    /** How many bytes a frame takes, unless it is cut short. */
    size(index) {
        return Math.max(this.halves[index * (FRAME_BYTES / 2) + 3], 8);
    }

    /** Whether a frame has a field with this rule. */
    hasField(index, rule) {
        const at = index * (FRAME_BYTES / 4);
        const { words } = this;
        return isPresent(rule, words[at + PRESENT], words[at + PRESENT + 1], words[at + 15],
            this.halves[index * (FRAME_BYTES / 2) + 2]);
    }

    number(index, place) {
        return this.numbers[index * (FRAME_BYTES / 8) + NUMBERS + place];
    }

    /** A byte string of a frame, or the bytes of a list. */
    bytesOf(index, place) {
        const at = index * (FRAME_BYTES / 4) + SPANS + 2 * place;
        const from = this.starts[index] + this.words[at];
        return this.source.bytes.subarray(from, from + this.words[at + 1]);
    }

    /** How many numbers a list has. */
    listLength(index, place) {
        return this.words[index * (FRAME_BYTES / 4) + SPANS + 2 * place + 1] >>> 3;
    }

    /** A byte string of a frame, or the numbers of a list. */
    span(index, field) {
        const bytes = this.bytesOf(index, field.place);
        return field.isList ? numbersOf(bytes, this.source.order) : bytes;
    }
}

/** Copies the numbers in bytes to `numbers`, from the place `to` on. */
export function putNumbers(numbers, to, bytes, order) {
    if (order === BIG) {
        const view = viewOf(bytes);
        for (let i = 0; i < bytes.length >> 3; i++) {
            numbers[to + i] = view.getBigUint64(8 * i);
        }
    } else {
        new Uint8Array(numbers.buffer).set(bytes, 8 * to);
    }
}

/** The numbers of eight bytes in whole bytes of a list. */
export function numbersOf(bytes, order = LITTLE) {
    const numbers = new BigUint64Array(bytes.length >> 3);
    putNumbers(numbers, 0, bytes.subarray(0, 8 * numbers.length), order);
    return numbers;
}
