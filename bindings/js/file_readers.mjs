// Reading the frames of a file, a batch at a time, in its order or in that of entries.

import { Batch } from "./batch.mjs";
import { ENTRY_WORDS, EVENT, offsetAt, OWNER, PERF, putOffset } from "./entries.mjs";
import { BATCH, CUT_HEADER, FRAME_BYTES, LIMIT } from "./machine.mjs";
import { Reader } from "./readers.mjs";

const HEADER_BYTES = 8;
// The kinds of a frame's refusal, and the reason of one that is smaller than a header.
const [EOF, INVALID_RECORD, UNSUPPORTED_CONFIG] = [1, 2, 3];
const SMALL_HEADER = 1;

/** Reads the frames of a file in its order, a batch at a time. */
export class PieceReader extends Reader {
    constructor(machine, source) { super(machine, source, source.file.at); }

    /** Reads the entries of the next batch, and returns how many there are; 0 after the last. */
    next() {
        const { bytes, file } = this.source;
        if (this.how !== LIMIT) {
            return 0;
        }
        const piece = bytes.subarray(this.taken, Math.min(this.taken + this.machine.pieceBytes, file.end));
        this.machine.putPiece(piece);
        const read = this.machine.readEntries(file, piece.length);
        if (read.how > CUT_HEADER) {
            throw new Error("the bytes of the file have changed");
        }
        this.entries = this.#entriesOf(read.count);
        for (let i = 0; i < read.count; i++) {
            this.starts[i] = this.taken + offsetAt(this.entries, i);
        }
        if (this.taken + piece.length < file.end) {
            this.leaveLast(read, piece.length);
        }
        this.length = piece.length;
        return this.take(read);
    }

    /** Of a frame that is the only one, takes also what it announces after the piece. */
    leaveLast(read, length) {
        super.leaveLast(read, length);
        if (read.taken >= length) {
            read.taken = Math.min(this.source.lengthAt(this.taken), this.source.file.end - this.taken);
        }
    }

    #entriesOf(count) {
        return new Uint32Array(this.machine.memory.buffer, this.machine.entries, ENTRY_WORDS * count);
    }

    /** The frames whose entries were read last, in the module's memory. */
    batch() {
        const { machine, source, starts, last } = this;
        machine.readFrames(source.file, this.length, last);
        const batch = new Batch(source, last, machine.memory.buffer, machine.frames, starts, this.#entriesOf(last));
        putFramesOfNoEvent(batch);
        return batch;
    }
}

/** Reads the frames of entries, which are words of 32 bits, a batch at a time. Their bytes are gathered in a piece. */
export class EntryReader extends PieceReader {
    constructor(machine, source, all) {
        super(machine, source);
        this.all = all;
    }

    next() {
        const { all, count: before, source: { file } } = this;
        const left = Math.min(BATCH, all.length / ENTRY_WORDS - before);
        const piece = this.machine.pieceView();
        this.entries = new Uint32Array(piece.buffer, this.machine.entries, ENTRY_WORDS * left);
        this.entries.set(all.subarray(ENTRY_WORDS * before, ENTRY_WORDS * (before + left)));
        [this.last, this.length] = [0, 0];
        for (let end = 0; this.last < left && end <= file.end;) { // nothing may follow a frame that is cut short
            const at = offsetAt(this.entries, this.last);
            end = at + Math.max(this.source.sizeAt(at), HEADER_BYTES);
            if (!this.#gather(piece, at, Math.min(end, file.end))) {
                break;
            }
        }
        this.count += this.last;
        return this.last;
    }

    /** Copies the bytes of the next frame to a piece; returns whether there is room for them. */
    #gather(piece, at, end) {
        if (this.length + end - at > piece.length) {
            return false;
        }
        piece.set(this.source.bytes.subarray(at, end), this.length);
        putOffset(this.entries, this.last, this.length);
        this.starts[this.last] = at;
        this.length += end - at;
        this.last += 1;
        return true;
    }
}

/** Writes the numbers of frames without an event, which the library leaves out. One of perf itself has its body as a
 * byte string. */
function putFramesOfNoEvent({ source, count, words, halves, starts, entries }) {
    for (let i = 0; i < count; i++) {
        const owner = entries[ENTRY_WORDS * i + OWNER];
        if (owner !== EVENT) {
            const at = FRAME_BYTES / 4 * i;
            words.fill(0, at, at + FRAME_BYTES / 4);
            putHeader(source, starts[i], owner, halves.subarray(2 * at), words.subarray(at));
        }
    }
}

function putHeader(source, at, owner, halves, words) {
    const size = source.sizeAt(at);
    const refusal = size < HEADER_BYTES ? INVALID_RECORD : at + source.lengthAt(at) > source.file.end ? EOF
        : owner !== PERF ? UNSUPPORTED_CONFIG : 0;
    words[0] = source.typeAt(at);
    halves.set([source.miscAt(at), size], 2);
    halves.set([refusal, refusal === INVALID_RECORD ? SMALL_HEADER : 0], 6);
    if (refusal === 0) {
        words.set([HEADER_BYTES, size - HEADER_BYTES], 64);
    }
}
