// The frames of a stream, all under one configuration.

import { Batch } from "./batch.mjs";
import { bytesOf, Config, isFile } from "./config.mjs";
import { ENDED, Frames, READER } from "./frames.mjs";
import { BATCH, ENDS, LIMIT } from "./machine.mjs";
import { Reader } from "./readers.mjs";

export const NO_STREAM = "this is a file of `perf record`, not a stream: open it by `open`, or print it by the program"
    + " perf_data";

/** Reads the frames of a stream, a batch at a time. */
class StreamReader extends Reader {
    constructor(machine, source) { super(machine, source, source.start); }

    /** Reads the next batch, and returns how many frames are in it; 0 after the last. They are in the module's
     * memory until anything else is read. */
    next() {
        const { bytes, limit, config } = this.source;
        if (this.how !== LIMIT || !(this.count < limit)) {
            return 0;
        }
        const piece = bytes.subarray(this.taken, this.taken + this.machine.pieceBytes);
        this.machine.putConfig(config);
        this.machine.putPiece(piece);
        const ended = this.machine.readMany(piece.length, Math.min(BATCH, limit - this.count));
        this.#placeFrames(ended.count);
        if (this.taken + piece.length < bytes.length) {
            this.leaveLast(ended, piece.length);
        }
        return this.take(ended);
    }

    /** Computes where each frame begins. */
    #placeFrames(count) {
        const batch = this.#batchOf(count);
        for (let [i, at] = [0, this.taken]; i < count; i++) {
            this.starts[i] = at;
            at += batch.size(i);
        }
    }

    #batchOf(count) {
        return new Batch(this.source, count, this.machine.memory.buffer, this.machine.frames, this.starts);
    }

    /** The frames that were read last, in the module's memory. */
    batch() { return this.#batchOf(this.last); }
}

/** The frames of bytes, one after another. */
export class Stream extends Frames {
    #machine;
    #ending;

    constructor(machine, data, config, { start = 0, limit = Infinity } = {}) {
        super();
        this.#machine = machine;
        this.bytes = bytesOf(data);
        this.config = config instanceof Config ? config : new Config(config);
        this.order = this.config.order;
        this.start = start;
        this.limit = limit;
        if (!Number.isInteger(start) || start < 0 || start > this.bytes.length) {
            throw new RangeError("the start is outside the bytes");
        }
        if (start === 0 && isFile(this.bytes)) {
            throw new RangeError(NO_STREAM);
        }
        machine.putConfig(this.config);
        if (machine.readMany(0, 1).how >= ENDS.length) {
            throw new RangeError("the configuration is of another version, or has no such order");
        }
    }

    [READER]() { return new StreamReader(this.#machine, this); }

    [ENDED]({ count, taken, how }) { this.#ending = { count, taken, end: ENDS[how] }; }

    #ended() {
        if (this.#ending === undefined) {
            const reader = this[READER]();
            while (reader.next() > 0);
            this[ENDED](reader);
        }
        return this.#ending;
    }

    /** How many frames there are. */
    get count() { return this.#ended().count; }

    /** How many bytes were taken, from the first of all on; with a limit, reading can go on there. */
    get taken() { return this.#ended().taken; }

    /** How reading ended: "done", "cut header" if one to seven bytes are left, or "limit". */
    get end() { return this.#ended().end; }
}
