// Reading the frames of an input in order, a piece at a time.

import { BATCH, LIMIT } from "./machine.mjs";

/** How far an input was read: how many bytes are taken, how many frames were read, of these how many last, where these
 * begin, and how reading ended. */
export class Reader {
    constructor(machine, source, start) {
        this.machine = machine;
        this.source = source;
        this.taken = start;
        this.count = 0;
        this.last = 0;
        this.how = LIMIT;
        this.starts = new Float64Array(BATCH);
    }

    /** Of a piece that more follows, leaves the last frame for the next piece, since it may be cut, unless it is the
     * only one. */
    leaveLast(read, length) {
        read.how = LIMIT;
        const last = read.count - 1;
        if (read.taken >= length && last > 0) {
            read.count = last;
            read.taken = this.starts[last] - this.taken;
        }
    }

    /** Goes on after what was read, and returns how many frames that are. */
    take({ count, taken, how }) {
        this.last = count;
        this.count += count;
        this.taken += taken;
        this.how = how;
        return count;
    }
}
