// The threads of a recording, each of one process, and what they are called.

import { Growing } from "../../js/growing.mjs";
import { Table, Triples } from "./growing.mjs";

const NO_NAME = 0;

/** Threads by their numbers, in the order in which they come first: a process and the id of a thread in it, by which
 * alone it has its name. */
export class Tasks extends Table {
    #ids = new Triples();
    #names = new Growing(Uint32Array);
    #ownNames = new Map();

    constructor(texts) {
        super({
            // Of the thread's id, in the order in which those come first.
            thread: Uint32Array,
            // Whether a frame is about the thread; others are only named as parents.
            isKnown: Uint8Array,
            start: Float64Array, end: Float64Array, first: Float64Array,
        });
        this.texts = texts;
        this.ids = new Triples();
    }

    /** The number of a thread. */
    numberOf(pid, tid) {
        const task = this.ids.numberOf(pid, tid, 0);
        if (task === this.count) {
            this.addRow();
            this.thread[task] = this.#threadOf(tid);
            this.start[task] = this.end[task] = this.first[task] = NaN;
        }
        return task;
    }

    /** The number of the id of a thread. */
    #threadOf(tid) {
        const thread = this.#ids.numberOf(tid, 0, 0);
        if (thread === this.#names.length) {
            this.#names.push(NO_NAME);
        }
        return thread;
    }

    pid(task) { return this.ids.first[task]; }

    tid(task) { return this.ids.second[task]; }

    /** From here on a thread has the name with that number. */
    rename(task, text) { this.#names.array[this.thread[task]] = text + 1; }

    /** A new thread has the name of the one that made it, or none. */
    inherit(task, parent) { this.#names.array[this.thread[task]] = this.#names.array[this.thread[parent]]; }

    /** The number of the name that a thread has now. One without a name is called by its number. */
    nameOf(task) { return this.#nameOf(this.thread[task]); }

    /** The same of the thread with an id. */
    nameOfThread(tid) { return this.#nameOf(this.#threadOf(tid)); }

    #nameOf(thread) {
        const name = this.#names.array[thread];
        if (name !== NO_NAME) {
            return name - 1;
        }
        let own = this.#ownNames.get(thread);
        if (own === undefined) {
            const tid = this.#ids.first[thread];
            own = this.texts.numberOf(tid === 0 ? "swapper" : `:${tid}`);
            this.#ownNames.set(thread, own);
        }
        return own;
    }

    /** A frame is about a thread, at that time or, for -Infinity, at none. Frames come in order of time. */
    see(task, time) {
        this.isKnown[task] = 1;
        if (time > -Infinity && Number.isNaN(this.first[task])) {
            this.first[task] = time;
        }
    }
}
