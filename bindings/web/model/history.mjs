// Applies the records of a recording in order of time: which names threads have, what processes have mapped, and when
// threads ran. So each sample gets its place in the tree of call chains.

import {
    COMM, EXIT, FORK, KERNEL_FOLLOWS, KSYMBOL, LOST, LOST_SAMPLES, MMAP, MMAP2, NO_CPU, NO_TASK, NOTHING,
    OTHERS_FOLLOW, SAMPLE, SWITCH, SWITCH_CPU_WIDE, USER_FOLLOWS,
} from "./frames.mjs";
import { Table } from "./growing.mjs";
import { PlaceFinder } from "./places.mjs";
import { Running } from "./running.mjs";
import { KERNEL, Spaces } from "./spaces.mjs";
import { CallTree } from "./tree.mjs";

/** PERF_RECORD_MISC_COMM_EXEC, PERF_RECORD_MISC_FORK_EXEC, with which perf marks forks that it made up, and
 * PERF_RECORD_MISC_SWITCH_OUT. */
const BIT_13 = 0x2000;
const MODE = 7;
const MODES = { kernel: 1, user: 2 };
const LONGEST_CHAIN = 1 << 13;
/** In place of the number of a thread that ended already. */
const GONE = 0xffffffff;

export const MARKS = ["comm", "exec", "fork", "exit", "lost"];
/** In `names`: the frame is about no thread. */
export const NO_NAME = 0xffffffff;

/** Of samples, in order of time, what is known by then. */
const SAMPLE_COLUMNS = {
    frame: Uint32Array, time: Float64Array, task: Uint32Array, cpu: Uint32Array, event: Uint32Array, name: Uint32Array,
    node: Uint32Array, period: BigUint64Array,
};

export class History {
    #chain = new Uint32Array(LONGEST_CHAIN);

    /** `eventNames` are the numbers of the names of events. */
    constructor(reading, eventNames) {
        const { frames, samples, table, places, tasks, texts } = reading;
        Object.assign(this, { frames, addresses: samples, table, places, tasks, texts, eventNames });
        this.spaces = new Spaces(table);
        this.finder = new PlaceFinder(places, samples.addresses, table, this.spaces);
        this.tree = new CallTree();
        this.samples = new Table(SAMPLE_COLUMNS, samples.count);
        // Of each sample by its number its place in order of time, and of each frame the name of its thread by then.
        this.placeOfSample = new Uint32Array(samples.count);
        this.names = new Uint32Array(frames.count).fill(NO_NAME);
        this.running = new Running();
        this.marks = new Table({
            frame: Uint32Array, time: Float64Array, task: Uint32Array, cpu: Uint32Array, kind: Uint8Array,
        });
    }

    /** Applies the frames in an order. */
    run(order, duration, note) {
        for (let place = 0; place < order.length; place++) {
            if ((place & 0xffff) === 0) {
                note(place);
            }
            this.#apply(order[place]);
        }
        this.running.finish(duration);
        return this;
    }

    #apply(frame) {
        const { frames, tasks } = this;
        const [task, time] = [frames.task[frame], frames.time[frame]];
        if (task !== NO_TASK) {
            tasks.see(task, time);
        }
        if (frames.isRefused[frame] === 0 && frames.event[frame] >= 0) {
            this.#applyRecord(frame, frames.type[frame], task, time);
        }
        if (task !== NO_TASK) {
            this.names[frame] = tasks.nameOf(task);
        }
    }

    #applyRecord(frame, type, task, time) {
        const { frames } = this;
        const extra = frames.extra[frame];
        switch (type) {
            case SAMPLE:
                this.#sample(frame, extra, task, time);
                break;
            case MMAP:
            case MMAP2:
                if (extra !== NOTHING) {
                    this.spaces.map(extra);
                }
                break;
            case KSYMBOL:
                if (extra !== NOTHING) {
                    this.spaces.map(extra, KERNEL);
                }
                break;
            case COMM:
                this.#comm(frame, extra, task, time);
                break;
            case FORK:
                this.#fork(frame, extra, task, time);
                break;
            case EXIT:
                this.#exit(frame, task, time);
                break;
            case LOST:
            case LOST_SAMPLES:
                this.#mark(frame, time, task, "lost");
                break;
            case SWITCH:
            case SWITCH_CPU_WIDE:
                this.running.isOfCpus ||= type === SWITCH_CPU_WIDE;
                this.#switch(frames.cpu[frame], frames.misc[frame], task, time);
        }
    }

    #comm(frame, text, task, time) {
        if (task !== NO_TASK) {
            this.tasks.rename(task, text);
            this.#mark(frame, time, task, this.frames.misc[frame] & BIT_13 ? "exec" : "comm");
        }
    }

    #mark(frame, time, task, kind, cpu = this.frames.cpu[frame]) {
        if (time > -Infinity) {
            const { marks } = this;
            const row = marks.addRow();
            marks.frame[row] = frame;
            marks.time[row] = time;
            marks.task[row] = task;
            marks.cpu[row] = cpu;
            marks.kind[row] = MARKS.indexOf(kind);
        }
    }

    #fork(frame, parent, task, time) {
        if (task === NO_TASK) {
            return;
        }
        const { tasks } = this;
        tasks.inherit(task, parent);
        const isMadeUp = (this.frames.misc[frame] & BIT_13) !== 0;
        if (time > -Infinity) {
            tasks.start[task] = time;
        }
        if (!isMadeUp && tasks.pid(task) !== tasks.pid(parent)) {
            this.spaces.fork(tasks.pid(task), tasks.pid(parent));
        }
        this.#mark(frame, time, task, "fork");
        this.#mark(frame, time, parent, "fork", NO_CPU);
    }

    #exit(frame, task, time) {
        if (task !== NO_TASK && time > -Infinity) {
            this.tasks.end[task] = time;
            this.running.exit(task, time);
            this.#mark(frame, time, task, "exit");
        }
    }

    #switch(cpu, misc, task, time) {
        if (task === NO_TASK || time === -Infinity) {
            return;
        }
        const tid = this.tasks.tid(task);
        const isOut = (misc & BIT_13) !== 0;
        if (tid === GONE || tid === 0 && !isOut) {
            this.running.idle(cpu, time);
        } else if (isOut && tid !== 0) {
            this.running.end(task, cpu, time, this.tasks.first[task]);
        } else if (!isOut) {
            this.running.begin(task, cpu, time);
        }
    }

    #sample(frame, sample, task, time) {
        const { frames, samples, addresses, tasks } = this;
        const place = samples.addRow();
        const event = frames.event[frame];
        const name = task === NO_TASK ? tasks.nameOfThread(0) : tasks.nameOf(task);
        samples.frame[place] = frame;
        samples.time[place] = time;
        samples.task[place] = task;
        samples.cpu[place] = frames.cpu[frame];
        samples.event[place] = event;
        samples.name[place] = name;
        samples.period[place] = addresses.period[sample];
        const caller = this.tree.child(this.tree.child(0, name), this.eventNames[event]);
        this.placeOfSample[sample] = place;
        samples.node[place] = this.#leaf(caller, sample, frames.misc[frame] & MODE, task);
    }

    /** The node of a sample's chain, which begins below `caller`. */
    #leaf(caller, sample, ownMode, task) {
        const space = this.spaces.of(task === NO_TASK ? 0 : this.tasks.pid(task));
        const { addresses } = this;
        const chains = addresses.chains.array;
        const chain = this.#chain;
        const start = addresses.chainStart[sample];
        const end = start + addresses.chainLength[sample];
        let [count, mode] = [0, MODES.user];
        for (let at = start; at < end; at++) {
            const address = chains[at];
            if (address < OTHERS_FOLLOW) {
                chain[count++] = this.#placeOf(space, address, mode);
            } else {
                mode = address === KERNEL_FOLLOWS ? MODES.kernel : address === USER_FOLLOWS ? MODES.user : 0;
            }
        }
        if (count === 0) {
            chain[count++] = this.#placeOf(space, addresses.ip[sample], ownMode);
        }
        let node = caller;
        while (count > 0) {
            node = this.tree.child(node, chain[--count]);
        }
        return node;
    }

    #placeOf(space, address, mode) {
        if (mode === MODES.user) {
            return this.finder.user(space, address);
        }
        return mode === MODES.kernel ? this.finder.kernel(this.spaces.of(KERNEL), address) : this.places.unknown;
    }
}
