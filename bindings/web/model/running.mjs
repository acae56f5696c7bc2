// When threads ran, where switches were recorded.

import { NO_CPU } from "./frames.mjs";
import { Table } from "./growing.mjs";

/** Intervals in the order of their ends: those of one thread do not overlap, nor do those of one processor. */
export class Running extends Table {
    constructor() {
        super({ from: Float64Array, to: Float64Array, task: Uint32Array, cpu: Uint32Array });
        this.since = new Map();
        this.onCpu = new Map();
        this.wasSeen = new Set();
        this.switched = new Set();
        // Whether switches are recorded of processors, not of threads.
        this.isOfCpus = false;
    }

    /** Nothing runs on a processor any more: what did ends, if its own record was lost. */
    idle(cpu, time) {
        this.switched.add(cpu);
        const task = this.onCpu.get(cpu);
        if (task !== undefined) {
            this.#close(task, time);
        }
    }

    /** A thread begins to run. */
    begin(task, cpu, time) {
        if (this.onCpu.get(cpu) !== task) {
            this.idle(cpu, time);
        }
        this.switched.add(cpu);
        this.since.set(task, { time, cpu });
        if (cpu !== NO_CPU) {
            this.onCpu.set(cpu, task);
        }
        this.wasSeen.add(task);
    }

    /** A thread ends running. Without a record of its begin it ran since `first`, when it was seen first, or on a
     * processor without any switch before since the recording began. */
    end(task, cpu, time, first) {
        if (!this.since.has(task) && !this.wasSeen.has(task)) {
            const isFirst = cpu !== NO_CPU && !this.switched.has(cpu);
            this.since.set(task, { time: isFirst ? 0 : Math.min(first, time), cpu });
        }
        this.switched.add(cpu);
        this.wasSeen.add(task);
        this.#close(task, time);
    }

    /** A thread is no more. If all switches of processors are recorded, it runs on until that of its own; else there is
     * no record of its last one. */
    exit(task, time) {
        const begin = this.since.get(task);
        if (begin !== undefined && this.isOfCpus) {
            begin.exit = time;
        } else {
            this.#close(task, time);
        }
    }

    #close(task, time) {
        const begin = this.since.get(task);
        if (begin === undefined) {
            return;
        }
        this.since.delete(task);
        if (this.onCpu.get(begin.cpu) === task) {
            this.onCpu.delete(begin.cpu);
        }
        if (begin.time < time) {
            const row = this.addRow();
            this.from[row] = begin.time;
            this.to[row] = time;
            this.task[row] = task;
            this.cpu[row] = begin.cpu;
        }
    }

    /** Nothing comes after that time. */
    finish(time) {
        [...this.since].forEach(([task, { exit }]) => this.#close(task, exit ?? time));
    }
}
