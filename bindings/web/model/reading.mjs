// Reads all frames of a recording once, in the order of the file, and keeps of each what the model needs.

import {
    COMM, EXIT, FORK, FrameTable, ITRACE_START, KSYMBOL, LOST, LOST_SAMPLES, MappingTable, MMAP, MMAP2, NAMESPACES,
    NO_CPU, NO_EVENT, NO_TASK, NOTHING, PERF, READ, SAMPLE, SampleAddresses, SWITCH, SWITCH_CPU_WIDE,
} from "./frames.mjs";
import { Texts } from "./growing.mjs";
import { GONE, Places } from "./places.mjs";
import { recordName } from "./record_names.mjs";
import { Tasks } from "./tasks.mjs";
import { lastPart, nameOf, textOf } from "./text.mjs";

const KERNEL_PID = 0xffffffff;
const KERNEL_MODE = 1;
const MODE = 7;
const IS_DATA = 0x2000;
const EXECUTABLE = 4n;
/** In the flags of a KSYMBOL: the code goes. */
const UNREGISTER = 1n;
const NO_TIME = 0xffffffffffffffffn;
const MOST_REFUSED = 1000;
const MOST_TYPES = 1000;
/** The most bytes of a thread's name, of which the kernel writes 16, and of a path. */
const LONGEST_NAME = 256;
const LONGEST_PATH = 4096;
/** Records whose own fields tell which thread they are about, and others of which the fields are needed. */
const ABOUT_TASKS = new Set([MMAP, MMAP2, COMM, EXIT, FORK, READ, ITRACE_START, NAMESPACES]);
const WITH_FIELDS = new Set([...ABOUT_TASKS, KSYMBOL, SAMPLE, LOST, LOST_SAMPLES]);
const WITHOUT_FILE = /^(?:\/\/anon$|\/dev\/zero|\/anon_hugepage|\[stack|\/SYSV|\[heap\]$)/;

/** A sum of numbers of 64 bits, modulo 2^64. */
const sumOf = (one, other) => BigInt.asUintN(64, one + other);

export class Reading {
    constructor(library, input) {
        this.types = library.TYPES;
        this.input = input;
        // A guess at how many there are.
        const room = Math.max(64, Math.min(1 << 20, input.bytes.length >> 7));
        this.frames = new FrameTable(room);
        this.samples = new SampleAddresses(room);
        this.table = new MappingTable();
        this.texts = new Texts();
        this.places = new Places();
        this.tasks = new Tasks(this.texts);
        this.counts = new Map();
        this.refused = { count: 0, first: [] };
        this.lost = 0n;
        this.has = { hasTime: false, hasCpu: false, hasChains: false, hasSwitches: false };
        this.cpus = new Set();
        this.sums = input.events.map(() => ({
            samples: 0, period: 0n, first: undefined, last: undefined, lost: 0n, refused: 0, frames: 0,
        }));
        [this.least, this.most] = [Infinity, -Infinity];
    }

    /** Reads all frames, and calls `note` now and then with the bytes that were read. */
    read(note) {
        let next = 0;
        for (const frame of this.input.frames) {
            if ((this.frames.count & 4095) === 0 && Date.now() >= next) {
                next = Date.now() + 50;
                note(frame.start);
            }
            this.#add(frame);
        }
        this.#shiftTimes();
        return this;
    }

    #add(frame) {
        const { frames } = this;
        const [isRefused, type] = [frame.refusal !== 0, frame.type];
        const event = this.#eventOf(frame, type);
        const fields = !isRefused && event >= 0 && WITH_FIELDS.has(type) ? frame.fields : undefined;
        const time = this.#timeOf(frame, isRefused);
        const cpu = isRefused ? undefined : frame.cpu;
        const row = frames.addRow();
        frames.at[row] = frame.start;
        frames.size[row] = frame.size;
        frames.type[row] = type;
        frames.misc[row] = frame.misc;
        frames.event[row] = event;
        frames.isRefused[row] = isRefused ? 1 : 0;
        frames.time[row] = time;
        frames.task[row] = isRefused ? NO_TASK : this.#taskOf(frame, fields, type, time);
        frames.cpu[row] = cpu ?? NO_CPU;
        frames.extra[row] = isRefused ? this.#refuse(frame, row)
            : event < 0 ? NOTHING : this.#detail(frame, fields, type, event, time);
        if (cpu !== undefined && (time > -Infinity || type === SAMPLE)) {
            this.cpus.add(cpu);
        }
        this.#count(recordName(type, this.types));
        if (event >= 0) {
            this.sums[event].frames += 1;
            this.sums[event].refused += isRefused ? 1 : 0;
        }
    }

    /** Counts a frame by the name of its type. A file can have more types without one than can be shown. */
    #count(name) {
        const { counts } = this;
        const shown = counts.has(name) || counts.size < MOST_TYPES || !name.startsWith("type ") ? name : "others";
        counts.set(shown, (counts.get(shown) ?? 0) + 1);
    }

    #eventOf(frame, type) {
        if (frame.owner === undefined) {
            return type >= PERF ? NO_EVENT : 0;
        }
        return frame.event?.number ?? NO_EVENT;
    }

    /** The time after the first one that was read. 0 is in place of a time that is not known. */
    #timeOf(frame, isRefused) {
        const time = isRefused ? undefined : frame.time;
        if (time === undefined || time === NO_TIME || time === 0n) {
            return -Infinity;
        }
        this.base ??= time;
        const after = Number(time - this.base);
        this.least = Math.min(this.least, after);
        this.most = Math.max(this.most, after);
        return after;
    }

    /** Lets times begin at the least one. */
    #shiftTimes() {
        const { least, frames } = this;
        const isTimed = least <= this.most;
        this.start = isTimed ? this.base + BigInt(least) : 0n;
        this.duration = isTimed ? this.most - least : 0;
        const times = frames.column("time");
        for (let index = 0; isTimed && index < times.length; index++) {
            times[index] -= least;
        }
    }

    #taskOf(frame, fields, type, time) {
        if (fields !== undefined && ABOUT_TASKS.has(type)) {
            const pid = Number(fields.pid);
            const isOfKernel = pid === KERNEL_PID && (type === MMAP || type === MMAP2);
            return isOfKernel ? NO_TASK : this.tasks.numberOf(pid, Number(fields.tid));
        }
        // The sample ids of records that perf made have zeros.
        const { pid } = frame;
        return pid !== undefined && (time > -Infinity || type === SAMPLE) ? this.tasks.numberOf(pid, frame.tid)
            : NO_TASK;
    }

    /** Keeps what follows from a record, and returns its number. */
    #detail(frame, fields, type, event, time) {
        switch (type) {
            case SAMPLE:
                return this.#sample(frame, fields, event, time);
            case MMAP:
            case MMAP2:
                return this.#mapping(frame, fields);
            case KSYMBOL:
                return this.#kernelSymbol(fields);
            case COMM:
                return this.texts.numberOf(nameOf(textOf(fields.comm.subarray(0, LONGEST_NAME))));
            case FORK:
            case EXIT:
                return this.tasks.numberOf(Number(fields.ppid), Number(fields.ptid));
            case LOST:
            case LOST_SAMPLES:
                this.lost = sumOf(this.lost, fields.lost);
                this.sums[event].lost = sumOf(this.sums[event].lost, fields.lost);
                return NOTHING;
            case SWITCH:
            case SWITCH_CPU_WIDE:
                this.has.hasSwitches = true;
                return NOTHING;
            default:
                return NOTHING;
        }
    }

    #sample(frame, { ip, period, callchain }, event, time) {
        const { has, input } = this;
        const sum = this.sums[event];
        has.hasTime ||= frame.time !== undefined;
        has.hasCpu ||= frame.cpu !== undefined;
        has.hasChains ||= callchain !== undefined && callchain.length > 0;
        const weight = period ?? input.events[event].ownPeriod;
        sum.samples += 1;
        sum.period = sumOf(sum.period, weight);
        if (time > -Infinity) {
            sum.first = sum.first < frame.time ? sum.first : frame.time;
            sum.last = sum.last > frame.time ? sum.last : frame.time;
        }
        return this.samples.put(ip, weight, callchain);
    }

    #mapping({ misc, type }, fields) {
        const pid = Number(fields.pid);
        if (pid === KERNEL_PID || (misc & MODE) === KERNEL_MODE || fields.len === 0n) {
            return NOTHING;
        }
        const path = textOf(fields.filename.subarray(0, LONGEST_PATH));
        const hasFile = !WITHOUT_FILE.test(path);
        const isExecutable = type === MMAP ? (misc & IS_DATA) === 0 : (fields.prot & EXECUTABLE) !== 0n;
        const name = hasFile || !isExecutable ? nameOf(lastPart(path)) : `perf-${pid}.map`;
        return this.table.put(pid, fields.addr, fields.len, fields.pgoff, this.places.files.numberOf(name), !hasFile);
    }

    #kernelSymbol({ addr, len, flags, name }) {
        if (len === 0n) {
            return NOTHING;
        }
        const number = flags & UNREGISTER ? GONE
            : this.places.names.numberOf(nameOf(textOf(name.subarray(0, LONGEST_PATH))));
        return this.table.put(0, addr, len, 0n, number, true);
    }

    /** Counts a refused frame, and returns the number of the text of its reason. */
    #refuse(frame, index) {
        const { first } = this.refused;
        const isListed = first.length < MOST_REFUSED;
        const message = isListed && frame.unknownId !== undefined ? `${frame.message}: ${frame.unknownId}`
            : frame.message;
        this.refused.count += 1;
        if (isListed) {
            first.push({ at: frame.start, size: frame.size, message, index });
        }
        return this.texts.numberOf(message);
    }
}
