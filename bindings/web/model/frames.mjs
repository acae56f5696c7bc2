// What is kept of each frame, in the order of the file, and of each record that something follows from.

import { Growing } from "../../js/growing.mjs";
import { Table, Triples } from "./growing.mjs";

/** Types of records. */
export const MMAP = 1;
export const LOST = 2;
export const COMM = 3;
export const EXIT = 4;
export const FORK = 7;
export const READ = 8;
export const SAMPLE = 9;
export const MMAP2 = 10;
export const ITRACE_START = 12;
export const LOST_SAMPLES = 13;
export const SWITCH = 14;
export const SWITCH_CPU_WIDE = 15;
export const NAMESPACES = 16;
export const KSYMBOL = 17;
/** From this type on frames are perf's own. */
export const PERF = 64;

/** In `event`: perf wrote the frame for itself, or its event is not known. */
export const NO_EVENT = -1;

export const NO_TASK = 0xffffffff;
export const NO_CPU = 0xffffffff;
/** In `extra`: nothing follows from the frame. */
export const NOTHING = -1;

/** Of each frame a row. */
export class FrameTable extends Table {
    constructor(room) {
        super({
            at: Float64Array, size: Uint16Array, type: Uint32Array, misc: Uint16Array, event: Int32Array,
            isRefused: Uint8Array,
            // Nanoseconds after the first time, -Infinity without one.
            time: Float64Array,
            task: Uint32Array, cpu: Uint32Array,
            // Of a sample, a mapping or a KSYMBOL its number, of a COMM that of its text, of a FORK or EXIT the parent,
            // of a refused frame that of the text of its reason.
            extra: Int32Array,
        }, room);
    }
}

/** In `chains` in place of an address: whose addresses follow. */
export const KERNEL_FOLLOWS = 0xffffffff;
export const USER_FOLLOWS = 0xfffffffe;
export const OTHERS_FOLLOW = 0xfffffffd;
/** The lower half of PERF_CONTEXT_MAX, above which all are marks, and of those of the kernel and the user. */
const LEAST_MARK = 0xfffff001;
const MARKS = new Map([[0xffffff80, KERNEL_FOLLOWS], [0xfffffe00, USER_FOLLOWS]]);

/** Of each sample, in the order of the file, its period and its addresses: its own, by its number, and those of its call
 * chain. */
export class SampleAddresses extends Table {
    constructor(room) {
        super({
            period: BigUint64Array, ip: Uint32Array, chainStart: Float64Array, chainLength: Uint16Array,
        }, room);
        // Numbers of addresses, and marks.
        this.chains = new Growing(Uint32Array, 16 * room);
        this.addresses = new Triples();
    }

    /** Puts a sample, and returns its number. */
    put(ip = 0n, period, chain) {
        const row = this.addRow();
        this.period[row] = period;
        this.ip[row] = this.addresses.numberOf(Number(ip >> 32n), Number(ip & 0xffffffffn), 0);
        this.chainStart[row] = this.chains.length;
        if (chain !== undefined) {
            this.chainLength[row] = chain.length;
            this.#putChain(new Uint32Array(chain.buffer, chain.byteOffset, 2 * chain.length));
        }
        return row;
    }

    /** Puts a chain, of which there are the lower and the upper half of each number. */
    #putChain(halves) {
        const { chains, addresses } = this;
        let to = chains.extend(halves.length / 2);
        const { array } = chains;
        for (let at = 0; at < halves.length; at += 2) {
            const [lower, upper] = [halves[at], halves[at + 1]];
            array[to++] = upper === 0xffffffff && lower >= LEAST_MARK ? MARKS.get(lower) ?? OTHERS_FOLLOW
                : addresses.numberOf(upper, lower, 0);
        }
    }
}

const HALVES = ["firstUpper", "firstLower", "lastUpper", "lastLower", "offsetUpper", "offsetLower"];

/** The mappings of processes: addresses from `first` to `last` are a file's from an offset on. Those of
 * the kernel are code with a name, whose number is in the place of that of the file. */
export class MappingTable extends Table {
    constructor() {
        super({
            pid: Uint32Array, file: Uint32Array, ...Object.fromEntries(HALVES.map((name) => [name, Uint32Array])),
            // Whether places in it are told by their address.
            keepsAddress: Uint8Array,
        });
    }

    /** Puts a mapping of at least one byte, and returns its number. What exceeds 64 bits is left out. */
    put(pid, address, length, offset, file, keepsAddress) {
        const row = this.addRow();
        const end = address + length - 1n;
        const last = end >> 64n ? 0xffffffffffffffffn : end;
        this.pid[row] = pid;
        this.file[row] = file;
        this.keepsAddress[row] = keepsAddress ? 1 : 0;
        for (const [name, number] of [["first", address], ["last", last], ["offset", offset]]) {
            this[`${name}Upper`][row] = Number(number >> 32n);
            this[`${name}Lower`][row] = Number(number & 0xffffffffn);
        }
        return row;
    }

    /** The `first`, `last` or `offset` of a mapping, exact below 2^53. */
    number(name, mapping) { return this[`${name}Upper`][mapping] * 0x100000000 + this[`${name}Lower`][mapping]; }
}
