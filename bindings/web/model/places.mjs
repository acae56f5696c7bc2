// Places in code: a file and an offset in it, an address of the kernel, code of it that has a name, or unknown.

import { Growing } from "../../js/growing.mjs";
import { Texts, Triples } from "./growing.mjs";
import { hexOf } from "./text.mjs";

const UNKNOWN = 0;
const KERNEL = 1;
const FILES = 2;
/** Kinds from here on, downward, are code of the kernel that has a name by a record. */
const NAMED = 0xffffffff;
const LEAST_NAMED = 0x80000000;
/** In place of the number of a name: the code is gone. */
export const GONE = 0xffffffff;

/** Places by their numbers. What is at a place may have a name in a table of symbols. */
export class Places {
    constructor() {
        this.ids = new Triples();
        this.files = new Texts();
        this.names = new Texts();
        this.unknown = this.ids.numberOf(UNKNOWN, 0, 0);
    }

    kernel(upper, lower) { return this.ids.numberOf(KERNEL, upper, lower); }

    /** Code of the kernel, with the number of its name. */
    named(name, upper, lower) { return this.ids.numberOf(NAMED - name, upper, lower); }

    inFile(file, upper, lower) { return this.ids.numberOf(file + FILES, upper, lower); }

    textOf(place) {
        const [kind, upper, lower] = [this.ids.first[place], this.ids.second[place], this.ids.third[place]];
        if (kind === UNKNOWN) {
            return "[unknown]";
        }
        return kind === KERNEL || kind >= LEAST_NAMED ? `${hexOf(upper, lower)}_[k]`
            : `${this.files.list[kind - FILES]}+${hexOf(upper, lower)}`;
    }

    /** The name of a place by tables of symbols, or undefined. With one of the kernel also by records. */
    symbolOf(place, symbols) {
        const [kind, upper, lower] = [this.ids.first[place], this.ids.second[place], this.ids.third[place]];
        if (kind === UNKNOWN) {
            return undefined;
        }
        if (kind >= LEAST_NAMED) {
            return symbols.kernel && `${this.names.list[NAMED - kind]}_[k]`;
        }
        const table = kind === KERNEL ? symbols.kernel : symbols.files.get(this.files.list[kind - FILES]);
        const name = table?.find(upper, lower);
        return name === undefined || kind !== KERNEL ? name : `${name}_[k]`;
    }
}

/** Finds the places of addresses in the address spaces of processes. */
export class PlaceFinder {
    #kernel = new Growing(Int32Array);
    #cachedSpace;
    #cachedAddress;
    #cachedPlace;

    constructor(places, addresses, table, spaces) {
        Object.assign(this, { places, addresses, table, spaces });
        [this.#cachedSpace, this.#cachedAddress, this.#cachedPlace] = [0, 1, 2].map(() => new Int32Array(1 << 16));
    }

    /** The place of an address of the kernel, whose code has names since KSYMBOL records. */
    kernel(space, address) {
        return space.state === 0 ? this.#unnamed(address)
            : this.#cached(space.state, address, () => this.#findNamed(space, address));
    }

    #unnamed(address) {
        while (this.#kernel.length <= address) {
            this.#kernel.push(-1);
        }
        let place = this.#kernel.array[address];
        if (place < 0) {
            place = this.places.kernel(this.addresses.first[address], this.addresses.second[address]);
            this.#kernel.array[address] = place;
        }
        return place;
    }

    /** The place of an address of a process. */
    user(space, address) {
        return this.#cached(space.state, address, () => this.#find(space, address));
    }

    #cached(state, address, find) {
        const slot = (Math.imul(address, 0x9e3779b1) ^ Math.imul(state, 0x85ebca6b)) >>> 16;
        if (this.#cachedSpace[slot] === state && this.#cachedAddress[slot] === address) {
            return this.#cachedPlace[slot];
        }
        const place = find();
        this.#cachedSpace[slot] = state;
        this.#cachedAddress[slot] = address;
        this.#cachedPlace[slot] = place;
        return place;
    }

    #findNamed(space, address) {
        const mapping = this.spaces.find(space, this.addresses.first[address], this.addresses.second[address]);
        const name = mapping < 0 ? GONE : this.table.file[mapping];
        return name === GONE ? this.#unnamed(address)
            : this.places.named(name, this.addresses.first[address], this.addresses.second[address]);
    }

    #find(space, address) {
        const [upper, lower] = [this.addresses.first[address], this.addresses.second[address]];
        const { table } = this;
        const mapping = this.spaces.find(space, upper, lower);
        if (mapping < 0) {
            return this.places.unknown;
        }
        const file = table.file[mapping];
        if (table.keepsAddress[mapping]) {
            return this.places.inFile(file, upper, lower);
        }
        const down = lower - table.firstLower[mapping];
        const sum = down + table.offsetLower[mapping];
        const carry = Math.floor(sum / 0x100000000);
        return this.places.inFile(file, upper - table.firstUpper[mapping] + table.offsetUpper[mapping] + carry,
            sum);
    }
}
