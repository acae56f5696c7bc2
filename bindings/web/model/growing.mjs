// Tables that grow, and numbers for what is often the same.

import { withRoom } from "../../js/growing.mjs";

/** Rows of numbers: a typed array for each column, by its name. There are `count` rows, and then room for more. */
export class Table {
    #names;
    #room;

    constructor(types, room = 256) {
        this.count = 0;
        this.#names = Object.keys(types);
        this.#room = room;
        for (const [name, Type] of Object.entries(types)) {
            this[name] = new Type(room);
        }
    }

    /** Puts a row of zeros at the end, and returns its place. */
    addRow() {
        if (this.count === this.#room) {
            this.#room *= 2;
            for (const name of this.#names) {
                this[name] = withRoom(this[name], this.#room);
            }
        }
        return this.count++;
    }

    /** The numbers of a column. */
    column(name) { return this[name].subarray(0, this.count); }
}

// Room for numbers is a power of 2, as are the slots by which they are found.
const LEAST_ROOM = 1024;

// A file could be made so that its numbers collide under a function that is known.
const SEED = Math.random() * 0x100000000 | 0;

function mixed(first, second, third) {
    let hash = Math.imul(first ^ SEED, 0x9e3779b1);
    hash = Math.imul(hash ^ hash >>> 15 ^ second, 0x85ebca6b);
    hash = Math.imul(hash ^ hash >>> 13 ^ third, 0xc2b2ae35);
    hash = Math.imul(hash ^ hash >>> 16, 0x27d4eb2f);
    return hash ^ hash >>> 15;
}

/** Gives each triple of 32-bit numbers a number, in the order in which they come first, from 0 on. */
export class Triples {
    constructor() {
        this.first = new Uint32Array(LEAST_ROOM);
        this.second = new Uint32Array(LEAST_ROOM);
        this.third = new Uint32Array(LEAST_ROOM);
        this.count = 0;
        this.slots = new Uint32Array(2 * LEAST_ROOM);
    }

    /** The number of a triple, which gets one if it has none yet. */
    numberOf(first, second, third) {
        const slot = this.#slotOf(first >>> 0, second >>> 0, third >>> 0);
        const found = this.slots[slot];
        if (found !== 0) {
            return found - 1;
        }
        this.slots[slot] = this.count + 1;
        return this.#put(first, second, third);
    }

    /** Where a triple's number is, and one more than it; or an empty slot, which has 0. */
    #slotOf(first, second, third) {
        const { slots } = this;
        const mask = slots.length - 1;
        let slot = mixed(first, second, third) & mask;
        for (let found = slots[slot]; found !== 0; found = slots[slot]) {
            const number = found - 1;
            if (this.second[number] === second && this.first[number] === first && this.third[number] === third) {
                return slot;
            }
            slot = slot + 1 & mask;
        }
        return slot;
    }

    #put(first, second, third) {
        const number = this.count++;
        this.first[number] = first;
        this.second[number] = second;
        this.third[number] = third;
        if (this.count === this.first.length) {
            this.#grow();
        }
        return number;
    }

    #grow() {
        for (const name of ["first", "second", "third"]) {
            this[name] = withRoom(this[name], 2 * this.count);
        }
        const slots = new Uint32Array(4 * this.count);
        const mask = slots.length - 1;
        for (let number = 0; number < this.count; number++) {
            let slot = mixed(this.first[number], this.second[number], this.third[number]) & mask;
            while (slots[slot] !== 0) {
                slot = slot + 1 & mask;
            }
            slots[slot] = number + 1;
        }
        this.slots = slots;
    }
}

/** Gives each text a number, from 0 on. */
export class Texts {
    constructor() {
        this.numbers = new Map();
        this.list = [];
    }

    numberOf(text) {
        let number = this.numbers.get(text);
        if (number === undefined) {
            number = this.list.push(text) - 1;
            this.numbers.set(text, number);
        }
        return number;
    }
}
