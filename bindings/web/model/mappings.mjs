// Which mapping contains an address: the newest one, for each of many address spaces, of which one may begin as the
// copy of another. An address space is the root of a tree whose nodes are shared until one of its owners changes them,
// so a copy costs nothing, and a mapping a few nodes.

import { Table } from "./growing.mjs";

const NONE = 0;

/** Whether one number of 64 bits is below another; each is its upper and its lower half. */
const isBelow = (upper, lower, otherUpper, otherLower) =>
    upper < otherUpper || upper === otherUpper && lower < otherLower;

const COLUMNS = ["firstUpper", "firstLower", "lastUpper", "lastLower", "left", "right", "priority", "mapping", "owner"];

/** The nodes of all trees: a node has the addresses from `first` to `last` of one mapping. Nodes of one tree do not
 * overlap; they are in order of address, and each parent has a higher priority than its children. */
export class Mappings extends Table {
    #random = (Math.random() * 0xffffffff >>> 0) + 1;

    constructor() {
        super(Object.fromEntries(COLUMNS.map((name) => [name, Uint32Array])));
        this.addRow(); // NONE
    }

    #make(firstUpper, firstLower, lastUpper, lastLower, mapping, owner) {
        this.#random ^= this.#random << 13;
        this.#random ^= this.#random >>> 17;
        this.#random ^= this.#random << 5;
        const node = this.addRow();
        this.firstUpper[node] = firstUpper;
        this.firstLower[node] = firstLower;
        this.lastUpper[node] = lastUpper;
        this.lastLower[node] = lastLower;
        this.priority[node] = this.#random;
        this.mapping[node] = mapping;
        this.owner[node] = owner;
        return node;
    }

    /** The node itself if the owner may change it, else a copy that is its own. */
    #owned(node, owner) {
        if (this.owner[node] === owner) {
            return node;
        }
        const copy = this.#make(this.firstUpper[node], this.firstLower[node], this.lastUpper[node],
            this.lastLower[node], this.mapping[node], owner);
        this.left[copy] = this.left[node];
        this.right[copy] = this.right[node];
        this.priority[copy] = this.priority[node];
        return copy;
    }

    /** Two trees: the nodes that begin before an address, and the others. */
    #split(node, upper, lower, owner) {
        if (node === NONE) {
            return [NONE, NONE];
        }
        const top = this.#owned(node, owner);
        if (isBelow(this.firstUpper[top], this.firstLower[top], upper, lower)) {
            const [before, after] = this.#split(this.right[top], upper, lower, owner);
            this.right[top] = before;
            return [top, after];
        }
        const [before, after] = this.#split(this.left[top], upper, lower, owner);
        this.left[top] = after;
        return [before, top];
    }

    /** One tree of two, of which the second begins after the first. */
    #joined(before, after, owner) {
        if (before === NONE || after === NONE) {
            return before === NONE ? after : before;
        }
        if (this.priority[before] > this.priority[after]) {
            const top = this.#owned(before, owner);
            const rest = this.#joined(this.right[top], after, owner);
            this.right[top] = rest;
            return top;
        }
        const top = this.#owned(after, owner);
        const rest = this.#joined(before, this.left[top], owner);
        this.left[top] = rest;
        return top;
    }

    #rightmost(node) {
        let found = node;
        while (found !== NONE && this.right[found] !== NONE) {
            found = this.right[found];
        }
        return found;
    }

    /** A tree whose rightmost node ends just before an address. */
    #shortened(node, upper, lower, owner) {
        const top = this.#owned(node, owner);
        if (this.right[top] !== NONE) {
            const rest = this.#shortened(this.right[top], upper, lower, owner);
            this.right[top] = rest;
            return top;
        }
        this.lastUpper[top] = lower === 0 ? upper - 1 : upper;
        this.lastLower[top] = lower === 0 ? 0xffffffff : lower - 1;
        return top;
    }

    /** Puts a mapping in place of what was there before, and returns the root of the tree with it. */
    insert(root, owner, firstUpper, firstLower, lastUpper, lastLower, mapping) {
        let [before, rest] = this.#split(root, firstUpper, firstLower, owner);
        let [covered, after] = [rest, NONE];
        if (lastUpper !== 0xffffffff || lastLower !== 0xffffffff) {
            const nextUpper = lastLower === 0xffffffff ? lastUpper + 1 : lastUpper;
            const nextLower = lastLower === 0xffffffff ? 0 : lastLower + 1;
            [covered, after] = this.#split(rest, nextUpper, nextLower, owner);
            const cut = this.#rightmost(covered === NONE ? before : covered);
            if (cut !== NONE && isBelow(lastUpper, lastLower, this.lastUpper[cut], this.lastLower[cut])) {
                const left = this.#make(nextUpper, nextLower, this.lastUpper[cut], this.lastLower[cut],
                    this.mapping[cut], owner);
                after = this.#joined(left, after, owner);
            }
        }
        const end = this.#rightmost(before);
        if (end !== NONE && !isBelow(this.lastUpper[end], this.lastLower[end], firstUpper, firstLower)) {
            before = this.#shortened(before, firstUpper, firstLower, owner);
        }
        const node = this.#make(firstUpper, firstLower, lastUpper, lastLower, mapping, owner);
        return this.#joined(this.#joined(before, node, owner), after, owner);
    }

    /** The mapping that contains an address, or -1. */
    find(root, upper, lower) {
        let node = root;
        while (node !== NONE) {
            if (isBelow(upper, lower, this.firstUpper[node], this.firstLower[node])) {
                node = this.left[node];
            } else if (isBelow(this.lastUpper[node], this.lastLower[node], upper, lower)) {
                node = this.right[node];
            } else {
                return this.mapping[node];
            }
        }
        return -1;
    }
}
