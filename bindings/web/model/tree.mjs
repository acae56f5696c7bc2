// The tree of all call chains, outermost call first: thread's name, event, and then places.

import { Table, Triples } from "./growing.mjs";

export const NAME_DEPTH = 1;
export const EVENT_DEPTH = 2;

/** Nodes by their numbers. The root is 0, and a node comes after its parent. */
export class CallTree {
    #ids = new Triples();
    #table = new Table({ depth: Uint16Array }, 1024);
    #byDepth = new Uint32Array();

    constructor() {
        this.#ids.numberOf(0, 0, 1);
        this.#table.addRow();
    }

    get count() { return this.#ids.count; }

    /** The parent of a node; of the root itself. */
    parent(node) { return this.#ids.first[node]; }

    /** What a node is: by its depth the number of a thread's name, of an event's name, or of a place. */
    what(node) { return this.#ids.second[node]; }

    depth(node) { return this.#table.depth[node]; }

    child(parent, what) {
        const node = this.#ids.numberOf(parent, what, 0);
        if (node === this.#table.count) {
            this.#table.addRow();
            this.#table.depth[node] = this.#table.depth[parent] + 1;
        }
        return node;
    }

    /** All nodes, those of less depth first. */
    byDepth() {
        if (this.#byDepth.length !== this.count) {
            const depths = this.#table.column("depth");
            const next = new Uint32Array(depths.reduce((most, depth) => Math.max(most, depth), 0) + 2);
            depths.forEach((depth) => { next[depth + 1] += 1; });
            next.forEach((count, depth) => { next[depth] = count + (next[depth - 1] ?? 0); });
            this.#byDepth = new Uint32Array(this.count);
            depths.forEach((depth, node) => { this.#byDepth[next[depth]++] = node; });
        }
        return this.#byDepth;
    }
}
