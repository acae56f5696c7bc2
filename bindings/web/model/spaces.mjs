// The address spaces of processes, as they are at one time.

import { Mappings } from "./mappings.mjs";

/** In place of a process: the kernel. */
export const KERNEL = "kernel";
const EMPTY = { root: 0, owner: 0, state: 0 };

/** What each process has mapped. `state` of a space changes with it, and equal states are equal spaces. */
export class Spaces {
    #mappings = new Mappings();
    #spaces = new Map();
    #owners = 0;
    #states = 0;

    constructor(table) {
        this.table = table;
    }

    of(pid) { return this.#spaces.get(pid) ?? EMPTY; }

    /** A process maps something, or code of the kernel gets a name. */
    map(mapping, pid = this.table.pid[mapping]) {
        const { table } = this;
        let space = this.#spaces.get(pid);
        if (space === undefined) {
            space = { root: 0, owner: ++this.#owners, state: 0 };
            this.#spaces.set(pid, space);
        }
        space.root = this.#mappings.insert(space.root, space.owner, table.firstUpper[mapping],
            table.firstLower[mapping], table.lastUpper[mapping], table.lastLower[mapping], mapping);
        space.state = ++this.#states;
    }

    /** A new process begins with what its parent has. */
    fork(pid, parent) {
        const from = this.#spaces.get(parent);
        if (from === undefined) {
            this.#spaces.delete(pid);
            return;
        }
        from.owner = ++this.#owners;
        this.#spaces.set(pid, { root: from.root, owner: ++this.#owners, state: from.state });
    }

    find(space, upper, lower) { return this.#mappings.find(space.root, upper, lower); }
}
