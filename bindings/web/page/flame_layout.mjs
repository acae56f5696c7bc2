// The boxes of a flame graph by their rows, and questions about them.

/** The first index of a row whose box ends after a worth. */
function firstAfter(row, start, worth, value) {
    let [low, high] = [0, row.length];
    while (low < high) {
        const middle = (low + high) >> 1;
        if (start[row[middle]] + worth[row[middle]] > value) {
            high = middle;
        } else {
            low = middle + 1;
        }
    }
    return low;
}

function rowsOf({ depth, start }) {
    const counts = [];
    depth.forEach((deep) => {
        counts[deep] = (counts[deep] ?? 0) + 1;
    });
    const rows = Array.from(counts, (count) => new Int32Array(count ?? 0));
    const filled = new Int32Array(rows.length);
    depth.forEach((deep, node) => {
        rows[deep][filled[deep]++] = node;
    });
    for (const row of rows) {
        if (row.some((node, index) => index && start[row[index - 1]] > start[node])) {
            row.sort((one, other) => start[one] - start[other]);
        }
    }
    return rows;
}

export class FlameLayout {
    constructor({ total, nodes, samples }) {
        Object.assign(this, { total, samples, ...nodes });
        this.names = nodes.name;
        this.rows = rowsOf(nodes);
        this.root = this.rows.length ? this.rows[0][0] : -1;
    }

    nameOf(node) {
        return this.names[this.of[node]];
    }

    /** The names from below the root to a box, as in a folded line. */
    pathOf(node) {
        const names = [];
        for (let now = node; now >= 0 && this.parent[now] >= 0; now = this.parent[now]) {
            names.unshift(this.nameOf(now));
        }
        return names.join(";");
    }

    /** The box of a path; -1 if there is none. */
    find(path) {
        const child = (node, name) => this.childrenOf(node).find((one) => this.nameOf(one) === name) ?? -1;
        const names = path === "" ? [] : path.split(";");
        return names.reduce((node, name) => node < 0 ? -1 : child(node, name), this.root);
    }

    /** The boxes of a row that are at least partly between two worths. */
    between(deep, from, to) {
        const row = this.rows[deep] ?? [];
        const first = firstAfter(row, this.start, this.worth, from);
        let last = first;
        while (last < row.length && this.start[row[last]] < to) {
            last += 1;
        }
        return row.slice(first, last);
    }

    childrenOf(node) {
        const [from, worth] = [this.start[node], this.worth[node]];
        const below = Array.from(this.between(this.depth[node] + 1, from, from + worth));
        return below.filter((child) => this.parent[child] === node);
    }

    /** The child with the largest worth; -1 if there is none. */
    largestChild(node) {
        const isLarger = (one, other) => other < 0 || this.worth[one] > this.worth[other];
        return this.childrenOf(node).reduce((best, child) => isLarger(child, best) ? child : best, -1);
    }

    /** The box beside another under the same parent; -1 if there is none. */
    sibling(node, way) {
        const all = this.parent[node] < 0 ? [node] : this.childrenOf(this.parent[node]);
        return all[all.indexOf(node) + way] ?? -1;
    }

    nodeAt(deep, value) {
        const row = this.rows[deep] ?? [];
        const node = row[firstAfter(row, this.start, this.worth, value)];
        return node !== undefined && this.start[node] <= value ? node : -1;
    }

    /** Which boxes have words in their names, and how much those are worth together, each part counted once. */
    search(words) {
        const lower = words.toLowerCase();
        const isName = Uint8Array.from(this.names, (name) => Number(name.toLowerCase().includes(lower)));
        const [found, isInside] = [new Uint8Array(this.of.length), new Uint8Array(this.of.length)];
        let worth = 0, count = 0;
        for (const row of this.rows) {
            for (const node of row) {
                const parent = this.parent[node];
                found[node] = parent < 0 ? 0 : isName[this.of[node]];
                isInside[node] = parent >= 0 && isInside[parent] || found[node];
                count += found[node];
                worth += found[node] && !isInside[parent] ? this.worth[node] : 0;
            }
        }
        return { found, worth, count };
    }
}
