// Flame graphs: the selected samples as one tree, in which equal callers have one box.

import { Table, Triples } from "./growing.mjs";
import { select } from "./selection.mjs";
import { EVENT_DEPTH } from "./tree.mjs";

const PLACE = 3;
/** In place of a box: there is none. */
const NOTHING = 0xffffffff;
const ROOT = "all";

/** Boxes by their numbers, each after its parent. What one is has a kind: 1 a thread's name, 2 an event, 3 a place. */
class Boxes extends Table {
    constructor({ tree, shown }, total) {
        super({ worth: Float64Array, depth: Uint16Array }, 1024);
        Object.assign(this, { tree, shown, ids: new Triples() });
        this.ids.numberOf(NOTHING, 0, 0);
        this.worth[this.addRow()] = total;
    }

    parent(box) { return this.ids.first[box]; }

    /** Adds the worth of a node of the call tree to its box among the children of `parent`, and returns that. */
    add(parent, node, worth) {
        const what = this.tree.what(node);
        const kind = Math.min(this.tree.depth(node), PLACE);
        const box = this.ids.numberOf(parent, kind === PLACE ? this.shown.of(what) : what, kind);
        if (box === this.count) {
            this.addRow();
            this.depth[box] = this.depth[parent] + 1;
        }
        this.worth[box] += worth;
        return box;
    }
}

/** Of each node of the call tree the worth of the samples that end there. */
function ownWorths(recording, places, weight) {
    const worths = new Float64Array(recording.tree.count);
    const { node, period } = recording.samples;
    for (const place of places) {
        worths[node[place]] += weight === "period" ? Number(period[place]) : 1;
    }
    return worths;
}

/** Boxes as the calls went. Those of less than the share `minimum` have no children. */
function callersFirst(recording, own, hasEvents, minimum) {
    const { tree } = recording;
    const worths = own.slice();
    for (let node = tree.count - 1; node > 0; node--) {
        worths[tree.parent(node)] += worths[node];
    }
    const boxes = new Boxes(recording, worths[0]);
    const least = minimum * worths[0];
    const boxOf = new Uint32Array(tree.count).fill(NOTHING);
    boxOf[0] = 0;
    for (const node of tree.byDepth()) {
        const parent = boxOf[tree.parent(node)];
        if (node > 0 && parent !== NOTHING && worths[node] > 0 && boxes.worth[parent] >= least) {
            boxOf[node] = tree.depth(node) !== EVENT_DEPTH || hasEvents ? boxes.add(parent, node, worths[node]) : parent;
        }
    }
    return boxes;
}

/** Boxes with the place of each sample first, and then its callers. Those of less than a share have no children. */
function calleesFirst(recording, own, hasEvents, minimum) {
    const { tree } = recording;
    const nodes = Uint32Array.from(own.keys()).filter((node) => own[node] > 0);
    const worths = Float64Array.from(nodes, (node) => own[node]);
    const boxes = new Boxes(recording, worths.reduce((sum, worth) => sum + worth, 0));
    const least = minimum * boxes.worth[0];
    const boxOf = new Uint32Array(nodes.length);
    // Each round adds a caller of all that have one yet, so that the boxes of the round before have their whole worth.
    for (let [count, left] = [nodes.length, 0]; count > 0; [count, left] = [left, 0]) {
        for (let place = 0; place < count; place++) {
            const [node, parent, worth] = [nodes[place], boxOf[place], worths[place]];
            if (node > 0 && boxes.worth[parent] >= least) {
                boxOf[left] = tree.depth(node) !== EVENT_DEPTH || hasEvents ? boxes.add(parent, node, worth) : parent;
                nodes[left] = tree.parent(node);
                worths[left++] = worth;
            }
        }
    }
    return boxes;
}

/** The texts of boxes, each once. */
class Names {
    #numbers = new Map();

    constructor({ texts, shown }) {
        Object.assign(this, { texts, shown, list: [ROOT] });
    }

    /** The number of a box's text in the list. */
    of(boxes, box) {
        if (box === 0) {
            return 0;
        }
        const [what, kind] = [boxes.ids.second[box], boxes.ids.third[box]];
        const text = kind === PLACE ? this.shown.textOf(what) : this.texts.list[what];
        let number = this.#numbers.get(text);
        if (number === undefined) {
            number = this.list.push(text) - 1;
            this.#numbers.set(text, number);
        }
        return number;
    }
}

/** The children of each kept box, sorted by name: those of `parent` are in `list` from `starts[parent]` on. */
function childrenOf(boxes, kept, names) {
    const starts = new Uint32Array(boxes.count + 1);
    kept.forEach((box) => { starts[boxes.parent(box) + 1] += 1; });
    for (let box = 0; box < boxes.count; box++) {
        starts[box + 1] += starts[box];
    }
    const list = new Uint32Array(kept.length);
    const next = starts.slice();
    kept.forEach((box) => { list[next[boxes.parent(box)]++] = box; });
    const text = (box) => names.list[names.of(boxes, box)];
    for (let box = 0; box < boxes.count; box++) {
        if (starts[box + 1] - starts[box] > 1) {
            const part = Array.from(list.subarray(starts[box], starts[box + 1]), (child) => [text(child), child]);
            part.sort(([one], [other]) => one < other ? -1 : one > other ? 1 : 0);
            part.forEach(([, child], place) => { list[starts[box] + place] = child; });
        }
    }
    return { starts, list };
}

/** The boxes that are at least `least` wide, each after its parent, with the place where each begins. */
function arranged(boxes, least, names) {
    const kept = [];
    for (let box = 1; box < boxes.count; box++) {
        if (boxes.worth[box] >= least) {
            kept.push(box);
        }
    }
    const { starts, list } = childrenOf(boxes, kept, names);
    const count = kept.length + 1;
    const nodes = {
        name: names.list, of: new Int32Array(count), parent: new Int32Array(count).fill(-1),
        depth: new Uint16Array(count), start: new Float64Array(count), worth: new Float64Array(count),
    };
    const boxAt = new Uint32Array(count);
    nodes.worth[0] = boxes.worth[0];
    let last = 0;
    for (let node = 0; node < count; node++) {
        const parent = boxAt[node];
        let start = nodes.start[node];
        for (let place = starts[parent]; place < starts[parent + 1]; place++) {
            const box = list[place];
            last += 1;
            boxAt[last] = box;
            nodes.of[last] = names.of(boxes, box);
            nodes.parent[last] = node;
            nodes.depth[last] = boxes.depth[box];
            nodes.start[last] = start;
            nodes.worth[last] = boxes.worth[box];
            start += boxes.worth[box];
        }
    }
    return nodes;
}

/** Whether stacks have the event of their samples. */
const hasEventsIn = ({ events }, filter) => events.length > 1 && filter.event === undefined;

/** The boxes of samples. */
function boxesOf(recording, { filter = {}, weight = "samples", inverted = false, minimum = 0 }, places) {
    const own = ownWorths(recording, places, weight);
    return (inverted ? calleesFirst : callersFirst)(recording, own, hasEventsIn(recording, filter), minimum);
}

/** The flame graph of the selected samples, of boxes that are at least the share `minimum` of all. */
export function flame(recording, words) {
    const places = select(recording, words.filter ?? {});
    const boxes = boxesOf(recording, words, places);
    const nodes = arranged(boxes, (words.minimum ?? 0) * boxes.worth[0], new Names(recording));
    const deepest = nodes.depth.reduce((most, depth) => Math.max(most, depth), 0);
    return { total: boxes.worth[0], nodes, samples: places.length, deepest };
}

/** Of each node of the call tree at which selected samples end their sum, modulo 2^64. */
function sumsOf({ samples }, places, weight) {
    const sums = new Map();
    for (const place of places) {
        const [node, worth] = [samples.node[place], weight === "period" ? samples.period[place] : 1n];
        sums.set(node, BigInt.asUintN(64, (sums.get(node) ?? 0n) + worth));
    }
    return sums;
}

/** The text of the stack of each of these nodes, by its number. */
function stacksOf({ tree, texts, shown }, nodes, hasEvents) {
    const isNeeded = new Uint8Array(tree.count);
    nodes.forEach((node) => { isNeeded[node] = 1; });
    for (let node = tree.count - 1; node > 0; node--) {
        isNeeded[tree.parent(node)] |= isNeeded[node];
    }
    const stacks = [""];
    for (let node = 1; node < tree.count; node++) {
        const [what, depth, parent] = [tree.what(node), tree.depth(node), tree.parent(node)];
        if (isNeeded[node]) {
            const name = depth < PLACE ? texts.list[what] : shown.textOf(shown.of(what));
            stacks[node] = parent === 0 ? name : depth === EVENT_DEPTH && !hasEvents ? stacks[parent]
                : `${stacks[parent]};${name}`;
        }
    }
    return stacks;
}

/** Compares texts by their bytes in UTF-8: half of a character is above all that need no halves. */
function compareByBytes(one, other) {
    const end = Math.min(one.length, other.length);
    for (let at = 0; at < end; at++) {
        const [first, second] = [one.charCodeAt(at), other.charCodeAt(at)];
        if (first !== second) {
            const [isHalf, isOtherHalf] = [first, second].map((it) => it >= 0xd800 && it < 0xe000);
            return isHalf === isOtherHalf ? first - second : isHalf ? 1 : -1;
        }
    }
    return one.length - other.length;
}

/** The selected samples as the lines of `perf_data fold`. */
export function folded(recording, { filter = {}, weight }) {
    const sums = sumsOf(recording, select(recording, filter), weight);
    const stacks = stacksOf(recording, [...sums.keys()], hasEventsIn(recording, filter));
    const lines = new Map();
    for (const [node, sum] of sums) {
        lines.set(stacks[node], BigInt.asUintN(64, (lines.get(stacks[node]) ?? 0n) + sum));
    }
    return Array.from(lines).sort(([one], [other]) => compareByBytes(one, other))
        .map(([stack, sum]) => `${stack} ${sum}\n`);
}
