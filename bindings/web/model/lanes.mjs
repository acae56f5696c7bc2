// The timeline: a lane for each thread or processor, with samples as density, switches as intervals, and marks.

import { NO_CPU, NO_TASK } from "./frames.mjs";
import { MARKS } from "./history.mjs";
import { placesWithin, select } from "./selection.mjs";

/** Of one lane, and of all. */
const MOST_MARKS = 2000;
const MOST_MARKS_IN_ALL = 30000;
const MOST_LANES = 1000;
const MOST_COLUMNS = 100000;

/** What a lane is by: the key of a sample, a mark or an interval in columns of `task` and `cpu`, and its numbers. */
const KINDS = {
    thread: {
        column: "task", none: NO_TASK,
        lane: ({ tasks, texts }, task) => ({
            key: `${tasks.pid(task)}:${tasks.tid(task)}`, label: texts.list[tasks.nameOf(task)],
            pid: tasks.pid(task), tid: tasks.tid(task), cpu: undefined,
        }),
    },
    cpu: {
        column: "cpu", none: NO_CPU,
        lane: (_, cpu) => ({ key: String(cpu), label: `CPU ${cpu}`, pid: undefined, tid: undefined, cpu }),
    },
};

/** How many samples each lane has in the whole recording. With a filter, lanes without any are left out. */
function countsOf(recording, { column, none }, filter) {
    const { samples, running, marks } = recording;
    const counts = new Map();
    if (["event", "pid", "tid", "comm", "cpu"].every((name) => filter[name] === undefined)) {
        running.column(column).forEach((key) => counts.set(key, 0));
        marks.column(column).forEach((key) => counts.set(key, 0));
    }
    for (const place of select(recording, { ...filter, from: undefined, to: undefined })) {
        const key = samples[column][place];
        counts.set(key, (counts.get(key) ?? 0) + 1);
    }
    counts.delete(none);
    return counts;
}

/** The lanes, those with most samples first, and how many there are in all. */
function emptyLanes(recording, kind, filter, { columns, limit }) {
    const counts = countsOf(recording, kind, filter);
    const keys = [...counts.keys()].sort((one, other) => counts.get(other) - counts.get(one) || one - other);
    const lanes = new Map();
    for (const key of keys.slice(0, limit)) {
        lanes.set(key, {
            ...kind.lane(recording, key), samples: 0, density: new Uint32Array(columns), running: [], marks: [],
        });
    }
    return [lanes, keys.length];
}

function putSamples(recording, lanes, kind, filter, view) {
    const { samples } = recording;
    const { from, columns, width } = view;
    for (const place of select(recording, { ...filter, from: view.from, to: view.to })) {
        const lane = lanes.get(samples[kind.column][place]);
        if (lane !== undefined) {
            lane.samples += 1;
            lane.density[Math.min(Math.floor((samples.time[place] - from) / width), columns - 1)] += 1;
        }
    }
}

/** Puts the intervals in view; those that are in one column together are one. */
function putRunning({ running }, lanes, kind, { from, to, width }) {
    const [begins, ends, keys] = ["from", "to", kind.column].map((name) => running.column(name));
    for (let place = 0; place < begins.length; place++) {
        const list = begins[place] > to || ends[place] < from ? undefined : lanes.get(keys[place])?.running;
        if (list === undefined) {
            continue;
        }
        const [begin, end] = [Math.max(begins[place], from), Math.min(ends[place], to)];
        if (list.length > 0 && begin - list.at(-1) < width) {
            list[list.length - 1] = Math.max(end, list.at(-1));
        } else {
            list.push(begin, end);
        }
    }
}

/** What a mark says. */
function markText({ frames, tasks, texts }, frame, task, kind) {
    const extra = frames.extra[frame];
    if (kind === "comm" || kind === "exec") {
        return texts.list[extra];
    }
    if (kind !== "fork") {
        return kind;
    }
    const child = frames.task[frame];
    const [word, other] = task === child ? ["forked by", extra] : ["forks", child];
    return `${word} ${tasks.pid(other)}/${tasks.tid(other)}`;
}

/** The places of the marks in view of each lane, by its key: at most one of a kind in each column. */
function marksInView({ marks }, lanes, kind, { from, to, width }) {
    const [first, end] = placesWithin(marks.column("time"), { from, to });
    const keys = marks[kind.column];
    const [found, last] = [new Map(), new Map()];
    for (let place = first; place < end; place++) {
        const key = keys[place] * MARKS.length + marks.kind[place];
        const column = Math.floor((marks.time[place] - from) / width);
        if (lanes.has(keys[place]) && last.get(key) !== column) {
            last.set(key, column);
            const list = found.get(keys[place]) ?? [];
            list.push(place);
            found.set(keys[place], list);
        }
    }
    return found;
}

/** Puts the marks in view, in columns so wide that they are not too many. */
function putMarks(recording, lanes, kind, view) {
    const { marks } = recording;
    let [{ width }, found, counts] = [view];
    do {
        found = marksInView(recording, lanes, kind, { ...view, width });
        counts = [...found.values()].map((places) => places.length);
        width *= 2;
    } while (counts.some((count) => count > MOST_MARKS)
        || counts.reduce((sum, count) => sum + count, 0) > MOST_MARKS_IN_ALL);
    for (const [key, places] of found) {
        lanes.get(key).marks = places.map((place) => {
            const mark = MARKS[marks.kind[place]];
            const text = markText(recording, marks.frame[place], marks.task[place], mark);
            return { time: marks.time[place], kind: mark, text };
        });
    }
}

/** The lanes of a range of time. */
export function lanes(recording, { by = "thread", from = 0, to = recording.duration, columns = 1000, filter = {},
    limit = MOST_LANES }) {
    const kind = KINDS[by];
    if (kind === undefined) {
        throw new RangeError("lanes are by thread or by cpu");
    }
    const whole = Math.min(Math.max(Math.floor(columns) || 1, 1), MOST_COLUMNS);
    const view = { from, to: Math.max(to, from), columns: whole, width: Math.max(to - from, 1) / whole };
    const [found, total] = emptyLanes(recording, kind, filter, { columns: whole, limit: Math.min(limit, MOST_LANES) });
    putSamples(recording, found, kind, filter, view);
    putRunning(recording, found, kind, view);
    putMarks(recording, found, kind, view);
    const list = [...found.values()];
    list.forEach((lane) => { lane.running = Float64Array.from(lane.running); });
    return { lanes: list, total };
}
