// Tables: tasks, and records that sort and filter.

import { NO_CPU, NO_TASK } from "./frames.mjs";
import { placesWithin, select } from "./selection.mjs";

const UNTIMED = (time) => time === -Infinity ? undefined : time;
const KNOWN = (time) => Number.isNaN(time) ? undefined : time;

const MOST_TASKS = 20000;

/** A row for each thread that a frame is about, with the selected samples of each; of too many those with most. */
export function tasks(recording, { filter = {} } = {}) {
    const { tasks: all, texts, samples } = recording;
    const sums = { samples: new Float64Array(all.count), period: new Float64Array(all.count) };
    const [first, last] = [new Float64Array(all.count).fill(NaN), new Float64Array(all.count).fill(NaN)];
    for (const place of select(recording, filter)) {
        const [task, time] = [samples.task[place], samples.time[place]];
        sums.samples[task] += 1;
        sums.period[task] += Number(samples.period[place]);
        if (time > -Infinity) {
            first[task] = Number.isNaN(first[task]) ? time : first[task];
            last[task] = time;
        }
    }
    const rows = [];
    for (let task = 0; task < all.count; task++) {
        const [pid, tid, name] = [all.pid(task), all.tid(task), texts.list[all.nameOf(task)]];
        const isSelected = (filter.pid ?? pid) === pid && (filter.tid ?? tid) === tid
            && (sums.samples[task] > 0 || filter.cpu === undefined && (filter.comm ?? name) === name);
        if (isSelected && all.isKnown[task]) {
            rows.push({
                pid, tid, name, start: KNOWN(all.start[task]), end: KNOWN(all.end[task]),
                samples: sums.samples[task], period: sums.period[task], first: KNOWN(first[task]),
                last: KNOWN(last[task]),
            });
        }
    }
    return rows.length <= MOST_TASKS ? rows
        : rows.sort((one, other) => other.samples - one.samples).slice(0, MOST_TASKS);
}

/** Of each frame whether a filter and a kind select it, but for its time and its text. */
function selects(recording, filter, kind) {
    const { frames, tasks: all } = recording;
    const { event, pid, tid, cpu, comm } = filter;
    const hasTask = pid !== undefined || tid !== undefined;
    return (index) => {
        const task = frames.task[index];
        return (kind === undefined || recording.kindOf(index) === kind)
            && (event === undefined || frames.event[index] === event)
            && (cpu === undefined || frames.cpu[index] === cpu)
            && (!hasTask || task !== NO_TASK && (pid === undefined || all.pid(task) === pid)
                && (tid === undefined || all.tid(task) === tid))
            && (comm === undefined || recording.nameAt(index) === comm);
    };
}

/** The words of a row that a search looks at. */
function wordsOf(row, recording) {
    const event = recording.events[row.event]?.name ?? "";
    const task = `${row.pid ?? ""}/${row.tid ?? ""} ${recording.nameAt(row.index)}`;
    return `${row.name} ${event} ${task} ${row.summary}`.toLowerCase();
}

function rowOf(recording, index) {
    const { frames, tasks: all } = recording;
    const [task, cpu, event] = [frames.task[index], frames.cpu[index], frames.event[index]];
    return {
        index, at: frames.at[index], time: UNTIMED(frames.time[index]), name: recording.kindOf(index),
        pid: task === NO_TASK ? undefined : all.pid(task), tid: task === NO_TASK ? undefined : all.tid(task),
        cpu: cpu === NO_CPU ? undefined : cpu, event: event < 0 ? undefined : event, size: frames.size[index],
        summary: recording.summaryAt(index),
    };
}

/** The frames from `from` to `to`, in an order, as an iterable of their numbers. */
function* inRange(recording, { from, to }, sort) {
    const { frames, order, times } = recording;
    if (sort === "time") {
        const [first, end] = placesWithin(times, { from, to });
        yield* order.subarray(first, end);
        return;
    }
    const hasLimit = from !== undefined || to !== undefined;
    const [least, most] = [hasLimit ? Math.max(from ?? 0, 0) : -Infinity, to ?? Infinity];
    for (let index = 0; index < frames.count; index++) {
        const time = frames.time[index];
        if (time >= least && time <= most) {
            yield index;
        }
    }
}

/** Rows of the frames that a filter, a kind and all words of a text select, `count` of them from `offset` on. */
export function records(recording, { filter = {}, sort = "file", kind, text = "", offset = 0, count = 100 }) {
    const isSelected = selects(recording, filter, kind);
    const words = text.toLowerCase().split(/\s+/).filter((word) => word !== "");
    const rows = [];
    let total = 0;
    for (const index of inRange(recording, filter, sort)) {
        if (!isSelected(index)) {
            continue;
        }
        const isShown = total >= offset && rows.length < count;
        const row = words.length > 0 || isShown ? rowOf(recording, index) : undefined;
        if (words.length > 0) {
            const found = wordsOf(row, recording);
            if (!words.every((word) => found.includes(word))) {
                continue;
            }
        }
        if (isShown) {
            rows.push(row);
        }
        total += 1;
    }
    return { total, rows };
}
