// Which samples a filter selects.

/** The first place of rising times at which one is at least `time`; with `isAfter` above it. */
export function placeOf(times, time, isAfter) {
    let [low, high] = [0, times.length];
    while (low < high) {
        const middle = low + high >>> 1;
        if (times[middle] < time || isAfter && times[middle] === time) {
            low = middle + 1;
        } else {
            high = middle;
        }
    }
    return low;
}

/** The places from `from` to `to` of rising times, without those that have no time if there is a limit. */
export function placesWithin(times, { from, to }) {
    const hasLimit = from !== undefined || to !== undefined;
    const first = hasLimit ? placeOf(times, Math.max(from ?? 0, 0), false) : 0;
    return [first, to === undefined ? times.length : placeOf(times, to, true)];
}

/** Of each thread whether a filter's process and thread select it; `undefined` if it has neither. */
function selectedTasks(tasks, { pid, tid }) {
    if (pid === undefined && tid === undefined) {
        return undefined;
    }
    const selected = new Uint8Array(tasks.count);
    for (let task = 0; task < selected.length; task++) {
        selected[task] = (pid === undefined || tasks.pid(task) === pid >>> 0)
            && (tid === undefined || tasks.tid(task) === tid >>> 0) ? 1 : 0;
    }
    return selected;
}

/** The places of the selected samples, in order of time. */
export function select({ samples, tasks, texts }, filter) {
    const [first, end] = placesWithin(samples.time, filter);
    const places = new Uint32Array(Math.max(end - first, 0));
    const name = filter.comm === undefined ? undefined : texts.numbers.get(filter.comm) ?? -1;
    const selected = selectedTasks(tasks, filter);
    const { event, cpu } = filter;
    let count = 0;
    for (let place = first; place < end; place++) {
        if ((event === undefined || samples.event[place] === event) && (cpu === undefined || samples.cpu[place] === cpu)
            && (name === undefined || samples.name[place] === name)
            && (selected === undefined || selected[samples.task[place]] === 1)) {
            places[count++] = place;
        }
    }
    return places.subarray(0, count);
}
