// Sorting by time.

/** The places where a run of rising times ends, in order. */
function runsOf(times) {
    const ends = [];
    for (let place = 1; place < times.length; place++) {
        if (times[place] < times[place - 1]) {
            ends.push(place);
        }
    }
    ends.push(times.length);
    return ends;
}

/** Merges two runs of places, from `first` to `middle` and from there to `end`. */
function merge(times, from, to, first, middle, end) {
    let [left, right] = [first, middle];
    for (let place = first; place < end; place++) {
        const isLeft = left < middle && (right >= end || times[from[left]] <= times[from[right]]);
        to[place] = isLeft ? from[left++] : from[right++];
    }
}

/** The places of times in rising order; equal ones stay in their order. Merges runs, of which a recording has few. */
export function orderOf(times) {
    let from = new Uint32Array(times.length).map((_, place) => place);
    let to = new Uint32Array(times.length);
    for (let ends = runsOf(times); ends.length > 1;) {
        const merged = [];
        for (let run = 0; run < ends.length; run += 2) {
            const [first, middle] = [run === 0 ? 0 : ends[run - 1], ends[run]];
            const end = ends[run + 1] ?? middle;
            merge(times, from, to, first, middle, end);
            merged.push(end);
        }
        [from, to, ends] = [to, from, merged];
    }
    return from;
}
