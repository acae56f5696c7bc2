// What is in view, and its text in the address after `#`.

const number = {
    initial: undefined,
    read: (text) => /^\d{1,15}$/.test(text) ? Number(text) : undefined,
    write: String,
};
const words = { initial: "", read: (text) => text, write: String };
const flag = { initial: false, read: (text) => text === "1", write: () => "1" };
const span = {
    initial: undefined,
    read(text) {
        const found = /^(\d{1,16})-(\d{1,16})$/.exec(text);
        const [from, to] = found ? [Number(found[1]), Number(found[2])] : [1, 0];
        return from < to ? { from, to } : undefined;
    },
    write: ({ from, to }) => `${Math.floor(from)}-${Math.ceil(to)}`,
};
const choice = (...values) => ({
    initial: values[0],
    read: (text) => values.includes(text) ? text : values[0],
    write: String,
});

export const TABS = ["overview", "timeline", "flame", "tasks", "records"];
export const THEMES = ["auto", "light", "dark"];

/** `view` is the range in sight on the timeline and `range` the selected one, in nanoseconds after the first time. */
const MEMBERS = {
    tab: choice(...TABS), theme: choice(...THEMES), by: choice("thread", "cpu"), view: span, range: span,
    event: number, pid: number, tid: number, cpu: number, comm: words,
    weight: choice("samples", "period"), inverted: flag, box: words, search: words,
    lanes: choice("samples", "sight", "start", "number"), order: choice("file", "time"), kind: words, text: words,
    frame: number, task: words, sorted: words,
};

export function initialState() {
    return Object.fromEntries(Object.entries(MEMBERS).map(([name, member]) => [name, member.initial]));
}

/** The state of an address: members that are absent or wrong in it have their initial value. */
export function readAddress(text) {
    const state = initialState();
    for (const [name, value] of new URLSearchParams(text.replace(/^#/, ""))) {
        if (Object.hasOwn(MEMBERS, name)) {
            state[name] = MEMBERS[name].read(value);
        }
    }
    return state;
}

export function writeAddress(state) {
    const parts = new URLSearchParams();
    for (const [name, member] of Object.entries(MEMBERS)) {
        if (state[name] !== undefined && state[name] !== member.initial) {
            parts.set(name, member.write(state[name]));
        }
    }
    return parts.size ? `#${parts}` : "#";
}

/** The filter of a state in the words of the worker; the selected range is left out on request. */
export function filterOf(state, hasRange = true) {
    const { range, event, pid, tid, cpu, comm } = state;
    const filter = { event, pid, tid, cpu, comm: comm || undefined };
    return hasRange && range ? { ...filter, from: range.from, to: range.to } : filter;
}

/** A state without any filter. */
export const NO_FILTER = {
    range: undefined, event: undefined, pid: undefined, tid: undefined, cpu: undefined, comm: "",
};
