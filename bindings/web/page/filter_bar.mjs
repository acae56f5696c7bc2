// The filter that all views share.

import { button, chooser, element, setOptions } from "./elements.mjs";
import { filterOf, NO_FILTER } from "./view_state.mjs";
import { Latest } from "./worker_link.mjs";
import { countText, spanText } from "./words.mjs";

// The tasks below these are in the table of tasks.
const MOST = 300;

export class FilterBar {
    #shell;
    #tasks = [];
    #asked;
    #offered;
    #work = new Latest();
    #choosers = {
        event: this.#number("Event", "event"), pid: this.#number("Process", "pid"), tid: this.#number("Thread", "tid"),
        comm: chooser("Command", (comm) => this.#shell.change({ comm }, true), { id: "filter-comm" }),
        cpu: this.#number("CPU", "cpu"),
    };
    #range = element("span", { class: "chosen-range", id: "chosen-range", hidden: true });
    #clear = button("Clear", () => this.#shell.change(NO_FILTER, true),
        { id: "clear-filter", title: "Clear the filter" });
    #count = element("span", { class: "count", id: "count", role: "status" });

    constructor(shell, root) {
        this.#shell = shell;
        root.append(...Object.values(this.#choosers).map(({ label }) => label), this.#range, this.#clear, this.#count);
    }

    #number(title, name) {
        return chooser(title, (text) => {
            const value = text === "" ? undefined : Number(text);
            this.#shell.change(name === "pid" ? { pid: value, tid: undefined } : { [name]: value }, true);
        }, { id: `filter-${name}` });
    }

    /** Fills the lists for a recording. */
    async load() {
        this.#asked = this.#offered = undefined;
        this.#tasks = await this.#shell.call("tasks", { filter: {} });
    }

    #options() {
        const { overview, state } = this.#shell;
        const bySamples = [...this.#tasks].sort((one, other) => other.samples - one.samples);
        const named = new Map();
        for (const { pid, tid, name } of bySamples) {
            if (pid === tid || !named.has(pid)) {
                named.set(pid, name);
            }
        }
        const threads = bySamples.filter(({ pid }) => state.pid === undefined || pid === state.pid);
        const commands = [...new Set(bySamples.map(({ name }) => name))];
        return {
            event: overview.events.map(({ index, name }) => [index, name]),
            pid: [...named].map(([pid, name]) => [pid, `${pid} ${name}`]),
            tid: threads.map(({ tid, name }) => [tid, `${tid} ${name}`]),
            comm: commands.map((name) => [name, name]),
            cpu: overview.cpus.map((cpu) => [cpu, String(cpu)]),
        };
    }

    /** Fills the lists if what they depend on has changed. */
    #offer() {
        const { overview, state } = this.#shell;
        const offered = `${overview.name} ${state.pid}`;
        if (this.#offered === offered) {
            return;
        }
        this.#offered = offered;
        for (const [name, pairs] of Object.entries(this.#options())) {
            const { select, label } = this.#choosers[name];
            setOptions(select, [["", "All"], ...pairs.slice(0, MOST)], "");
            label.hidden = !pairs.length;
        }
    }

    show() {
        const { state } = this.#shell;
        this.#offer();
        for (const [name, { select }] of Object.entries(this.#choosers)) {
            const value = state[name] === undefined ? "" : String(state[name]);
            select.value = value;
            if (select.value !== value) {
                select.append(element("option", { value }, value));
                select.value = value;
            }
        }
        this.#showRange(state.range);
        this.#clear.disabled = JSON.stringify(filterOf(state)) === "{}";
        this.#ask();
    }

    #showRange(range) {
        this.#range.hidden = !range;
        if (range) {
            const clear = button("✕", () => this.#shell.change({ range: undefined }, true),
                { class: "plain", id: "clear-range", "aria-label": "Clear the selected range" });
            const { from, to } = range;
            this.#range.replaceChildren(`${spanText(from)} – ${spanText(to)} (${spanText(to - from)})`, clear);
        }
    }

    #ask() {
        const filter = filterOf(this.#shell.state);
        const asked = JSON.stringify(filter);
        if (asked !== this.#asked) {
            this.#asked = asked;
            this.#work.run(() => this.#fetch(filter));
        }
    }

    async #fetch(filter) {
        try {
            const tasks = await this.#shell.call("tasks", { filter });
            const count = tasks.reduce((sum, { samples }) => sum + samples, 0);
            this.#count.textContent = `${countText(count)} of ${countText(this.#shell.overview.samples)} samples`;
        } catch (error) {
            this.#asked = undefined;
            this.#shell.complain(error);
        }
    }
}
