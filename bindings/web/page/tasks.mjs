// The table of tasks: each thread with its samples.

import { button, element, searchField } from "./elements.mjs";
import { elementPicture } from "./element_picture.mjs";
import { Grid } from "./grid.mjs";
import { filterOf } from "./view_state.mjs";
import { Latest } from "./worker_link.mjs";
import { clockText, countText, plural, shareText } from "./words.mjs";

export class Tasks {
    #shell;
    #rows = [];
    #shown = [];
    #total = 0;
    #most = 0;
    #asked;
    #work = new Latest();
    #active;
    #search = searchField("Filter by name or number", "Filter tasks by name or number");
    #count = element("span", { class: "quiet", role: "status" });
    #grid;

    constructor(shell) {
        this.#shell = shell;
        this.#grid = new Grid(this.#columns(), {
            label: "Tasks. Enter filters by the thread.",
            onopen: (row) => this.#filter(row, true),
            onactive: (row) => {
                this.#active = row;
            },
            onsort: (key) => this.#sort(key),
        });
        this.#search.addEventListener("input", () => shell.change({ task: this.#search.value }));
        this.root = element("div", { class: "column" }, element("div", { class: "tools" }, this.#search, this.#count,
            element("span", { class: "space" }),
            button("Only this thread", () => this.#active && this.#filter(this.#active, true)),
            button("Only this process", () => this.#active && this.#filter(this.#active, false))), this.#grid.root);
    }

    #columns() {
        const time = (value) => value === undefined ? "" : clockText(this.#shell.overview.start, value);
        const number = (key, title, width, text) => ({ key, title, width, isNumber: true, canSort: true, text });
        const when = (key, title) => number(key, title, 150, (row) => time(row[key]));
        return [
            { key: "name", title: "Name", width: 150, grow: 2, canSort: true, text: (row) => row.name },
            number("pid", "Process", 80, (row) => String(row.pid)),
            number("tid", "Thread", 80, (row) => String(row.tid)),
            number("samples", "Samples", 100, (row) => countText(row.samples)),
            { key: "share", title: "Share", width: 150, grow: 1, fill: (cell, row) => this.#fillShare(cell, row) },
            number("period", "Period", 120, (row) => countText(row.period)),
            when("first", "First sample"), when("last", "Last sample"), when("start", "Start"), when("end", "End"),
        ];
    }

    #fillShare(cell, row) {
        cell.className = "barred";
        const bar = element("div", {});
        bar.style.width = `${this.#most ? 100 * row.samples / this.#most : 0}%`;
        cell.append(element("span", {}, shareText(row.samples, this.#total)), element("div", { class: "share" }, bar));
    }

    reset() {
        this.#asked = this.#active = undefined;
        this.#rows = this.#shown = [];
        this.#grid.show(0, () => undefined);
    }

    svg() {
        return elementPicture(this.#grid.root, "Tasks");
    }

    focusSearch() {
        this.#search.focus();
    }

    show() {
        const { state } = this.#shell;
        if (this.#search.value !== state.task) {
            this.#search.value = state.task;
        }
        const filter = filterOf(state);
        const asked = JSON.stringify(filter);
        if (asked !== this.#asked) {
            this.#asked = asked;
            this.#work.run(() => this.#fetch(filter));
        } else {
            this.#arrange();
        }
    }

    async #fetch(filter) {
        try {
            this.#rows = await this.#shell.call("tasks", { filter });
            this.#total = this.#rows.reduce((sum, { samples }) => sum + samples, 0);
            this.#most = this.#rows.reduce((most, { samples }) => Math.max(most, samples), 0);
            this.#arrange();
        } catch (error) {
            this.#asked = undefined;
            this.#shell.complain(error);
        }
    }

    get #sorted() {
        const [, sign, key] = /^(-?)(\w+)$/.exec(this.#shell.state.sorted) ?? [];
        const isKey = this.#columns().some((column) => column.key === key && column.canSort);
        return isKey ? { key, isDown: sign === "-" } : { key: "samples", isDown: true };
    }

    #sort(key) {
        const now = this.#sorted;
        const isDown = now.key === key ? !now.isDown : key !== "name" && key !== "pid" && key !== "tid";
        this.#shell.change({ sorted: `${isDown ? "-" : ""}${key}` });
    }

    #arrange() {
        const { key, isDown } = this.#sorted;
        const words = this.#shell.state.task.toLowerCase();
        const way = isDown ? -1 : 1;
        this.#shown = this.#rows
            .filter((row) => `${row.name} ${row.pid} ${row.tid}`.toLowerCase().includes(words))
            .sort((one, other) => way * compare(one[key], other[key]) || one.pid - other.pid || one.tid - other.tid);
        this.#count.textContent = plural(this.#shown.length, "thread");
        const now = this.#active;
        const active = now ? this.#shown.findIndex(({ pid, tid }) => pid === now.pid && tid === now.tid) : -1;
        this.#grid.show(this.#shown.length, (index) => this.#shown[index], { active, sorted: { key, isDown } });
    }

    #filter({ pid, tid }, isThread) {
        this.#shell.change({ pid, tid: isThread ? tid : undefined }, true);
    }
}

/** Absent values are below all others. */
function compare(one, other) {
    if (typeof one === "string") {
        return one < other ? -1 : Number(one > other);
    }
    return (one ?? -Infinity) === (other ?? -Infinity) ? 0 : (one ?? -Infinity) - (other ?? -Infinity);
}
