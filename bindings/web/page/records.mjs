// The table of records, and one frame's fields in full.

import { button, chooser, element, fact, searchField, setOptions } from "./elements.mjs";
import { elementPicture } from "./element_picture.mjs";
import { Grid } from "./grid.mjs";
import { showBytes } from "./bytes_dialog.mjs";
import { filterOf } from "./view_state.mjs";
import { Latest } from "./worker_link.mjs";
import { clockText, countText, plural } from "./words.mjs";

const PAGE = 200;
const KEPT = 40;

export class Records {
    #shell;
    #total = 0;
    #pages = new Map();
    #asked;
    #symbols = 0;
    #work = new Latest();
    #time;
    #grid;
    #details = element("aside", { class: "details", "aria-label": "Frame", tabindex: "0", hidden: true });
    #search = searchField("Filter by words", "Filter records by words");
    #kind = chooser("Type", (kind) => this.#shell.change({ kind }, true), { id: "kind" });
    #count = element("span", { class: "quiet", role: "status", id: "records-count" });

    constructor(shell) {
        this.#shell = shell;
        this.#grid = new Grid(this.#columns(), {
            label: "Records. Enter shows a record's bytes.",
            onopen: (row) => showBytes(shell, row),
            onactive: (row) => shell.change({ frame: row.index }),
            onsort: (key) => shell.change({ order: key === "time" ? "time" : "file" }, true),
            onneed: (first, count) => this.#need(first, count),
        });
        this.#search.addEventListener("input", () => {
            clearTimeout(this.#time);
            this.#time = setTimeout(() => shell.change({ text: this.#search.value }), 150);
        });
        this.root = element("div", { class: "column" },
            element("div", { class: "tools" }, this.#search, this.#kind.label, this.#count),
            element("div", { class: "split" }, this.#grid.root, this.#details));
    }

    #columns() {
        const number = (key, title, width) =>
            ({ key, title, width, isNumber: true, text: (row) => String(row[key] ?? "") });
        const shell = this.#shell;
        return [
            { ...number("index", "#", 80), canSort: true },
            number("at", "Offset", 90),
            { key: "time", title: "Time", width: 140, isNumber: true, canSort: true,
                text: (row) => row.time === undefined ? "" : clockText(shell.overview.start, row.time) },
            { key: "name", title: "Type", width: 110, text: (row) => row.name,
                style: (row) => row.name === "refused" ? "is-refused" : "" },
            number("pid", "Process", 72), number("tid", "Thread", 72), number("cpu", "CPU", 46),
            { key: "event", title: "Event", width: 110, text: (row) => shell.eventName(row.event) },
            number("size", "Size", 60),
            { key: "summary", title: "Summary", width: 220, grow: 1, text: (row) => row.summary ?? "" },
        ];
    }

    reset() {
        this.#asked = undefined;
        this.#total = 0;
        this.#pages.clear();
        this.#grid.show(0, () => undefined);
        this.#details.hidden = true;
        delete this.#details.dataset.frame;
        this.#kind.select.replaceChildren();
    }

    svg() {
        return elementPicture(this.#grid.root.parentElement, "Records");
    }

    focusSearch() {
        this.#search.focus();
    }

    show() {
        const { state, overview, symbols } = this.#shell;
        if (!this.#kind.select.options.length) {
            const kinds = [...overview.records, { name: "refused", count: overview.refused.count }]
                .filter(({ count }) => count > 0).map(({ name, count }) => [name, `${name} (${countText(count)})`]);
            setOptions(this.#kind.select, [["", "All"], ...kinds], "");
        }
        this.#kind.select.value = state.kind;
        if (document.activeElement !== this.#search) {
            this.#search.value = state.text;
        }
        const words = { filter: filterOf(state), sort: state.order, kind: state.kind || undefined, text: state.text };
        const asked = JSON.stringify(words);
        if (asked !== this.#asked || symbols !== this.#symbols) {
            this.#asked = asked;
            this.#symbols = symbols;
            this.#count.textContent = "…";
            this.#work.run(() => this.#begin(words, asked));
        }
        this.#details.hidden ||= state.frame === undefined;
        if (state.frame !== undefined && this.#details.dataset.frame !== String(state.frame)) {
            this.#open(state.frame);
        }
    }

    async #begin(words, asked) {
        try {
            const { total, rows } = await this.#shell.call("records", { ...words, offset: 0, count: PAGE });
            if (asked === this.#asked) {
                this.#pages = new Map([[0, rows]]);
                this.#total = total;
                this.#count.textContent = plural(total, "record");
                this.#grid.root.scrollTop = 0;
                this.#grid.show(total, (index) => this.#rowAt(index), {
                    active: rows.findIndex(({ index }) => index === this.#shell.state.frame),
                    sorted: { key: words.sort === "time" ? "time" : "index", isDown: false },
                });
            }
        } catch (error) {
            this.#asked = undefined;
            this.#shell.complain(error);
        }
    }

    #rowAt(index) {
        const page = this.#pages.get(Math.floor(index / PAGE));
        return page?.[index % PAGE];
    }

    #need(first, count) {
        for (let page = Math.floor(first / PAGE); page <= Math.floor((first + count - 1) / PAGE); page += 1) {
            if (!this.#pages.has(page) && this.#asked) {
                this.#pages.set(page, undefined);
                this.#fetch(page, this.#asked);
            }
        }
    }

    async #fetch(page, asked) {
        try {
            const words = { ...JSON.parse(asked), offset: page * PAGE, count: PAGE };
            const { rows } = await this.#shell.call("records", words);
            if (asked === this.#asked) {
                this.#pages.set(page, rows);
                this.#forget();
                this.#grid.draw();
            }
        } catch (error) {
            this.#pages.delete(page);
            this.#shell.complain(error);
        }
    }

    /** Forgets the pages that were asked for first. */
    #forget() {
        const count = Math.max(0, this.#pages.size - KEPT);
        [...this.#pages.keys()].slice(0, count).forEach((page) => this.#pages.delete(page));
    }

    async #open(index) {
        this.#details.dataset.frame = String(index);
        try {
            const frame = await this.#shell.call("frame", { index });
            if (this.#details.dataset.frame === String(index)) {
                this.#details.hidden = false;
                this.#details.replaceChildren(...this.#contents(frame));
            }
        } catch (error) {
            this.#shell.complain(error);
        }
    }

    #contents(frame) {
        const event = this.#shell.eventName(frame.event);
        const bytes = button("Bytes", () => showBytes(this.#shell, frame), { id: "show-bytes" });
        return [
            element("h2", {}, `${frame.name}, frame ${countText(frame.index)}`),
            element("p", { class: "quiet" }, `${plural(frame.size, "byte")} from ${frame.at}${event && ` · ${event}`}`),
            element("div", { class: "row" }, bytes),
            ...frame.message ? [element("p", { class: "message" }, frame.message)] : [],
            element("dl", { class: "facts" }, ...frame.fields.flatMap(([name, text]) => fact(name, text))),
        ];
    }
}
