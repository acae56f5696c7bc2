// The flame graph of what the filter selects.

import { button, chooser, element, searchField, setOptions } from "./elements.mjs";
import { FlameLayout } from "./flame_layout.mjs";
import { drawFlame, ROW, rowAt, topOf, worthAt } from "./flame_picture.mjs";
import { announce, showTip, Stage } from "./stage.mjs";
import { filterOf } from "./view_state.mjs";
import { Latest } from "./worker_link.mjs";
import { countText, plural, shareText } from "./words.mjs";

const KEYS = "Flame graph. Up goes to the box above, down to the largest box below, left and right to those beside, "
    + "Enter zooms in, Escape zooms out, slash searches, N and shift with N go through what is found.";

export class Flame {
    #shell;
    #layout;
    #asked;
    #work = new Latest();
    #active = -1;
    #zoomed = 0;
    #isMissing = false;
    #found;
    #order;
    #stage = new Stage(KEYS, "flame", (painter, place) => drawFlame(painter, place, this.#picture()));
    #empty = element("p", { class: "empty", hidden: true });
    #strip = element("div", { class: "strip" });
    #search = searchField("Search", "Search in names", { id: "search" });
    #share = element("span", { class: "quiet", id: "share", role: "status" });
    #weight = chooser("Weight", (weight) => this.#shell.change({ weight }, true), { id: "weight" });
    #inverted = element("input", { type: "checkbox", id: "inverted" });
    #out = button("Zoom out", () => this.#zoomOut(), { id: "zoom-out" });

    constructor(shell) {
        this.#shell = shell;
        setOptions(this.#weight.select, [["samples", "Samples"], ["period", "Period"]], "samples");
        this.#search.addEventListener("input", () => this.#shell.change({ search: this.#search.value }));
        this.#search.addEventListener("keydown", (event) => this.#searchKey(event));
        this.#inverted.addEventListener("change", () =>
            shell.change({ inverted: this.#inverted.checked, box: "" }, true));
        this.root = element("div", { class: "column" },
            element("div", { class: "tools" }, this.#search, this.#share, element("span", { class: "space" }),
                this.#out, this.#weight.label, element("label", {}, this.#inverted, "Inverted (callers below)")),
            this.#empty, this.#stage.root, this.#strip);
        this.#stage.onsize = () => this.#ask();
        const { canvas } = this.#stage;
        canvas.addEventListener("click", (event) => this.#click(event));
        canvas.addEventListener("pointermove", (event) => {
            const node = this.#nodeAt(event);
            canvas.style.cursor = node < 0 ? "default" : "pointer";
            showTip(event, node < 0 ? "" : this.#textOf(node).replace(" · ", "\n"));
        });
        canvas.addEventListener("keydown", (event) => this.#key(event));
    }

    #picture() {
        const { state, overview } = this.#shell;
        const heads = state.inverted ? 0 : overview?.events.length > 1 && state.event === undefined ? 2 : 1;
        const active = document.activeElement === this.#stage.canvas ? this.#active : -1;
        return { layout: this.#layout, zoomed: this.#zoomed, active, found: this.#found?.found, heads };
    }

    reset() {
        this.#layout = this.#asked = this.#found = undefined;
        this.#active = -1;
        this.#isMissing = false;
    }

    focusSearch() {
        this.#search.focus();
        this.#search.select();
    }

    show() {
        const { state } = this.#shell;
        if (this.#search.value !== state.search) {
            this.#search.value = state.search;
        }
        this.#weight.select.value = state.weight;
        this.#inverted.checked = state.inverted;
        this.#settle();
        this.#ask();
    }

    /** Finds the zoomed box and what is searched among the boxes that are there. */
    #settle() {
        const { state } = this.#shell;
        const layout = this.#layout;
        this.#out.disabled = !state.box;
        if (!layout) {
            return;
        }
        const found = layout.find(state.box);
        this.#isMissing = found < 0;
        this.#zoomed = found < 0 ? layout.root : found;
        this.#found = state.search ? layout.search(state.search) : undefined;
        this.#order = undefined;
        this.#share.textContent = this.#found ? `${shareText(this.#found.worth, layout.total)} match: `
            + `${countText(this.#found.worth)} of ${countText(layout.total)} ${this.#unit}` : "";
        this.#stage.setDepth(topOf(layout.rows.length) + 8);
        this.#tell();
        this.#stage.redraw();
    }

    get #unit() {
        return this.#shell.state.weight === "period" ? "events" : "samples";
    }

    #ask() {
        const { state, overview } = this.#shell;
        const width = this.root.clientWidth;
        if (!overview || state.tab !== "flame" || width < 20) {
            return;
        }
        const layout = this.#layout;
        const part = layout && layout.total > 0 ? layout.worth[this.#zoomed] / layout.total : 1;
        // what is found is counted exactly, and a box that is not there may be one that was too narrow
        const minimum = state.search || this.#isMissing && state.box ? 0 : part / Math.max(600, width);
        const words = { filter: filterOf(state), weight: state.weight, inverted: state.inverted, minimum };
        const asked = JSON.stringify(words) + this.#shell.symbols;
        if (asked !== this.#asked) {
            this.#asked = asked;
            this.#work.run(() => this.#fetch(words));
        }
    }

    async #fetch(words) {
        try {
            const path = this.#layout && this.#active >= 0 ? this.#layout.pathOf(this.#active) : "";
            const result = await this.#shell.call("flame", words);
            this.#layout = new FlameLayout(result);
            this.#active = this.#layout.root < 0 ? -1 : Math.max(this.#layout.root, this.#layout.find(path));
            const isEmpty = this.#layout.root < 0 || !(result.total > 0);
            this.#empty.textContent = isEmpty ? "No samples are selected." : "";
            this.#empty.hidden = !isEmpty;
            this.#stage.root.hidden = isEmpty;
            this.#settle();
            if (words.minimum > 0 && this.#isMissing && this.#shell.state.box) {
                this.#ask();
            }
        } catch (error) {
            this.#asked = undefined;
            this.#shell.complain(error);
        }
    }

    #nodeAt({ offsetX, offsetY }) {
        const layout = this.#layout;
        if (!layout || layout.root < 0) {
            return -1;
        }
        const value = worthAt(layout, offsetX, this.#zoomed, this.#stage.width);
        return layout.nodeAt(rowAt(offsetY + this.#stage.root.scrollTop), value);
    }

    #textOf(node) {
        const { total, worth, parent } = this.#layout;
        const [own, caller] = [worth[node], parent[node]];
        const above = caller >= 0 ? `, ${shareText(own, worth[caller])} of ${this.#layout.nameOf(caller)}` : "";
        const amount = this.#shell.state.weight === "period" ? `${countText(own)} events` : plural(own, "sample");
        return `${this.#layout.nameOf(node)} · ${amount}, ${shareText(own, total)} of all${above}`;
    }

    #tell() {
        this.#strip.textContent = this.#active >= 0 && this.#layout ? this.#textOf(this.#active) : "";
        return this.#strip.textContent;
    }

    #choose(node) {
        if (node < 0) {
            announce("There is no box there");
            return;
        }
        this.#active = node;
        const top = topOf(this.#layout.depth[node]);
        this.#stage.reveal(top - 4, top + ROW + 4);
        announce(this.#tell());
        this.#stage.redraw();
    }

    #click(event) {
        const node = this.#nodeAt(event);
        if (node >= 0) {
            this.#choose(node);
            this.#zoomTo(node);
        }
    }

    #zoomTo(node) {
        if (node >= 0 && this.#layout) {
            this.#shell.change({ box: this.#layout.pathOf(node) }, true);
            announce(`Zoomed to ${this.#textOf(node)}`);
        }
    }

    #zoomOut() {
        if (this.#layout && this.#zoomed >= 0) {
            this.#zoomTo(Math.max(this.#layout.root, this.#layout.parent[this.#zoomed]));
        }
    }

    /** Goes to the next box that is found, or to the one before, by rows. */
    #nextFound(way) {
        const isFound = (node) => this.#found?.found[node];
        this.#order ??= (this.#layout?.rows ?? []).flatMap((row) => Array.from(row).filter(isFound));
        const now = this.#order.indexOf(this.#active);
        const next = this.#order[now < 0 ? (way > 0 ? 0 : this.#order.length - 1) : now + way];
        this.#choose(next ?? -1);
    }

    #searchKey(event) {
        if (event.key === "Enter") {
            this.#nextFound(event.shiftKey ? -1 : 1);
            this.#stage.canvas.focus();
        } else if (event.key === "Escape" && this.#search.value) {
            this.#shell.change({ search: "" });
        } else {
            return;
        }
        event.preventDefault();
    }

    #key(event) {
        const layout = this.#layout;
        if (event.ctrlKey || event.metaKey || event.altKey || !layout || layout.root < 0) {
            return;
        }
        const node = this.#active < 0 ? layout.root : this.#active;
        const acts = {
            ArrowUp: () => this.#choose(layout.parent[node]),
            ArrowDown: () => this.#choose(layout.largestChild(node)),
            ArrowLeft: () => this.#choose(layout.sibling(node, -1)),
            ArrowRight: () => this.#choose(layout.sibling(node, 1)),
            Home: () => this.#choose(this.#zoomed), Enter: () => this.#zoomTo(node), " ": () => this.#zoomTo(node),
            Escape: () => this.#zoomOut(), n: () => this.#nextFound(1), N: () => this.#nextFound(-1),
        };
        if (acts[event.key]) {
            event.preventDefault();
            acts[event.key]();
        }
    }

    svg() {
        return this.#layout && this.#stage.svg("Flame graph", topOf(this.#layout.rows.length) + 8);
    }
}
