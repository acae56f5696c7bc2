// The timeline: lanes by thread or by processor, which can be zoomed, and a range of time that can be selected.

import { button, chooser, element, setOptions } from "./elements.mjs";
import { announce, showTip, Stage } from "./stage.mjs";
import { coloursOf, isDark } from "./colours.mjs";
import { drawTimeline, GUTTER, highOf, MARKS, STRIP, timeOf, TOP, xOf } from "./timeline_picture.mjs";
import { filterOf } from "./view_state.mjs";
import { Latest } from "./worker_link.mjs";
import { clockText, countText, plural, spanText } from "./words.mjs";

const LEAST = 20;
const NOTHING = { from: 0, to: 1, lanes: [], most: 1 };
const KEYS = "Timeline. Left and right move, plus and minus zoom, up and down choose a lane, comma and full stop go "
    + "through its marks, shift with left and right selects a range, Z zooms to it, Enter filters by the lane, Escape "
    + "clears the range.";
const ORDERS = [
    ["samples", "Most samples"], ["sight", "Most in sight"], ["start", "First sample"], ["number", "Number"],
];
const SIGNS = {
    density: [[-5, 5], [-5, 0], [-2, 0], [-2, -5], [1, -5], [1, 2], [4, 2], [4, 5]],
    running: [[-6, 1], [6, 1], [6, 4], [-6, 4]],
};

export class Timeline {
    #shell;
    #data = NOTHING;
    #asked;
    #whole;
    #wholeAsked;
    #work = new Latest();
    #active = 0;
    #mark;
    #drag;
    // Of a range that keys select: where it was begun, its other end, and the range.
    #cursor;
    #stage = new Stage(KEYS, "timeline", (painter, place) => drawTimeline(painter, place, this.#picture()));
    #empty = element("p", { class: "empty", hidden: true });
    #strip = element("div", { class: "strip" });
    #some = element("span", { class: "quiet" });
    #firsts;
    #order = chooser("Order", (lanes) => this.#shell.change({ lanes }, true), { id: "lane-order" });
    #choice = ["thread", "cpu"].map((by) => button(by === "thread" ? "Threads" : "Processors",
        () => this.#shell.change({ by }, true), { "data-by": by }));

    constructor(shell) {
        this.#shell = shell;
        setOptions(this.#order.select, ORDERS, "samples");
        this.#stage.onsize = () => this.#ask();
        this.root = element("div", { class: "column" }, this.#tools(), this.#empty, this.#stage.root, this.#strip);
        const { canvas } = this.#stage;
        canvas.addEventListener("wheel", (event) => this.#wheel(event), { passive: false });
        canvas.addEventListener("pointerdown", (event) => this.#press(event));
        canvas.addEventListener("pointermove", (event) => this.#move(event));
        canvas.addEventListener("pointerup", (event) => this.#release(event));
        canvas.addEventListener("pointercancel", () => this.#drop());
        canvas.addEventListener("dblclick", ({ offsetX, offsetY }) => {
            if (offsetX < GUTTER && offsetY > TOP) {
                this.#filterByLane();
            }
        });
        canvas.addEventListener("keydown", (event) => this.#key(event));
    }

    #tools() {
        return element("div", { class: "tools" },
            element("div", { class: "group", role: "group", "aria-label": "Lanes" }, ...this.#choice),
            element("div", { class: "group", role: "group", "aria-label": "Zoom" },
                button("−", () => this.#zoom(2), { "aria-label": "Zoom out" }),
                button("+", () => this.#zoom(0.5), { "aria-label": "Zoom in" }),
                button("Whole", () => this.#look(this.#all, true)),
                button("Selection", () => this.#zoomToRange(), { title: "Zoom to the selected range" })),
            this.#order.label, this.#some, element("span", { class: "space" }), this.#legend());
    }

    #legend() {
        const titles = { density: "samples", running: "running" };
        const kinds = [...Object.keys(titles), ...Object.keys(MARKS)];
        return element("div", { class: "legend" }, ...kinds.map((kind) =>
            element("span", {}, this.#sign(kind), titles[kind] ?? MARKS[kind].title)));
    }

    #sign(kind) {
        const space = "http://www.w3.org/2000/svg";
        const svg = document.createElementNS(space, "svg");
        svg.setAttribute("viewBox", "-6 -6 12 12");
        svg.setAttribute("aria-hidden", "true");
        const shape = document.createElementNS(space, "polygon");
        shape.setAttribute("points", (SIGNS[kind] ?? MARKS[kind].points).join(" "));
        shape.setAttribute("class", `sign-${kind}`);
        svg.append(shape);
        return svg;
    }

    get #all() {
        return { from: 0, to: Math.max(LEAST, this.#shell.overview.duration + 1) };
    }

    get #view() {
        return this.#shell.state.view ?? this.#all;
    }

    /** How high a lane is, and all of them. */
    get #high() {
        return highOf(this.#data.lanes.length, this.#stage.height);
    }

    get #depth() {
        return TOP + this.#data.lanes.length * this.#high + 8;
    }

    #picture() {
        const { state } = this.#shell;
        const range = this.#drag?.range ?? state.range;
        return { view: this.#view, data: this.#data, whole: this.#whole, length: this.#all.to, range,
            active: this.#active, mark: this.#mark, high: this.#high };
    }

    /** Forgets a recording. */
    reset() {
        this.#data = NOTHING;
        this.#asked = this.#whole = this.#wholeAsked = this.#mark = this.#cursor = undefined;
        this.#active = 0;
    }

    #whyEmpty() {
        const { state, overview } = this.#shell;
        if (!overview.hasTime) {
            return "The frames of this recording have no times, so there is no timeline.";
        }
        const isAbsent = state.by === "cpu" && !overview.hasCpu;
        return isAbsent ? "The samples of this recording do not have their processor." : "";
    }

    show() {
        const [why, { by, lanes }] = [this.#whyEmpty(), this.#shell.state];
        this.#order.select.value = lanes;
        this.#order.label.hidden = by === "cpu";
        this.#empty.textContent = why;
        this.#empty.hidden = !why;
        this.#stage.root.hidden = Boolean(why);
        this.#choice.forEach((one) => one.setAttribute("aria-pressed", String(one.dataset.by === by)));
        const { marks, density, running } = coloursOf(isDark());
        for (const [kind, colour] of Object.entries({ ...marks, density, running })) {
            this.root.querySelector(`.sign-${kind}`).setAttribute("fill", colour);
        }
        if (!why) {
            this.#ask();
            this.#stage.redraw();
        }
    }

    #ask() {
        const { state } = this.#shell;
        const columns = Math.floor(this.#stage.width - GUTTER);
        if (columns < 20 || !this.#shell.overview || state.tab !== "timeline") {
            return;
        }
        const filter = filterOf(state, false);
        const whole = JSON.stringify([state.by, filter]);
        const asked = JSON.stringify([whole, this.#view, columns, state.lanes]);
        if (asked !== this.#asked) {
            this.#asked = asked;
            this.#work.run(() => this.#fetch({ by: state.by, ...this.#view, columns, filter }, whole));
        }
    }

    async #fetch(words, whole) {
        try {
            if (this.#wholeAsked !== whole) {
                this.#wholeAsked = whole;
                const { lanes } = await this.#shell.call("lanes", { ...words, ...this.#all, columns: 600 });
                this.#whole = sumOf(lanes);
                this.#firsts = new Map(lanes.map(({ key, density }) => [key, density.findIndex((count) => count > 0)]));
            }
            const { lanes, total } = await this.#shell.call("lanes", words);
            const some = `${countText(lanes.length)} of ${countText(total)} lanes`;
            this.#some.textContent = total > lanes.length ? some : "";
            this.#some.title = "Those with most samples: a filter selects others";
            const most = Math.max(1, ...lanes.map(({ density }) => mostOf(density)));
            const active = this.#data.lanes[this.#active]?.key;
            this.#data = { from: words.from, to: words.to, lanes, most };
            this.#arrange(active);
            this.#stage.setDepth(this.#depth);
            this.#tell();
            this.#stage.redraw();
        } catch (error) {
            this.#asked = this.#wholeAsked = undefined;
            this.#shell.complain(error);
        }
    }

    /** Sorts the lanes, and keeps the active one. */
    #arrange(active) {
        const { lanes } = this.#data;
        const first = ({ key }) => this.#firsts?.get(key) ?? 0;
        const orders = {
            samples: () => 0,
            sight: (one, other) => other.samples - one.samples,
            start: (one, other) => first(one) - first(other),
            number: (one, other) => one.pid - other.pid || one.tid - other.tid,
            processor: (one, other) => one.cpu - other.cpu,
        };
        lanes.sort(orders[this.#shell.state.by === "cpu" ? "processor" : this.#shell.state.lanes]);
        this.#active = Math.max(0, lanes.findIndex(({ key }) => key === active));
    }

    #look({ from, to }, isStep = false) {
        const all = this.#all;
        const length = Math.max(LEAST, Math.min(all.to, to - from));
        const start = Math.round(Math.max(0, Math.min(all.to - length, from)));
        const view = { from: start, to: Math.round(start + length) };
        this.#shell.change({ view: view.from <= 0 && view.to >= all.to ? undefined : view }, isStep);
    }

    #zoom(factor, middle) {
        const view = this.#view;
        const fixed = middle ?? (view.from + view.to) / 2;
        this.#look({ from: fixed - (fixed - view.from) * factor, to: fixed + (view.to - fixed) * factor });
    }

    #pan(share) {
        const [view, most] = [this.#view, this.#all.to];
        const way = Math.max(-most, Math.min(most, (view.to - view.from) * share));
        this.#look({ from: view.from + way, to: view.to + way });
    }

    #zoomToRange() {
        const { range } = this.#shell.state;
        if (range) {
            const room = (range.to - range.from) * 0.03;
            this.#look({ from: range.from - room, to: range.to + room }, true);
        }
    }

    #wheel(event) {
        if (event.offsetX < GUTTER) {
            return;
        }
        event.preventDefault();
        const pixels = (event.deltaMode === 1 ? 30 : 1) * (event.deltaY || event.deltaX);
        if (event.shiftKey || Math.abs(event.deltaX) > Math.abs(event.deltaY)) {
            this.#pan((event.shiftKey ? pixels : event.deltaX) / 1000);
        } else {
            this.#zoom(Math.exp(Math.max(-400, Math.min(400, pixels)) / 350), this.#timeAt(event.offsetX));
        }
    }

    #timeAt(x) {
        return timeOf(x, this.#view, this.#stage.width);
    }

    #laneAt(y) {
        return y < TOP ? -1 : Math.floor((y - TOP + this.#stage.root.scrollTop) / this.#high);
    }

    #markAt(event) {
        const marks = this.#data.lanes[this.#laneAt(event.offsetY)]?.marks ?? [];
        const far = (mark) => Math.abs(xOf(mark.time, this.#view, this.#stage.width) - event.offsetX);
        return marks.filter((mark) => far(mark) <= 6).sort((one, other) => far(one) - far(other))[0];
    }

    #press(event) {
        if (event.button !== 0) {
            return;
        }
        const { offsetX: x, offsetY: y } = event;
        this.#stage.canvas.setPointerCapture(event.pointerId);
        if (y < STRIP) {
            this.#drag = { isStrip: true };
            this.#centre(x);
        } else if (x >= GUTTER) {
            this.#drag = { x, from: this.#timeAt(x), lane: this.#laneAt(y), mark: this.#markAt(event) };
        } else {
            this.#choose(this.#laneAt(y));
        }
    }

    #centre(x) {
        const [view, time] = [this.#view, timeOf(x, this.#all, this.#stage.width)];
        const half = (view.to - view.from) / 2;
        this.#look({ from: time - half, to: time + half });
    }

    #move(event) {
        if (this.#drag?.isStrip) {
            this.#centre(event.offsetX);
        } else if (this.#drag && (this.#drag.range || Math.abs(event.offsetX - this.#drag.x) > 3)) {
            const time = this.#timeAt(Math.max(GUTTER, Math.min(this.#stage.width, event.offsetX)));
            this.#drag.range = rangeOf(this.#drag.from, time, this.#all);
            this.#stage.redraw();
        } else {
            const lane = this.#data.lanes[this.#laneAt(event.offsetY)];
            showTip(event, lane && this.#tipText(lane, event));
        }
    }

    #tipText(lane, event) {
        const mark = this.#markAt(event);
        const time = this.#timeAt(event.offsetX);
        const at = event.offsetX < GUTTER ? "" : `\nat ${spanText(mark ? mark.time : time)}`;
        return `${laneText(lane)}${mark ? `\n${MARKS[mark.kind]?.title ?? mark.kind}: ${mark.text}` : ""}${at}`;
    }

    #release() {
        const drag = this.#drag;
        this.#drop();
        if (drag?.range) {
            this.#shell.change({ range: drag.range }, true);
        } else if (drag && !drag.isStrip) {
            this.#choose(drag.lane, drag.mark);
        }
    }

    #drop() {
        this.#drag = undefined;
        this.#stage.redraw();
    }

    #choose(lane, mark) {
        if (lane < 0 || !this.#data.lanes.length) {
            return;
        }
        this.#active = Math.max(0, Math.min(this.#data.lanes.length - 1, lane));
        this.#mark = mark;
        this.#stage.reveal(TOP + this.#active * this.#high, TOP + (this.#active + 1) * this.#high, TOP);
        announce(this.#tell());
        this.#stage.redraw();
    }

    /** Writes about the chosen lane and mark below the lanes, and returns that. */
    #tell() {
        const lane = this.#data.lanes[this.#active];
        const mark = this.#mark && `${MARKS[this.#mark.kind]?.title ?? this.#mark.kind}: ${this.#mark.text}, `
            + `at ${spanText(this.#mark.time)} (${clockText(this.#shell.overview.start, this.#mark.time)})`;
        const text = lane ? [laneText(lane), mark].filter(Boolean).join(" · ") : "No lanes";
        this.#strip.textContent = text;
        return text;
    }

    #nextMark(way) {
        const marks = [...this.#data.lanes[this.#active]?.marks ?? []].sort((one, other) => one.time - other.time);
        const now = marks.findIndex(({ time, kind }) => time === this.#mark?.time && kind === this.#mark.kind);
        const next = marks[now < 0 ? (way > 0 ? 0 : marks.length - 1) : now + way];
        if (!next) {
            announce("No further mark in sight");
            return;
        }
        this.#choose(this.#active, next);
    }

    #select(share) {
        const { range } = this.#shell.state;
        const view = this.#view;
        const length = view.to - view.from;
        const middle = (view.from + view.to) / 2;
        const isOwn = range && range === this.#cursor?.chosen;
        const before = isOwn ? this.#cursor : { anchor: range?.from ?? middle, time: range?.to ?? middle };
        const time = Math.max(0, Math.min(this.#all.to, before.time + share * length));
        const chosen = rangeOf(before.anchor, time, this.#all);
        this.#cursor = { anchor: before.anchor, time, chosen };
        this.#shell.change({ range: chosen });
        const out = Math.min(0, time - view.from) + Math.max(0, time - view.to);
        if (out) {
            this.#pan(out / length);
        }
        announce(`Selected from ${spanText(chosen.from)} to ${spanText(chosen.to)}`);
    }

    #filterByLane() {
        const lane = this.#data.lanes[this.#active];
        if (lane) {
            this.#shell.change(lane.tid === undefined ? { cpu: lane.cpu } : { pid: lane.pid, tid: lane.tid }, true);
            announce(`Filtered by ${lane.label}`);
        }
    }

    #key(event) {
        if (event.ctrlKey || event.metaKey || event.altKey) {
            return;
        }
        const selects = { ArrowLeft: -0.02, ArrowRight: 0.02, Home: -Infinity, End: Infinity };
        const moves = {
            ArrowLeft: () => this.#pan(-0.1), ArrowRight: () => this.#pan(0.1),
            Home: () => this.#pan(-Infinity), End: () => this.#pan(Infinity),
            "+": () => this.#zoom(0.67), "=": () => this.#zoom(0.67), "-": () => this.#zoom(1.5),
            0: () => this.#look(this.#all, true), z: () => this.#zoomToRange(),
            ArrowUp: () => this.#choose(Math.max(0, this.#active - 1)), ArrowDown: () => this.#choose(this.#active + 1),
            PageUp: () => this.#choose(Math.max(0, this.#active - 10)), PageDown: () => this.#choose(this.#active + 10),
            Enter: () => this.#filterByLane(), ".": () => this.#nextMark(1), ",": () => this.#nextMark(-1),
            Escape: () => this.#shell.change({ range: undefined }, true),
        };
        const act = event.shiftKey && event.key in selects ? () => this.#select(selects[event.key]) : moves[event.key];
        if (act) {
            event.preventDefault();
            act();
        }
    }

    /** What is in view as an SVG file. */
    svg() {
        return this.#stage.svg("Timeline", this.#depth);
    }
}

function laneText(lane) {
    const { label, pid, tid, samples } = lane;
    const numbers = tid === undefined ? "" : ` · process ${pid}${pid === tid ? "" : `, thread ${tid}`}`;
    return `${label}${numbers} · ${plural(samples, "sample")} in sight`;
}

function rangeOf(one, other, all) {
    const from = Math.max(0, Math.floor(Math.min(one, other)));
    return { from, to: Math.min(Math.ceil(all.to), Math.max(from + 1, Math.ceil(Math.max(one, other)))) };
}

function mostOf(density) {
    let most = 0;
    for (const count of density) {
        most = count > most ? count : most;
    }
    return most;
}

function sumOf(lanes) {
    const density = new Float64Array(lanes[0]?.density.length ?? 1);
    for (const lane of lanes) {
        for (let column = 0; column < density.length; column += 1) {
            density[column] += lane.density[column];
        }
    }
    return { density, most: Math.max(1, mostOf(density)) };
}
