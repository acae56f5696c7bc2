// What the timeline looks like: a strip of the whole recording, a ruler, and a lane for each thread or processor.

import { fitText } from "./painters.mjs";
import { spanText } from "./words.mjs";

export const GUTTER = 190;
export const STRIP = 24;
export const TOP = STRIP + 24;
const [LEAST_HIGH, MOST_HIGH] = [26, 64];

export const MARKS = {
    exec: { title: "exec", points: [[0, -5], [5, 4], [-5, 4]] },
    comm: { title: "new name", points: [[0, -5], [5, 0], [0, 5], [-5, 0]] },
    fork: { title: "fork", points: [[-5, -4], [5, -4], [0, 5]] },
    exit: { title: "exit", points: [[-4, -4], [4, -4], [4, 4], [-4, 4]] },
    lost: { title: "lost", points: [[-1.5, -12], [1.5, -12], [1.5, 12], [-1.5, 12]] },
};

/** How high lanes are: few have more room. */
export function highOf(count, height) {
    return Math.max(LEAST_HIGH, Math.min(MOST_HIGH, Math.floor((height - TOP - 8) / Math.max(1, count))));
}

/** Where a time is in a view, in pixels from the left, and the time of a place. */
export function xOf(time, view, width) {
    return GUTTER + (time - view.from) / (view.to - view.from) * (width - GUTTER);
}

export function timeOf(x, view, width) {
    return view.from + (x - GUTTER) / (width - GUTTER) * (view.to - view.from);
}

/** The step of a ruler with at least so many nanoseconds: 1, 2 or 5 times a power of ten. */
export function stepOf(least) {
    const power = 10 ** Math.floor(Math.log10(Math.max(1, least)));
    return power * ([1, 2, 5].find((factor) => factor * power >= least) ?? 10);
}

function tickText(time, step) {
    const units = [["s", 1e9], ["ms", 1e6], ["µs", 1e3], ["ns", 1]];
    const [unit, worth] = units.find(([, worth]) => step >= worth);
    return `${Number((time / worth).toFixed(3))} ${unit}`;
}

/** The middle of the selected range in sight, where its length stands on the ruler; undefined if it is not in sight. */
function middleOf(range, view, width) {
    const [left, right] = range ? [xOf(range.from, view, width), xOf(range.to, view, width)] : [0, 0];
    return right < GUTTER || left > width ? undefined : (Math.max(GUTTER, left) + Math.min(width, right)) / 2;
}

function drawRuler(painter, { width, height, colours }, { view, range }) {
    const middle = middleOf(range, view, width) ?? -1000;
    const step = stepOf((view.to - view.from) * 110 / Math.max(1, width - GUTTER));
    painter.rect(0, STRIP, width, TOP - STRIP, colours.ground);
    const first = Math.ceil(view.from / step);
    for (let index = 0; index <= (view.to - view.from) / step; index += 1) {
        const time = (first + index) * step;
        const x = Math.round(xOf(time, view, width));
        painter.rect(x, TOP - 6, 1, 6, colours.quiet);
        painter.rect(x, TOP, 1, height - TOP, colours.line);
        if (x + 60 < width && Math.abs(x + 25 - middle) > 66) {
            painter.text(x + 4, TOP - 8, tickText(time, step), colours.quiet);
        }
    }
    painter.rect(0, TOP - 1, width, 1, colours.line);
}

function drawBars(painter, density, most, place, { from, to, y, high, colour }) {
    const wide = (to - from) / density.length;
    const bar = Math.max(1, wide);
    for (let column = 0; column < density.length; column += 1) {
        const x = from + column * wide;
        if (density[column] && x + bar > place.left && x < place.width) {
            const tall = Math.max(2, Math.round(high * Math.sqrt(density[column] / most)));
            painter.rect(x, y + high - tall, bar, tall, colour);
        }
    }
}

function drawStrip(painter, { width, colours }, { whole, view, range, length }) {
    painter.rect(0, 0, width, STRIP, colours.raised);
    painter.text(10, STRIP - 8, "Whole recording", colours.quiet);
    const all = { from: 0, to: length };
    if (whole) {
        drawBars(painter, whole.density, whole.most, { left: GUTTER, width },
            { from: GUTTER, to: width, y: 3, high: STRIP - 5, colour: colours.density });
    }
    const [left, right] = [xOf(view.from, all, width), xOf(view.to, all, width)];
    painter.rect(GUTTER, 0, left - GUTTER, STRIP, colours.veil);
    painter.rect(right, 0, width - right, STRIP, colours.veil);
    painter.outline(left, 0, Math.max(3, right - left), STRIP, colours.accent);
    if (range) {
        const start = xOf(range.from, all, width);
        painter.rect(start, 0, Math.max(2, xOf(range.to, all, width) - start), STRIP, colours.shade);
    }
}

function drawRunning(painter, running, place, view, y, colour) {
    let drawn = -1;
    for (let index = 0; index + 1 < running.length; index += 2) {
        const from = Math.max(GUTTER, xOf(running[index], view, place.width));
        const to = Math.min(place.width, Math.max(from + 1, xOf(running[index + 1], view, place.width)));
        if (to > from && to > drawn) {
            painter.rect(Math.max(from, drawn), y, to - Math.max(from, drawn), 4, colour);
            drawn = to;
        }
    }
}

export function markPoints(kind, x, y) {
    return (MARKS[kind] ?? MARKS.comm).points.map(([right, down]) => [x + right, y + down]);
}

function drawLane(painter, place, picture, lane, y) {
    const { colours, width } = place;
    const { view, data, high } = picture;
    drawBars(painter, lane.density, data.most, { left: GUTTER, width }, {
        from: xOf(data.from, view, width), to: xOf(data.to, view, width), y: y + 2, high: high - 10,
        colour: colours.density,
    });
    drawRunning(painter, lane.running, place, view, y + high - 6, colours.running);
    for (const mark of lane.marks) {
        const x = xOf(mark.time, view, width);
        if (x > GUTTER - 6 && x < width + 6) {
            painter.shape(markPoints(mark.kind, x, y + high / 2), colours.marks[mark.kind] ?? colours.text);
        }
    }
}

function drawLabel(painter, { colours }, lane, { y, high, isActive }) {
    painter.rect(0, y, GUTTER - 1, high, isActive ? colours.chosen : colours.ground);
    const base = y + high / 2 + 4;
    const weight = isActive ? "bold" : "normal";
    const number = lane.tid === undefined ? "" : String(lane.tid);
    painter.text(GUTTER - 8, base, number, colours.quiet, { align: "end" });
    const name = fitText(lane.label, GUTTER - 28 - number.length * 7, 12, weight);
    painter.text(10, base, name, colours.text, { size: 12, weight });
}

function drawRange(painter, { width, height, colours }, { view, range }) {
    if (!range) {
        return;
    }
    const [left, right] = [xOf(range.from, view, width), xOf(range.to, view, width)];
    if (right < GUTTER || left > width) {
        return;
    }
    const [start, end] = [Math.max(GUTTER, left), Math.min(width, right)];
    painter.rect(start, TOP, Math.max(1, end - start), height - TOP, colours.shade);
    const edges = [[left, start], [right, end]].filter(([edge, at]) => edge === at);
    edges.forEach(([edge]) => painter.rect(edge - 0.5, STRIP, 1, height - STRIP, colours.accent));
    const style = { align: "center", weight: "bold" };
    painter.text(middleOf(range, view, width), STRIP + 15, spanText(range.to - range.from), colours.accent, style);
}

/** Draws the lanes that are in sight; `picture` has `view`, `data`, `whole`, `length`, `range`, `active`, `mark` and
 * `high`, how high a lane is. */
export function drawTimeline(painter, place, picture) {
    const { width, height, top, colours } = place;
    const { data: { lanes }, high } = picture;
    painter.rect(0, 0, width, height, colours.ground);
    const first = Math.floor(top / high);
    const last = Math.min(lanes.length, Math.ceil((top + height - TOP) / high));
    const places = Array.from(lanes.keys()).slice(first, last).map((index) => [index, TOP + index * high - top]);
    painter.inside(0, TOP, width, height - TOP, () => {
        places.forEach(([index, y]) => index % 2 && painter.rect(GUTTER, y, width - GUTTER, high, colours.stripe));
    });
    drawRuler(painter, place, picture);
    painter.inside(GUTTER, TOP, width - GUTTER, height - TOP, () => {
        places.forEach(([index, y]) => drawLane(painter, place, picture, lanes[index], y));
    });
    painter.inside(0, TOP, GUTTER, height - TOP, () => {
        places.forEach(([index, y]) =>
            drawLabel(painter, place, lanes[index], { y, high, isActive: index === picture.active }));
    });
    painter.rect(GUTTER - 1, 0, 1, height, colours.line);
    drawRange(painter, place, picture);
    drawStrip(painter, place, picture);
    if (picture.mark && lanes[picture.active]) {
        const y = TOP + picture.active * high - top;
        painter.outline(xOf(picture.mark.time, picture.view, width) - 8, y + high / 2 - 8, 16, 16, colours.accent, 2);
    }
}
