// What a flame graph looks like, with its root at the top.

import { boxColour } from "./colours.mjs";
import { fitText } from "./painters.mjs";

export const ROW = 20;
const PAD = 4;
const LEAST = 0.6;

export function topOf(deep) {
    return PAD + deep * ROW;
}

export function rowAt(y) {
    return Math.floor((y - PAD) / ROW);
}

/** Where a box is from left to right if another one is as wide as the picture. */
export function sidesOf({ start, worth }, node, zoomed, width) {
    const room = width - 2 * PAD;
    const scale = room / worth[zoomed];
    const left = Math.max(0, (start[node] - start[zoomed]) * scale);
    const right = Math.min(room, (start[node] + worth[node] - start[zoomed]) * scale);
    return { left: PAD + left, wide: right - left };
}

/** The worth at a place from left to right. */
export function worthAt({ start, worth }, x, zoomed, width) {
    return start[zoomed] + (x - PAD) / (width - 2 * PAD) * worth[zoomed];
}

const colourCache = new Map();

function colourOf(name, colours) {
    const key = `${colours.ground}${name}`;
    let colour = colourCache.get(key);
    if (!colour) {
        colour = boxColour(name, colours);
        colourCache.set(key, colour);
    }
    return colour;
}

function lookOf(node, { layout, found, zoomed, heads }, colours) {
    if (found) {
        return found[node] ? [colours.found, colours.foundText] : [colours.pale, colours.paleText];
    }
    if (layout.depth[node] < layout.depth[zoomed] || layout.depth[node] <= heads) {
        return [colours.grey, colours.box.text];
    }
    return [colourOf(layout.nameOf(node), colours), colours.box.text];
}

function drawRow(painter, { width, top, colours }, picture, deep) {
    const { layout, zoomed, active } = picture;
    const y = topOf(deep) - top;
    const from = layout.start[zoomed];
    let drawn = -1;
    for (const node of layout.between(deep, from, from + layout.worth[zoomed])) {
        const { left, wide } = sidesOf(layout, node, zoomed, width);
        if (left + wide < drawn + LEAST) {
            continue;
        }
        const [colour, textColour] = lookOf(node, picture, colours);
        painter.rect(left, y, Math.max(LEAST, wide - (wide > 3 ? 1 : 0)), ROW - 1, colour);
        drawn = left + Math.max(LEAST, wide);
        const text = fitText(layout.nameOf(node), wide - 8);
        if (text) {
            painter.text(left + 4, y + 13.5, text, textColour);
        }
        if (node === active) {
            painter.outline(left - 1, y - 1, Math.max(4, wide + 1), ROW + 1, colours.ground, 4);
            painter.outline(left - 1, y - 1, Math.max(4, wide + 1), ROW + 1, colours.accent, 2);
        }
    }
}

/** Draws the rows in sight; `picture` has `layout`, `zoomed`, `active`, if words are searched `found`, and `heads`, how
 * many rows below the root are no frames. */
export function drawFlame(painter, place, picture) {
    const { width, height, top, colours } = place;
    painter.rect(0, 0, width, height, colours.ground);
    if (!picture.layout || picture.layout.root < 0) {
        return;
    }
    const first = Math.max(0, rowAt(top));
    const last = Math.min(picture.layout.rows.length - 1, rowAt(top + height));
    for (let deep = first; deep <= last; deep += 1) {
        drawRow(painter, place, picture, deep);
    }
}
