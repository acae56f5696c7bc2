// What is in sight of an element, as an SVG file: grounds, lines and texts.

import { fitText, SvgPainter } from "./painters.mjs";

let pen;

/** A colour of a style as #rrggbb; undefined if it cannot be seen. */
function colourOf(text) {
    if (text === "transparent" || /,\s*0\)$/.test(text)) {
        return undefined;
    }
    pen ??= document.createElement("canvas").getContext("2d");
    pen.fillStyle = text;
    return pen.fillStyle;
}

function common(one, other) {
    const [left, top] = [Math.max(one.left, other.left), Math.max(one.top, other.top)];
    const [right, bottom] = [Math.min(one.right, other.right), Math.min(one.bottom, other.bottom)];
    return right > left && bottom > top ? { left, top, right, bottom } : undefined;
}

class ElementPicture {
    #painter;
    #frame;

    constructor(root) {
        this.#frame = root.getBoundingClientRect();
        this.#painter = new SvgPainter(this.#frame.width, this.#frame.height);
        this.#rect(this.#frame, colourOf(getComputedStyle(document.body).backgroundColor) ?? "#ffffff");
    }

    #rect({ left, top, right, bottom }, colour) {
        this.#painter.rect(left - this.#frame.left, top - this.#frame.top, right - left, bottom - top, colour);
    }

    #ground(box, style, clip) {
        const part = common(box, clip);
        const ground = colourOf(style.backgroundColor);
        if (part && ground) {
            this.#rect(part, ground);
        }
        const { left, top, right, bottom } = box;
        const edges = {
            Top: { bottom: top + 1 }, Bottom: { top: bottom - 1 },
            Left: { right: left + 1 }, Right: { left: right - 1 },
        };
        for (const [side, edge] of Object.entries(edges)) {
            const line = common({ left, top, right, bottom, ...edge }, clip);
            if (line && parseFloat(style[`border${side}Width`]) > 0) {
                this.#rect(line, colourOf(style[`border${side}Color`]) ?? "none");
            }
        }
    }

    #piece(range, style, clip) {
        const box = range.getBoundingClientRect();
        const size = parseFloat(style.fontSize);
        const room = Math.min(clip.right - box.left, box.width + 1);
        if (box.top < clip.top - 2 || box.bottom > clip.bottom + 2 || room <= 0) {
            return;
        }
        const weight = Number(style.fontWeight) >= 600 ? "bold" : "normal";
        const whole = range.toString().trim();
        const text = room > box.width ? whole : fitText(whole, room, size, weight);
        const [x, y] = [box.left - this.#frame.left, box.top - this.#frame.top + (box.height + 0.7 * size) / 2];
        this.#painter.text(x, y, text, colourOf(style.color) ?? "none", { size, weight });
    }

    #text(node, style, clip) {
        const range = document.createRange();
        range.selectNodeContents(node);
        if (range.getClientRects().length <= 1) {
            this.#piece(range, style, clip);
            return;
        }
        for (const { index, 0: word } of node.data.matchAll(/\S+/g)) {
            range.setStart(node, index);
            range.setEnd(node, index + word.length);
            this.#piece(range, style, clip);
        }
    }

    /** Draws an element and what is in it, as far as it is inside the clip. */
    draw(node, clip = this.#frame) {
        const style = getComputedStyle(node);
        if (style.display === "none" || style.visibility === "hidden") {
            return this;
        }
        const box = node.getBoundingClientRect();
        this.#ground(box, style, clip);
        const inner = style.overflowX === "visible" ? clip : common(box, clip);
        for (const child of inner ? node.childNodes : []) {
            if (child.nodeType === Node.TEXT_NODE && child.data.trim()) {
                this.#text(child, style, inner);
            } else if (child.nodeType === Node.ELEMENT_NODE) {
                this.draw(child, inner);
            }
        }
        return this;
    }

    file(title) {
        return this.#painter.file(title);
    }
}

export function elementPicture(root, title) {
    return new ElementPicture(root).draw(root).file(title);
}
