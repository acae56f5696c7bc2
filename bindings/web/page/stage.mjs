// A canvas that stays in place while what it shows is scrolled, with a text beside the pointer.

import { atNextChance, byId, element } from "./elements.mjs";
import { CanvasPainter, SvgPainter } from "./painters.mjs";
import { coloursOf, isDark } from "./colours.mjs";

const tip = element("div", { class: "tip", "aria-hidden": "true", hidden: true });

/** Shows a text beside the pointer; without a text it goes away. */
export function showTip(event, text) {
    if (!text) {
        tip.hidden = true;
        return;
    }
    if (!tip.isConnected) {
        document.body.append(tip);
    }
    tip.textContent = text;
    tip.hidden = false;
    const [width, height] = [tip.offsetWidth, tip.offsetHeight];
    tip.style.left = `${Math.max(4, Math.min(event.clientX + 14, innerWidth - width - 6))}px`;
    tip.style.top = `${event.clientY + 18 + height > innerHeight ? event.clientY - height - 10 : event.clientY + 18}px`;
}

/** Says a text to readers of the screen. */
export function announce(text) {
    byId("said").textContent = text;
}

export class Stage {
    #draw;
    #under = element("div", { class: "under" });

    /** `draw(painter, { width, height, top, colours })` draws what is in sight below `top`. */
    constructor(label, name, draw) {
        this.#draw = draw;
        const attributes = { tabindex: "0", role: "application", "aria-label": label, class: `is-${name}` };
        this.canvas = element("canvas", attributes);
        this.root = element("div", { class: "stage" }, this.canvas, this.#under);
        this.root.addEventListener("scroll", () => this.redraw());
        this.canvas.addEventListener("pointerleave", () => showTip());
        new ResizeObserver(() => {
            this.onsize?.();
            this.redraw();
        }).observe(this.root);
    }

    get width() {
        return this.root.clientWidth;
    }

    get height() {
        return this.root.clientHeight;
    }

    /** Sets how high all of it is. */
    setDepth(depth) {
        this.#under.style.height = `${Math.max(0, depth - this.height)}px`;
    }

    /** Scrolls so that what is between two heights is in sight, below what stays at the top. */
    reveal(from, to, fixed = 0) {
        if (from < this.root.scrollTop + fixed) {
            this.root.scrollTop = from - fixed;
        } else if (to > this.root.scrollTop + this.height) {
            this.root.scrollTop = to - this.height;
        }
    }

    /** Draws what is in sight at the next chance. */
    redraw = atNextChance(() => this.#drawNow());

    #drawNow() {
        const { width, height } = this;
        if (width > 0 && height > 0) {
            this.#draw(new CanvasPainter(this.canvas, width, height), this.#place(height, this.root.scrollTop));
        }
    }

    #place(height, top) {
        return { width: this.width, height, top, colours: coloursOf(isDark()) };
    }

    /** The whole picture, also what is not in sight, as an SVG file. */
    svg(title, depth) {
        const height = Math.min(20000, Math.max(60, depth));
        const painter = new SvgPainter(this.width, height);
        this.#draw(painter, this.#place(height, 0));
        return painter.file(title);
    }
}
