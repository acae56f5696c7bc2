// A table of which only the rows in sight are in the page.

import { atNextChance, button, element } from "./elements.mjs";

const ROW = 24;
const HEAD = 28;
// Browsers have elements of at most some 17 million pixels: above this, a scroll moves over several rows.
const HIGHEST = 8000000;

let grids = 0;

/** `columns` have `key`, `title`, `width` in pixels, `text(row)` and, if they have them, `grow`, the share of the rest
 * that they take, `isNumber`, `canSort`, `fill(cell, row)` and `style(row)`. */
export class Grid {
    #columns;
    #words;
    #space = element("div", { class: "grid-space", role: "presentation" });
    #rows = element("div", { class: "grid-rows", role: "rowgroup" });
    #head;
    #total = 0;
    #rowAt = () => undefined;
    #active = -1;
    #id = `grid${grids++}`;

    /** `words` has `label`, and what is called: `onopen(row)`, `onactive(row)`, `onsort(key)` and
     * `onneed(first, count)`. */
    constructor(columns, words) {
        this.#columns = columns;
        this.#words = words;
        const heads = columns.map((column) => this.#header(column));
        this.#head = element("div", { class: "grid-head", role: "row" }, ...heads);
        this.root = element("div", { class: "grid", role: "grid", tabindex: "0", "aria-label": words.label,
            "aria-colcount": String(columns.length) },
        element("div", { role: "rowgroup", class: "grid-head-group" }, this.#head), this.#space);
        this.#space.append(this.#rows);
        const widths = columns.map(({ width, grow }) => grow ? `minmax(${width}px, ${grow}fr)` : `${width}px`);
        this.root.style.setProperty("--columns", widths.join(" "));
        this.root.style.setProperty("--least", `${columns.reduce((sum, { width }) => sum + width, 0)}px`);
        this.root.addEventListener("scroll", () => this.draw());
        this.root.addEventListener("keydown", (event) => this.#press(event));
        new ResizeObserver(() => this.draw()).observe(this.root);
    }

    #header(column) {
        const { title, key, canSort } = column;
        const inside = canSort
            ? button(title, () => this.#words.onsort(key), { title: `Sort by ${title.toLowerCase()}` })
            : element("span", {}, title);
        return element("div", { role: "columnheader", class: column.isNumber ? "number" : undefined }, inside);
    }

    /** Shows rows: how many, and a function that returns one, or undefined while it is not there. */
    show(total, rowAt, { active = -1, sorted } = {}) {
        this.#total = total;
        this.#rowAt = rowAt;
        this.#active = Math.min(active, total - 1);
        this.root.setAttribute("aria-rowcount", String(total + 1));
        this.#columns.forEach((column, index) => {
            const cell = this.#head.children[index];
            const isSorted = sorted && sorted.key === column.key;
            cell.setAttribute("aria-sort", isSorted ? (sorted.isDown ? "descending" : "ascending") : "none");
            const sign = isSorted ? (sorted.isDown ? " ↓" : " ↑") : "";
            cell.firstElementChild.textContent = column.title + sign;
        });
        this.#space.style.height = `${Math.min(HIGHEST, total * ROW)}px`;
        this.draw();
    }

    get #isScaled() {
        return this.#total * ROW > HIGHEST;
    }

    get #inSight() {
        return Math.max(1, Math.floor((this.root.clientHeight - HEAD) / ROW));
    }

    get #first() {
        const { scrollTop, clientHeight } = this.root;
        if (!this.#isScaled) {
            return Math.floor(scrollTop / ROW);
        }
        const share = scrollTop / (HIGHEST + HEAD - clientHeight);
        return Math.max(0, Math.round(Math.min(1, share) * (this.#total - this.#inSight)));
    }

    /** Draws the rows in sight at the next chance. */
    draw = atNextChance(() => this.#drawNow());

    #drawNow() {
        const first = this.#first;
        const count = Math.min(this.#total - first, this.#inSight + 2);
        if (count > 0) {
            this.#words.onneed?.(first, count);
        }
        this.#rows.style.top = `${this.#isScaled ? this.root.scrollTop : first * ROW}px`;
        const rows = Array.from({ length: Math.max(0, count) }, (_, index) => this.#row(first + index));
        this.#rows.replaceChildren(...rows);
        this.#mark();
    }

    #row(index) {
        const row = this.#rowAt(index);
        const cells = this.#columns.map((column) => {
            const names = [column.isNumber ? "number" : "", row && column.style?.(row) || ""];
            const cell = element("div", { role: "gridcell", class: names.join(" ").trim() || undefined });
            if (row === undefined) {
                cell.textContent = column === this.#columns[0] ? "…" : "";
            } else if (column.fill) {
                column.fill(cell, row);
            } else {
                cell.textContent = column.text(row);
            }
            return cell;
        });
        return element("div", { role: "row", id: `${this.#id}-${index}`, "aria-rowindex": String(index + 2),
            "aria-selected": String(index === this.#active),
            onclick: () => this.activate(index), ondblclick: () => this.#open() }, ...cells);
    }

    #mark() {
        const name = `${this.#id}-${this.#active}`;
        for (const row of this.#rows.children) {
            row.setAttribute("aria-selected", String(row.id === name));
        }
        if (this.#rows.querySelector(`#${name}`)) {
            this.root.setAttribute("aria-activedescendant", name);
        } else {
            this.root.removeAttribute("aria-activedescendant");
        }
    }

    #open() {
        const row = this.#rowAt(this.#active);
        if (row !== undefined) {
            this.#words.onopen?.(row);
        }
    }

    /** Makes a row the active one, in sight. */
    activate(index) {
        this.#active = Math.max(0, Math.min(this.#total - 1, index));
        this.#reveal();
        this.#mark();
        this.draw();
        const row = this.#rowAt(this.#active);
        if (row !== undefined) {
            this.#words.onactive?.(row, this.#active);
        }
    }

    #reveal() {
        const [first, inSight] = [this.#first, this.#inSight];
        if (this.#active >= first && this.#active < first + inSight) {
            return;
        }
        const top = this.#active < first ? this.#active : this.#active - inSight + 1;
        this.root.scrollTop = this.#isScaled
            ? top / (this.#total - inSight) * (HIGHEST + HEAD - this.root.clientHeight)
            : this.#active < first ? top * ROW : (this.#active + 1) * ROW + HEAD - this.root.clientHeight;
    }

    #press(event) {
        if (event.target !== this.root || event.ctrlKey || event.metaKey || event.altKey || !this.#total) {
            return;
        }
        const page = this.#inSight;
        const steps = { ArrowDown: 1, ArrowUp: -1, PageDown: page, PageUp: -page, Home: -Infinity, End: Infinity };
        if (event.key in steps) {
            this.activate(this.#active < 0 ? 0 : this.#active + steps[event.key]);
        } else if (event.key === "Enter") {
            this.#open();
        } else {
            return;
        }
        event.preventDefault();
    }
}
