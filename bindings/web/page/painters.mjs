// Two ways to draw one picture: on a canvas, and as the text of an SVG file. Both have the same functions.

const FONT = "system-ui, -apple-system, 'Segoe UI', Roboto, 'Liberation Sans', sans-serif";
const widths = new Map();
let measure;

function widthOf(text, size, weight) {
    const key = `${weight}${size}${text}`;
    let width = widths.get(key);
    if (width === undefined) {
        measure ??= document.createElement("canvas").getContext("2d");
        measure.font = `${weight} ${size}px ${FONT}`;
        width = measure.measureText(text).width;
        if (widths.size > 50000) {
            widths.clear();
        }
        widths.set(key, width);
    }
    return width;
}

/** As much of a text as fits into a width, with an ellipsis if it is cut; "" if nothing of use fits. */
export function fitText(text, room, size = 11, weight = "normal") {
    if (room < 14) {
        return "";
    }
    const most = Math.ceil(room / 3) + 1;
    const shown = text.length > most ? text.slice(0, most) : text;
    if (shown === text && widthOf(text, size, weight) <= room) {
        return text;
    }
    let [low, high] = [0, shown.length];
    while (low < high) {
        const middle = (low + high + 1) >> 1;
        if (widthOf(`${shown.slice(0, middle)}…`, size, weight) <= room) {
            low = middle;
        } else {
            high = middle - 1;
        }
    }
    return low > 1 ? `${shown.slice(0, low)}…` : "";
}

export class CanvasPainter {
    #context;

    constructor(canvas, width, height) {
        const ratio = window.devicePixelRatio || 1;
        const [wide, high] = [Math.round(width * ratio), Math.round(height * ratio)];
        if (canvas.width !== wide || canvas.height !== high) {
            canvas.width = wide;
            canvas.height = high;
            canvas.style.height = `${height}px`;
        }
        this.#context = canvas.getContext("2d");
        this.#context.setTransform(ratio, 0, 0, ratio, 0, 0);
        this.#context.textBaseline = "alphabetic";
    }

    rect(x, y, width, height, colour) {
        this.#context.fillStyle = colour;
        this.#context.fillRect(x, y, width, height);
    }

    outline(x, y, width, height, colour, thick = 1) {
        this.#context.strokeStyle = colour;
        this.#context.lineWidth = thick;
        this.#context.strokeRect(x + thick / 2, y + thick / 2, width - thick, height - thick);
    }

    text(x, y, text, colour, { size = 11, weight = "normal", align = "start" } = {}) {
        this.#context.font = `${weight} ${size}px ${FONT}`;
        this.#context.textAlign = align;
        this.#context.fillStyle = colour;
        this.#context.fillText(text, x, y);
    }

    shape(points, colour) {
        this.#context.fillStyle = colour;
        this.#context.beginPath();
        points.forEach(([x, y], index) => index ? this.#context.lineTo(x, y) : this.#context.moveTo(x, y));
        this.#context.closePath();
        this.#context.fill();
    }

    inside(x, y, width, height, draw) {
        this.#context.save();
        this.#context.beginPath();
        this.#context.rect(x, y, width, height);
        this.#context.clip();
        draw();
        this.#context.restore();
    }
}

/** What XML does not allow at all. */
const FORBIDDEN = /[\u0000-\u001f\u007f\ufffe\uffff]|\p{Surrogate}/gu;

function escaped(text) {
    const names = { "&": "&amp;", "<": "&lt;", ">": "&gt;", "\"": "&quot;" };
    return text.replace(FORBIDDEN, "_").replace(/[&<>"]/g, (sign) => names[sign]);
}

/** An element of an SVG file without contents, or with those. */
function tag(name, attributes, contents) {
    const words = Object.entries(attributes).map(([key, value]) => ` ${key}="${escaped(String(value))}"`).join("");
    return contents === undefined ? `<${name}${words}/>` : `<${name}${words}>${contents}</${name}>`;
}

const short = (value) => String(Math.round(value * 100) / 100);
const box = (x, y, width, height) => ({ x: short(x), y: short(y), width: short(width), height: short(height) });

export class SvgPainter {
    #parts = [];
    #size;
    #clips = 0;

    constructor(width, height) {
        this.#size = [width, height];
    }

    rect(x, y, width, height, colour) {
        this.#parts.push(tag("rect", { ...box(x, y, width, height), fill: colour }));
    }

    outline(x, y, width, height, colour, thick = 1) {
        const inner = box(x + thick / 2, y + thick / 2, width - thick, height - thick);
        this.#parts.push(tag("rect", { ...inner, fill: "none", stroke: colour, "stroke-width": thick }));
    }

    text(x, y, text, colour, { size = 11, weight = "normal", align = "start" } = {}) {
        const anchor = { start: "start", center: "middle", end: "end" }[align];
        this.#parts.push(tag("text", { x: short(x), y: short(y), fill: colour, "font-size": size, "font-weight": weight,
            "text-anchor": anchor, "xml:space": "preserve" }, escaped(text)));
    }

    shape(points, colour) {
        const corners = points.map((point) => point.map(short).join(",")).join(" ");
        this.#parts.push(tag("polygon", { points: corners, fill: colour }));
    }

    inside(x, y, width, height, draw) {
        const name = `clip${this.#clips++}`;
        const clip = tag("clipPath", { id: name }, tag("rect", box(x, y, width, height)));
        this.#parts.push(clip, `<g clip-path="url(#${name})">`);
        draw();
        this.#parts.push("</g>");
    }

    /** The picture as a file. */
    file(title) {
        const [width, height] = this.#size.map(short);
        const contents = [tag("title", {}, escaped(title)), ...this.#parts].join("\n");
        const attributes = { xmlns: "http://www.w3.org/2000/svg", width, height, viewBox: `0 0 ${width} ${height}`,
            "font-family": FONT };
        return `<?xml version="1.0" encoding="UTF-8"?>\n${tag("svg", attributes, `\n${contents}\n`)}\n`;
    }
}
