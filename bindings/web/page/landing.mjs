// What is in view while no recording is: how to open one, and how far reading is.

import { button, element } from "./elements.mjs";
import { sizeText } from "./words.mjs";

export const PRIVATE = "Nothing leaves this page: it works without a network, and its Content-Security-Policy names no "
    + "place that it could reach. What you open stays on this machine.";

export class Landing {
    #root;
    #ready;
    #reading;
    #title = element("h2", {});
    #bar = element("progress", { max: "1", "aria-label": "How far reading is" });
    #text = element("p", { id: "progress-text" });

    constructor(root, { onopen, onstop }) {
        this.#root = root;
        const kinds = [
            "perf.data, as perf record writes it",
            "a stream of this project: an event attribute, then records",
            "beside a recording, symbols: the text of nm -C, in a file named after the mapped one (libc.so.6.nm), or "
                + "that of /proc/kallsyms",
        ];
        this.#ready = element("div", { class: "drop" },
            element("h2", {}, "Open a recording of Linux performance events"),
            element("p", {}, "Drop a file anywhere on this page, or choose one."),
            button("Choose a file…", onopen, { class: "main", id: "choose" }),
            element("ul", {}, ...kinds.map((kind) => element("li", {}, kind))),
            element("p", { class: "private" }, PRIVATE));
        this.#reading = element("div", { class: "reading", id: "reading" }, this.#title, this.#bar, this.#text,
            button("Stop", onstop, { id: "stop" }));
        this.wait();
    }

    /** Shows how to open a recording. */
    wait() {
        this.#root.replaceChildren(this.#ready);
    }

    /** Shows that a file is read. */
    read(name) {
        this.#title.textContent = `Reading ${name}`;
        this.#bar.removeAttribute("value");
        this.#text.textContent = "…";
        this.#root.replaceChildren(this.#reading);
        this.#reading.querySelector("#stop").focus();
    }

    progress({ done, of, what }) {
        this.#bar.value = of ? done / of : 0;
        this.#text.textContent = `${what[0].toUpperCase()}${what.slice(1)}: ${sizeText(done)} of ${sizeText(of)}`;
    }
}
