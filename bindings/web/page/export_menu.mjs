// The menu of what can be written to a file.

import { button, byId } from "./elements.mjs";
import { save } from "./files.mjs";
import { filterOf } from "./view_state.mjs";

export class ExportMenu {
    #shell;
    #opener = byId("export");
    #list = byId("export-list");
    #svg = button("View as SVG", () => this.#act(() => this.#saveView()), { id: "export-svg" });

    constructor(shell) {
        this.#shell = shell;
        const item = (title, kind, type) =>
            button(title, () => this.#act(() => this.#saveText(kind, type)), { id: `export-${kind}` });
        this.#list.append(this.#svg, item("Folded lines of the selection", "folded", "text/plain"),
            item("Selected samples as CSV", "csv", "text/csv"));
        this.#opener.addEventListener("click", () => this.#toggle(this.#list.hidden));
        this.#list.addEventListener("keydown", (event) => this.#key(event));
        this.#opener.addEventListener("keydown", (event) => this.#key(event));
        document.addEventListener("pointerdown", (event) => event.target.closest?.(".menu") || this.#toggle(false));
    }

    enable(isEnabled) {
        this.#opener.disabled = !isEnabled;
    }

    #toggle(isOpen) {
        this.#list.hidden = !isOpen;
        this.#opener.setAttribute("aria-expanded", String(isOpen));
        if (isOpen) {
            this.#svg.focus();
        }
    }

    #key(event) {
        const all = [...this.#list.children];
        const now = all.indexOf(document.activeElement);
        if (event.key === "Escape" && !this.#list.hidden) {
            this.#toggle(false);
            this.#opener.focus();
        } else if (event.key === "ArrowDown" && this.#list.hidden) {
            this.#toggle(true);
        } else if (event.key === "ArrowDown" || event.key === "ArrowUp") {
            all[(now + (event.key === "ArrowDown" ? 1 : all.length - 1)) % all.length]?.focus();
        } else {
            return;
        }
        event.preventDefault();
    }

    async #act(work) {
        this.#toggle(false);
        this.#opener.focus();
        try {
            await work();
        } catch (error) {
            this.#shell.complain(error);
        }
    }

    get #base() {
        return this.#shell.overview.name.replace(/[^\w.-]+/g, "_");
    }

    #saveView() {
        const { tab } = this.#shell.state;
        const text = this.#shell.panels[tab].svg();
        if (text) {
            save(`${this.#base}-${tab}.svg`, text, "image/svg+xml");
            this.#shell.say(`Wrote ${this.#base}-${tab}.svg`);
        }
    }

    async #saveText(kind, type) {
        const { state } = this.#shell;
        const words = { kind, filter: filterOf(state), weight: state.weight, as: "bytes" };
        const bytes = await this.#shell.call("export", words);
        save(`${this.#base}.${kind}`, bytes, type);
        this.#shell.say(`Wrote ${this.#base}.${kind}`);
    }
}
