// The list of views, one of which is shown.

import { button, byId, element } from "./elements.mjs";
import { TABS } from "./view_state.mjs";

const TITLES = { overview: "Overview", timeline: "Timeline", flame: "Flame graph", tasks: "Tasks", records: "Records" };

export class Tabs {
    #tabs = new Map();
    #panels = new Map();
    #list = byId("tabs");

    constructor(panels, onchoose) {
        for (const name of TABS) {
            const tab = button(TITLES[name], () => onchoose(name),
                { role: "tab", id: `tab-${name}`, "aria-controls": `panel-${name}` });
            const attributes = { role: "tabpanel", id: `panel-${name}`, "aria-labelledby": `tab-${name}` };
            const panel = element("section", attributes, panels[name].root);
            this.#tabs.set(name, tab);
            this.#panels.set(name, panel);
        }
        this.#list.append(...this.#tabs.values());
        byId("main").append(...this.#panels.values());
        this.#list.addEventListener("keydown", (event) => this.#key(event, onchoose));
        this.hide();
    }

    #key(event, onchoose) {
        const now = TABS.findIndex((name) => this.#tabs.get(name) === document.activeElement);
        const places = { ArrowRight: now + 1, ArrowLeft: now + TABS.length - 1, Home: 0, End: TABS.length - 1 };
        if (event.key in places && now >= 0) {
            const name = TABS[places[event.key] % TABS.length];
            event.preventDefault();
            onchoose(name);
            this.focus(name);
        }
    }

    hide() {
        this.#list.hidden = true;
        this.#panels.forEach((panel) => {
            panel.hidden = true;
        });
    }

    show(chosen) {
        this.#list.hidden = false;
        for (const name of TABS) {
            this.#tabs.get(name).setAttribute("aria-selected", String(name === chosen));
            this.#tabs.get(name).tabIndex = name === chosen ? 0 : -1;
            this.#panels.get(name).hidden = name !== chosen;
        }
    }

    focus(name) {
        this.#tabs.get(name).focus();
    }
}
