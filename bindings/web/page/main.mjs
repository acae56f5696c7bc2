// The page: it owns the state of the view, opens files, and shows the view that is chosen.

import { button, byId, isTyping } from "./elements.mjs";
import { ExportMenu } from "./export_menu.mjs";
import { sorted } from "./files.mjs";
import { FilterBar } from "./filter_bar.mjs";
import { Flame } from "./flame.mjs";
import { showHelp } from "./help.mjs";
import { Landing } from "./landing.mjs";
import { Overview } from "./overview.mjs";
import { Records } from "./records.mjs";
import { showTip } from "./stage.mjs";
import { Tabs } from "./tabs.mjs";
import { Tasks } from "./tasks.mjs";
import { Timeline } from "./timeline.mjs";
import { initialState, readAddress, THEMES, writeAddress } from "./view_state.mjs";
import { Stopped, WorkerLink } from "./worker_link.mjs";
import { plural, sizeText } from "./words.mjs";

// Browsers refuse addresses that are much longer.
const LONGEST = 60000;

class Page {
    state = readAddress(location.hash);
    overview;
    /** How many files of symbols were read. */
    symbols = 0;
    #link = new WorkerLink((progress) => this.#landing.progress(progress));
    #landing = new Landing(byId("landing"), { onopen: () => byId("file").click(), onstop: () => this.#stop() });
    #bar = new FilterBar(this, byId("filters"));
    #export = new ExportMenu(this);
    panels = {
        overview: new Overview(this), timeline: new Timeline(this), flame: new Flame(this), tasks: new Tasks(this),
        records: new Records(this),
    };
    #tabs = new Tabs(this.panels, (tab) => this.change({ tab }, true));
    #writing;
    #opened = 0;

    constructor() {
        byId("open").addEventListener("click", () => byId("file").click());
        byId("help").addEventListener("click", showHelp);
        byId("skip").addEventListener("click", () => byId("main").focus());
        byId("theme").addEventListener("click", () => this.#nextTheme());
        byId("file").addEventListener("change", ({ target }) => {
            this.open([...target.files]);
            target.value = "";
        });
        addEventListener("hashchange", () => {
            this.state = readAddress(location.hash);
            this.#show();
        });
        addEventListener("keydown", (event) => this.#key(event));
        matchMedia("(prefers-color-scheme: dark)").addEventListener("change", () => this.#show());
        this.#listenToDrops();
        this.#show();
    }

    #listenToDrops() {
        addEventListener("dragover", (event) => {
            event.preventDefault();
            document.body.classList.add("is-dragged");
        });
        addEventListener("dragleave", (event) => event.relatedTarget || document.body.classList.remove("is-dragged"));
        addEventListener("drop", (event) => {
            event.preventDefault();
            document.body.classList.remove("is-dragged");
            this.open([...event.dataTransfer.files]);
        });
    }

    /** Calls the worker. */
    call(name, words, transfer) {
        return this.#link.call(name, words, transfer);
    }

    eventName(index) {
        return this.overview.events[index]?.name ?? "";
    }

    say(text) {
        byId("status").textContent = text;
    }

    /** Shows why something failed; a call that was stopped has not failed. */
    complain(error) {
        if (error instanceof Stopped) {
            return;
        }
        const text = document.createElement("span");
        text.textContent = error.message || String(error);
        byId("notice").replaceChildren(text, button("Dismiss", () => this.#forgive(), { id: "dismiss" }));
        byId("notice").hidden = false;
    }

    #forgive() {
        byId("notice").hidden = true;
        byId("main").focus();
    }

    /** Changes the state and shows it; a step is one that the browser's button goes back over. */
    change(changes, isStep = false) {
        const before = writeAddress(this.state);
        this.state = { ...this.state, ...changes };
        const now = writeAddress(this.state);
        if (before !== now && now.length < LONGEST) {
            clearTimeout(this.#writing);
            if (isStep) {
                history.replaceState(null, "", before.length < LONGEST ? before : "#");
                history.pushState(null, "", now);
            } else {
                // browsers limit how often an address may change
                this.#writing = setTimeout(() => history.replaceState(null, "", now), 250);
            }
        }
        this.#show();
    }

    #show() {
        const { theme, tab } = this.state;
        if (theme === "auto") {
            delete document.documentElement.dataset.theme;
        } else {
            document.documentElement.dataset.theme = theme;
        }
        byId("theme").textContent = { auto: "Theme: auto", light: "Theme: light", dark: "Theme: dark" }[theme];
        showTip();
        if (this.overview) {
            this.#tabs.show(tab);
            this.#bar.show();
            this.panels[tab].show();
        }
    }

    #nextTheme() {
        this.change({ theme: THEMES[(THEMES.indexOf(this.state.theme) + 1) % THEMES.length] });
    }

    #key(event) {
        const isPlain = !event.ctrlKey && !event.metaKey && !event.altKey && !isTyping(event.target);
        if (event.key === "/" && isPlain && this.overview) {
            event.preventDefault();
            this.panels[this.state.tab].focusSearch?.();
        }
    }

    /** Opens a recording, and reads the symbols that are beside it. */
    async open(files) {
        byId("notice").hidden = true;
        try {
            const { recordings, symbols } = await sorted(files);
            if (recordings.length) {
                await this.#openRecording(recordings[0]);
            }
            for (const file of symbols) {
                await this.#readSymbols(file);
            }
        } catch (error) {
            this.complain(error);
        }
    }

    async #openRecording(file) {
        const opened = ++this.#opened;
        this.#link.stop();
        this.#close(file.name);
        const began = performance.now();
        try {
            const bytes = await file.arrayBuffer();
            if (opened !== this.#opened) {
                return;
            }
            const overview = await this.#link.call("open", { name: file.name, bytes, kind: "auto" }, [bytes]);
            await this.#begin(overview, began);
        } catch (error) {
            if (opened === this.#opened) {
                this.overview = undefined;
                this.#landing.wait();
                this.say(`${file.name} was not opened`);
                this.complain(new Error(`${file.name}: ${error.message}`));
            }
        }
    }

    #close(name) {
        if (this.overview) {
            this.state = { ...initialState(), theme: this.state.theme, tab: this.state.tab };
        }
        this.overview = undefined;
        delete document.documentElement.dataset.opened;
        this.symbols = 0;
        this.#tabs.hide();
        byId("filters").hidden = true;
        byId("landing").hidden = false;
        this.#export.enable(false);
        Object.values(this.panels).forEach((panel) => panel.reset());
        byId("title").textContent = name;
        document.title = `${name} – perf-view`;
        this.#landing.read(name);
        this.say(`Reading ${name}`);
    }

    async #begin(overview, began) {
        this.overview = overview;
        await this.#bar.load();
        byId("landing").hidden = true;
        byId("filters").hidden = false;
        this.#export.enable(true);
        this.#show();
        this.#tabs.focus(this.state.tab);
        history.replaceState(null, "", writeAddress(this.state));
        const seconds = ((performance.now() - began) / 1000).toFixed(1);
        const { size, frames, samples } = overview;
        this.say(`${sizeText(size)}, ${plural(frames, "frame")}, ${plural(samples, "sample")}, read in ${seconds} s`);
        document.documentElement.dataset.opened = overview.name;
    }

    #stop() {
        this.#opened += 1;
        this.#link.stop();
        this.#landing.wait();
        this.say("Reading was stopped");
        byId("choose").focus();
    }

    async #readSymbols(file) {
        if (!this.overview) {
            this.complain(new Error(`${file.name} is a file of symbols: open a recording first`));
            return;
        }
        try {
            const text = await file.text();
            const { count } = await this.call("symbols", { text, file: file.name });
            this.symbols += 1;
            this.#show();
            this.say(`${plural(count, "symbol")} in ${file.name}`);
        } catch (error) {
            this.complain(new Error(`${file.name}: ${error.message}`));
        }
    }
}

new Page();
