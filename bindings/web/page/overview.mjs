// What a recording is, all in one view.

import { button, element, fact } from "./elements.mjs";
import { showBytes } from "./bytes_dialog.mjs";
import { elementPicture } from "./element_picture.mjs";
import { clockText, countText, plural, shareText, sizeText, spanText } from "./words.mjs";

function card(title, isWide, ...contents) {
    return element("section", { class: isWide ? "card wide" : "card", "aria-label": title }, element("h2", {}, title),
        element("div", { class: "inside", tabindex: "0", role: "group", "aria-label": title }, ...contents));
}

function table(heads, rows) {
    const cell = (tag, { text, kind }, attributes = {}) => element(tag, { class: kind, ...attributes }, text);
    return element("table", { class: "plain" },
        element("thead", {}, element("tr", {}, ...heads.map((head) => cell("th", head, { scope: "col" })))),
        element("tbody", {}, ...rows.map((row) => element("tr", {}, ...row.map((one) => cell("td", one))))));
}

const quiet = (text) => element("p", { class: "quiet" }, text);
const plain = (text) => ({ text: String(text ?? "") });
const numeric = (text) => ({ text: String(text), kind: "number" });

function share(part, whole) {
    const bar = element("div", {});
    bar.style.width = `${whole ? 100 * part / whole : 0}%`;
    return { text: element("div", { class: "share", role: "img", "aria-label": shareText(part, whole) }, bar) };
}

function recordingCard({ name, size, kind, order, isClosed, start, duration, hasTime, cpus }) {
    const form = kind === "file" ? "file of perf record" : "stream";
    const shape = `${sizeText(size)}, ${form}, ${order} endian`;
    const times = hasTime
        ? [...fact("First time", clockText(start, 0), { id: "first-time" }),
            ...fact("Last time", clockText(start, duration), { id: "last-time" })]
        : fact("Times", "none: the frames have no time");
    const ended = kind !== "file" ? []
        : fact("Closed", isClosed ? "yes" : "no: the recording was not ended, and is read as far as it goes");
    const processors = cpus.length ? `${cpus.length} (${listText(cpus)})` : "not recorded";
    return card("Recording", false, element("dl", { class: "facts" }, ...fact("File", name), ...fact("Form", shape),
        ...ended, ...times, ...fact("Processors", processors)));
}

/** Numbers in order, as 0-3, 8. */
function listText(numbers) {
    const parts = [];
    for (const number of [...numbers].sort((one, other) => one - other)) {
        const last = parts.at(-1);
        if (last && last[1] === number - 1) {
            last[1] = number;
        } else {
            parts.push([number, number]);
        }
    }
    return parts.map(([from, to]) => from === to ? from : `${from}–${to}`).join(", ");
}

const HEADER_NAMES = {
    hostname: "Host", osRelease: "Kernel", commandLine: "Command line", perfVersion: "perf",
    architecture: "Architecture", processor: "Processor", processors: "Processors", memory: "Memory",
};

function headerCard({ header, kind }) {
    const facts = Object.entries(HEADER_NAMES).filter(([name]) => header[name] !== undefined)
        .flatMap(([name, title]) => fact(title, String(header[name]), { "data-header": name }));
    const none = `${kind === "file" ? "The file" : "A stream"} does not tell where it was recorded.`;
    return card("Machine", false, facts.length ? element("dl", { class: "facts" }, ...facts) : quiet(none));
}

/** The time of the first or the last sample of an event. */
const sampleTime = (time) => numeric(time === undefined ? "–" : clockText(time, 0));

function eventsCard({ events, samples }) {
    const heads = [plain("Event"), plain("Type and config"), numeric("Samples"), plain("Share"), numeric("Period"),
        numeric("First sample"), numeric("Last sample"), numeric("Frames"), numeric("Lost"), numeric("Refused")];
    return card("Events", true, table(heads, events.map((event) => [
        plain(event.name), { text: `${event.type}:${event.config}`, kind: "mono" }, numeric(countText(event.samples)),
        share(event.samples, samples), numeric(countText(event.period)), sampleTime(event.first),
        sampleTime(event.last), numeric(countText(event.frames)), numeric(countText(event.lost)),
        numeric(countText(event.refused)),
    ])));
}

/** What counts most, in a row of figures. */
function figures({ samples, frames, duration, threads, lost, refused, hasTime }) {
    const figure = (title, text, id, isBad) =>
        element("div", { class: isBad ? "is-bad" : undefined }, ...fact(title, text, { id }));
    return element("dl", { class: "figures" }, figure("Samples", countText(samples), "samples"),
        figure("Frames", countText(frames), "frames"),
        figure("Duration", hasTime ? spanText(duration) : "none", "duration"),
        figure("Threads", countText(threads), "threads"), figure("Lost records", countText(lost), "lost", lost > 0n),
        figure("Refused frames", countText(refused.count), "refused", refused.count > 0));
}

function countsCard({ records }) {
    const most = records.reduce((most, { count }) => Math.max(most, count), 0);
    return card("Records", false, table([plain("Type"), numeric("Frames"), plain("")],
        records.map(({ name, count }) => [plain(name), numeric(countText(count)), share(count, most)])));
}

function refusedCard(shell, { refused }) {
    if (!refused.count) {
        return card("Refused frames", false, quiet("Each frame of this recording is read."));
    }
    const place = (one) => button(`${one.at}`, () => showBytes(shell, one),
        { class: "link", "aria-label": `Bytes from ${one.at}` });
    const rows = refused.first.map((one) => [
        { text: place(one), kind: "number" }, numeric(plural(one.size, "byte")), plain(one.message),
    ]);
    const more = refused.count > rows.length ? [quiet(`The first ${rows.length} of ${countText(refused.count)}.`)] : [];
    return card("Refused frames", false, table([numeric("Place"), numeric("Size"), plain("Why")], rows), ...more);
}

export class Overview {
    #shell;
    #shown;

    constructor(shell) {
        this.#shell = shell;
        this.root = element("div", { class: "overview" });
    }

    reset() {
        this.#shown = undefined;
        this.root.replaceChildren();
    }

    svg() {
        return elementPicture(this.root, "Overview");
    }

    show() {
        const { overview } = this.#shell;
        if (this.#shown !== overview) {
            this.#shown = overview;
            this.root.replaceChildren(figures(overview), eventsCard(overview), recordingCard(overview),
                headerCard(overview), countsCard(overview), refusedCard(this.#shell, overview));
        }
    }
}
