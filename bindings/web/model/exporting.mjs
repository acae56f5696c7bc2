// Text of the selected samples for other programs.

import { folded } from "./flame.mjs";
import { NO_CPU, NO_TASK } from "./frames.mjs";
import { select } from "./selection.mjs";
import { secondsOf } from "./text.mjs";

const AT_ONCE = 1000;
const COLUMNS = ["index", "time", "event", "name", "pid", "tid", "cpu", "period", "place"];
/** What a spreadsheet would take for a formula. */
const FORMULA = /^[=+\-@\t\r]/;

/** A text as a cell: in quotes if need be, and never a formula. */
function cell(text) {
    const plain = FORMULA.test(text) ? `'${text}` : text;
    return /[",\r\n]/.test(plain) || plain !== text ? `"${plain.replaceAll('"', '""')}"` : plain;
}

/** The selected samples in order of time, a line each, after a line with the names of the columns. */
function csv(recording, { filter = {} }) {
    const { samples, tasks, texts, events, start } = recording;
    const lines = [`${COLUMNS.join(",")}\r\n`];
    for (const place of select(recording, filter)) {
        const [task, cpu, time] = [samples.task[place], samples.cpu[place], samples.time[place]];
        const index = samples.frame[place];
        const cells = [
            index, time === -Infinity ? "" : secondsOf(start + BigInt(time)), cell(events[samples.event[place]].name),
            cell(texts.list[samples.name[place]]), task === NO_TASK ? "" : tasks.pid(task),
            task === NO_TASK ? "" : tasks.tid(task), cpu === NO_CPU ? "" : cpu, samples.period[place],
            cell(recording.placeOf(index)),
        ];
        lines.push(`${cells.join(",")}\r\n`);
    }
    return lines;
}

/** The bytes of lines of text in UTF-8. Only some of the text is in memory at once. */
function bytesOf(lines) {
    const encoder = new TextEncoder();
    const parts = [];
    for (let first = 0; first < lines.length; first += AT_ONCE) {
        parts.push(encoder.encode(lines.slice(first, first + AT_ONCE).join("")));
    }
    const bytes = new Uint8Array(parts.reduce((sum, part) => sum + part.length, 0));
    parts.reduce((at, part) => {
        bytes.set(part, at);
        return at + part.length;
    }, 0);
    return bytes;
}

const EXPORTS = { folded, csv };

/** The selected samples of a recording as text, or on request as its bytes. */
export function exported(recording, words) {
    const make = Object.hasOwn(EXPORTS, words.kind) ? EXPORTS[words.kind] : undefined;
    if (make === undefined) {
        throw new RangeError("samples are exported as folded or as csv");
    }
    const lines = make(recording, words);
    return words.as === "bytes" ? bytesOf(lines) : lines.join("");
}
