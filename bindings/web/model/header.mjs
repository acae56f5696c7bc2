// What perf states about a recording beside its frames: the machine, and the command.
//
// The library finds the features; one that it refuses, as it ends beyond the file, is left out.

import { viewOf } from "../../js/config.mjs";
import { textOf } from "./text.mjs";

const TEXTS = { hostname: 3, osRelease: 4, perfVersion: 5, architecture: 6, processor: 8 };
const PROCESSORS = 7;
const MEMORY = 10;
const COMMAND_LINE = 11;
// The most bytes of a text and the most words of the command that are shown.
const MOST = 10000;

/** Numbers and texts of bytes, one after another. Those that are not there are NaN or undefined. */
class Words {
    constructor(bytes, isLittle) {
        this.bytes = bytes;
        this.isLittle = isLittle;
        this.view = viewOf(bytes);
        this.at = 0;
    }

    #take(length) {
        const at = this.at;
        this.at += length;
        return length >= 0 && this.at <= this.bytes.length ? at : undefined;
    }

    get isCut() { return !(this.at <= this.bytes.length); }

    u32() {
        const at = this.#take(4);
        return at === undefined ? NaN : this.view.getUint32(at, this.isLittle);
    }

    u64() {
        const at = this.#take(8);
        return at === undefined ? undefined : this.view.getBigUint64(at, this.isLittle);
    }

    /** A length and that many bytes: the text before the first zero byte. */
    text() {
        const length = this.u32();
        const at = this.#take(length);
        return at === undefined ? undefined : beforeZero(this.bytes.subarray(at, at + length));
    }
}

function beforeZero(bytes) {
    const end = bytes.indexOf(0);
    return textOf(bytes.subarray(0, Math.min(end < 0 ? bytes.length : end, MOST)));
}

function commandLine(words) {
    const count = words.u32();
    const parts = [];
    while (parts.length < Math.min(count, MOST)) {
        const part = words.text();
        if (part === undefined) {
            break;
        }
        parts.push(part);
    }
    return parts.join(" ");
}

/** The bytes of a feature; undefined if the file does not have it, or it is refused. */
function featureOf(file, number) {
    try {
        return file.feature(number);
    } catch (error) {
        if (error instanceof RangeError) {
            return undefined;
        }
        throw error;
    }
}

/** What the features of a file state, as texts. */
export function headerOf(file, isLittle) {
    const read = (number, call) => {
        const bytes = featureOf(file, number);
        return bytes === undefined ? undefined : call(new Words(bytes, isLittle));
    };
    const header = {};
    for (const [name, number] of Object.entries(TEXTS)) {
        header[name] = read(number, (words) => words.text());
    }
    header.processors = read(PROCESSORS, (words) => {
        const [available, online] = [words.u32(), words.u32()];
        return words.isCut ? undefined : `${online} of ${available} online`;
    });
    header.memory = read(MEMORY, (words) => {
        const kilobytes = words.u64();
        return kilobytes === undefined ? undefined : `${kilobytes} kB`;
    });
    header.commandLine = read(COMMAND_LINE, commandLine);
    return header;
}

/** The period of events whose samples have none: of the attribute's own, `sample_period`. */
export function ownPeriod(bytes, at, isLittle) {
    return viewOf(bytes).getBigUint64(at + 16, isLittle);
}
