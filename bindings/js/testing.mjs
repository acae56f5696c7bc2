// What the tests of the module have in common: the module in the folder that is their first argument, the lines that
// the programs print of a frame, frames made by hand, and how results are told.

import { readdirSync, readFileSync } from "node:fs";
import { join, resolve } from "node:path";
import { setTimeout } from "node:timers/promises";
import { fileURLToPath, pathToFileURL } from "node:url";
import { setFlagsFromString } from "node:v8";
import { runInNewContext } from "node:vm";

export const TOP = resolve(fileURLToPath(import.meta.url), "../../..");
const [folder] = process.argv.slice(2);
if (folder === undefined) {
    console.error("the first argument is a folder that `make -C bindings js` made");
    process.exit(2);
}
// With WIDE in the environment, that whose memory has 64 bits.
const name = process.env.WIDE ? "wide.mjs" : "perf_event_data.mjs";
export const module = await import(pathToFileURL(resolve(folder, name)));
export const fieldTable = await import(pathToFileURL(resolve(folder, "fields.mjs")));
const { KINDS } = module;
export const ped = await module.load();

const results = { passed: 0, FAILED: 0, skipped: 0 };

export function tell(result, text) {
    results[result] += 1;
    console.log(`${result}: ${text}`);
}

export const check = (text, holds) => tell(holds ? "passed" : "FAILED", text);

/** Runs tests one after another, and ends with their results. */
export async function run(tests) {
    for (const test of tests) {
        await test();
    }
    console.log(Object.entries(results).map(([result, number]) => `${number} ${result.toLowerCase()}`).join(", "));
    process.exit(results.FAILED === 0 ? 0 : 1);
}

/** Reads a file of the repository, as a plain array of bytes that is in no buffer of Node's. */
export function bytesIn(...path) {
    return new Uint8Array(readFileSync(join(TOP, ...path)));
}

export const textIn = (...path) => readFileSync(join(TOP, ...path), "utf8");

export const RECORDINGS = [
    "crates/perf_tasks/stdin", "crates/perf_samples/stdin",
    ...readdirSync(join(TOP, "examples")).filter((name) => name.endsWith(".stream")).sort().map((name) => `examples/${name}`),
];

export const header = textIn("bindings/c/perf_event_data.h");

// ---- the lines of perfrec

// The name of each type in a line, and the names of its fields in their order, of bindings/fields.txt: of a list its count
// is left out, and of a single counter all is in `values`.
const [NAMES, ORDERS] = [[], []];
let orders = [];
for (const text of textIn("bindings/fields.txt").split("\n").filter((it) => it !== "" && it[0] !== "#")) {
    const [name, ...words] = text.trim().split(" ");
    if (text[0] !== " ") {
        for (const type of words) {
            const [number, ofType] = type.split("=");
            NAMES[number] = ofType;
            ORDERS[number] = [];
        }
        orders = words.map((type) => ORDERS[Number.parseInt(type, 10)]);
    } else if (!["count", "one", "more"].includes(words[1])) {
        orders.forEach((order) => order.push(name));
    }
}

export const hex = (bytes) => Buffer.from(bytes.buffer, bytes.byteOffset, bytes.length).toString("hex");

/** The items of a list, each a list of numbers. */
export function items(numbers, each) {
    const found = [];
    for (let i = 0; i < numbers.length; i += each) {
        found.push([...numbers.subarray(i, i + each)]);
    }
    return found;
}

/** An item of `lbr` as its line has it: from, to, four bits, cycles and type. */
function branch([from, to, word]) {
    return [from, to, ...[0n, 1n, 2n, 3n].map((bit) => word >> bit & 1n), word >> 4n & 0xffffn, word >> 20n & 15n];
}

function valueText(frame, name, value) {
    if (value instanceof Uint8Array) {
        return hex(value);
    }
    if (!(value instanceof BigUint64Array)) {
        return String(value);
    }
    const list = items(value, frame.itemLength(name));
    return (name === "lbr" ? list.map(branch) : list).map((item) => item.join(":")).join(",");
}

/** The texts of a record's fields, by their names. */
function fieldTexts(frame) {
    const { fields } = frame;
    const texts = Object.fromEntries(Object.entries(fields).map(([name, value]) => [name, valueText(frame, name, value)]));
    if (frame.name === "sample") {
        for (const name of ["pid", "tid", "time", "id", "stream_id", "cpu"]) {
            if (frame[name] !== undefined) {
                texts[name] = String(frame[name]);
            }
        }
        if ("value" in texts) {
            texts.values = ["value", "value_id", "value_lost"].filter((name) => name in texts).map((name) => texts[name]).join(":");
        }
    }
    return texts;
}

export function line(index, frame) {
    const head = `${index} ${frame.type} ${frame.misc} ${frame.size} `;
    if (frame.refusal) {
        return `${head}refused ${KINDS[frame.refusal]}`;
    }
    const texts = fieldTexts(frame);
    const words = ORDERS[frame.read].filter((name) => name in texts).map((name) => `${name}=${texts[name]}`);
    return head + [NAMES[frame.read], ...words].join(" ");
}

// ---- comparisons

/** Compares lines, and prints the first that differ. */
export function compare(text, expected, found) {
    const at = [...Array(Math.max(expected.length, found.length)).keys()].find((i) => expected[i] !== found[i]);
    if (at !== undefined) {
        console.log(`    ${found[at]}\n    not ${expected[at]}`);
    }
    check(text, at === undefined);
}

export const linesIn = (text) => text.split("\n").filter((it) => it !== "");

// ---- frames made by hand

/** A frame in the lower order first: its type, misc and size, and a body of numbers as [width, number]. */
export function frameOf(type, misc, body, size) {
    const bytes = body.flatMap(([width, number]) => Array.from({ length: width }, (_, i) => Number(BigInt(number) >> BigInt(8 * i) & 255n)));
    const header = [[4, type], [2, misc], [2, size ?? 8 + bytes.length]];
    return Uint8Array.from([...header.flatMap(([width, number]) => Array.from({ length: width }, (_, i) => number >> 8 * i & 255)), ...bytes]);
}

export const lost = frameOf(13, 0, [[8, 5]]);
export const zeros = (count) => Array(count).fill([1, 0]);

export const joined = (...parts) => new Uint8Array(Buffer.concat(parts));

export function repeated(bytes, count) {
    const all = new Uint8Array(bytes.length * count);
    for (let at = 0; at < all.length; at += bytes.length) {
        all.set(bytes, at);
    }
    return all;
}

export function refuses(text, call, message) {
    try {
        call();
        check(text, false);
    } catch (error) {
        check(`${text}: ${error.message}`, error instanceof RangeError && error.message === message);
    }
}

// ---- the declarations

/** Names that match a pattern in the declarations, in a class and those that it extends if one is given. */
export function declared(pattern, ofClass) {
    const text = readFileSync(resolve(folder, "perf_event_data.d.mts"), "utf8");
    const body = ofClass ? new RegExp(`class ${ofClass}[ <].*?\n\}`, "s").exec(text)[0] : text;
    const above = ofClass ? / extends (Frames?)[ <]/.exec(body.replace(/<Item extends Frame>/, "")) : null;
    const names = Array.from(body.matchAll(pattern), ([, name]) => name);
    const all = new Set([...names, ...(above ? declared(pattern, above[1]) : [])]);
    return [...all].filter((it) => it !== "constructor").sort();
}

/** Checks that the members of an object, also those of the classes above its own, are those that are declared. */
export function compareMembers(object) {
    const { name } = object.constructor;
    const found = new Set(Object.keys(object));
    for (let at = Object.getPrototypeOf(object); at !== Object.prototype; at = Object.getPrototypeOf(at)) {
        Object.getOwnPropertyNames(at).filter((it) => it !== "constructor").forEach((it) => found.add(it));
    }
    check(`the members of ${name} are declared`, declared(/^    (?:readonly )?(\w+)[(:<?]/gm, name).join(" ")
        === [...found].sort().join(" "));
}

// ---- changed bytes

/** Numbers from a seed: xorshift of 32 bits. */
export function numbersFrom(seed) {
    let state = seed;
    return (below) => {
        state ^= state << 13;
        state ^= state >>> 17;
        state ^= state << 5;
        return (state >>> 0) % below;
    };
}

export function isInside(frame, value) {
    const { bytes } = frame;
    return value instanceof BigUint64Array ? 8 * value.length <= bytes.length
        : !(value instanceof Uint8Array) || value.length === 0
            || value.byteOffset >= bytes.byteOffset + 8 && value.byteOffset + value.length <= bytes.byteOffset + bytes.length;
}

// ---- measurements

export const MOST = 1;

/** The least time of the processor for a frame, in microseconds, of ten runs, and of more, up to 60, while it is above a
 * limit: on a busy machine most are slower. */
export function microseconds(count, call, most = Infinity) {
    let least = Infinity;
    for (let run = 0; run < 10 || run < 60 && least > most * count; run++) {
        const before = process.cpuUsage();
        call();
        const { user, system } = process.cpuUsage(before);
        least = Math.min(least, user + system);
    }
    return least / count;
}

/** The bytes that a call takes in memory besides what was there before. */
export async function bytesTaken(call) {
    setFlagsFromString("--expose-gc");
    for (let i = 0; i < 3; i++) {
        runInNewContext("gc")(); // what other tests left is taken away first
        await setTimeout(50);
    }
    const before = process.memoryUsage().external;
    call();
    return process.memoryUsage().external - before;
}
