// What the tests of the model share.

import { readFileSync } from "node:fs";
import { join, resolve } from "node:path";
import { fileURLToPath, pathToFileURL } from "node:url";
import { server } from "../model/protocol.mjs";

export const TOP = resolve(fileURLToPath(import.meta.url), "../../../..");
/** The library's module, in the folder that is the program's argument. */
export const library = await import(pathToFileURL(resolve(process.argv[2], "perf_event_data.mjs")));

export const results = { passed: 0, FAILED: 0 };

export function skip(text) {
    console.log(`skipped: ${text}`);
}

export function check(text, holds) {
    const result = holds ? "passed" : "FAILED";
    results[result] += 1;
    console.log(`${result}: ${text}`);
}

/** Checks that two texts or lists are equal, and else prints where they first differ. */
export function same(text, found, expected) {
    const [one, other] = [found, expected].map((it) => Array.isArray(it) ? it : [it]);
    const place = one.findIndex((it, index) => it !== other[index]);
    const isSame = place < 0 && one.length === other.length;
    check(text, isSame);
    if (!isSame) {
        console.log(`    ${one.length} and ${other.length} items; item ${place}: ${one[place]}, not ${other[place]}`);
    }
}

export const bytesIn = (...path) => new Uint8Array(readFileSync(join(TOP, ...path)));
export const linesIn = (...path) => readFileSync(join(TOP, ...path), "utf8").trimEnd().split("\n");

/** A model, of which each call returns what the page gets, or throws its error. */
export class Model {
    #ids = 0;
    #results = new Map();

    constructor() {
        this.progress = [];
        this.take = server(library, (message, buffers) => this.#receive(structuredClone(message,
            { transfer: buffers })));
    }

    #receive(message) {
        if (message.progress) {
            this.progress.push(message.progress);
        } else {
            this.#results.set(message.id, message);
        }
    }

    async call(call, words = {}) {
        const id = ++this.#ids;
        await this.take(structuredClone({ id, call, ...words }));
        const { result, error } = this.#results.get(id);
        this.#results.delete(id);
        if (error !== undefined) {
            throw new Error(error);
        }
        return result;
    }

    async open(bytes, kind = "auto") {
        return this.call("open", { name: "name", bytes: bytes.slice().buffer, kind });
    }
}

export async function opened(bytes, kind) {
    const model = new Model();
    model.overview = await model.open(bytes, kind);
    return model;
}

export async function messageOf(promise) {
    try {
        await promise;
        return "no message";
    } catch (error) {
        return error.message;
    }
}

export const folded = async (model, words = {}) => (await model.call("export",
    { kind: "folded", filter: {}, ...words }))
    .trimEnd().split("\n").sort();
