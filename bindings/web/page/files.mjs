// Files that are chosen or dropped, and files that the page writes.

import { element } from "./elements.mjs";

// ADDRESS TYPE NAME, or of a map of generated code START SIZE NAME.
const LINE = /^(?:(?:0x)?[0-9a-f]{2,16} +(?:[0-9a-f]+|\S)| {8,16} \S) +\S/i;

/** Whether a file begins as the text of `nm`, of kallsyms or of a map of generated code. */
async function isSymbols(file) {
    const text = await file.slice(0, 4096).text();
    const lines = text.split("\n").slice(0, 20).filter(Boolean);
    // the last line may be cut
    return lines.length > 0 && lines.slice(0, Math.max(1, lines.length - 1)).every((line) => LINE.test(line));
}

/** Tells recordings from files of symbols. */
export async function sorted(files) {
    const result = { recordings: [], symbols: [] };
    for (const file of files) {
        (await isSymbols(file) ? result.symbols : result.recordings).push(file);
    }
    return result;
}

/** Writes a file into the folder of the reader's downloads. */
export function save(name, contents, type) {
    const address = URL.createObjectURL(new Blob([contents], { type }));
    element("a", { href: address, download: name }).click();
    setTimeout(() => URL.revokeObjectURL(address), 10000);
}
