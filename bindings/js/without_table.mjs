// Prints a WebAssembly module without its table, which the linker makes of one empty element: an older wasm-opt reads no
// table with 64-bit indices.
//
//     node without_table.mjs MODULE >OTHER
//
// A module with elements of a table is left as it is.

import { readFileSync } from "node:fs";

const TABLES = 4;
const ELEMENTS = 9;

/** The sections of a module after its 8 bytes of a header: the number of each, and its bytes with that and its length. */
function sectionsOf(module) {
    const sections = [];
    for (let at = 8; at < module.length;) {
        const from = at;
        let [length, shift, byte] = [0, 0, 128];
        for (at += 1; byte >= 128; at++, shift += 7) {
            byte = module[at];
            length += (byte & 127) * 2 ** shift;
        }
        at += length;
        sections.push({ number: module[from], bytes: module.subarray(from, at) });
    }
    return sections;
}

const module = readFileSync(process.argv[2]);
const sections = sectionsOf(module);
const hasElements = sections.some((section) => section.number === ELEMENTS);
const kept = sections.filter((section) => hasElements || section.number !== TABLES);
process.stdout.write(Buffer.concat([module.subarray(0, 8), ...kept.map((section) => section.bytes)]));
