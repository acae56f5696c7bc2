// A frame's fields as text.

import { hexOf, nameOf, textOf } from "./text.mjs";

const ADDRESSES = new Set(["ip", "addr", "phys_addr", "pgoff", "transaction", "data_src"]);
const TEXTS = new Set(["comm", "filename", "name", "path"]);
const MOST_ITEMS = 10000;
const MARKS = new Map([[-32n, "hypervisor"], [-128n, "kernel"], [-512n, "user"], [-2048n, "guest"],
    [-2176n, "guest kernel"], [-2560n, "guest user"]]);

/** Bytes in hexadecimal, but no more than can be read. */
export function hexBytes(bytes) {
    return Array.from(bytes.subarray(0, MOST_ITEMS), (byte) => byte.toString(16).padStart(2, "0")).join("");
}

/** The numbers of a list, and a colon between those of one item. A call chain has its marks by name. */
function listText(name, numbers, each) {
    const text = (number) => name !== "callchain" ? name === "values" ? String(number) : `0x${number.toString(16)}`
        : MARKS.get(BigInt.asIntN(64, number)) ?? `0x${number.toString(16)}`;
    const words = [];
    for (let at = 0; at < Math.min(numbers.length, MOST_ITEMS); at += each) {
        words.push(Array.from(numbers.subarray(at, at + each), text).join(":"));
    }
    return words.join(" ") + (numbers.length > MOST_ITEMS ? " .." : "");
}

function fieldText(name, value, each) {
    if (value instanceof Uint8Array) {
        return TEXTS.has(name) ? nameOf(textOf(value)) : hexBytes(value);
    }
    if (typeof value === "bigint") {
        return ADDRESSES.has(name) ? `0x${value.toString(16)}` : String(value);
    }
    return listText(name, value, each || 1);
}

/** All that a frame has, as pairs of a name and a text. What its sample id has under a name of the record's own is
 * `sample_id.NAME`. */
export function fieldsOf(frame) {
    const { fields } = frame;
    const own = ["pid", "tid", "time", "cpu", "id", "stream_id"].filter((name) => frame[name] !== undefined)
        .map((name) => [name in fields ? `sample_id.${name}` : name, String(frame[name])]);
    const all = Object.entries(fields).map(([name, value]) => [name, fieldText(name, value, frame.itemLength(name))]);
    return [["type", String(frame.type)], ["misc", hexOf(0, frame.misc)], ...all, ...own];
}

const hex = (number) => `0x${number.toString(16)}`;
const task = ({ pid, tid }) => `${pid}/${tid}`;
const text = (bytes) => nameOf(textOf(bytes));
const PROTECTION = ["r", "w", "x"];

function protection(prot) {
    return PROTECTION.map((letter, bit) => prot >> BigInt(bit) & 1n ? letter : "-").join("");
}

const SUMMARIES = {
    mmap: (it) => `${hex(it.addr)} +${hex(it.len)} @${hex(it.pgoff)} ${text(it.filename)}`,
    mmap2: (it) => `${hex(it.addr)} +${hex(it.len)} @${hex(it.pgoff)} ${protection(it.prot)} ${text(it.filename)}`,
    lost: (it) => `${it.lost} lost`,
    lost_samples: (it) => `${it.lost} lost`,
    comm: (it, misc) => text(it.comm) + (misc & 0x2000 ? " (exec)" : ""),
    fork: (it) => `of ${it.ppid}/${it.ptid}`,
    exit: (it) => `of ${it.ppid}/${it.ptid}`,
    read: (it) => `value ${it.value}`,
    switch: (_, misc) => misc & 0x2000 ? "out" : "in",
    switch_cpu_wide: (it, misc) => misc & 0x2000 ? `out, next ${task(it)}` : `in, after ${task(it)}`,
    ksymbol: (it) => `${hex(it.addr)} +${hex(it.len)} ${text(it.name)}`,
    cgroup: (it) => `${it.id} ${text(it.path)}`,
    namespaces: (it) => `${it.count} namespaces`,
    bpf_event: (it) => `type ${it.ty} id ${it.id}`,
    text_poke: (it) => hex(it.addr),
    aux: (it) => `${it.aux_size} bytes at ${hex(it.aux_offset)}`,
    itrace_start: task,
    aux_output_hw_id: (it) => hex(it.hw_id),
};

/** What a record says, in a few words. */
export function summaryOf(frame) {
    return SUMMARIES[frame.name]?.(frame.fields, frame.misc) ?? "";
}
