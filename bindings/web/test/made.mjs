// Makes recordings: a perf.data file of frames.

const encoder = new TextEncoder();
const HEAD = 104;
const ATTRIBUTE = 128;
/** IP, TID, TIME, CALLCHAIN, PERIOD and IDENTIFIER; CPU too, if it is written. */
const SAMPLE_TYPE = 0x10127n;
const CPU = 0x80n;
const SAMPLE_ID_ALL = 18n;
/** Whether what is made has the lowest byte first, and the processor of each record. */
export const writing = { isLittle: true, hasCpu: true };

/** Bytes of numbers, each with its width: [8, 1n], [4, 5]; or of a text. */
export function bytesOf(...parts) {
    const lengths = parts.map((it) => Array.isArray(it) ? it[0] : it.length);
    const bytes = new Uint8Array(lengths.reduce((sum, length) => sum + length, 0));
    const view = new DataView(bytes.buffer);
    let at = 0;
    parts.forEach((it, index) => {
        if (!Array.isArray(it)) {
            bytes.set(it, at);
        } else if (it[0] === 8) {
            view.setBigUint64(at, BigInt.asUintN(64, BigInt(it[1])), writing.isLittle);
        } else if (it[0] === 4) {
            view.setUint32(at, it[1], writing.isLittle);
        } else {
            view.setUint16(at, it[1], writing.isLittle);
        }
        at += lengths[index];
    });
    return bytes;
}

export const joined = (list) => new Uint8Array(Buffer.concat(list));

export function frame(type, misc, body) {
    return bytesOf([4, type], [2, misc], [2, 8 + body.length], body);
}

/** The bytes of a name, with zeros up to a multiple of eight. */
function padded(name) {
    const bytes = typeof name === "string" ? encoder.encode(name) : name;
    return joined([bytes, new Uint8Array(8 - bytes.length % 8)]);
}

const id = ({ pid = 0, tid = pid, time = 0, cpu = 0, event = 0 }) =>
    bytesOf([4, pid], [4, tid], [8, time], ...writing.hasCpu ? [[4, cpu], [4, 0]] : [], [8, 100 + event]);

export const comm = (it) => frame(3, it.misc ?? 0,
    joined([bytesOf([4, it.pid], [4, it.tid ?? it.pid]), padded(it.name), id(it)]));

export const fork = (it) => frame(7, it.misc ?? 0, joined([
    bytesOf([4, it.pid], [4, it.ppid], [4, it.tid ?? it.pid], [4, it.ptid ?? it.ppid], [8, it.time]), id(it)]));

export const exit = (it) => frame(4, 0, joined([
    bytesOf([4, it.pid], [4, 1], [4, it.tid ?? it.pid], [4, 1], [8, it.time]), id(it)]));

export const mmap2 = (it) => frame(10, it.misc ?? 2, joined([
    bytesOf([4, it.pid], [4, it.pid], [8, it.address], [8, it.length], [8, it.offset ?? 0], [8, 0], [8, 0], [8, 0],
        [4, it.protection ?? 5], [4, 2]), padded(it.name), id(it)]));

export const mmap = (it) => frame(1, it.misc ?? 2, joined([
    bytesOf([4, it.pid], [4, it.pid], [8, it.address], [8, it.length], [8, it.offset ?? 0]), padded(it.name), id(it)]));

/** Of a KSYMBOL the flag 1 is that the code goes. */
export const ksymbol = (it) => frame(17, 0, joined([
    bytesOf([8, it.address], [4, it.length], [2, 1], [2, it.flags ?? 0]), padded(it.name), id(it)]));

export const lost = (it) => frame(2, 0, joined([bytesOf([8, 100], [8, it.lost]), id(it)]));

/** Of a SWITCH 0x2000 in `misc` is out. */
export const switched = (it) => frame(14, it.misc ?? 0, id(it));

/** Of a SWITCH_CPU_WIDE too; the other thread is of no interest. */
export const switchedCpu = (it) => frame(15, it.misc ?? 0, joined([bytesOf([4, 0], [4, 0]), id(it)]));

export const sample = (it) => frame(9, it.misc ?? 2, bytesOf([8, 100 + (it.event ?? 0)], [8, it.ip ?? 0], [4, it.pid],
    [4, it.tid ?? it.pid], [8, it.time], ...writing.hasCpu ? [[4, it.cpu ?? 0], [4, 0]] : [], [8, it.period ?? 1],
    [8, it.chain?.length ?? 0],
    ...(it.chain ?? []).map((address) => [8, address])));

/** The feature that names events, of a perf whose attributes are longer than those of the file. */
function descriptions(attributes, names) {
    return joined([bytesOf([4, names.length], [4, ATTRIBUTE + 8]), ...names.map((name, event) => {
        const text = encoder.encode(`${name}\0`);
        return joined([attributes[event], bytesOf([8, 0], [4, 1], [4, text.length]), text, bytesOf([8, 100 + event])]);
    })]);
}

/** A file of frames, whose events have names: the first has the id 100, the next 101 and so on. */
export function fileOf(frames, names = ["cpu-clock"]) {
    // A big-endian machine counts the single bits from the highest.
    const flags = 1n << (writing.isLittle ? SAMPLE_ID_ALL : 63n - SAMPLE_ID_ALL);
    const attributes = names.map((_, config) => joined([bytesOf([4, 1], [4, ATTRIBUTE], [8, config], [8, 1000],
        [8, SAMPLE_TYPE | (writing.hasCpu ? CPU : 0n)], [8, 0], [8, flags]), new Uint8Array(ATTRIBUTE - 48)]));
    const data = joined(frames);
    const entriesAt = HEAD + 8 * names.length;
    const dataAt = entriesAt + names.length * (ATTRIBUTE + 16);
    const features = descriptions(attributes, names);
    return joined([
        encoder.encode(writing.isLittle ? "PERFILE2" : "2ELIFREP"),
        bytesOf([8, HEAD], [8, ATTRIBUTE + 16], [8, entriesAt], [8, names.length * (ATTRIBUTE + 16)],
            [8, dataAt], [8, data.length], [8, 0], [8, 0], [8, 1 << 12], [8, 0], [8, 0], [8, 0]),
        bytesOf(...names.map((_, event) => [8, 100 + event])),
        ...attributes.map((it, event) => joined([it, bytesOf([8, HEAD + 8 * event], [8, 8])])),
        data, bytesOf([8, dataAt + data.length + 16], [8, features.length]), features,
    ]);
}

/** Numbers from a seed: xorshift of 32 bits. */
export function numbersFrom(seed) {
    let state = seed;
    return (below) => {
        state ^= state << 13;
        state ^= state >>> 17;
        state ^= state << 5;
        return (state >>> 0) % below;
    };
}
