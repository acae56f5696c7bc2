// Tests what the module in a folder that `make -C bindings js` made does with files of `perf record`:
//
//     node bindings/js/test_open.mjs FOLDER
//
// What it must show of examples/events.data comes from perf. With PERF_EVENT_DATA_SO, the shared object of the library,
// damaged copies are compared with what the module for Python has of them. A line is what passed, failed or was
// skipped; the status is 0 if nothing failed.

import { spawnSync } from "node:child_process";
import { createHash } from "node:crypto";
import { join } from "node:path";

import {
    bytesIn, bytesTaken, check, compare, compareMembers, fieldTable, frameOf, header, isInside, joined, line, linesIn,
    microseconds, module, MOST, ped, refuses, repeated, run, tell, textIn, TOP,
} from "./testing.mjs";

const { BIG, FILE_KINDS, FLAGS, LITTLE, OWNERS, RefusedFile } = module;
const data = bytesIn("examples/events.data");
const [DUMP, TIME, EVENTS] = ["dump", "time", "events"].map((suffix) => linesIn(textIn(`examples/events.${suffix}`)));
const PYTHON = textIn("bindings/python/perf_event_data.py");
const UNSUPPORTED_CONFIG = 3;

// ---- the lines of perf_data

const withoutNumber = (text) => text.slice(text.indexOf(" ") + 1);
const offsetIn = (text) => Number(text.split(" ")[1]);
const ownerIn = (text) => text.split(" ")[2];

/** The line of `perf_data dump`. */
function fileLine(index, frame) {
    const { at, event, owner, refusal, type, misc, size, unknownId } = frame;
    const text = event?.number ?? { perf: "-", unknown: `?${unknownId}`, short: "?" }[OWNERS[owner]];
    const kind = unknownId === undefined ? "NoId" : "UnknownId";
    const rest = refusal === UNSUPPORTED_CONFIG && event === undefined ? `${type} ${misc} ${size} refused ${kind}`
        : withoutNumber(line(index, frame));
    return `${index} ${at} ${text} ${rest}`;
}

const linesOf = (frames) => Array.from(frames, (frame, index) => fileLine(index, frame));

/** The line of `perf_data events`. */
function eventLine({ number, name, type, event, config, ids }) {
    const [what, fields] = [event, config.sample_type].map((it) => it.toString(16));
    return `${number} ${name} type=${type} config=0x${what} sample_type=0x${fields} ids=${ids.length}`;
}

/** The file without bits of features. */
function withoutFeatures(bytes) {
    const copy = bytes.slice();
    copy.fill(0, 72, 104);
    return copy;
}

function compareLines() {
    const recording = ped.open(data);
    compare("text of examples/events.dump", DUMP, linesOf(recording.frames("file")));
    compare("text of examples/events.time", TIME, linesOf(recording.frames("time")));
    compare("the order without a word is that of time", TIME, linesOf(recording.frames()));
    compare("text of examples/events.events", EVENTS, recording.events.map(eventLine));
    compare("the same by the file without its descriptions", ["0 task-clock", "1 page-faults", "2 context-switches"],
        ped.open(withoutFeatures(data)).events.map(({ number, name }) => `${number} ${name}`));
    compare("names by numbers", ["ref-cycles", "LLC-prefetch-misses", "type 4 config 0x1a8"],
        [[0, 9], [3, 0x10202n], [4, 0x1a8]].map((numbers) => ped.eventName(...numbers)));
    for (const event of recording.events) {
        const own = TIME.filter((text) => ownerIn(text) === String(event.number)).map(withoutNumber);
        compare(`frames of event ${event.number}`, own, linesOf(event.frames).map(withoutNumber));
        check("how many", event.frames.count === own.length && own.length > 0);
    }
}

/** The other examples have the lines of perf; what a big-endian machine writes is a copy of another one. */
function compareOthers() {
    for (const name of ["pipe", "machine", "group", "killed", "big-endian"]) {
        const recording = ped.open(bytesIn(`examples/${name}.data`));
        const text = (suffix) => linesIn(textIn(`examples/${name === "big-endian" ? "events" : name}.${suffix}`));
        compare(`frames of examples/${name}.data`, text("dump"), linesOf(recording.frames("file")));
        compare(`frames of examples/${name}.data by time`, text("time"), linesOf(recording.frames("time")));
        compare(`events of examples/${name}.data`, text("events"), recording.events.map(eventLine));
    }
}

/** What perf wrote to a pipe states the same as a file of the same command, and a damaged feature is refused alone. */
function compareFeatures() {
    const pipe = bytesIn("examples/pipe.data");
    for (const [name, bytes, output] of [["events", data, "events.data"], ["pipe", pipe, "-"]]) {
        const { hostname, osRelease, commandLine } = ped.open(bytes);
        const words = ["/usr/bin/perf", "record", "-q", "-B", "-o", output, "-e"];
        compare(`the machine and the command of examples/${name}.data`, ["vm", "6.18.44-fc-v595", 17, ...words],
            [hostname, osRelease, commandLine.length, ...commandLine.slice(0, 7)]);
    }
    refuses("the number of a feature has eight bits", () => ped.open(data).feature(256),
        "the number of a feature is below 256");
    const killed = ped.open(bytesIn("examples/killed.data"));
    check("a file of a perf that was killed has no features", killed.hostname === undefined
        && killed.commandLine === undefined);
    const table = numberAt(data, FRAMES) + numberAt(data, SIZE); // of which the first is the name of the machine
    for (const [kind, at] of [["Short", numberAt(data, table) + 1], ["CutFeature", table + 7]]) {
        const bytes = data.slice();
        bytes[at] = 1;
        const damaged = ped.open(bytes);
        const refusal = errorOf(() => damaged.hostname);
        check(`a feature is refused alone: ${refusal?.message}`, refusal instanceof RefusedFile && refusal.kind === kind
            && damaged.osRelease === "6.18.44-fc-v595");
    }
}

function errorOf(call) {
    try {
        call();
    } catch (error) {
        return error;
    }
    return undefined;
}

/** What a pattern finds in the lines of perf, undefined for each line in which it finds nothing. */
const foundIn = (lines, pattern) => lines.map((text) => pattern.exec(text)?.[1]);

function tryColumns() {
    const frames = ped.open(data).frames("file");
    const [at, event, owner, misc] = frames.columns(["at", "event", "owner", "misc"]);
    const texts = Array.from(at, (it, i) => `${it} ${OWNERS[owner[i]] === "perf" ? "-" : event[i]} ${misc[i]}`);
    const words = DUMP.map((text) => text.split(" "));
    compare("columns of a file", words.map((it) => [it[1], it[2], it[4]].join(" ")), texts);
    check("their types", at instanceof Float64Array && event instanceof Uint32Array && owner instanceof Uint32Array
        && misc instanceof Uint16Array && frames.column("time") instanceof BigUint64Array);
    compare("frames that have an event", words.map((it) => it[2] === "-" ? 0 : 1), [...frames.present("event")]);
    const inTime = ped.open(data).frames("time");
    const [times, read, chains] = inTime.columns(["time", "read", "sample.callchain"]);
    compare("times of samples", foundIn(TIME, / Sample .* time=(\d+)/),
        Array.from(times, (it, i) => read[i] === 9 ? String(it) : undefined));
    compare("call chains", foundIn(TIME, / callchain=(\S*)/), chains.map((it) => it?.join(",")));
    compare("names", foundIn(DUMP, / Comm .* comm=(\S*)/),
        frames.column("comm.comm").map((it) => it && Buffer.from(it).toString("hex")));
    refuses("a column of no frame", () => frames.column("toString"), "there is no column toString");
    refuses("an event of a stream", () => ped.stream(data.subarray(1)).column("event"), "there is no column event");
}

function tryCalls() {
    const recording = ped.open(data);
    const [frames, inTime] = [recording.frames("file"), recording.frames("time")];
    check("how many", frames.count === 90 && inTime.count === 90);
    check("the end and the bytes that were taken", [recording, frames, inTime].every(({ end }) => end === "done")
        && frames.taken === 8328 && inTime.taken === 8328);
    check("a file that perf closed", recording.isClosed && recording.order === LITTLE && recording.bytes === data);
    refuses("another order of frames", () => recording.frames("size"), 'the order is "time" or "file"');
    const name = frames.column("comm.comm").find((it) => it !== undefined);
    check("a byte string is a view of the input", name.buffer === data.buffer);
    const odd = new Uint8Array(data.length + 3).subarray(3);
    odd.set(data);
    compare("a file in an ArrayBuffer", TIME, linesOf(ped.open(data.slice().buffer).frames()));
    compare("a file at an odd address", TIME, linesOf(ped.open(odd).frames()));
    const [frame] = frames;
    [frame, frames, recording, recording.events[0]].forEach(compareMembers);
}

// ---- files made by hand

/** Numbers of some widths, [width, number], as bytes in an order. */
function bytesOf(order, ...numbers) {
    return Uint8Array.from(numbers.flatMap(([width, number]) => {
        const bytes = Array.from({ length: width }, (_, i) => Number(BigInt(number) >> BigInt(8 * i) & 255n));
        return order === BIG ? bytes.reverse() : bytes;
    }));
}

// Where a file made by hand, of one event without ids, has its frames.
const HEAD = 104;
const ENTRY_BYTES = 80;
const FIRST = HEAD + ENTRY_BYTES;

/** An entry of the attributes, for samples with a task and a time, and sample ids of them. */
const entryIn = (order) => bytesOf(order, [4, 1], [4, 64], [8, 2], [8, 0], [8, 6], [8, 0],
    [8, order === BIG ? 1n << 45n : 1n << 18n], [8, 0], [8, 0], [8, 0], [8, 0]);

/** A file of one event. */
function fileOf(frames, order = LITTLE, entry = entryIn(order)) {
    const magic = new TextEncoder().encode(order === BIG ? "2ELIFREP" : "PERFILE2");
    const places = [HEAD, entry.length, HEAD, entry.length, HEAD + entry.length, frames.length, 0, 0, 0, 0, 0, 0];
    return joined(magic, bytesOf(order, ...places.map((number) => [8, number])), entry, frames);
}

/** A frame of a type with numbers. */
function frameIn(order, type, ...numbers) {
    const size = 8 + numbers.reduce((sum, [width]) => sum + width, 0);
    return bytesOf(order, [4, type], [2, 0], [2, size], ...numbers);
}

const sampleIn = (order, time) => frameIn(order, 9, [4, 7], [4, 8], [8, time]);

function tryBigOrder() {
    const lost = frameIn(BIG, 13, [8, 5], [4, 7], [4, 9], [8, 20]);
    const recording = ped.open(fileOf(joined(sampleIn(BIG, 30), lost, frameIn(BIG, 68, [8, 3])), BIG));
    const [{ type, event, config, ids }] = recording.events;
    check("an event of the other byte order", recording.order === BIG && type === 1 && event === 2n
        && config.sample_type === 6n && config.order === BIG && ids.length === 0);
    const texts = Array.from(recording.frames(), ({ type, at, time, tid, owner, fields }) =>
        [type, at - FIRST, time, tid, owner, fields.lost ?? fields.data?.length].join(" "));
    compare("frames of the other byte order", ["68 56   1 8", "13 24 20 9 0 5", "9 0 30 8 0 "], texts);
}

/** A frame that announces bytes after it which are no frames, by a number of some width, and these bytes. */
function announcing(type, width, count) {
    const bytes = new Uint8Array(Math.ceil(count / 8) * 8).fill(9);
    return joined(frameIn(LITTLE, type, [width, count], [8 - width, 0]), bytes);
}

/** AUXTRACE announces bytes, and TRACING_DATA whole words of eight. The filler nearly fills a piece of the input. */
function tryPayloads() {
    const sample = sampleIn(LITTLE, 1);
    const before = 10910;
    const filler = repeated(sample, before);
    for (const count of [0, 8, 264, 100000, 262096, 262144, 300000, 1000000]) {
        const parts = [announcing(71, 8, count), sample, announcing(66, 4, count + 3), sample];
        const recording = ped.open(fileOf(joined(filler, ...parts)));
        const expected = [];
        parts.reduce((at, part) => {
            expected.push(at);
            return at + part.length;
        }, FIRST + filler.length);
        compare(`frames after ${count} bytes that are no frames`, expected,
            [...recording.frames("file").column("at").slice(before)]);
        check("all are read", recording.end === "done" && recording.frames("file").count === before + parts.length
            && recording.frames("time").column("refusal").every((it) => it === 0));
    }
    const cut = ped.open(fileOf(joined(sample, announcing(71, 8, 64).subarray(0, 72))));
    const found = Array.from(cut.frames("file"), (frame) => `${frame.name} ${frame.message}`).join("; ");
    check(`more than there is: ${found}`, found === "sample ; refused unexpected EOF during parsing");
}

// ---- refusals

/** The texts of the header's refusals of files, by their numbers. */
function headerRefusals() {
    const numbers = new Map(Array.from(header.matchAll(/PED_FILE_(\w+) = (\d+)/g), ([, ...pair]) => pair));
    const cases = Array.from(header.matchAll(/case PED_FILE_(\w+):\s+return ((?:\s*"[^"]*")+);/g));
    return new Map(cases.filter(([, name]) => name !== "READ").map(([, name, text]) =>
        [Number(numbers.get(name)), Array.from(text.matchAll(/"([^"]*)"/g), ([, part]) => part).join("")]));
}

const numberAt = (bytes, at) => Number(new DataView(bytes.buffer, bytes.byteOffset).getBigUint64(at, true));
// Where the head has the size of an entry, the place of the attributes and their length, the place and the size of the
// frames, and the features; where the example has its first entry, and that the place of its ids.
const [ENTRY, ATTRIBUTES, LENGTH, FRAMES, SIZE, FEATURES] = [16, 24, 32, 40, 48, 72];
const [entry, attributes] = [ENTRY, ATTRIBUTES].map((at) => numberAt(data, at));
const ids = attributes + entry - 16;

/** A copy of the example in which numbers of eight bytes are replaced: [offset, number] of each. */
function changed(...changes) {
    const bytes = data.slice();
    changes.forEach(([at, number]) => new DataView(bytes.buffer).setBigUint64(at, BigInt(number), true));
    return bytes;
}

/** An entry whose attribute has more bytes than are known, of which the last is not 0. */
const longEntry = joined(bytesOf(LITTLE, [4, 1], [4, 400]), new Uint8Array(391), Uint8Array.of(1), new Uint8Array(16));
const [firstId, secondId] = [ids, ids + entry].map((at) => numberAt(data, at));

// A damaged file for each kind of refusal.
const DAMAGED = {
    NotPerfData: new Uint8Array(), BadHead: data.subarray(0, 50),
    OldFormat: joined(new TextEncoder().encode("PERFFILE"), data.subarray(8)), NoEvent: changed([LENGTH, 0]),
    Directory: changed([FEATURES, 1 << 24]), Compressed: changed([FEATURES, 1 << 27]), BadEntry: changed([ENTRY, 79]),
    CutAttributes: changed([LENGTH, 1 << 20]), CutFrames: data.subarray(0, 4000), CutIds: changed([ids + 8, 1 << 20]),
    BadAttribute: changed([attributes, 65n << 32n]), NewAttribute: fileOf(new Uint8Array(), LITTLE, longEntry),
    BadIds: changed([ids + 8, 9]), Overlap: changed([ids, 0]), NoIdPlace: changed([attributes + 24, FLAGS.TID]),
    SharedId: changed([firstId, numberAt(data, secondId)]),
};

function refusalOf(bytes) {
    try {
        ped.open(bytes);
    } catch (error) {
        if (error instanceof RefusedFile) {
            return error;
        }
        throw error;
    }
    return undefined;
}

/** Whether the table of Python has a refusal. */
function isInPython([kind, text], number) {
    const escaped = text.replace(/[.*+?^${}()|[\]\\]/g, "\\$&");
    return new RegExp(`\\b${number}: \\("${kind}",\\s+"${escaped}"\\)`).test(PYTHON);
}

function tryRefusals() {
    const refusals = headerRefusals();
    const found = fieldTable.FILE_REFUSALS.flatMap((it, number) => it ? [`${number} ${it[1]}`] : []);
    compare("the refusals of files are those of the header", Array.from(refusals, (it) => it.join(" ")), found);
    check(`${found.length} of them, as in Python`, found.length === 18
        && fieldTable.FILE_REFUSALS.every((it, number) => !it || isInPython(it, number)));
    for (const [kind, bytes] of Object.entries(DAMAGED)) {
        refuses(kind, () => ped.open(bytes), refusals.get(FILE_KINDS.indexOf(kind)));
        check("its kind", refusalOf(bytes)?.kind === kind);
    }
    const others = FILE_KINDS.filter((kind) => kind && !(kind in DAMAGED));
    check("each kind was tried but those of no file", others.join() === "OtherCount,CutFeature");
    try {
        ped.open("text");
        check("a text is no input", false);
    } catch (error) {
        check(`a text is no input: ${error.message}`, error instanceof TypeError);
    }
}

// ---- damaged files

/** As bindings/file_words_test.sh does it: what is expected is worked out of perf's own text. */
function tryDamagedFrames() {
    const last = offsetIn(DUMP[89]);
    const [number, place, , , , size] = DUMP[88].split(" ");
    const [without, most] = [DUMP.slice(0, 88), 2n ** 63n - 1n];
    const framesWith = (at, byte) => {
        const bytes = data.slice();
        bytes[at] = byte;
        return ped.open(bytes).frames("file");
    };
    const short = framesWith(last, 14);
    compare("a SWITCH that is too short for an id", [...without, DUMP[88], `89 ${last} ? 14 0 8 refused NoId`],
        linesOf(short));
    const unknown = ped.open(changed([last - 8, most])).frames("file");
    compare("an id that no event has",
        [...without, `${number} ${place} ?${most} 4 0 ${size} refused UnknownId`, DUMP[89]], linesOf(unknown));
    const [noId, noEvent] = [[...short][89].message, [...unknown][88].message];
    check(`why, as in Python: ${noId}; ${noEvent}`, PYTHON.includes(`{2: "${noEvent}", 3: "${noId}"}`));
    compare("an AUXTRACE that announces more than there is",
        [...without, `${number} ${place} - 71 0 ${size} refused Eof`], linesOf(framesWith(Number(place), 71)));
    const killed = ped.open(changed([SIZE, 0]).subarray(0, Number(place) + 20));
    compare("a file that ends inside a frame", [...without, `${number} ${place} ? 4 0 ${size} refused Eof`],
        linesOf(killed.frames("file")));
    check("perf was killed", !killed.isClosed && killed.end === "done"
        && killed.frames("file").taken === Number(place) + 20);
    const cut = ped.open(changed([SIZE, last + 3 - numberAt(data, FRAMES)]));
    check("a header that is cut", cut.end === "cut header" && cut.frames("file").count === 89);
}

/** The words of a frame, by which it is compared with Python. */
function frameText(frame) {
    const { at, event, unknownId, type, misc, size, message, time, tid, fields } = frame;
    if (!Object.values(fields).every((it) => isInside(frame, it))) {
        throw new Error(`a field of the frame at ${at} is outside its bytes`);
    }
    return [at, event?.number, unknownId, type, misc, size, message, time, tid, Object.keys(fields).sort()].join(" ");
}

// More numbers than perf has for features.
const FEATURE_NUMBERS = Array.from({ length: 40 }, (_, number) => number);

/** The bytes of a feature in hexadecimal, or the kind of its refusal. */
function featureText(recording, number) {
    try {
        const found = recording.feature(number);
        if (found && found.buffer !== recording.bytes.buffer) {
            throw new Error(`feature ${number} is no view of the input`);
        }
        return `${number} ${found ? Buffer.from(found).toString("hex") : ""}`;
    } catch (error) {
        return `${number} ${error instanceof RefusedFile ? error.kind : error.stack}`;
    }
}

/** Why a file is refused, or how many events and frames there are, and a sum of the frames in both orders and of the
 * features. */
function textOf(bytes) {
    const refusal = refusalOf(bytes);
    if (refusal !== undefined) {
        return `${refusal.kind}: ${refusal.message}`;
    }
    const recording = ped.open(bytes);
    const texts = ["file", "time"].flatMap((order) => Array.from(recording.frames(order), frameText));
    texts.push(...FEATURE_NUMBERS.map((number) => featureText(recording, number)));
    const sum = createHash("md5").update(texts.map((text) => `${text}\n`).join("")).digest("hex");
    return `${recording.events.length} events, ${recording.frames("file").count} frames, ${recording.end}: ${sum}`;
}

/** Copies that are cut at each length below 4 kB, and with each of the first 2,048 bytes set to 0 and to 255. */
function* damagedCopies(whole) {
    for (let length = 0; length < 4096; length++) {
        yield whole.slice(0, length);
    }
    for (const byte of [0, 255]) {
        for (let at = 0; at < 2048; at++) {
            const bytes = whole.slice();
            bytes[at] = byte;
            yield bytes;
        }
    }
}

function tryDamagedCopies() {
    const found = Array.from(damagedCopies(data), textOf);
    const kinds = new Set(foundIn(found, /^(\w+): /).filter((kind) => kind !== undefined));
    check(`${found.length} damaged copies: ${kinds.size} kinds of refusals, and no other error`, found.length === 8192
        && kinds.size > 8 && found.slice(0, 4096).every((text) => /^\w+: /.test(text)));
    const ofPipe = Array.from(damagedCopies(bytesIn("examples/pipe.data")), textOf);
    const read = ofPipe.filter((text) => /^\d+ events/.test(text)).length;
    check(`${ofPipe.length} damaged copies of a pipe: ${read} are read`, read > 2000 && read < 8192);
    if (!process.env.PERF_EVENT_DATA_SO) {
        tell("skipped", "the same in Python: PERF_EVENT_DATA_SO is not set");
        return;
    }
    const ran = spawnSync("python3", [join(TOP, "bindings/js/damaged.py")], { maxBuffer: 1 << 30 });
    compare("the same in Python", linesIn(ran.stdout.toString()), [...found, ...ofPipe]);
}

// ---- large files

/** The example with all of its frames many times. */
function repeatedFile(times) {
    const [at, size] = [FRAMES, SIZE].map((place) => numberAt(data, place));
    return joined(changed([SIZE, times * size]).subarray(0, at), repeated(data.subarray(at, at + size), times));
}

/** The lines of perf many times, without numbers, each time at the offset of that copy. */
function repeatedLines(lines, times) {
    const period = numberAt(data, SIZE);
    return Array.from({ length: times }, (_, copy) => lines.map((text) => {
        const [, at, ...rest] = text.split(" ");
        return [Number(at) + copy * period, ...rest].join(" ");
    })).flat();
}

/** A file of many pieces: the frames of each copy are in the order that perf has of them. */
function tryPieces() {
    const times = 300;
    const recording = ped.open(repeatedFile(times));
    const [inFile, inTime] = ["file", "time"].map((order) => linesOf(recording.frames(order)).map(withoutNumber));
    compare(`${inFile.length} frames of ${recording.bytes.length} bytes`, repeatedLines(DUMP, times), inFile);
    const copies = Array.from({ length: times }, () => []);
    const copyOf = (text) => Math.floor((Number.parseInt(text, 10) - numberAt(data, FRAMES)) / numberAt(data, SIZE));
    inTime.forEach((text) => copies[copyOf(text)].push(text));
    compare("and in order of time, those of each copy", repeatedLines(TIME, times), copies.flat());
    const [time, at] = recording.frames("time").columns(["time", "at"]);
    check("times do not fall, and at one time offsets rise", time.every((it, i) => i === 0 || time[i - 1] < it
        || time[i - 1] === it && at[i - 1] < at[i]));
    const own = TIME.filter((text) => ownerIn(text) === "1");
    check("frames of an event", own.length > 0 && recording.events[1].frames.count === times * own.length);
}

/** A file of several batches is read while others are. */
function tryNested() {
    for (const order of ["file", "time"]) {
        const frames = ped.open(repeatedFile(30)).frames(order);
        const [expected, found] = [linesOf(frames), []];
        for (const frame of frames) {
            found.push(fileLine(found.length, frame));
            if (found.length % 100 === 0) {
                ped.open(data).events[0].frames.column("time");
                ped.stream(repeated(frameOf(13, 0, [[8, 5]]), 2000)).column("time");
            }
        }
        compare(`${found.length} frames in order of ${order}, while others are read`, expected, found);
    }
}

/** The first of some lengths that the engine has for an array; zeros take no memory before they are read. */
function longest(lengths) {
    for (const length of lengths) {
        try {
            return new Uint8Array(length);
        } catch (error) {
            if (!(error instanceof RangeError)) {
                throw error;
            }
        }
    }
    return undefined;
}

/** The last frames of a file of 8 GiB, or of 4, which is what an array of Node 20 has at most. Others are not read. */
function tryLong() {
    const small = fileOf(joined(sampleIn(LITTLE, 5), sampleIn(LITTLE, 4)));
    const bytes = longest([2 ** 33, 2 ** 32 - 8]);
    if (bytes === undefined) {
        tell("skipped", "a file of 4 GiB: there is no such array");
        return;
    }
    const at = bytes.length - (small.length - FIRST);
    bytes.set(small.subarray(0, FIRST));
    bytes.set(small.subarray(FIRST), at);
    new DataView(bytes.buffer).setBigUint64(FRAMES, BigInt(at), true);
    const found = Array.from(ped.open(bytes).frames("time"), (frame) => `${frame.time} ${frame.at - at}`);
    check(`a file of ${bytes.length} bytes`, found.join() === "4 24,5 0");
}

/** What a large file takes besides its bytes, and how much that is while its frames are sorted. */
async function tryMemory() {
    const bytes = repeatedFile(10000);
    let [count, recording] = [0, undefined];
    const inFile = await bytesTaken(() => { ({ count } = ped.open(bytes).frames("file")); });
    check(`${count} frames of ${bytes.length} bytes take ${inFile} bytes more`, count === 900000
        && Math.abs(inFile) < 4000000);
    const inTime = await bytesTaken(() => {
        recording = ped.open(bytes);
        recording.frames("time");
    });
    check(`and in order of time ${inTime}, at most 96 for each frame`, inTime < 96 * count + 4000000);
}

// ---- measurements

function measure() {
    const recording = ped.open(repeatedFile(300));
    for (const order of ["file", "time"]) {
        const frames = recording.frames(order);
        const { count } = frames;
        const column = microseconds(count, () => frames.column("time"), MOST);
        const text = `in order of ${order}, ${column.toFixed(3)} microseconds a frame for a column of times`;
        check(`events.data, 300 times: ${text}, at most ${MOST}`, column <= MOST);
        const loop = microseconds(count, () => {
            for (const frame of frames) {
                frame.time;
            }
        });
        console.log(`    ${loop.toFixed(3)} for a loop over frames that takes their times`);
    }
    const { count } = recording.frames("file");
    const sorting = microseconds(count, () => ped.open(recording.bytes).frames("time"));
    console.log(`    ${sorting.toFixed(3)} to sort them by time`);
}

await run([
    compareLines, compareOthers, compareFeatures, tryColumns, tryCalls, tryBigOrder, tryPayloads, tryRefusals,
    tryDamagedFrames, tryDamagedCopies, tryPieces, tryNested, tryLong, tryMemory, measure,
]);
