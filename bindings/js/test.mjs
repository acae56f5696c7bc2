// Tests the module in a folder that `make -C bindings js` made:
//
//     node bindings/js/test.mjs FOLDER [PERFREC [STREAMS]]
//
// With PERFREC, the proved program perfrec, the lines of all recordings are compared too; else those of the repository
// alone. STREAMS is how many generated streams are read, 10000 without it. A line is what passed, failed or was
// skipped; the status is 0 if nothing failed.

import { spawnSync } from "node:child_process";
import { join } from "node:path";

import {
    bytesIn, bytesTaken, check, compare, compareMembers, declared, fieldTable, frameOf, header, hex, isInside, items,
    joined, line, linesIn, lost, microseconds, module, MOST, numbersFrom, ped, RECORDINGS, refuses, repeated, run, tell,
    textIn, TOP, zeros,
} from "./testing.mjs";

const { BIG, Config, FLAGS, KINDS, LITTLE, TYPES } = module;
const [, perfrec, streams] = process.argv.slice(2);

/** The lines of a stream's frames, and of its end. */
function linesOf(stream) {
    return [...Array.from(stream, (frame, index) => line(index, frame)), `end ${stream.end.replace(" header", "")}`];
}

/** The lines that `perfrec` prints for these words, and its status. */
function perfrecLines(words, bytes) {
    const order = words[0] === "big" ? BIG : LITTLE;
    let read = { config: new Config({ order }), length: 0 };
    if (words[2] === "attr") {
        try {
            read = ped.readAttribute(bytes, order);
        } catch (refusal) {
            return [[`attr refused ${refusal.message}`], 2];
        }
    }
    const stream = ped.stream(bytes, read.config, { start: read.length, limit: Number(words[1]) });
    const isRefused = stream.column("refusal").some((refusal) => refusal !== 0);
    return [linesOf(stream), isRefused || stream.end === "cut header" ? 1 : 0];
}

// ---- the lines of perf_tasks and perf_samples

const nameText = (name) => Array.from(name, (byte) =>
    byte >= 32 && byte < 127 && byte !== 92 ? String.fromCharCode(byte) : `\\x${byte.toString(16).padStart(2, "0")}`).join("");
const h = (number) => `0x${number.toString(16)}`;

function mmap2Text(it) {
    const detail = "build_id" in it ? hex(it.build_id) : `${h(it.maj)}:${h(it.min)} ${it.ino} ${it.ino_generation}`;
    const rights = [["r", 1n], ["w", 2n], ["x", 4n]].map(([letter, bit]) => it.prot & bit ? letter : "-").join("");
    return `${h(it.addr)} ${h(it.len)} ${h(it.pgoff)} ${detail} ${rights}${it.flags & 1n ? "s" : "p"} ${nameText(it.filename)}`;
}

function taskLine(frame) {
    const { fields: it, name } = frame;
    const texts = {
        fork: () => `${it.ppid} ${it.ptid}`, exit: () => `${it.ppid} ${it.ptid}`, mmap2: () => mmap2Text(it),
        mmap: () => `${h(it.addr)} ${h(it.len)} ${h(it.pgoff)} ${nameText(it.filename)}`, comm: () => nameText(it.comm),
        namespaces: () => items(it.namespaces, 2).map(([device, inode]) => `${device}:${h(inode)}`).join(","),
    };
    return name in texts ? `${name} ${it.pid} ${it.tid} ${texts[name]()}` : undefined;
}

function sampleLine(frame) {
    if (frame.name !== "sample") {
        return undefined;
    }
    const { fields } = frame;
    const marks = new Map([[2n ** 64n - 128n, "kernel"], [2n ** 64n - 512n, "user"]]);
    const chain = Array.from(fields.callchain ?? [], (entry) => ` ${marks.get(entry) ?? h(entry)}`).join("");
    const address = (number) => number === undefined ? "-" : h(number);
    return `${frame.time ?? "-"} ${frame.cpu ?? "-"} ${frame.pid ?? "-"}/${frame.tid ?? "-"} ${fields.period ?? "-"}`
        + ` ${address(fields.addr)} ${address(fields.ip)}:${chain}`;
}

// ---- comparisons

function compareTexts() {
    const words = textIn("crates/perfrec/args").split(/\s+/).filter((word) => word !== "");
    const [lines] = perfrecLines(words, bytesIn("crates/perfrec/stdin"));
    compare("text of crates/perfrec", linesIn(textIn("crates/perfrec/stdout")), lines);
    for (const [crate, lineOf] of [["perf_tasks", taskLine], ["perf_samples", sampleLine]]) {
        const bytes = bytesIn("crates", crate, "stdin");
        const { config, length } = ped.readAttribute(bytes);
        const found = Array.from(ped.stream(bytes, config, { start: length }), lineOf).filter((it) => it !== undefined);
        compare(`lines of crates/${crate}`, linesIn(textIn("crates", crate, "stdout")), found);
    }
    if (!perfrec) {
        tell("skipped", "text of the recordings: PERFREC is not given");
        return;
    }
    for (const path of RECORDINGS) {
        for (const asked of [["little", "1000000", "attr"], ["native", "100", "attr"], ["big", "1000000"]]) {
            const ran = spawnSync(perfrec, asked, { input: bytesIn(path), maxBuffer: 1 << 30 });
            const [found, status] = perfrecLines(asked, bytesIn(path));
            compare(`text of perfrec ${asked.join(" ")} < ${path}`, [...linesIn(ran.stdout.toString()), `status ${ran.status}`],
                [...found, `status ${status}`]);
        }
    }
}

function caseBytes(word, rest) {
    if (word === "bytes") {
        return [...Buffer.from(rest.join(""), "hex")];
    }
    if (word === "zeros") {
        return Array(rest.reduce((sum, item) => sum + Number(item), 0)).fill(0);
    }
    const width = BigInt(word.slice(1)) / 8n;
    return rest.flatMap((item) => Array.from({ length: Number(width) }, (_, i) => Number(BigInt(item) >> BigInt(8 * i) & 255n)));
}

/** Compares the runs of `perfrec` in a list; the head of crates/perf_replay/src/main.rt explains its lines. Returns
 * how many there are, and how many differ. */
function replay(cases) {
    let [runs, differ, bytes, words, expected, isCompared] = [0, 0, [], undefined, [], false];
    for (const text of cases.split("\n")) {
        const [word, ...rest] = text.split(" ");
        if (word === "case") {
            [bytes, words, isCompared] = [[], undefined, false];
        } else if (["bytes", "zeros", "u16", "u32", "u64"].includes(word)) {
            bytes = (isCompared ? [] : bytes).concat(caseBytes(word, rest.filter((it) => it !== "")));
            isCompared = false;
        } else if (word === ">" || word === "~") {
            expected.push(rest.join(" "));
        } else if (word === "=") {
            if (words !== undefined) {
                const [lines, status] = perfrecLines(words, Uint8Array.from(bytes));
                const [found, theirs] = [[...lines, `status ${status}`].join("; "), [...expected, rest.join(" ")].join("; ")];
                runs += 1;
                if (found !== theirs) {
                    differ += 1;
                    console.log(`    ${found}\n    not ${theirs}`);
                }
            }
            [expected, isCompared] = [[], true];
        } else if (word !== "" && word[0] !== "#") {
            words = word === "perfrec" ? rest : undefined;
        }
    }
    return [runs, differ];
}

function checkReplay(what, cases) {
    const [runs, differ] = replay(cases);
    check(`${what}: ${runs} runs, ${differ} differ`, runs > 0 && differ === 0);
}

function checkStreams(count) {
    for (let seed = 1, left = count; left > 0; seed++, left -= 2500) {
        const words = [join(TOP, "bindings/streams.py"), "list", seed, Math.min(left, 2500)];
        const made = spawnSync("python3", words, { maxBuffer: 1 << 30 });
        checkReplay(`generated streams of seed ${seed}`, made.status === 0 ? made.stdout.toString() : "");
    }
}

// ---- the names of the header, and of the declarations

/** The names of the fields in each member of a union of the header. */
function headerFields(union) {
    const text = header.replace(/\/\*.*?\*\//gs, "");
    const body = new RegExp(`union ${union} \\{\\n(.*?)\\n\\};`, "s").exec(text)[1];
    return new Map(Array.from(body.matchAll(/struct \{([^}]*)\} (\w+);/g), ([, fields, name]) =>
        [name, Array.from(fields.matchAll(/(\w+)[,;]/g), ([, field]) => field).join(" ")]));
}

function compareHeader() {
    const [numbers, spans] = [headerFields("ped_numbers"), headerFields("ped_spans")];
    const members = { exit: "task", fork: "task", unthrottle: "throttle" };
    const of = (fields) => fields.map((field) => field.name).join(" ");
    const found = TYPES.map((name, type) => `${name}: ${of(fieldTable.FIELDS[type].numbers)}|${of(fieldTable.FIELDS[type].spans)}`);
    const expected = TYPES.map((name) => {
        const member = members[name] ?? name;
        return `${name}: ${numbers.get(member) ?? ""}|${spans.get(member) ?? ""}`;
    });
    compare("the names of the fields are those of the header", expected, found);
    const used = new Set(TYPES.map((name) => members[name] ?? name));
    check("each member of the header's unions is there", [...numbers.keys(), ...spans.keys()].every((name) => used.has(name)));
    const bits = textIn("bindings/python/perf_event_data.py");
    check("PERF_SAMPLE_* are those of Python", Object.keys(FLAGS).every((name) => bits.includes(name)));
}

function compareDeclarations() {
    check("what is exported is declared", declared(/^export (?:const|class|function) (\w+)/gm).join(" ")
        === Object.keys(module).sort().join(" "));
    const stream = ped.stream(lost);
    [[...stream][0], stream, stream.config].forEach(compareMembers);
}

// ---- the calls

/** The texts of the header's reasons, by their numbers. */
function headerMessages() {
    const numbers = new Map(Array.from(header.matchAll(/^ {4}(PED_\w+) = (\d+)/gm), ([, name, number]) => [name, Number(number)]));
    const texts = header.slice(header.indexOf("ped_message(const"));
    const cases = Array.from(texts.matchAll(/case (PED_\w+):\s+return ((?:\s*"[^"]*")+);/g));
    return cases.map(([, name, text]) => [numbers.get(name), Array.from(text.matchAll(/"([^"]*)"/g), ([, part]) => part).join("")]);
}

// A frame for each reason that one has, under its configuration. No frame is read as a group that has none.
const mapped = [[4, 1], [4, 2], [8, 3], [8, 4], [8, 5]];
const REFUSED = [
    [1, frameOf(13, 0, [], 4), {}],
    [2, frameOf(13, 0, [[4, 0]]), { sample_type: FLAGS.TIME, flags: 1n << 18n }],
    [3, frameOf(10, 0x4000, [...mapped, [1, 21], ...zeros(23), [4, 1], [4, 2], [8, 0]]), {}],
    [4, frameOf(9, 0, [[8, 8], [8, 0], [8, 9]]), { sample_type: FLAGS.STACK_USER }],
    [5, frameOf(8, 0, [[4, 1], [4, 2], [8, 3]]), { read_format: 8 }],
    [7, frameOf(9, 0, [[8, 3], [8, 4]]), { sample_type: FLAGS.READ, read_format: 1 << 5 }],
    [8, frameOf(9, 0, [[8, 2n ** 63n], [8, 1], [8, 2]]), { sample_type: FLAGS.READ, read_format: 8 + 4 }],
];

function tryReasons() {
    const messages = headerMessages();
    check(`the messages of ${messages.length} reasons in the header, of which those of a frame are ours`, messages.length === 10
        && messages.every(([reason, text]) => reason > 8 || fieldTable.REASONS[reason] === text));
    for (const [reason, bytes, config] of REFUSED) {
        const [frame] = ped.stream(bytes, config);
        const expected = messages.find(([number]) => number === reason)[1];
        check(`reason ${reason}: ${frame.message}`, frame.reason === reason && frame.message === expected && frame.name === "refused"
            && Object.keys(frame.fields).length === 0);
    }
    const python = textIn("bindings/python/perf_event_data.py");
    check("the kinds are those of Python", KINDS.length === 5 && KINDS.slice(1).every((kind, at) => python.includes(`${at + 1}: "${kind}"`)));
}

function tryStream() {
    const stream = ped.stream(joined(repeated(lost, 3000), Uint8Array.from([97, 98, 99])));
    const frames = [...stream];
    const last = frames[2999];
    check("a frame", frames[0].name === "lost_samples" && last.fields.lost === 5n && hex(last.bytes) === hex(lost)
        && last.start === 16 * 2999);
    check("how many, the end and the bytes that were taken", frames.length === 3000 && stream.count === 3000
        && stream.end === "cut header" && stream.taken === 48000);
    const same = (found, expected) => found.length === 3000 && found.every((it) => it === expected);
    check("columns", same(stream.column("lost_samples.lost"), 5n) && same(stream.column("size"), 16) && same(stream.column("time"), 0n)
        && same(stream.column("comm.pid"), 0n) && same(stream.column("comm.comm"), undefined));
    const [lostNumbers, at] = stream.columns(["lost_samples.lost", "at"]);
    check("several columns", same(lostNumbers, 5n) && at.length === 3000 && at.every((it, i) => it === 16 * i));
    check("which are present", same(stream.present("lost_samples.lost"), 1) && same(stream.present("time"), 0)
        && same(stream.present("size"), 1));
    const some = ped.stream(repeated(lost, 3), {}, { start: 16, limit: 1 });
    check("a start and a limit", some.count === 1 && some.end === "limit" && some.taken === 32 && [...some][0].start === 16);
    const many = ped.stream(repeated(lost, 3000), {}, { limit: 1500 });
    check("a limit of more than a batch", many.count === 1500 && many.end === "limit" && many.taken === 24000
        && [...many].length === 1500 && many.column("size").length === 1500);
    const none = [ped.stream(new Uint8Array()), ped.stream(new ArrayBuffer(0)), ped.stream(lost, {}, { limit: 0 })];
    check("no frames", none.map((it) => [it.count, it.end, it.column("time").length].join()).join(" ") === "0,done,0 0,done,0 0,limit,0");
    refuses("a start before the bytes", () => ped.stream(lost, {}, { start: -16 }), "the start is outside the bytes");
    const file = bytesIn("examples", "events.data");
    const what = "this is a file of `perf record`, not a stream: open it by `open`, or print it by the program"
        + " perf_data";
    refuses("a file of perf record in place of a stream", () => ped.stream(file), what);
    refuses("a file of perf record in place of an attribute", () => ped.readAttribute(file), what);
    refuses("a start after the bytes", () => ped.stream(lost, {}, { start: 17 }), "the start is outside the bytes");
    refuses("a column of no record", () => stream.column("lots.lost"), "there is no column lots.lost");
    refuses("a column of no field", () => stream.column("lost.ip"), "there is no column lost.ip");
    refuses("a column of what each object has", () => stream.column("toString"), "there is no column toString");
    const types = stream.column("time") instanceof BigUint64Array && stream.column("pid") instanceof Uint32Array
        && stream.column("misc") instanceof Uint16Array && stream.column("sample.ip") instanceof BigUint64Array;
    check("the types of columns", types);
    const nested = [];
    for (const frame of ped.stream(repeated(lost, 3))) {
        nested.push(frame.start, ped.stream(repeated(lost, 2000)).count);
    }
    check("a stream that is read while another is", nested.join() === "0,2000,16,2000,32,2000");
}

function tryFrames() {
    const short = [...ped.stream(joined(frameOf(13, 0, [], 4), lost))];
    check("a frame shorter than a header", short.map((frame) => frame.message).join("|") === "header size was too small to be valid|");
    const [cut] = ped.stream(lost.subarray(0, 12));
    check("a frame cut short", cut.message === "unexpected EOF during parsing" && hex(cut.bytes) === hex(lost.subarray(0, 12)));
    const big = Uint8Array.from([0, 0, 0, 8, 0, 0, 0, 24, 0, 0, 0, 1, 0, 0, 0, 2, 0, 0, 0, 0, 0, 0, 0, 3]);
    const { fields } = [...ped.stream(big, { order: BIG })][0];
    check("the other byte order", fields.pid === 1n && fields.tid === 2n && fields.value === 3n && Object.keys(fields).length === 3);
    const config = { sample_type: FLAGS.TID | FLAGS.TIME, flags: 1n << 18n };
    const stream = ped.stream(frameOf(13, 0, [[8, 5], [4, 7], [4, 8], [8, 9]]), config);
    const [frame] = stream;
    check("a sample id", frame.pid === 7 && frame.tid === 8 && frame.time === 9n && frame.cpu === undefined);
    check("columns of a sample id", stream.column("tid")[0] === 8 && stream.column("cpu")[0] === 0 && stream.present("cpu")[0] === 0);
    const sample = frameOf(9, 0, [[8, 11]]);
    check("the event of a sample", ped.identifier(sample, false) === 11n && ped.identifier(sample.subarray(0, 15), false) === undefined);
    const comm = Uint8Array.from([0, 0, 0, 3, 0, 0, 0, 32, 0, 0, 0, 5, 0, 0, 0, 7, 0, 0, 0, 0, 0, 0, 0, 0, 0, 0, 0, 0, 0, 0, 0, 12]);
    check("the event of another record", ped.identifier(comm, true, BIG) === 12n && ped.identifier(comm, false, BIG) === undefined);
    tryConfigs();
}

function tryConfigs() {
    const attribute = frameOf(0, 64, [[8, 0], [8, 0], [8, 6], [8, 0], [8, 1n << 18n], [8, 0], [8, 0]], 0);
    const { config, length } = ped.readAttribute(joined(attribute, lost));
    check("an attribute", length === 64 && config.version === 1 && config.sample_type === 6n && config.flags === 1n << 18n);
    refuses("an attribute cut short", () => ped.readAttribute(attribute.subarray(0, 63)), "Eof");
    refuses("an attribute under no such order", () => ped.readAttribute(attribute, 2), "UnsupportedConfig");
    const other = frameOf(0, 65, [...zeros(56)], 0);
    refuses("an attribute of no such size", () => ped.readAttribute(other), "InvalidRecord");
    const long = joined(frameOf(0, 400 << 3 & 0xffff, zeros(3191), 0), Uint8Array.from([1]));
    refuses("an attribute with a tail that is not known", () => ped.readAttribute(long), "UnsupportedData");
    const text = "the configuration is of another version, or has no such order";
    refuses("another version", () => ped.stream(lost, { version: 2 }), text);
    refuses("another order", () => ped.stream(lost, { order: 2 }), text);
    check("both texts are those of Python", [text, "the start is outside the bytes"].every(
        (it) => textIn("bindings/python/perf_event_data.py").includes(`"${it}"`)));
    refuses("a number that does not fit", () => new Config({ flags: 1n << 64n }), "flags is no number of 64 bits");
}

// ---- inputs of each kind, and large ones

function tryInputs() {
    const bytes = bytesIn("crates/perf_tasks/stdin");
    const { config, length } = ped.readAttribute(bytes);
    const expected = linesOf(ped.stream(bytes, config, { start: length })).join("\n");
    const odd = new Uint8Array(bytes.length + 3).subarray(3);
    odd.set(bytes);
    const sharedBytes = new Uint8Array(new SharedArrayBuffer(bytes.length));
    sharedBytes.set(bytes);
    const inputs = {
        "an ArrayBuffer": bytes.buffer, "a DataView": new DataView(bytes.buffer), "a Buffer": Buffer.from(bytes),
        "a view at an odd address": odd, "a shared buffer": sharedBytes.buffer,
    };
    for (const [name, given] of Object.entries(inputs)) {
        check(`frames of ${name}`, linesOf(ped.stream(given, config, { start: length })).join("\n") === expected);
    }
    try {
        ped.stream("text");
        check("a text is no input", false);
    } catch (error) {
        check(`a text is no input: ${error.message}`, error instanceof TypeError);
    }
    const frame = [...ped.stream(bytes, config, { start: length })].find((it) => it.name === "comm");
    check("a byte string is a view of the input", frame.fields.comm.buffer === bytes.buffer);
}

/** Reads the frames of a large input, and each by itself in a piece of the input that is no longer than any frame. */
function tryPieces() {
    const recording = bytesIn(RECORDINGS[1]);
    const { config, length } = ped.readAttribute(recording);
    const long = frameOf(100, 0, [[1, 1]], 65535);
    const frames = joined(repeated(recording.subarray(length), 30), repeated(joined(long, new Uint8Array(65526), lost), 9));
    for (const cut of [0, 1, 15, 16, 17, 23, 100, 65540]) {
        const bytes = frames.subarray(0, frames.length - cut);
        const stream = ped.stream(bytes, config);
        let [index, differ, at] = [0, 0, 0];
        for (const frame of stream) {
            const [alone] = ped.stream(bytes.slice(at, at + 65535), config, { limit: 1 });
            differ += frame.start !== at || line(index, frame) !== line(index, alone);
            at += frame.bytes.length;
            index += 1;
        }
        check(`${index} frames of ${bytes.length} bytes, each as by itself`, differ === 0 && index > 5000 && stream.count === index
            && stream.taken === at && bytes.length - at < 8 && stream.end === (bytes.length === at ? "done" : "cut header"));
    }
}

/** Reads the last frame of some 4 GiB, which is what an array of Node 20 has at most: zeros take no memory before they are
 * read. */
function tryLong() {
    const start = 2 ** 32 - 32;
    let bytes;
    try {
        bytes = new Uint8Array(start + lost.length);
    } catch (error) {
        tell("skipped", `a frame before 4 GiB: ${error.message}`);
        return;
    }
    bytes.set(lost, start);
    const stream = ped.stream(bytes, {}, { start });
    const [frame] = stream;
    check("a frame before 4 GiB", frame.fields.lost === 5n && frame.start === start && stream.count === 1
        && stream.taken === bytes.length && stream.end === "done");
}

/** Reads a large input: what it takes besides is not more than the module's places. */
async function tryMemory() {
    const large = repeated(lost, 4000000);
    let count;
    const more = await bytesTaken(() => { ({ count } = ped.stream(large)); });
    check(`${count} frames of ${large.length} bytes take ${more} bytes more`, count === 4000000 && Math.abs(more) < 4000000);
}

// ---- changed bytes

/** Recordings in which bytes are replaced, under their own configurations and under others. */
function tryWrongBytes() {
    const random = numbersFrom(1);
    const word = () => BigInt(random(65536)) | BigInt(random(65536)) << 16n;
    let [frames, wrong] = [0, 0];
    for (let number = 0; number < 400; number++) {
        const bytes = bytesIn(RECORDINGS[number % 2]);
        let { config, length } = ped.readAttribute(bytes);
        if (number % 4 > 1) {
            config = new Config({
                order: number >> 2 & 1, sample_type: random(1 << 25), read_format: random(32), flags: 1 << 18,
                branch_sample_type: random(1 << 18), sample_regs_user: word(), sample_regs_intr: word(),
            });
        }
        for (let i = 0; i < 200; i++) {
            bytes[length + random(bytes.length - length)] = [0, 1, 8, 16, 255][random(5)];
        }
        for (const frame of ped.stream(bytes, config, { start: length })) {
            frames += 1;
            const values = Object.values(frame.fields);
            wrong += values.length > 27 || values.some((value) => !isInside(frame, value)) ? 1 : 0;
        }
    }
    check(`${frames} frames of changed bytes: ${wrong} have a span outside their bytes`, wrong === 0 && frames > 1000);
}

// ---- measurements

function measure() {
    for (const path of RECORDINGS.slice(0, 2)) {
        const bytes = bytesIn(path);
        const { config, length } = ped.readAttribute(bytes);
        const stream = ped.stream(repeated(bytes.subarray(length), 200), config);
        const { count } = stream;
        const column = microseconds(count, () => stream.column("time"), MOST);
        check(`${path}, 200 times: ${column.toFixed(3)} microseconds a frame for a column of times, at most ${MOST}`, column <= MOST);
        const all = microseconds(count, () => {
            for (const frame of stream) {
                frame.time;
            }
        });
        const fields = microseconds(count, () => {
            for (const frame of stream) {
                frame.fields;
            }
        });
        console.log(`    ${all.toFixed(3)} for a loop over frames that takes their times, ${fields.toFixed(3)} with all fields`);
    }
}

await run([
    compareTexts, () => checkReplay("runs of crates/perf_replay", textIn("crates/perf_replay/stdin")),
    () => checkStreams(Number(streams || 10000)), compareHeader, compareDeclarations, tryReasons, tryStream, tryFrames,
    tryInputs, tryPieces, tryMemory, tryLong, tryWrongBytes, measure,
]);
