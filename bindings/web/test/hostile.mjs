// Files that lie: each gives a message or an overview, and soon.

import { bytesIn, check, folded, messageOf, Model, opened, same } from "./harness.mjs";
import { bytesOf, comm, fileOf, frame, joined, mmap2, numbersFrom, sample } from "./made.mjs";

const MOST_MS = 5000;

/** Whether bytes give a text as an error, or an overview of which all else can be asked. */
async function isHandled(bytes) {
    const model = new Model();
    const before = performance.now();
    try {
        const overview = await model.open(bytes);
        await model.call("lanes", { by: "thread", from: 0, to: overview.duration, columns: 100, filter: {} });
        await model.call("lanes", { by: "cpu", from: 0, to: overview.duration, columns: 100, filter: {} });
        for (const inverted of [false, true]) {
            await model.call("flame", { filter: {}, weight: "period", inverted, minimum: 1 / 1200 });
        }
        await model.call("tasks", { filter: {} });
        const { rows } = await model.call("records", { filter: {}, sort: "time", text: "a", count: 50 });
        for (const { index } of rows) {
            await model.call("frame", { index });
        }
        await model.call("export", { kind: "csv", filter: {} });
    } catch (error) {
        if (typeof error.message !== "string" || error.message === ""
            || /undefined|not a function|null|BigInt/.test(error.message)) {
            console.log(`    ${error.stack}`);
            return false;
        }
    }
    return performance.now() - before < MOST_MS;
}

export async function cutFiles() {
    const bytes = bytesIn("examples/events.data");
    let wrong = 0;
    for (let length = 0; length < 2048; length++) {
        wrong += await isHandled(bytes.subarray(0, length)) ? 0 : 1;
    }
    for (let length = 2048; length < bytes.length; length += 97) {
        wrong += await isHandled(bytes.subarray(0, length)) ? 0 : 1;
    }
    check(`files cut at each length below 2048: ${wrong} are wrong`, wrong === 0);
    const pipe = bytesIn("examples/pipe.data");
    for (let length = 0; length < pipe.length; length += length < 1024 ? 1 : 97) {
        wrong += await isHandled(pipe.subarray(0, length)) ? 0 : 1;
    }
    check(`pipes cut at each length below 1024: ${wrong} are wrong`, wrong === 0);
    const stream = bytesIn("examples/recording.stream");
    for (let length = 0; length < 1024; length++) {
        wrong += await isHandled(stream.subarray(0, length)) ? 0 : 1;
    }
    check(`streams cut at each length below 1024: ${wrong} are wrong`, wrong === 0);
}

export async function changeBytes() {
    const random = numbersFrom(99);
    let wrong = 0;
    for (let number = 0; number < 1500; number++) {
        const bytes = bytesIn(["examples/events.data", "examples/recording.stream", "examples/pipe.data"][number % 3]);
        const end = number % 2 ? bytes.length : 1200;
        for (let change = 0; change < 1 + random(20); change++) {
            bytes[random(end)] = [0, 1, 8, 16, 127, 128, 255][random(7)];
        }
        if (number % 6 < 3) {
            // The features of the file.
            for (let change = 0; change < 30; change++) {
                bytes[8328 + random(Math.min(1200, bytes.length - 8328))] = [0, 1, 8, 16, 127, 128, 255][random(7)];
            }
        }
        wrong += await isHandled(bytes) ? 0 : 1;
    }
    check(`1500 recordings with changed bytes: ${wrong} are wrong`, wrong === 0);
}

export async function refuseOthers() {
    const text = "this is no perf.data file: pass a file that `perf record` has written";
    same("a text is no recording", await messageOf(new Model()
        .open(new TextEncoder().encode("hello, world\n".repeat(99)))), text);
    same("nothing is no recording", await messageOf(new Model().open(new Uint8Array())), text);
    same("random bytes are no recording", await messageOf(new Model()
        .open(Uint8Array.from({ length: 999 }, numbersFrom(3).bind(null, 256)))), text);
    const pipe = joined([new TextEncoder().encode("PERFILE2"), bytesOf([8, 16])]);
    check("a pipe without frames", (await messageOf(new Model().open(pipe))).startsWith("the file has no event"));
    same("a call before a file", await messageOf(new Model().call("flame", { filter: {} })), "no recording is open");
    same("a call that there is not", await messageOf(new Model().call("toString")), "there is no call toString");
}

/** Names stay text. */
export async function keepNames() {
    const names = ["<img src=x onerror=alert(1)>", "]]>", "</script><script>", "a;b\nc\u0000d", "=1+1", "%s%n",
        "__proto__", "constructor"];
    const frames = names.flatMap((name, place) => [
        comm({ pid: place + 1, name, time: 2 * place }),
        mmap2({ pid: place + 1, name: `/x/${name}`, address: 0n, length: 0x1000n, time: 2 * place }),
        sample({ pid: place + 1, time: 2 * place + 1, ip: 0x10n })]);
    const model = await opened(fileOf(frames));
    const plain = (name) => name.replace(/[;\n\u0000]/g, "_");
    // The last part of the second path is after its slash.
    const part = (name) => plain(name).slice(plain(name).lastIndexOf("/") + 1);
    same("names in stacks", await folded(model), names.map((it) => `${plain(it)};${part(it)}+0x10 1`).sort());
    const tasks = await model.call("tasks", { filter: {} });
    same("names of tasks", tasks.map((it) => it.name), names.map(plain));
    for (const name of names) {
        same(`a filter by ${JSON.stringify(name)}`, (await model.call("flame", { filter: { comm: plain(name) } }))
            .samples, 1);
    }
    const csv = (await model.call("export", { kind: "csv", filter: {} })).split("\r\n");
    check("a name that is no formula", csv.some((line) => line.includes(`,"'=1+1",5,5,`))
        && csv.length === names.length + 2);
}

/** Names of events that the feature does not have right. */
export async function describeEvents() {
    const bytes = fileOf([sample({ pid: 1, time: 1 })], ["<b>", "other"]);
    const { overview } = await opened(bytes);
    same("described events", overview.events.map((it) => it.name), ["<b>", "other"]);
    const cut = await opened(bytes.subarray(0, bytes.length - 1));
    same("a feature that ends beyond the file", cut.overview.events.map((it) => it.name), ["cpu-clock", "task-clock"]);
    const half = bytes.slice();
    half[half.length - (4 + 6 + 8)] = 255; // the length of the second name
    same("a description that is cut off", (await opened(half)).overview.events.map((it) => it.name),
        ["<b>", "task-clock"]);
}

/** A file whose perf was killed: its data have no size, and its features do not count. */
export async function openUnclosed() {
    const bytes = fileOf([sample({ pid: 1, time: 1 }), sample({ pid: 1, time: 2 })], ["a name"]);
    const features = bytes.length - (16 + 8 + 136 + 8 + 7 + 8);
    const open = bytes.slice(0, features);
    open.fill(0, 48, 56);
    const { overview } = await opened(open);
    same("a file that is not closed", [overview.isClosed, overview.samples, overview.events[0].name],
        [false, 2, "cpu-clock"]);
}

/** Lists that a file makes too long. */
export async function limitLists() {
    const frames = [];
    for (let place = 0; place < 30000; place++) {
        frames.push(comm({ pid: 1 + place % 10, name: `n${place}`, time: 1 + place, cpu: place % 2 }),
            frame(1000 + place, 0, new Uint8Array()));
    }
    frames.push(...Array.from({ length: 1100 }, () => frame(9, 0, bytesOf([8, 5]))));
    frames.push(...Array.from({ length: 21000 }, (_, place) => sample({ pid: 100 + place, time: 30000 + place })));
    const model = await opened(fileOf(frames, ["cpu-clock", "task-clock"]));
    const { overview } = model;
    const { lanes } = await model.call("lanes", { by: "thread", from: 0, to: overview.duration, columns: 50000,
        filter: {} });
    same("lanes and their marks", [lanes.length, lanes.some((it) => it.marks.length > 2000)], [1000, false]);
    const all = lanes.reduce((sum, it) => sum + it.marks.length, 0);
    check(`${all} marks`, all <= 30000);
    const cpus = await model.call("lanes", { by: "cpu", from: 0, to: 30000, columns: 50000, filter: {} });
    const least = Math.max(...cpus.lanes.flatMap((it) => it.marks.map(({ time }) => time)));
    check("marks up to the end", cpus.lanes.every((it) => it.marks.length > 900) && least > 29900);
    same("rows of tasks", (await model.call("tasks", { filter: {} })).length, 20000);
    same("refused frames", [overview.refused.count, overview.refused.first.length], [1100, 1000]);
    const others = overview.records.find((it) => it.name === "others").count;
    same("types", [overview.records.length, overview.records.reduce((sum, it) => sum + it.count, 0), others],
        [1002, 82100, 29001]);
    const { rows } = await model.call("records", { filter: {}, kind: "refused", offset: 1090, count: 1 });
    same("a refused frame that is not listed", rows[0].summary, "its id is that of no event of the file");
}

/** Refused frames, with where they are. */
export async function listRefused() {
    const bad = [sample({ pid: 1, time: 1, event: 7 }), frame(9, 2, bytesOf([8, 100], [8, 1])),
        frame(3, 0, bytesOf([4, 1]))];
    const good = sample({ pid: 1, time: 5, ip: 1n });
    const bytes = fileOf([bad[0], good, bad[1], good, bad[2], good], ["cpu-clock", "task-clock"]);
    const model = await opened(bytes);
    const { refused, frames, samples, records } = model.overview;
    const first = 104 + 16 + 2 * 144;
    same("refused frames", refused.first.map((it) => `${it.index} ${it.at} ${it.size}`), [
        `0 ${first} 64`, `2 ${first + 128} 24`, `4 ${first + 216} 12`]);
    same("reasons", refused.first.map((it) => it.message), ["its id is that of no event of the file: 107",
        "unexpected EOF during parsing", "it is too short for an id"]);
    same("counts", [refused.count, frames, samples, ...records.map(({ name, count }) => `${name} ${count}`)],
        [3, 6, 3, "sample 5", "comm 1"]);
    const frameOf = await model.call("frame", { index: 2 });
    same("a refused frame", [frameOf.name, frameOf.message, frameOf.at],
        ["refused", "unexpected EOF during parsing", first + 128]);
    const { rows } = await model.call("records", { filter: {}, kind: "refused", count: 10 });
    same("rows of refused frames", rows.map((it) => it.summary), refused.first.map((it) => it.message));
    same("bytes of a refused frame", Buffer.from(await model.call("bytes", refused.first[1])).toString("hex"),
        Buffer.from(bad[1]).toString("hex"));
}
