// Compares what the model has of recordings with what perf printed of them. The files of data are what it printed by
//
//     perf script -i NAME.data -F comm,tid,event,ip,dso
//     perf script -i recording.data --show-switch-events --show-task-events --ns -F tid,time -G |
//         grep -E 'RECORD_(FORK|SWITCH|COMM|EXIT)' >switches.txt
//
// where examples/stream-to-perf-data.sh had made a file of the stream.

import { execFileSync } from "node:child_process";
import { join, resolve } from "node:path";
import { fileURLToPath } from "node:url";
import { bytesIn, check, folded, linesIn, messageOf, opened, same } from "./harness.mjs";

const HERE = resolve(fileURLToPath(import.meta.url), "..");

/** A line of a dump by its words: what is before the record's name, and its fields. */
function frameOfLine(line) {
    const [index, at, event, type, misc, size, name, ...fields] = line.split(" ");
    return { index, at, event, type, misc, size, name, ...Object.fromEntries(fields.map((it) => it.split(/=(.*)/))) };
}

// What `perf report --header-only` printed of events.data.
const HEADER = {
    hostname: "vm", osRelease: "6.18.44-fc-v595", perfVersion: "6.1.187", architecture: "x86_64",
    processor: "Intel(R) Xeon(R) Processor", processors: "4 of 4 online", memory: "24683672 kB",
    commandLine: `/usr/bin/perf record -q -B -o events.data -e task-clock/period=2000000/ \
-e page-faults/period=7,call-graph=fp/ -e context-switches/period=1/ --namespaces -- sh -c ls / >/dev/null
        date > /dev/null
        sleep 0.01 & wait`,
};

export async function compareEvents() {
    const { overview, progress } = await opened(bytesIn("examples/events.data"));
    check("how far reading is", progress.length > 0 && progress.every(({ done, of, what }) => done >= 0 && done <= of
        && of === 14916 && what !== ""));
    const frames = linesIn("examples/events.time").map(frameOfLine);
    const samples = frames.filter(({ name }) => name === "Sample");
    same("events", overview.events.map((it) => `${it.index} ${it.name} type=${it.type} config=${it.config}`),
        linesIn("examples/events.events").map((line) => line.replace(/ sample_type=.*/, "")));
    same("samples of each event", overview.events.map((it) => it.samples),
        [0, 1, 2].map((event) => samples.filter((it) => it.event === String(event)).length));
    // Their own periods, by the command line.
    same("periods of each event", overview.events.map((it) => it.period), [0n, 7n * 40n, 1n * 8n]);
    same("header", Object.entries(overview.header).flat(), Object.entries(HEADER).flat());
    // The times of the first COMM and the last EXIT that `perf script --show-task-events` printed.
    same("first and last time", [overview.start, overview.start + BigInt(overview.duration)],
        [1759690213285n, 1759735887329n]);
    const times = samples.map((it) => BigInt(it.time));
    check("samples are within the time", times.every((time) => time >= overview.start
        && time <= overview.start + BigInt(overview.duration)));
    same("counts", ["frames", "samples", "threads", "kind", "order", "isClosed"].map((name) => overview[name]),
        [90, 48, 4, "file", "little", true]);
    same("refused frames", overview.refused.count, 0);
    same("what there is", ["hasTime", "hasCpu", "hasChains", "hasSwitches"].map((name) => overview[name]),
        [true, false, true, false]);
}

/** What perf wrote to a pipe for the same command: its events, its frames, and what it states of the machine. */
export async function comparePipe() {
    const model = await opened(bytesIn("examples/pipe.data"));
    const { overview } = model;
    same("events of a pipe", overview.events.map((it) => `${it.index} ${it.name} type=${it.type} config=${it.config}`),
        linesIn("examples/pipe.events").map((line) => line.replace(/ sample_type=.*/, "")));
    const frames = linesIn("examples/pipe.time").map(frameOfLine);
    const counts = [0, 1, 2].map((event) => frames.filter((it) => it.name === "Sample" && it.event === String(event)).length);
    same("samples of each event of a pipe", overview.events.map((it) => it.samples), counts);
    same("periods of each event of a pipe", overview.events.map((it) => it.period),
        [overview.events[0].period, 7n * BigInt(counts[1]), BigInt(counts[2])]);
    same("host, kernel and command of a pipe",
        [overview.header.hostname, overview.header.osRelease, overview.header.commandLine],
        [HEADER.hostname, HEADER.osRelease, HEADER.commandLine.replace("-o events.data", "-o -")]);
    const { rows } = await model.call("records", { filter: {}, sort: "file", offset: 0, count: 1000 });
    same("rows of a pipe", rows.map((it) => `${it.at} ${it.size} ${it.event ?? "-"}`),
        linesIn("examples/pipe.dump").map(frameOfLine).map((it) => `${it.at} ${it.size} ${it.event}`));
}

const STATS = { recording: "examples/recording.stats.txt", samples: "examples/samples.stats.txt" };

export async function compareStreams() {
    for (const [name, path] of Object.entries(STATS)) {
        const { overview } = await opened(bytesIn(`examples/${name}.stream`));
        const expected = linesIn(path).map((line) => /^ +([A-Z0-9_]+) events: +(\d+)/.exec(line))
            .filter((it) => it !== null)
            .map(([, kind, count]) => `${kind} ${count}`);
        const [total, ...kinds] = [...new Set(expected)];
        same(`counts of ${name}.stream`, overview.records.map((it) => `${it.name.toUpperCase()} ${it.count}`).sort(),
            kinds.sort());
        same(`frames of ${name}.stream`, `TOTAL ${overview.frames}`, total);
    }
    const { overview } = await opened(bytesIn("examples/samples.stream"));
    const lines = linesIn("examples/samples.expected").map((line) => line.split(" "));
    same("periods of samples.stream", overview.events[0].period,
        lines.reduce((sum, line) => sum + BigInt(line[3]), 0n));
    same("the event of samples.stream", [overview.events[0].name, overview.kind, overview.cpus.join()],
        ["page-faults", "stream", "1"]);
    same("an attribute that is asked for", (await opened(bytesIn("examples/samples.stream"), "little attr"))
        .overview.samples, 59);
}

export async function compareRows() {
    const model = await opened(bytesIn("examples/events.data"));
    for (const [sort, path] of [["file", "examples/events.dump"], ["time", "examples/events.time"]]) {
        const lines = linesIn(path).map(frameOfLine);
        const { total, rows } = await model.call("records", { filter: {}, sort, offset: 0, count: 1000 });
        same(`rows by ${sort}`, rows.map((it) => `${it.at} ${it.size} ${it.event ?? "-"}`),
            lines.map((it) => `${it.at} ${it.size} ${it.event}`));
        same(`how many by ${sort}`, total, lines.length);
        const samples = rows.filter(({ name }) => name === "sample");
        same(`tasks and times of samples by ${sort}`,
            samples.map((it) => `${it.pid}/${it.tid} ${model.overview.start + BigInt(it.time)}`),
            lines.filter(({ name }) => name === "Sample").map((it) => `${it.pid}/${it.tid} ${it.time}`));
    }
    const lines = linesIn("examples/events.dump").map(frameOfLine);
    const pages = [];
    for (let offset = 0; offset < 90; offset += 7) {
        pages.push(...(await model.call("records",
            { filter: { pid: 4583 }, sort: "file", kind: "mmap2", offset, count: 7 })).rows);
    }
    same("pages of a filter and a kind", pages.map((it) => String(it.index)),
        lines.filter((it) => it.name === "Mmap2" && it.pid === "4583").map((it) => it.index));
    const { rows } = await model.call("records", { filter: {}, sort: "file", text: "MMAP2 libselinux", count: 1000 });
    const hex = Buffer.from("libselinux").toString("hex");
    same("words that are searched", rows.map((it) => String(it.index)),
        lines.filter((it) => it.filename?.includes(hex)).map((it) => it.index));
}

export async function compareFields() {
    const model = await opened(bytesIn("examples/events.data"));
    const lines = linesIn("examples/events.dump").map(frameOfLine);
    const frames = await Promise.all(lines.map((_, index) => model.call("frame", { index })));
    for (const [name, words] of Object.entries({ ip: "Sample", ppid: "Fork", ptid: "Exit", len: "Mmap2" })) {
        const expected = lines.filter((it) => it.name === words);
        const found = frames.filter((it) => lines[it.index].name === words).map((it) => new Map(it.fields).get(name));
        same(`${name} of ${words}`, found.map((it) => String(BigInt(it))), expected.map((it) => it[name]));
    }
    const comm = frames.filter((it) => it.name === "comm").map((it) => new Map(it.fields).get("comm"));
    same("names", comm, lines.filter((it) => it.name === "Comm").map((it) => Buffer.from(it.comm, "hex").toString()));
    // The one that makes a task writes its FORK.
    const forks = frames.filter((it) => it.name === "fork").map((it) => new Map(it.fields));
    same("the sample ids of forks", forks.map((it) => `${it.get("pid")} ${it.get("sample_id.pid")}`),
        lines.filter((it) => it.name === "Fork").map((it) => `${it.pid} ${it.ppid}`));
    const own = frames.filter((it) => it.event === undefined).map((it) => new Map(it.fields).get("data"));
    same("frames of perf itself", own, lines.filter((it) => it.event === "-").map((it) => it.data));
    const bytes = await model.call("bytes", { at: 1032, size: 88 });
    same("bytes", Buffer.from(bytes).toString("hex"), Buffer.from(bytesIn("examples/events.data").subarray(1032, 1120))
        .toString("hex"));
    same("no such frame", await messageOf(model.call("frame", { index: 90 })), "there is no such frame");
}

const MARKS = { kernel: 2n ** 64n - 128n, user: 2n ** 64n - 512n };

/** All fields of samples that perf prints, but for id, raw, stack_user and cgroup, which it does not. */
export async function compareSamples() {
    const model = await opened(bytesIn("examples/samples.stream"));
    const { rows } = await model.call("records", { filter: {}, kind: "sample", sort: "file", count: 1000 });
    const found = await Promise.all(rows.map(async ({ index }) => {
        const { fields } = await model.call("frame", { index });
        return fields.filter(([name]) => !["type", "misc", "id", "raw", "stack_user", "cgroup"].includes(name))
            .map(([name, text]) => `${name}=${text.split(" ").filter((it) => it !== "")
                .map((it) => MARKS[it] ?? BigInt(it)).join(",")}`).sort().join(" ");
    }));
    same("all fields of samples", found, linesIn("examples/samples.fields")
        .map((line) => line.split(" ").slice(1).sort().join(" ")));
}

export async function compareTasks() {
    const model = await opened(bytesIn("examples/events.data"));
    const found = [];
    for (const event of [0, 1, 2]) {
        for (const { tid, samples } of await model.call("tasks", { filter: { event } })) {
            found.push(samples === 0 ? "" : `task ${tid}, event ${event}: ${samples}`);
        }
    }
    same("samples of each task and event", found.filter((it) => it !== "").sort(),
        linesIn("examples/events.samples").sort());
    const lines = linesIn("examples/events.time").map(frameOfLine);
    const rows = await model.call("tasks", { filter: {} });
    // The last COMM of each in order of time.
    const names = new Map(lines.filter((it) => it.name === "Comm")
        .map((it) => [Number(it.tid), Buffer.from(it.comm, "hex").toString()]));
    same("names of tasks", rows.map((it) => `${it.tid} ${it.name}`).sort(),
        [...names].map((it) => it.join(" ")).sort());
    const ends = new Map(lines.filter((it) => it.name === "Exit").map((it) => [Number(it.tid), BigInt(it.time)]));
    // A record's time is that of its sample id, which the kernel takes just before.
    check("ends of tasks", rows.length === 4 && rows.every((it) => {
        const early = ends.get(it.tid) - model.overview.start - BigInt(it.end);
        return early >= 0n && early < 100000n;
    }));
}

export async function compareStacks() {
    for (const [name, input] of [["events", "events.data"], ["recording", "recording.stream"]]) {
        const model = await opened(bytesIn("examples", input));
        const lines = execFileSync("python3", [join(HERE, "folded.py"), join(HERE, "data", `${name}.txt`)],
            { encoding: "utf8" })
            .trimEnd().split("\n").map((line) => name === "events" ? line : line.replace(/;[^;]*/, "")).sort();
        same(`folded stacks of ${input}`, await folded(model), lines);
        same(`the flame graph of ${input}`, foldedOf(await model.call("flame", { filter: {}, minimum: 0 })), lines);
        const inverted = await model.call("flame", { filter: {}, minimum: 0, inverted: true });
        const turned = lines.map((line) => line.replace(/^(.*) (\d+)$/,
            (_, stack, count) => `${stack.split(";").reverse().join(";")} ${count}`));
        same(`the inverted graph of ${input}`, foldedOf(inverted), turned.sort());
        for (const pid of [4573, 4583]) {
            const { samples } = await model.call("flame", { filter: { pid } });
            const own = linesIn("examples/events.samples").filter((line) => line.startsWith(`task ${pid},`))
                .map((line) => Number(line.split(": ")[1]));
            same(`samples of ${pid} in ${input}`, samples, name === "events"
                ? own.reduce((sum, count) => sum + count, 0) : 0);
        }
    }
}

/** The lines of a flame graph: of each box what its children do not have. Checks its shape. */
function foldedOf({ total, nodes, samples, deepest }) {
    const rest = Array.from(nodes.worth);
    const [paths, last] = [[""], new Map()];
    let isWrong = nodes.parent[0] !== -1 || nodes.worth[0] !== total || samples < 1;
    for (let node = 1; node < nodes.of.length; node++) {
        const parent = nodes.parent[node];
        rest[parent] -= nodes.worth[node];
        paths[node] = parent === 0 ? nodes.name[nodes.of[node]] : `${paths[parent]};${nodes.name[nodes.of[node]]}`;
        const before = last.get(parent);
        isWrong ||= parent >= node || nodes.depth[node] !== nodes.depth[parent] + 1 || nodes.depth[node] > deepest
            || nodes.start[node] !== (before === undefined ? nodes.start[parent]
                : nodes.start[before] + nodes.worth[before])
            || before !== undefined && !(nodes.name[nodes.of[before]] < nodes.name[nodes.of[node]]);
        last.set(parent, node);
    }
    const lines = paths.map((path, node) => `${path} ${rest[node]}`).filter((_, node) => node > 0 && rest[node] > 0);
    return isWrong ? ["the graph has a wrong shape"] : lines.sort();
}

export async function compareLanes() {
    const bytes = bytesIn("examples/recording.stream");
    const model = await opened(bytes);
    const { duration, start } = model.overview;
    const { lanes, total } = await model.call("lanes",
        { by: "thread", from: 0, to: duration, columns: 50, filter: {} });
    const times = linesIn("examples/recording.samples").map((line) => line.split(/[ /]/));
    same("lanes", [lanes.length, total], [10, 10]);
    const isRight = lanes.every((lane) => {
        const expected = new Array(50).fill(0);
        for (const [time] of times.filter((it) => Number(it[3]) === lane.tid)) {
            expected[Math.min(49, Math.floor(Number(BigInt(time) - start) / (duration / 50)))] += 1;
        }
        return expected.every((count, column) => count === lane.density[column])
            && lane.samples === expected.reduce((sum, count) => sum + count);
    });
    check("density", isRight);
    const fine = await model.call("lanes", { by: "thread", from: 0, to: duration, columns: 100000, filter: {} });
    const marks = fine.lanes.flatMap((lane) => lane.marks.map((it) => `${lane.tid} ${it.kind} ${it.text}`))
        .filter((it) => / (exec|comm) /.test(it));
    // The first COMM is perf's own, at no time; its text does not state which are of an exec.
    const comms = linesIn("examples/recording.expected").filter((line) => line.startsWith("comm ")).slice(1);
    same("marks of names", marks.map((it) => it.replace(" exec ", " comm ")).sort(),
        comms.map((line) => line.replace(/^comm \d+ (\d+) /, "$1 comm ")).sort());
    same("names without an exec", marks.filter((it) => it.includes(" comm ")).map((it) => it.split(" ")[2]),
        ["renamed"]);
    compareRunning(fine.lanes, start);
    const [cpu] = (await model.call("lanes", { by: "cpu", from: 0, to: duration, columns: 10, filter: {} })).lanes;
    same("the lane of a processor", [cpu.cpu, cpu.samples], [0, 39]);
    const half = await model.call("lanes", { by: "thread", from: duration / 2, to: duration, columns: 10, filter: {} });
    same("lanes of a range", half.lanes.map((it) => it.key), lanes.map((it) => it.key));
    const late = times.filter(([time]) => Number(BigInt(time) - start) >= duration / 2);
    same("samples of a range", half.lanes.reduce((sum, lane) => sum + lane.samples, 0), late.length);
    same("wrong lanes", await messageOf(model.call("lanes", { by: "event" })), "lanes are by thread or by cpu");
}

/** When each thread ran: from IN to OUT or to its EXIT; before an OUT without an IN since its first line, as the
 * program that perf starts runs before its events count. */
function intervalsOf(lines) {
    const [since, seen, intervals] = [new Map(), new Map(), []];
    for (const line of lines) {
        const [, own, seconds, nanoseconds, what] = /^ *(\d+) +(\d+)\.(\d{9}): PERF_RECORD_(.*?) *$/.exec(line);
        const time = BigInt(seconds) * 1000000000n + BigInt(nanoseconds);
        const tid = /^(?:FORK|EXIT)\(\d+:(\d+)\)/.exec(what)?.[1] ?? own;
        const isFirst = !seen.has(tid);
        seen.set(tid, seen.get(tid) ?? time);
        if (what === "SWITCH IN") {
            since.set(tid, time);
            seen.set(`${tid} switched`, time);
        } else if (/^(SWITCH OUT|EXIT)/.test(what) && !isFirst) {
            const begin = since.get(tid) ?? (seen.has(`${tid} switched`) ? undefined : seen.get(tid));
            if (begin !== undefined && time > begin) {
                intervals.push([tid, begin, time]);
            }
            since.delete(tid);
            seen.set(`${tid} switched`, time);
        }
    }
    return intervals;
}

/** Compares lanes of so many columns that no two intervals are in one. */
function compareRunning(lanes, start) {
    const found = lanes.flatMap(({ tid, running }) => {
        const list = [];
        for (let place = 0; place < running.length; place += 2) {
            list.push(`${tid} ${start + BigInt(running[place])} ${start + BigInt(running[place + 1])}`);
        }
        return list;
    });
    const lines = linesIn("bindings/web/test/data/switches.txt").slice(1);
    same("when threads ran", found.sort(), intervalsOf(lines).map((it) => it.join(" ")).sort());
}
