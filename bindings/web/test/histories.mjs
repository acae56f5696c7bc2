// Compares places and names with a search through all records back in time, and large histories with their limits.

import { orderOf } from "../model/order.mjs";
import { check, folded, messageOf, opened, same } from "./harness.mjs";
import {
    comm, exit, fileOf, fork, lost, mmap, mmap2, numbersFrom, sample, switched, switchedCpu, writing,
} from "./made.mjs";
import { KERNEL, recordsOf, shuffled, USER } from "./made_histories.mjs";

/** The text of an address of a process by the records before `end`: the last mapping that has it, of its parent before
 * the FORK that made it. */
function placeBefore(records, end, pid, address) {
    for (let place = end - 1; place >= 0; place--) {
        const it = records[place];
        if (it.make === mmap2 && it.pid === pid && it.address <= address && address < it.address + it.length) {
            const offset = address - it.address + it.offset;
            return `${it.name.slice(it.name.lastIndexOf("/") + 1)}+0x${offset.toString(16)}`;
        }
        if (it.make === fork && it.pid === pid && it.ppid !== pid && (it.misc & 0x2000) === 0) {
            return placeBefore(records, place, it.ppid, address);
        }
    }
    return "[unknown]";
}

/** The name of a thread by the records before `end`. */
function nameBefore(records, end, pid, tid) {
    for (let place = end - 1; place >= 0; place--) {
        const it = records[place];
        if (it.pid === pid && it.tid === tid && it.make === comm) {
            return it.name;
        }
        if (it.pid === pid && it.tid === tid && it.make === fork) {
            const name = nameBefore(records, place, it.ppid, it.ptid);
            return name.startsWith(":") ? `:${tid}` : name;
        }
    }
    return `:${tid}`;
}

/** What a sample's line is without its count. */
function stackOf(records, place) {
    const { pid, tid, chain } = records[place];
    const frames = [];
    let mode = USER;
    for (const address of chain) {
        if (address < 0n) {
            mode = address;
        } else if (mode === KERNEL) {
            frames.push(`0x${address.toString(16)}_[k]`);
        } else {
            frames.push(mode === USER ? placeBefore(records, place, pid, address) : "[unknown]");
        }
    }
    return [nameBefore(records, place, pid, tid), ...frames.reverse()].join(";");
}

export async function compareHistories() {
    let [lines, differ] = [0, 0];
    for (let seed = 1; seed <= 60; seed++) {
        const random = numbersFrom(seed * 7919);
        const records = recordsOf(random, seed);
        const model = await opened(fileOf(shuffled(random, records)));
        const expected = new Map();
        records.forEach((it, place) => {
            if (it.make === sample) {
                const stack = stackOf(records, place);
                expected.set(stack, (expected.get(stack) ?? 0) + 1);
            }
        });
        const found = await folded(model);
        const all = [...expected].map(([stack, count]) => `${stack} ${count}`).sort();
        lines += all.length;
        differ += found.join("\n") === all.join("\n") ? 0 : 1;
    }
    check(`${lines} stacks of 60 histories, ${differ} histories differ`, differ === 0 && lines > 5000);
}

export function compareOrder() {
    const random = numbersFrom(5);
    for (const [length, different] of [[0, 1], [1, 1], [2, 1], [1000, 1], [1000, 7], [1000, 100000], [4097, 50]]) {
        const times = Float64Array.from({ length }, () => random(9) === 0 ? -Infinity : random(different));
        const expected = Array.from(times.keys()).sort((one, other) => times[one] === times[other] ? one - other
            : times[one] < times[other] ? -1 : 1);
        same(`order of ${length} times`, Array.from(orderOf(times)), expected);
    }
}

/** Mappings without a file, data, ends of the address space, and bits of misc. */
export async function namePlaces() {
    const top = 0xffffffffffff0000n;
    const maps = [
        [mmap2, "//anon", {}, "perf-7.map+0x10008"], [mmap2, "[heap]", { protection: 3 }, "[heap]+0x10008"],
        [mmap2, "//anon", { protection: 3 }, "anon+0x10008"], [mmap2, "/dev/zero (deleted)", {}, "perf-7.map+0x10008"],
        [mmap2, "/anon_hugepage (deleted)", {}, "perf-7.map+0x10008"], [mmap2, "[stack:7]", {}, "perf-7.map+0x10008"],
        [mmap2, "/SYSV00000000 (deleted)", {}, "perf-7.map+0x10008"], [mmap2, "//anonymous", {}, "anonymous+0x1008"],
        [mmap, "/usr/bin/a", {}, "a+0x1008"], [mmap, "//anon", {}, "perf-7.map+0x10008"],
        [mmap, "//anon", { misc: 0x2002 }, "anon+0x10008"], [mmap2, "[vdso]", {}, "[vdso]+0x1008"],
        [mmap2, "/usr/bin/;\n\u0001<b>", {}, "___<b>+0x1008"], [mmap2, "/a", { misc: 1 }, "[unknown]"],
        [mmap2, "/a", { length: 0n }, "[unknown]"], [mmap2, "/a", { length: 8n }, "[unknown]"],
        [mmap2, "/a", { length: 9n }, "a+0x1008"],
        [mmap2, "/a", { length: 0xffffffffffffffffn }, "a+0x1008"],
        [mmap2, "/a", { offset: -9n }, "a+0xffffffffffffffff"],
        [mmap2, "/a", { address: top, length: 0x10000n }, `a+0x1008`, top + 8n],
    ];
    for (const [make, name, words, expected, ip = 0x10008n] of maps) {
        const it = { pid: 7, time: 5, address: 0x10000n, length: 0x1000n, offset: 0x1000n, name, ...words };
        const model = await opened(fileOf([make(it), sample({ pid: 7, time: 6, ip })]));
        same(`a place in ${JSON.stringify(name)}`, await folded(model), [`:7;${expected} 1`]);
    }
    for (const [misc, expected] of [[1, "0x10008_[k]"], [2, "a+0x8"], [3, "[unknown]"], [4, "[unknown]"],
        [5, "[unknown]"], [0, "[unknown]"]]) {
        const map = mmap2({ pid: 7, time: 5, address: 0x10000n, length: 0x1000n, name: "/a" });
        const model = await opened(fileOf([map, sample({ pid: 7, time: 6, ip: 0x10008n, misc })]));
        same(`an address in the mode ${misc}`, await folded(model), [`:7;${expected} 1`]);
    }
}

/** 4000 mappings, then 4000 processes each made by the one before, which each map something. */
export async function followForks() {
    const count = 4000;
    const frames = [];
    for (let place = 0; place < count; place++) {
        frames.push(mmap2({ pid: 1, time: 1, address: BigInt(place) * 0x2000n, length: 0x1000n,
            name: `/f${place % 50}` }));
    }
    for (let pid = 2; pid < count + 2; pid++) {
        frames.push(fork({ pid, ppid: pid - 1, time: pid }));
        frames.push(mmap2({ pid, time: pid, address: BigInt(pid) * 0x2000n, length: 0x1000n, name: "/own" }));
        frames.push(sample({ pid, time: pid, chain: [BigInt(pid) * 0x2000n + 1n, BigInt(pid + 1) * 0x2000n + 2n,
            0x2001n] }));
    }
    const bytes = fileOf(frames);
    const before = performance.now();
    const model = await opened(bytes);
    const took = performance.now() - before;
    const lines = await folded(model, { filter: { pid: 2000 } });
    same("a process of 2000 forks", lines, [":2000;f1+0x1;f1+0x2;own+0x1 1"]);
    check(`${count} mappings and forks in ${Math.round(took)} ms, at most 5000`, took < 5000);
}

/** The same records of a machine with the highest byte first. */
export async function compareOrders() {
    const texts = [];
    for (const isLittle of [true, false]) {
        writing.isLittle = isLittle;
        const frames = [comm({ pid: 3, name: "name", time: 1 }),
            mmap2({ pid: 3, time: 2, address: 0x7f0000000000n, length: 0x10000n, offset: 0x2000n, name: "/lib/a" }),
            sample({ pid: 3, time: 3, chain: [KERNEL, 0x1234n, USER, 0x7f0000000123n], period: 9, event: 1 })];
        const model = await opened(fileOf(frames, ["first", "second"]));
        const { order, events, start, duration } = model.overview;
        texts.push([...events.map((it) => `${it.name} ${it.config} ${it.period}`), start, duration,
            ...await folded(model)].join("|"));
        same("the order", order, isLittle ? "little" : "big");
    }
    writing.isLittle = true;
    same("a big-endian machine", texts, new Array(2)
        .fill("first 0x0 0|second 0x1 9|1|2|name;second;a+0x2123;0x1234_[k] 1"));
}

export async function nameThreads() {
    const frames = [
        comm({ pid: 1, name: "one", time: 1 }), fork({ pid: 2, ppid: 1, time: 2 }), fork({ pid: 3, ppid: 9, time: 2 }),
        sample({ pid: 0, tid: 0, time: 3, ip: 1n }), sample({ pid: 2, time: 3, ip: 1n }),
        sample({ pid: 3, time: 3, ip: 1n }),
        exit({ pid: 2, time: 4 }), sample({ pid: 2, time: 5, ip: 1n }), sample({ pid: 0xffffffff, time: 6, ip: 1n }),
        comm({ pid: 1, name: "two", time: 6 }), sample({ pid: 2, time: 7, ip: 1n }),
        comm({ pid: 3, name: "", time: 7 }),
        sample({ pid: 3, time: 8, ip: 1n }),
    ];
    const model = await opened(fileOf(frames));
    same("names of threads", await folded(model), [":3;[unknown] 1", ":4294967295;[unknown] 1", ";[unknown] 1",
        "one;[unknown] 3",
        "swapper;[unknown] 1"].sort());
    same("a filter by name", (await model.call("flame", { filter: { comm: "one" } })).samples, 3);
    same("a filter by a name that is nobody's", (await model.call("flame", { filter: { comm: "nobody" } })).samples, 0);
    same("a range", (await model.call("flame", { filter: { from: 2, to: 4 } })).samples, 4);
    same("from the first time on", (await model.call("flame", { filter: { from: 6 } })).samples, 2);
}

/** Switches of which records are absent. */
export async function followSwitches() {
    const out = 0x2000;
    const frames = [
        switched({ pid: 1, time: 100, misc: out }), switched({ pid: 2, time: 110 }), // 1 ran before
        switched({ pid: 8, time: 112, cpu: 4, misc: out }), switched({ pid: 9, time: 113, cpu: 4, misc: out }), // and 8
        switched({ pid: 3, time: 150 }), switched({ pid: 2, time: 160, cpu: 1 }), // 2 stopped when 3 began
        switched({ pid: 0, tid: 0, time: 170 }), // so did 3
        switched({ pid: 3, time: 180, misc: out }), switched({ pid: 3, time: 190, misc: out }),
        exit({ pid: 2, time: 200, cpu: 1 }), lost({ pid: 4, time: 210, lost: 5, cpu: 2 }),
        switched({ pid: 4, time: 220, cpu: 2 }),
        comm({ pid: 1, name: "last", time: 400, cpu: 3 }),
    ];
    const model = await opened(fileOf([comm({ pid: 1, name: "one", time: 90, misc: out }), ...frames]));
    const words = { from: 0, to: 310, columns: 100000, filter: {} };
    const { lanes } = await model.call("lanes", { by: "thread", ...words });
    same("when threads ran", lanes.map((it) => `${it.tid}: ${[...it.running]}`).sort(),
        ["1: 0,10", "2: 20,60,70,110", "3: 60,80", "4: 130,310", "8: 0,22"]);
    const cpus = await model.call("lanes", { by: "cpu", ...words });
    same("when processors ran", cpus.lanes.map((it) => `${it.cpu}: ${[...it.running]}`).sort(),
        ["0: 0,10,20,80", "1: 70,110", "2: 130,310", "3: ", "4: 0,22"]);
    same("intervals that are near", [...(await model.call("lanes", { by: "cpu", ...words, columns: 2 }))
        .lanes[0].running], [0, 80]);
    const marks = lanes.flatMap((it) => it.marks.map(({ time, kind, text }) => `${it.tid} ${time} ${kind} ${text}`))
        .sort();
    same("marks", marks, ["1 0 exec one", "1 310 comm last", "2 110 exit exit", "4 120 lost lost"]);
    same("how many are lost", [model.overview.lost, model.overview.hasSwitches, model.overview.cpus.join()],
        [5n, true, "0,1,2,3,4"]);
}

/** Threads that end where all switches of processors are recorded: the last one is after the EXIT. */
export async function followEnds() {
    const out = 0x2000;
    const frames = [
        switchedCpu({ pid: 1, time: 100 }), exit({ pid: 1, time: 110 }), switchedCpu({ pid: 1, time: 115, misc: out }),
        switchedCpu({ pid: 2, time: 120 }), exit({ pid: 2, time: 130 }),
        switchedCpu({ pid: 0xffffffff, time: 136, misc: out }), switchedCpu({ pid: 0, time: 137 }),
        switchedCpu({ pid: 0, time: 140, misc: out }), switchedCpu({ pid: 3, time: 141 }), exit({ pid: 3, time: 150 }),
        comm({ pid: 4, name: "end", time: 200 }),
    ];
    const model = await opened(fileOf(frames));
    const { lanes } = await model.call("lanes", { by: "thread", from: 0, to: 100, columns: 1000, filter: {} });
    same("threads that end", lanes.map((it) => `${it.tid}: ${[...it.running]}`).sort(),
        ["1: 0,15", "2: 20,36", "3: 41,50", "4: "]);
}

/** Without processors threads may run at the same time. */
export async function followWithoutProcessors() {
    writing.hasCpu = false;
    const frames = [[1, 100, 0], [2, 110, 0], [1, 150, 0x2000],
        [2, 160, 0x2000]].map(([pid, time, misc]) => switched({ pid, time, misc }));
    const model = await opened(fileOf(frames));
    writing.hasCpu = true;
    const { lanes } = await model.call("lanes", { by: "thread", from: 0, to: 100, columns: 1000, filter: {} });
    same("threads without processors", lanes.map((it) => `${it.tid}: ${[...it.running]}`), ["1: 0,50", "2: 10,60"]);
    same("no lanes by processor", (await model.call("lanes", { by: "cpu", from: 0, to: 100, columns: 10, filter: {} }))
        .lanes.length, 0);
    same("no processors", [model.overview.hasCpu, model.overview.cpus.length], [false, 0]);
}

/** Lines of samples in CSV, and filters by a processor and a thread. */
export async function selectSamples() {
    const frames = [
        mmap2({ pid: 1, time: 0, address: 0n, length: 0x1000n, name: '/a,"b"' }),
        comm({ pid: 1, tid: 2, name: "-x", time: 1 }),
        sample({ pid: 1, tid: 2, time: 1000000007, cpu: 3, ip: 0x10n, period: 5 }),
        sample({ pid: 1, tid: 1, time: 1000000009, cpu: 2, ip: 0x20n }),
        sample({ pid: 4, tid: 2, time: 2000000001, cpu: 3, ip: 1n, event: 1 }),
    ];
    const model = await opened(fileOf(frames, ["first", "second"]));
    const head = "index,time,event,name,pid,tid,cpu,period,place";
    const lines = [`2,1.000000007,first,"'-x",1,2,3,5,"a,""b""+0x10"`, `3,1.000000009,first,:1,1,1,2,1,"a,""b""+0x20"`,
        `4,2.000000001,second,"'-x",4,2,3,1,[unknown]`];
    for (const [filter, places] of [[{}, [0, 1, 2]], [{ cpu: 3 }, [0, 2]], [{ tid: 2 }, [0, 2]], [{ pid: 1 }, [0, 1]],
        [{ pid: 1, tid: 2 }, [0]],
        [{ event: 1 }, [2]], [{ from: 1000000007, cpu: 3 }, [2]], [{ to: 1000000008 }, [0, 1]], [{ comm: "-x" }, [0, 2]],
            [{ pid: 9 }, []]]) {
        const text = await model.call("export", { kind: "csv", filter });
        same(`samples of ${JSON.stringify(filter)}`, text.trimEnd().split("\r\n"),
            [head, ...places.map((place) => lines[place])]);
        const { rows, total } = await model.call("records", { filter, kind: "sample", sort: "time" });
        same(`rows of ${JSON.stringify(filter)}`, [total, ...rows.map((it) => it.index)],
            [places.length, ...places.map((place) => place + 2)]);
        const tasks = await model.call("tasks", { filter });
        same(`tasks of ${JSON.stringify(filter)}`, tasks.reduce((sum, it) => sum + it.samples, 0), places.length);
    }
    const bytes = await model.call("export", { kind: "csv", filter: {}, as: "bytes" });
    same("an export as bytes", Buffer.from(bytes).toString(), [head, ...lines, ""].join("\r\n"));
    same("another export", await messageOf(model.call("export", { kind: "html", filter: {} })),
        "samples are exported as folded or as csv");
}

export async function weighEvents() {
    const chain = [0x10n, 0x20n];
    const frames = [
        sample({ pid: 1, time: 1, chain, period: 10, event: 0 }),
        sample({ pid: 1, time: 2, chain: [0x20n], period: 5, event: 1 }),
        sample({ pid: 1, time: 3, chain, period: 2 ** 40, event: 1 }),
        sample({ pid: 1, time: 4, chain: [KERNEL, 0x10n], period: 1, event: 1 }),
    ];
    const model = await opened(fileOf([mmap2({ pid: 1, time: 0, address: 0n, length: 0x100n, name: "/a" }), ...frames],
        ["x;y", "other"]));
    same("several events", await folded(model, { weight: "period" }), [":1;other;0x10_[k] 1", ":1;other;a+0x20 5",
        `:1;other;a+0x20;a+0x10 ${2 ** 40}`, ":1;x_y;a+0x20;a+0x10 10"].sort());
    same("one event", await folded(model, { filter: { event: 1 }, weight: "period" }), [":1;0x10_[k] 1", ":1;a+0x20 5",
        `:1;a+0x20;a+0x10 ${2 ** 40}`].sort());
    const { nodes, total } = await model.call("flame", { filter: {}, weight: "period", minimum: 0.5 });
    same("boxes that are wide enough", [...nodes.of].map((name) => nodes.name[name]),
        ["all", ":1", "other", "a+0x20", "a+0x10"]);
    same("the whole", total, 2 ** 40 + 16);
    same("periods of events", model.overview.events.map((it) => it.period), [10n, BigInt(2 ** 40 + 6)]);
    const none = await model.call("flame", { filter: { event: 5 } });
    same("nothing selected", [none.total, none.nodes.of.length, none.samples, none.deepest], [0, 1, 0, 0]);
}
