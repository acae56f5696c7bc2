// Makes histories: records of a few processes at random, about names, mappings and forks, and samples.

import { comm, fork, mmap2, numbersFrom, sample } from "./made.mjs";

export const KERNEL = -128n;
export const USER = -512n;
const GUEST = -2048n;

/** A record of processes 1 to 5, at random, in a small range of addresses, so that mappings often overlap. */
function randomRecord(random, base, time) {
    const pid = 1 + random(5);
    const tid = pid * 10 + random(2);
    const kind = random(20);
    const address = () => base + BigInt(random(64) * 1024 + random(3));
    if (kind < 8) {
        const length = BigInt(1 + random([16, 3000, 40000][random(3)]));
        return { make: mmap2, pid, tid: pid, time, address: address(), length, offset: BigInt(random(9) * 4096),
            name: `/lib/${random(30)}` };
    }
    if (kind < 10) {
        const ppid = 1 + random(5);
        return { make: fork, pid, tid, ppid, ptid: ppid * 10 + random(2), time, misc: random(5) === 0 ? 0x2000 : 0 };
    }
    if (kind < 11) {
        return { make: comm, pid, tid, time, name: `name ${random(9)}` };
    }
    const chain = Array.from({ length: random(7) + 1 },
        () => [address, address, address, address, () => [KERNEL, USER, GUEST][random(3)]][random(5)]());
    return { make: sample, pid, tid, time, chain: [...chain, address()] };
}

/** Records of a seed, in the order of time. */
export function recordsOf(random, seed) {
    const base = [0x10000n, 0x7fff0000ffff0000n - 0x8000n, 0xfffff000n, 0x8000000000000000n - 0x8000n][seed % 4];
    let time = 1000;
    return Array.from({ length: 400 }, () => randomRecord(random, base, time += random(3)));
}

/** Records in an order, with those of one time in the order that they have in the other list. */
function inOrder(list, records) {
    const byTime = new Map();
    records.forEach((it) => byTime.set(it.time, [...byTime.get(it.time) ?? [], it]));
    return list.map((it) => byTime.get(it.time).shift());
}

/** The frames of records, in another order than that of time; those of one time stay in their order. */
export function shuffled(random, records) {
    const late = records.map((record, place) => [record, record.time + random(100), place])
        .sort((one, other) => one[0].time === other[0].time ? one[2] - other[2] : one[1] - other[1]
            || one[2] - other[2]);
    return inOrder(late.map(([record]) => record), records).map((it) => it.make(it));
}

/** The frames of a history. */
export const framesOf = (seed) => {
    const random = numbersFrom(seed * 7919);
    return shuffled(random, recordsOf(random, seed));
};
