// Counts the samples of a file of `perf record` by task and event, in order of time.

import { readFileSync } from "node:fs";
import { load } from "perf-event-data";

const ped = await load();
const counts = new Map();
for (const frame of ped.open(readFileSync(process.argv[2])).frames("time")) {
    if (frame.event && frame.name === "sample") {
        const key = `task ${frame.tid}, event ${frame.event.number}`;
        counts.set(key, (counts.get(key) ?? 0) + 1);
    }
}
for (const [key, count] of counts) {
    console.log(`${key}: ${count}`);
}
