// Prints the names of the tasks in a recording, which is its argument: an attribute and the records after it.

import { readFileSync } from "node:fs";
import { load } from "perf-event-data";

const ped = await load();
const bytes = readFileSync(process.argv[2]);
const { config, length } = ped.readAttribute(bytes);
const stream = ped.stream(bytes, config, { start: length });
for (const frame of stream) {
    if (frame.name === "comm") {
        const { tid, comm } = frame.fields;
        console.log(`${frame.time} ${tid} is ${new TextDecoder().decode(comm)}`);
    }
}
