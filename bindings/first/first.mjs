// Prints how many samples were lost.

import { load } from "perf-event-data";

// A LOST_SAMPLES record: eight samples were lost.
const bytes = Uint8Array.from([13, 0, 0, 0, 0, 0, 16, 0, 8, 0, 0, 0, 0, 0, 0, 0]);
const ped = await load();
for (const frame of ped.stream(bytes)) {
    console.log(`${frame.fields.lost} lost`);
}
