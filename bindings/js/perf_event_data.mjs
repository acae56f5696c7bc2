// Records of Linux performance events, perf_event_open(2), read by a proved library.
//
//     import { load } from "perf-event-data";
//
//     const ped = await load();
//     const { config, length } = ped.readAttribute(bytes);
//     const stream = ped.stream(bytes, config, { start: length });
//     for (const frame of stream) {
//         console.log(frame.name, frame.time, frame.fields);
//     }
//     const times = stream.column("time");
//
//     const recording = ped.open(file);               // a file that `perf record` wrote
//     for (const frame of recording.frames("time")) { // in order of time, each under its own event
//         console.log(frame.at, frame.event?.name, frame.name, frame.fields);
//     }
//
// The library is a WebAssembly module, which is in module.mjs. Its memory has room for a piece of the input and a
// batch of frames, and does not grow with the input, which is read where it is and must not change meanwhile.

import { BIG, Config, LITTLE, STRUCT_VERSION } from "./config.mjs";
import { OWNERS } from "./entries.mjs";
import { FILE_KINDS, FLAGS, KINDS, TYPES } from "./fields.mjs";
import { FileEvent, Recording, RefusedFile } from "./file.mjs";
import { FileFrame, FileFrames } from "./file_frames.mjs";
import { Frame, Frames } from "./frames.mjs";
import { libraryOf } from "./library.mjs";
import { MODULE } from "./module.mjs";
import { Stream } from "./stream.mjs";

export {
    BIG, Config, FILE_KINDS, FileEvent, FileFrame, FileFrames, FLAGS, Frame, Frames, KINDS, LITTLE, OWNERS, Recording,
    RefusedFile, Stream, STRUCT_VERSION, TYPES,
};

export const VERSION = "0.1.8";

let library;

/** Makes the library ready. Each call returns the same one. */
export function load() {
    library ??= libraryOf(MODULE);
    return library;
}
