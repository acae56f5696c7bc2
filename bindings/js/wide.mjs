// The library with a memory of 64 bits, for engines that have those: it sorts as many frames as there is memory for. Inputs
// of any length are read by either, as a piece of one is in the module's memory at a time.

import { libraryOf } from "./library.mjs";
import { MODULE } from "./wide_module.mjs";

export * from "./perf_event_data.mjs";

let library;

/** Makes the library ready. Each call returns the same one. */
export function load() {
    library ??= libraryOf(MODULE, true);
    return library;
}
