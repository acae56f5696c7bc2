// What types of records are called: the kernel's by the library's names, and perf's own.

const OWN = ["attr", "event_type", "tracing_data", "build_id", "finished_round", "id_index", "auxtrace_info", "auxtrace",
    "auxtrace_error", "thread_map", "cpu_map", "stat_config", "stat", "stat_round", "event_update", "time_conv",
    "feature", "compressed", "finished_init", "compressed2"];
const FIRST = 64;

/** The name of a type; `types` are the library's names. */
export function recordName(type, types) {
    return (type > 0 ? types[type] : undefined) ?? OWN[type - FIRST] ?? `type ${type}`;
}
