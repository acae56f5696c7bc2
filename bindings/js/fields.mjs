// The names of what a frame has: those of the C header, in its order.

// The fields of each record: numbers, and after the semicolon spans. A span of a list ends in `*` and how many numbers
// an item has; those of `values` depend on the read format. After `/` are the flags of which the record has one, if it
// has the field, and the forms that it has all.
const TEXTS = {
    // made of bindings/fields.txt by bindings/fields.py
    unknown: "; data",
    mmap: "pid tid addr len pgoff ; filename",
    lost: "id lost ;",
    comm: "pid tid ; comm",
    exit: "pid ppid tid ptid time ;",
    throttle: "time id stream_id ;",
    unthrottle: "time id stream_id ;",
    fork: "pid ppid tid ptid time ;",
    read: "pid tid value time_enabled//enabled time_running//running id//id lost//lost ;",
    sample: "ip/IP addr/ADDR period/PERIOD weight/WEIGHT|WEIGHT_STRUCT data_src/DATA_SRC transaction/TRANSACTION"
        + " phys_addr/PHYS_ADDR cgroup/CGROUP data_page_size/DATA_PAGE_SIZE code_page_size/CODE_PAGE_SIZE"
        + " lbr_hw_index/LBR_HW_INDEX regs_user_abi/REGS_USER regs_intr_abi/REGS_INTR time_enabled/READ/enabled"
        + " time_running/READ/running count/READ value/READ/single value_id/READ/single&id value_lost/READ/single&lost ;"
        + " callchain*1/CALLCHAIN lbr*3/BRANCH_STACK values*0/READ/group regs_user*1/REGS_USER regs_intr*1/REGS_INTR"
        + " raw/RAW stack_user/STACK_USER aux/AUX",
    mmap2: "pid tid addr len pgoff prot flags maj//inode min//inode ino//inode ino_generation//inode ; filename"
        + " build_id//build_id",
    aux: "aux_offset aux_size flags ;",
    itrace_start: "pid tid ;",
    lost_samples: "lost ;",
    switch: ";",
    switch_cpu_wide: "pid tid out ;",
    namespaces: "pid tid count ; namespaces*2",
    ksymbol: "addr len ksym_type flags ; name",
    bpf_event: "ty flags id ; tag",
    cgroup: "id ; path",
    text_poke: "addr ; old_bytes new_bytes",
    aux_output_hw_id: "hw_id ;",
    // up to here
};

/** The names of the record types, by their numbers. */
export const TYPES = Object.freeze(Object.keys(TEXTS));

const SAMPLE_BITS = ("IP TID TIME ADDR READ CALLCHAIN ID CPU PERIOD STREAM_ID RAW BRANCH_STACK REGS_USER STACK_USER"
    + " WEIGHT DATA_SRC IDENTIFIER TRANSACTION REGS_INTR PHYS_ADDR AUX CGROUP DATA_PAGE_SIZE CODE_PAGE_SIZE"
    + " WEIGHT_STRUCT").split(" ");

/** PERF_SAMPLE_* by name, and the bit of `present` for lbr_hw_index. */
export const FLAGS = Object.freeze(Object.fromEntries([
    ...SAMPLE_BITS.map((name, bit) => [name, 1n << BigInt(bit)]), ["LBR_HW_INDEX", 1n << 32n]]));

// What the forms are: PERF_FORMAT_*, whether there is no group, and PERF_RECORD_MISC_MMAP_BUILD_ID or not.
const FORMS = {
    enabled: { formats: 1 }, running: { formats: 2 }, id: { formats: 4 }, group: { formats: 8 }, lost: { formats: 16 },
    single: { noFormats: 8 }, build_id: { misc: 0x4000 }, inode: { noMisc: 0x4000 },
};

const wordsOf = (text, mark) => text.split(mark).filter((word) => word !== "");

/** When a record has a field: one bit of `low` and `high`, the halves of `present`, if there are some; all of `formats`
 * and none of `noFormats` in its `read_format`; all of `misc` and none of `noMisc` in the `misc` of its header. */
function ruleOf(flags = "", forms = "") {
    const bits = wordsOf(flags, "|").reduce((all, name) => all | FLAGS[name], 0n);
    const rule = { low: Number(bits & 0xffffffffn), high: Number(bits >> 32n), formats: 0, noFormats: 0, misc: 0, noMisc: 0 };
    for (const form of wordsOf(forms, "&")) {
        for (const [kind, bit] of Object.entries(FORMS[form])) {
            rule[kind] |= bit;
        }
    }
    return rule;
}

function fieldOf(text, place) {
    const [item, flags, forms] = text.split("/");
    const [name, each] = item.split("*");
    return { name, place, isList: each !== undefined, each: Number(each ?? 0), rule: ruleOf(flags, forms) };
}

/** The fields of each type, by its number: `numbers` and `spans`, each with its name, its place among them, and the
 * rule that tells whether it is present. A list has `each`, how many numbers an item has; 0 for `values`. */
export const FIELDS = Object.freeze(TYPES.map((name) => {
    const [numbers, spans] = TEXTS[name].split(";").map((part) => wordsOf(part, " ").map(fieldOf));
    return { numbers, spans };
}));

/** Returns whether a record has a field with this rule: of its `present` the two halves, and the rest of its frame. */
export function isPresent(rule, low, high, format, misc) {
    return ((rule.low | rule.high) === 0 || (low & rule.low | high & rule.high) !== 0)
        && (format & rule.formats) === rule.formats && (format & rule.noFormats) === 0
        && (misc & rule.misc) === rule.misc && (misc & rule.noMisc) === 0;
}

/** The texts of a refusal's kind, and of its reason. */
export const KINDS = Object.freeze([undefined, "Eof", "InvalidRecord", "UnsupportedConfig", "UnsupportedData"]);
export const KIND_TEXTS = [
    "", "unexpected EOF during parsing", "invalid record", "unsupported config", "unsupported serialized data",
];
export const REASONS = [
    undefined, "header size was too small to be valid",
    "config has sample_id_all bit set but record does not have enough data to store the sample_id",
    "build_id had invalid length", "stack dyn_size was greater than the record size",
    "attempted to parse a SingleRead with a config that has GROUP set in read_format",
    "attempted to parse a GroupRead with a config that does not have GROUP set in read_format",
    "read_format contains unsupported flags",
    "number of elements in group read was too large for data type",
];

/** Why a file is refused, by the numbers of enum ped_file_refusal: the kind, and what to do. */
export const FILE_REFUSALS = Object.freeze([
    undefined,
    // made of perf_event_data.h by bindings/fields.py
    ["NotPerfData", "this is no perf.data file: pass a file that `perf record` has written"],
    ["OldFormat", "this file has the format that perf wrote before 2010: record again with a newer perf"],
    ["BadHead", "the head of the file is cut off, or has an unknown size: copy the file again, or record again"],
    undefined,
    ["Directory", "this is one of several files of `perf record --threads`: record again without that option"],
    ["Compressed", "the frames are compressed: run `perf inject -i perf.data -o plain.data`, or record without `-z`"],
    ["CutAttributes", "the attributes end beyond the file, so it is cut off: copy it again, or record again"],
    ["CutFrames", "the frames end beyond the file, so it is cut off: copy it again, or record again"],
    ["CutIds", "the ids of an event end beyond the file, so it is cut off: copy it again, or record again"],
    ["BadEntry", "the attributes are not whole entries, so the file is damaged: copy it again, or record again"],
    ["NoEvent", "the file has no event, so it is damaged: copy it again, or record again"],
    ["BadAttribute", "the attribute of an event is damaged: copy the file again, or record again"],
    ["NewAttribute", "an event has fields of a newer kernel than this library knows: use a newer version of it"],
    ["BadIds", "the ids of an event are not whole numbers, so the file is damaged: copy it again, or record again"],
    ["Overlap", "two parts of the file share bytes, so it is damaged: copy it again, or record again"],
    ["NoIdPlace", "the events have their ids at different places: record all of them with one `perf record`"],
    ["SharedId", "two events have one id, so the file is damaged: copy it again, or record again"],
    undefined,
    ["OtherCount", "an array does not have as many elements as it needs"],
    undefined,
    ["CutFeature", "the feature ends beyond the file, so it is cut off: copy it again, or record again"],
    // up to here
]);
export const FILE_KINDS = Object.freeze(FILE_REFUSALS.map((refusal) => refusal?.[0]));
