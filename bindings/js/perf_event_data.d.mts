/** The release of the library. */
export const VERSION: string;
/** PED_VERSION of the C header. */
export const STRUCT_VERSION: number;
/** The lowest byte first. */
export const LITTLE: 0;
/** The highest byte first. */
export const BIG: 1;
/** The names of the record types, by their numbers. */
export const TYPES: readonly string[];
/** The kinds of a refusal, by their numbers, from 1 on. */
export const KINDS: readonly (string | undefined)[];
/** The kinds of a file's refusal, by their numbers, from 1 on. */
export const FILE_KINDS: readonly (FileRefusal | undefined)[];
/** Whose a frame of a file is, by `owner`: an event's, perf's own, of an id that no event has, or too short for one. */
export const OWNERS: readonly ["event", "perf", "unknown", "short"];
/** PERF_SAMPLE_* by name, and the bit of `present` for lbr_hw_index. */
export const FLAGS: Readonly<Record<string, bigint>>;

/** Bytes, which are not copied. They must not change while they are read, nor while views of them are used. */
export type Bytes = ArrayBuffer | SharedArrayBuffer | ArrayBufferView;
export type Order = 0 | 1;
/** A number of a record, a byte string as a view of the input, or the numbers of a list. */
export type Field = bigint | Uint8Array | BigUint64Array;
export type Refusal = "Eof" | "InvalidRecord" | "UnsupportedConfig" | "UnsupportedData";
export type FileRefusal = "NotPerfData" | "OldFormat" | "BadHead" | "Directory" | "Compressed"
    | "CutAttributes" | "CutFrames" | "CutIds" | "BadEntry" | "NoEvent" | "BadAttribute" | "NewAttribute" | "BadIds"
    | "Overlap" | "NoIdPlace" | "SharedId" | "OtherCount" | "CutFeature" | "Short";
/** Numbers of all frames, or byte strings or lists. */
export type Column = BigUint64Array | Float64Array | Uint32Array | Uint16Array
    | (Uint8Array | BigUint64Array | undefined)[];
/** What a column of that name is. */
export type ColumnOf<Name extends string> = Name extends "time" | "id" | "stream_id" | "present" ? BigUint64Array
    : Name extends "type" | "read" | "pid" | "tid" | "cpu" | "read_format" | "event" | "owner" ? Uint32Array
    : Name extends "misc" | "size" | "refusal" | "reason" ? Uint16Array
    : Name extends "at" ? Float64Array : Column;

export interface ConfigFields {
    version?: number;
    order?: Order;
    sample_type?: bigint | number;
    read_format?: bigint | number;
    flags?: bigint | number;
    branch_sample_type?: bigint | number;
    sample_regs_user?: bigint | number;
    sample_regs_intr?: bigint | number;
}

/** How records are to be read: fields of their event's attribute, `struct perf_event_attr`, and the order. A field that is
 * left out is 0. Throws a RangeError for a number that does not fit. */
export class Config {
    constructor(fields?: ConfigFields);
    version: number;
    order: number;
    sample_type: bigint;
    read_format: bigint;
    flags: bigint;
    branch_sample_type: bigint;
    sample_regs_user: bigint;
    sample_regs_intr: bigint;
}

/** A frame: its numbers, and the record in it or why there is none. What it does not have is undefined. */
export class Frame {
    protected constructor();
    /** Of its header: PERF_RECORD_*, PERF_RECORD_MISC_*, and its size in bytes. */
    readonly type: number;
    readonly misc: number;
    readonly size: number;
    /** The number of the type that was read; 0 for one that the kernel does not have. */
    readonly read: number;
    /** Why there is no record: the kind and the reason, by their numbers; 0 if there is one. */
    readonly refusal: number;
    readonly reason: number;
    /** PERF_SAMPLE_* of the fields that a sample has, or the sample id of another record. */
    readonly present: bigint;
    /** PERF_FORMAT_* of a sample or a read with counters. */
    readonly read_format: number;
    /** Of the sample, or of the sample id. */
    readonly pid: number | undefined;
    readonly tid: number | undefined;
    readonly time: bigint | undefined;
    readonly id: bigint | undefined;
    readonly stream_id: bigint | undefined;
    readonly cpu: number | undefined;
    /** Where it begins in the input; `start` is the same. */
    readonly at: number;
    readonly start: number;
    /** Its bytes in the input, with the header; as many as are left if it is cut short. */
    readonly bytes: Uint8Array;
    /** The name of the record's type, as "comm"; "refused" if there is no record. */
    readonly name: string;
    /** Why there is no record; "" if there is one. */
    readonly message: string;
    /** The record's fields that are present, by the names of the C header. */
    readonly fields: Record<string, Field>;
    /** How many numbers an item of a list has, as 3 of "lbr"; undefined if that is no list of this record. */
    itemLength(name: string): number | undefined;
}

export interface StreamOptions {
    /** The first byte that is read, 0 if it is left out. */
    start?: number;
    /** How many frames are read at most. */
    limit?: number;
}

/** Frames, which each loop, column and number below reads anew, a batch at a time. A frame that is held keeps its
 * batch, at most 1024 frames of 320 bytes. */
export class Frames<Item extends Frame> implements Iterable<Item> {
    protected constructor();
    readonly bytes: Uint8Array;
    readonly order: number;
    [Symbol.iterator](): Generator<Item, void, undefined>;
    /** How many frames there are. */
    readonly count: number;
    /** How many bytes were taken, from the first of all on; of a stream with a limit, reading can go on there. */
    readonly taken: number;
    /** How reading ended: "cut header" if one to seven bytes are left; "limit" for a stream alone. */
    readonly end: "done" | "cut header" | "limit";
    /** One field of all frames: of "time", "pid" and the like a typed array, as of numbers of a record, "sample.ip",
     * with 0 where it is absent; of "comm.comm" an array of byte strings, and of "sample.callchain" one of lists,
     * undefined where it is absent. "at" is where each frame begins; of a file "event" is the number of its event, and
     * "owner" that of one of `OWNERS`. Throws a RangeError if there is no such field. */
    column<Name extends string>(name: Name): ColumnOf<Name>;
    /** Several columns, for which the frames are read once. */
    columns<Names extends string[]>(names: [...Names]): { [Index in keyof Names]: ColumnOf<Names[Index] & string> };
    /** Of each frame 1 if it has the field of that column, else 0. */
    present(name: string): Uint8Array;
}

/** The frames of a stream, one after another. */
export class Stream extends Frames<Frame> {
    private constructor();
    readonly config: Config;
    readonly start: number;
    readonly limit: number;
}

/** A frame of a file of `perf record`. */
export class FileFrame extends Frame {
    private constructor();
    /** Whose it is: the number of one of `OWNERS`. */
    readonly owner: number;
    /** The event that wrote it; undefined if perf wrote it for itself, or the event is not known. */
    readonly event: FileEvent | undefined;
    /** The id by which it names an event that the file does not have; undefined for other frames. */
    readonly unknownId: bigint | undefined;
}

/** Frames of a file, each read under its own event. Those in order of time or of one event keep 32 bytes for each. */
export class FileFrames extends Frames<FileFrame> {
    private constructor();
}

/** An event of a file. */
export class FileEvent {
    private constructor();
    /** Its place among the events. */
    readonly number: number;
    /** Its name in ASCII: the one that was passed to `perf record`, or what perf calls an event of the kernel's own, or
     * else its type and its config. */
    readonly name: string;
    /** How its frames are read. */
    readonly config: Config;
    /** PERF_TYPE_*, and what of that type it counts: `config` of its attribute. */
    readonly type: number;
    readonly event: bigint;
    /** The ids by which frames name it. */
    readonly ids: BigUint64Array;
    /** Its frames, in order of time. Those of tasks and mappings are of the first event of the file. */
    readonly frames: FileFrames;
}

/** A file of `perf record`, or what it writes to a pipe, all of whose bytes are in memory. */
export class Recording {
    private constructor();
    readonly bytes: Uint8Array;
    /** `LITTLE` or `BIG`: that of its numbers. */
    readonly order: number;
    /** Whether perf ended regularly; otherwise the frames extend to the end of the file. */
    readonly isClosed: boolean;
    readonly events: readonly FileEvent[];
    /** How reading the frames ended: "cut header" if one to seven bytes are left. */
    readonly end: "done" | "cut header";
    /** All frames, in order of "time", also if no order is given, or in that of the "file". Frames without a time come
     * first, and frames of the same time are in the order of the file. Throws a RangeError for another order. */
    frames(order?: "time" | "file"): FileFrames;
    /** The bytes of a feature, by the number that perf gives it (`HEADER_*` of its util/header.h); undefined if the file
     * does not have it. Throws a RefusedFile if it ends beyond the file, or, below, if its numbers state more bytes. */
    feature(number: number): Uint8Array | undefined;
    /** The machine on which was recorded, the release of its kernel, and the words of the command. */
    readonly hostname: string | undefined;
    readonly osRelease: string | undefined;
    readonly commandLine: readonly string[] | undefined;
}

/** Why a file or a feature is refused, and what to do: `kind`, one of `FILE_KINDS`, or "Short". */
export class RefusedFile extends RangeError {
    constructor(kind: FileRefusal, message: string);
    readonly kind: FileRefusal;
}

export interface Library {
    /** Opens a file that `perf record` wrote. The bytes are not copied. Throws a RefusedFile if it is refused. */
    open(bytes: Bytes): Recording;
    /** The frames of bytes under the configuration of the event that wrote them; without one, records have no sample id and
     * samples have no fields. Throws a RangeError for a start outside the bytes, a configuration that is not read, or a file of
     * `perf record`. */
    stream(bytes: Bytes, config?: Config | ConfigFields, options?: StreamOptions): Stream;
    /** The configuration of the event attribute at the front of bytes, and its length in bytes. Throws a RangeError, whose
     * message is a `Refusal`, if it is refused; of a file of `perf record` it says so. */
    readAttribute(bytes: Bytes, order?: Order): { config: Config; length: number };
    /** What perf calls an event of the kernel's own by its type and its config, as "cycles", or else these numbers. */
    eventName(type: number, event: bigint | number): string;
    /** The kernel's number of the event that wrote the frame at the front of bytes; undefined if it has none. All events must
     * have PERF_SAMPLE_IDENTIFIER, and `sampleIdAll` is whether they have that too. */
    identifier(bytes: Bytes, sampleIdAll: boolean, order?: Order): bigint | undefined;
}

/** Makes the library ready. Each call returns the same one. */
export function load(): Promise<Library>;
