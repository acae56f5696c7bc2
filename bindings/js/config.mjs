// How records are to be read, and the bytes in which they are.

/** PED_VERSION of the C header. */
export const STRUCT_VERSION = 1;
export const LITTLE = 0;
export const BIG = 1;

export const CONFIG_FIELDS = [
    "sample_type", "read_format", "flags", "branch_sample_type", "sample_regs_user", "sample_regs_intr",
];

// What a file of `perf record` begins with.
const MAGICS = ["PERFILE2", "2ELIFREP", "PERFFILE"];

/** Returns the bytes of a buffer or a view, which are not copied. */
export function bytesOf(data) {
    if (data instanceof Uint8Array) {
        return data;
    }
    if (ArrayBuffer.isView(data)) {
        return new Uint8Array(data.buffer, data.byteOffset, data.byteLength);
    }
    if (data instanceof ArrayBuffer || typeof SharedArrayBuffer === "function" && data instanceof SharedArrayBuffer) {
        return new Uint8Array(data);
    }
    throw new TypeError("the bytes must be an ArrayBuffer or a view of one");
}

/** Returns what reads numbers from bytes. */
export const viewOf = (bytes) => new DataView(bytes.buffer, bytes.byteOffset, bytes.length);

export function isFile(bytes) {
    return MAGICS.includes(String.fromCharCode(...bytes.subarray(0, 8)));
}

/** Whether the numbers of a file have the lowest byte first. */
export function isLittleFile(bytes) {
    return bytes[0] === MAGICS[0].charCodeAt(0);
}

/** Returns a number of 32 or 64 bits as a BigInt. */
function unsigned(name, value, bits) {
    const number = BigInt(value);
    if (BigInt.asUintN(bits, number) !== number) {
        throw new RangeError(`${name} is no number of ${bits} bits`);
    }
    return number;
}

/** How records are to be read: fields of their event's attribute, `struct perf_event_attr`, and the order. */
export class Config {
    constructor(fields = {}) {
        this.version = Number(unsigned("version", fields.version ?? STRUCT_VERSION, 32));
        this.order = Number(unsigned("order", fields.order ?? LITTLE, 32));
        for (const name of CONFIG_FIELDS) {
            this[name] = unsigned(name, fields[name] ?? 0, 64);
        }
    }
}
