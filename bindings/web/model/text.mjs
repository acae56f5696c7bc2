// How bytes and numbers of a recording become text. No text of a recording is ever markup.

const decoder = new TextDecoder("utf-8", { ignoreBOM: true });

/** The text of bytes: what is no UTF-8 is replaced. */
export const textOf = (bytes) => decoder.decode(bytes);

/** A name as one frame of a line of folded stacks can have it: semicolons and what controls lines, directions and
 * terminals are `_`. */
export const nameOf = (text) => text.replace(/[;\u0000-\u001f\u007f-\u009f\u2028-\u202e\u2066-\u2069]/g, "_");

/** The last part of a path. */
export const lastPart = (path) => path.slice(path.lastIndexOf("/") + 1);

/** A number of 64 bits, by its upper and its lower half, in hexadecimal. */
export function hexOf(upper, lower) {
    return upper === 0 ? `0x${lower.toString(16)}` : `0x${upper.toString(16)}${lower.toString(16).padStart(8, "0")}`;
}

/** A number of nanoseconds in seconds, with all digits. */
export function secondsOf(nanoseconds) {
    const digits = String(nanoseconds).padStart(10, "0");
    return `${digits.slice(0, -9)}.${digits.slice(-9)}`;
}
