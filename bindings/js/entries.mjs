// The entries of a file's frames, struct ped_entry: each is eight words of 32 bits.

export const ENTRY_WORDS = 8;
// The places of the first words of its number, and of its owner, enum ped_owner.
export const [NUMBER, OWNER] = [4, 6];
export const [EVENT, PERF, UNKNOWN, SHORT] = [0, 1, 2, 3];
/** Whose a frame is, by the numbers of its owner. */
export const OWNERS = Object.freeze(["event", "perf", "unknown", "short"]);
const AT = 2;

/** Where the frame of an entry begins. */
export function offsetAt(entries, index) {
    const place = ENTRY_WORDS * index + AT;
    return entries[place] + entries[place + 1] * 2 ** 32;
}

export function putOffset(entries, index, at) {
    const place = ENTRY_WORDS * index + AT;
    entries[place] = at;
    entries[place + 1] = at / 2 ** 32;
}
