// The bytes of a place in the file.

import { element, openDialog } from "./elements.mjs";
import { dumpText, plural } from "./words.mjs";

const MOST = 65536;

export async function showBytes(shell, { at, size, message }) {
    try {
        const bytes = await shell.call("bytes", { at, size: Math.min(MOST, size) });
        const part = size > bytes.length ? `the first ${bytes.length} of ` : "";
        const why = message ? [element("p", { class: "message" }, message)] : [];
        const dump = element("pre", { class: "dump" }, dumpText(bytes, at));
        openDialog(`Bytes from ${at} (0x${at.toString(16)}), ${part}${plural(size, "byte")}`, ...why, dump);
    } catch (error) {
        shell.complain(error);
    }
}
