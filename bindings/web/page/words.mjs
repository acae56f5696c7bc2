// How the page writes numbers, times and sizes.

/** A whole number with commas between its thousands. */
export function countText(value) {
    return value.toString().replace(/\B(?=(\d{3})+(?!\d))/g, ",");
}

export function sizeText(bytes) {
    const units = ["bytes", "kB", "MB", "GB"];
    let value = Number(bytes), unit = 0;
    while (value >= 1000 && unit < 3) {
        value /= 1000;
        unit += 1;
    }
    return `${unit ? value.toFixed(1) : countText(value)} ${units[unit]}`;
}

/** A length of time in nanoseconds, in a unit in which it has one to three digits before the point. */
export function spanText(length) {
    const units = [["s", 1e9], ["ms", 1e6], ["µs", 1e3], ["ns", 1]];
    const [unit, worth] = units.find(([, worth]) => Math.abs(length) >= worth) ?? units[3];
    const value = length / worth;
    const digits = unit === "ns" ? 0 : Math.abs(value) >= 100 ? 1 : Math.abs(value) >= 10 ? 2 : 3;
    return `${digits ? value.toFixed(digits) : Math.round(value)} ${unit}`;
}

/** A time of the recording as perf prints it, in seconds; `start` is the recording's first time, a BigInt. */
export function clockText(start, time) {
    const whole = BigInt(start) + BigInt(Math.round(time));
    const digits = whole.toString().padStart(10, "0");
    return `${digits.slice(0, -9)}.${digits.slice(-9)}`;
}

export function shareText(part, whole) {
    return whole > 0 ? `${(100 * part / whole).toFixed(part / whole >= 0.0995 ? 1 : 2)}%` : "0%";
}

/** A number as text or a BigInt, as 0x and its digits. */
export function hexText(value) {
    const text = String(value);
    return text.startsWith("0x") ? text : `0x${BigInt(value).toString(16)}`;
}

export function plural(count, word) {
    return `${countText(count)} ${word}${Number(count) === 1 ? "" : "s"}`;
}

/** Lines of sixteen bytes, as a dump: the place, the bytes, and those that are printable. */
export function dumpText(bytes, at) {
    const width = Math.max(4, (at + bytes.length).toString(16).length);
    const lines = [];
    for (let line = 0; line < bytes.length; line += 16) {
        const part = [...bytes.subarray(line, line + 16)];
        const hex = part.map((byte) => byte.toString(16).padStart(2, "0"));
        const halves = `${hex.slice(0, 8).join(" ")}  ${hex.slice(8).join(" ")}`.padEnd(49);
        const text = part.map((byte) => byte >= 32 && byte < 127 ? String.fromCharCode(byte) : ".").join("");
        lines.push(`${(at + line).toString(16).padStart(width, "0")}  ${halves} ${text}`);
    }
    return lines.join("\n");
}
