// Tables of symbols: what `nm -C` prints of a file, /proc/kallsyms, and maps of just-in-time compilers, perf-PID.map.
// With sizes, by `nm -CS`, code that has no symbol has no name. With what `readelf -lW` prints in the same text, the
// places of code whose addresses are not its offsets are known.

import { Growing } from "../../js/growing.mjs";
import { nameOf } from "./text.mjs";

/** Types of symbols of code; U, which is not there, has no address. */
const CODE = /^[tTwWi]$/;
/** As far from its begin as code without a size or a next symbol goes. */
const LONGEST = 0x10000;
const SUFFIXES = /\.(?:nm|sym|syms|symbols|txt)$/i;

/** Code with names: from each address to the next one, or as long as its size is. */
export class SymbolTable {
    constructor(symbols) {
        symbols.sort((one, other) => one.upper - other.upper || one.lower - other.lower || other.size - one.size);
        this.upper = Uint32Array.from(symbols, (it) => it.upper);
        this.lower = Uint32Array.from(symbols, (it) => it.lower);
        this.size = Float64Array.from(symbols, (it) => it.size);
        this.names = symbols.map((it) => it.name);
        // How far file offsets are below addresses.
        this.bias = 0;
    }

    get count() { return this.names.length; }

    /** The address of a symbol, exact below 2^53. */
    addressOf(place) { return this.upper[place] * 0x100000000 + this.lower[place]; }

    /** The name of an address, or undefined. */
    find(upper, lower) {
        const biased = lower + this.bias;
        const [high, low] = [upper + Math.floor(biased / 0x100000000), biased % 0x100000000];
        let [first, end] = [0, this.count];
        while (first < end) {
            const middle = first + end >>> 1;
            if (this.upper[middle] < high || this.upper[middle] === high && this.lower[middle] <= low) {
                first = middle + 1;
            } else {
                end = middle;
            }
        }
        const found = this.#firstOf(first - 1);
        const distance = found < 0 ? Infinity : (high - this.upper[found]) * 0x100000000 + low - this.lower[found];
        const isLast = first === this.count;
        const length = this.size[found] > 0 ? this.size[found] : isLast ? LONGEST : Infinity;
        return distance < length ? this.names[found] : undefined;
    }

    /** The first of the symbols at one address. */
    #firstOf(place) {
        let found = place;
        while (found > 0 && this.upper[found - 1] === this.upper[found]
            && this.lower[found - 1] === this.lower[found]) {
            found -= 1;
        }
        return found;
    }
}

const HEX = "(?:0x)?([0-9a-fA-F]{1,16})";
/** `ADDRESS TYPE NAME` or `ADDRESS SIZE TYPE NAME`, and of a map `START SIZE NAME`. */
const LINE = new RegExp(`^${HEX}\\s+(?:${HEX}\\s+)?(\\S)\\s+(\\S.*)$`);
const MAP_LINE = new RegExp(`^${HEX}\\s+${HEX}()\\s+(\\S.*)$`);
const MAP_FILE = /^perf-\d+\.map$/;
/** A part of a file that is executable, its offset and its address, as readelf prints it. */
const EXECUTABLE = /^ *LOAD +0x([0-9a-f]{1,13}) +0x([0-9a-f]{1,16}) .* R ?E +0x/m;
/** After a name: its module in kallsyms, or its version. */
const MODULE = /\t\[[^\]\t]*\]$/;
const VERSION = /@@?[\w.]+$/;

/** The symbol of a line, or undefined if it has none of code. */
function symbolOf(line, isMap) {
    const found = (isMap ? MAP_LINE : LINE).exec(line);
    if (found === null || !isMap && !CODE.test(found[3])) {
        return undefined;
    }
    const digits = found[1].padStart(16, "0");
    return {
        upper: Number.parseInt(digits.slice(0, 8), 16), lower: Number.parseInt(digits.slice(8), 16),
        size: Number.parseInt(found[2] ?? "0", 16),
        name: nameOf(found[4].replace(MODULE, "").replace(VERSION, "").trim()),
    };
}

export class Symbols {
    constructor() {
        this.files = new Map();
        this.kernel = undefined;
    }

    /** Adds the symbols of a text: how many of code it has, and the name of the file that they are of, undefined for
     * the kernel. `biasOf` gives how far a file's offsets are below its addresses. */
    add(text, file = "", biasOf) {
        const name = file.replace(SUFFIXES, "");
        const isMap = MAP_FILE.test(name);
        const symbols = text.split("\n").map((line) => symbolOf(line, isMap)).filter((it) => it !== undefined);
        const table = new SymbolTable(symbols);
        const { count } = table;
        if (count > 0 && table.addressOf(count - 1) === 0) {
            throw new RangeError("all addresses are 0: copy /proc/kallsyms as root");
        }
        if (count > 0 && table.upper[count >>> 1] >= 0x80000000) {
            this.kernel = table;
            return { count };
        }
        if (count > 0) {
            const part = EXECUTABLE.exec(text);
            table.bias = part === null ? biasOf(name, table)
                : Number.parseInt(part[2], 16) - Number.parseInt(part[1], 16);
            this.files.set(name, table);
        }
        return { count, name };
    }
}

/** What is shown of places: their names by symbols, or else their files and offsets. */
export class ShownPlaces {
    #numbers = new Growing(Int32Array);
    #names = new Map();
    #texts = [];

    constructor(places, symbols) {
        Object.assign(this, { places, symbols });
    }

    /** A number that places of one name share; negative if it is of a symbol. */
    of(place) {
        for (let next = this.#numbers.length; next <= place; next++) {
            const name = this.places.symbolOf(next, this.symbols);
            this.#numbers.push(name === undefined ? next : this.#numberOf(name));
        }
        return this.#numbers.array[place] >>> 0;
    }

    #numberOf(name) {
        let number = this.#names.get(name);
        if (number === undefined) {
            number = -this.#texts.push(name);
            this.#names.set(name, number);
        }
        return number;
    }

    textOf(shown) {
        const number = shown | 0;
        return number < 0 ? this.#texts[-number - 1] : this.places.textOf(number);
    }
}
