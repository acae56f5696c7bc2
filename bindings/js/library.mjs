// The library, over a module of WebAssembly.

import { BIG, bytesOf, isFile, LITTLE, viewOf } from "./config.mjs";
import { KINDS } from "./fields.mjs";
import { Recording } from "./file.mjs";
import { Machine } from "./machine.mjs";
import { NO_STREAM, Stream } from "./stream.mjs";

/** The library. */
class Library {
    #machine;

    constructor(machine) {
        this.#machine = machine;
    }

    /** Opens a file that `perf record` wrote. Throws a RefusedFile if it is refused. */
    open(bytes) {
        return new Recording(this.#machine, bytes);
    }

    /** The frames of bytes under the configuration of the event that wrote them. */
    stream(bytes, config, options) {
        return new Stream(this.#machine, bytes, config, options);
    }

    /** The configuration of the event attribute at the front of bytes, and its length. Throws a RangeError with the
     * kind of the refusal if it is refused; of a file of `perf record` it says so. */
    readAttribute(data, order = LITTLE) {
        const machine = this.#machine;
        const bytes = bytesOf(data);
        const size = bytes.length < 8 ? 0 : viewOf(bytes).getUint32(4, order !== BIG);
        const front = bytes.subarray(0, Math.max(size, 4096));
        machine.putPiece(front);
        const kind = machine.calls.ped_read_attr(BigInt(machine.piece), BigInt(front.length), order,
            BigInt(machine.config), BigInt(machine.result));
        if (kind !== 0) {
            throw new RangeError(isFile(bytes) ? NO_STREAM : KINDS[kind]);
        }
        return { config: machine.takeConfig(), length: Number(machine.takeResult()) };
    }

    /** What perf calls an event of the kernel's own, or else its type and its config. */
    eventName(type, event) {
        return this.#machine.nameBy(type, BigInt(event));
    }

    /** The kernel's number of the event that wrote the frame at the front of bytes, or undefined. */
    identifier(data, sampleIdAll, order = LITTLE) {
        const machine = this.#machine;
        const front = bytesOf(data).subarray(0, machine.pieceBytes);
        machine.putPiece(front);
        const found = machine.calls.ped_identifier(BigInt(machine.piece), BigInt(front.length), order,
            sampleIdAll ? 1 : 0, BigInt(machine.result));
        return found === 0 ? undefined : machine.takeResult();
    }
}

/** Makes the library of a module in base64, whose memory may be wider than 32 bits. */
export async function libraryOf(text, isWide = false) {
    if (new Uint8Array(new Uint16Array([1]).buffer)[0] !== 1) {
        throw new Error("perf-event-data is not for machines with the highest byte first");
    }
    const module = Uint8Array.from(atob(text), (letter) => letter.charCodeAt(0));
    const { instance } = await WebAssembly.instantiate(module, {});
    return new Library(new Machine(instance, isWide));
}
