// Opens the bytes of a recording by the library: a file of `perf record`, or a stream with its attribute in front.

import { isFile, viewOf } from "../../js/config.mjs";
import { isPipe, periodsOfPipe } from "../../js/features.mjs";
import { FRONT } from "../../js/file.mjs";
import { headerOf, ownPeriod } from "./header.mjs";

/** The place in the head of a file of the size of an attribute's entry, and of where the attributes are. */
const ENTRY_SIZE = 16;
const ATTRIBUTES = 24;

function number(bytes, at, isLittle) {
    return Number(viewOf(bytes).getBigUint64(at, isLittle));
}

/** The period of each event by its attribute's own. */
function periodsOf({ events }, bytes, isLittle) {
    const [size, first] = [number(bytes, ENTRY_SIZE, isLittle), number(bytes, ATTRIBUTES, isLittle)];
    return events.map((_, index) => ownPeriod(bytes, first + size * index, isLittle));
}

function openFile(library, ped, bytes) {
    const file = ped.open(bytes);
    const isLittle = file.order === library.LITTLE;
    const header = headerOf(file, isLittle);
    const periods = isPipe(bytes) ? periodsOfPipe(file[FRONT], isLittle) : periodsOf(file, bytes, isLittle);
    const events = file.events.map((event, index) => ({
        index, name: event.name, type: event.type, config: event.event, reading: event.config,
        ownPeriod: periods[index],
    }));
    return {
        bytes, events, header, kind: "file", order: isLittle ? "little" : "big", isClosed: file.isClosed,
        frames: file.frames("file"),
    };
}

/** The attribute at the front, in one order or the other. */
function attributeOf(library, ped, bytes, orders) {
    for (const order of orders) {
        try {
            return { ...ped.readAttribute(bytes, order), order };
        } catch (error) {
            if (order === orders.at(-1)) {
                throw error;
            }
        }
    }
    return undefined;
}

function openStream(library, ped, bytes, orders) {
    const { config, length, order } = attributeOf(library, ped, bytes, orders);
    const isLittle = order === library.LITTLE;
    const view = viewOf(bytes);
    const [type, event] = [view.getUint32(0, isLittle), view.getBigUint64(8, isLittle)];
    return {
        bytes, header: {}, kind: "stream", order: isLittle ? "little" : "big", isClosed: true,
        frames: ped.stream(bytes, config, { start: length }),
        events: [{
            index: 0, name: ped.eventName(type, event), type, config: event, reading: config,
            ownPeriod: ownPeriod(bytes, 0, isLittle),
        }],
    };
}

/** Opens bytes of a kind: "auto", "little attr" or "big attr". What is neither has the library's message. */
export function openInput(library, ped, bytes, kind = "auto") {
    if (kind === "little attr" || kind === "big attr") {
        return openStream(library, ped, bytes, [kind === "big attr" ? library.BIG : library.LITTLE]);
    }
    if (isFile(bytes)) {
        return openFile(library, ped, bytes);
    }
    try {
        return openStream(library, ped, bytes, [library.LITTLE, library.BIG]);
    } catch {
        return openFile(library, ped, bytes);
    }
}
