// What a recording is, at a glance.

/** As many of each list as a page can show. */
const MOST = 10000;

/** What the page shows first of a recording. */
export function overviewOf(recording, reading) {
    const { name, bytes, input, frames, tasks } = recording;
    const events = input.events.slice(0, MOST).map((event, index) => ({
        index, name: event.name, type: event.type, config: `0x${event.config.toString(16)}`, ...reading.sums[index],
    }));
    const records = [...reading.counts].map(([kind, count]) => ({ name: kind, count }))
        .sort((one, other) => other.count - one.count);
    return {
        name, size: bytes.length, kind: input.kind, order: input.order, isClosed: input.isClosed, start: reading.start,
        duration: reading.duration, events, header: input.header, records, samples: reading.samples.count,
        lost: reading.lost, frames: frames.count, refused: reading.refused,
        cpus: [...reading.cpus].sort((one, other) => one - other).slice(0, MOST),
        threads: tasks.column("isKnown").reduce((count, isKnown) => count + isKnown, 0), ...reading.has,
    };
}
