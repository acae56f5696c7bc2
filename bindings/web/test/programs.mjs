// Compares the numbers of the model with those of the proved program, `perf_data summary` and `perf_data fold`: of the
// examples, the streams among them as files, of histories, and of damaged copies. Its path is the second argument.

import { execFileSync, spawnSync } from "node:child_process";
import { join } from "node:path";
import { bytesIn, messageOf, Model, same, skip, TOP } from "./harness.mjs";
import { fileOf, numbersFrom } from "./made.mjs";
import { framesOf } from "./made_histories.mjs";

const PROGRAM = process.argv[3];
const FILES = ["events", "pipe", "machine", "group", "killed", "big-endian"];
const STREAMS = ["recording", "samples"];
/** Types below this have a line of their own. */
const TYPES = 128;

/** What the program prints of bytes, and its status. */
function printed(bytes, ...words) {
    const { stdout, stderr, status } = spawnSync(PROGRAM, [...words, "-"], { input: bytes, maxBuffer: 1 << 28 });
    return { text: stdout.toString(), error: stderr.toString(), status };
}

/** Bytes as the program escapes them in a line. */
const escaped = (text) => text.replace(/[\\\u0000-\u001f\u007f]/g,
    (sign) => sign === "\\" ? "\\\\" : `\\x${sign.charCodeAt(0).toString(16).padStart(2, "0")}`);

/** The lines of types: those that have no name by their numbers, and all from 128 on together. */
function typeLines(records) {
    const [known, others] = [[], { count: 0 }];
    for (const { name, count } of records) {
        const number = /^type (\d+)$/.exec(name)?.[1];
        if (name === "others" || Number(number) >= TYPES) {
            others.count += count;
        } else {
            known.push(number === undefined ? `${name.toUpperCase()} ${count}` : `${name} ${count}`);
        }
    }
    return [...known, ...others.count > 0 ? [`other ${others.count}`] : []].sort();
}

/** The lines of a summary, as the model has them. */
function modelLines({ header, frames, refused, events, records }) {
    const known = [["hostname", header.hostname], ["os release", header.osRelease], ["cmdline", header.commandLine]];
    return [
        ...known.filter(([, text]) => text !== undefined).map(([name, text]) => `# ${name} : ${escaped(text)}`),
        `file frames=${frames} refused=${refused.count}`,
        ...events.map((it) => `event ${it.index} samples=${it.samples} period=${it.period} first=${it.first ?? "-"} `
            + `last=${it.last ?? "-"} lost=${it.lost} refused=${it.refused} ${it.name}`),
        ...typeLines(records),
    ];
}

/** Those that the program prints, of types the name, or the number of one without, and how many. The lines of threads
 * are left out. */
function programLines(text) {
    const lines = text.trimEnd().split("\n");
    const types = lines.filter((line) => line.startsWith("type ")).map((line) => {
        const [, type, count, name] = /^type (\S+) frames=(\d+) ?(.*)$/.exec(line);
        return `${type === "other" ? type : name === "-" ? `type ${type}` : name} ${count}`;
    });
    return [...lines.filter((line) => !/^(type|thread) /.test(line)), ...types.sort()];
}

/** What folded lines count. */
const WEIGHTS = ["samples", "period"];

/** The texts of a model's folded lines, by each weight. */
const foldedTexts = (model) => Promise.all(
    WEIGHTS.map((weight) => model.call("export", { kind: "folded", filter: {}, weight })));

/** What the model and the program have of bytes: each a text. Features are left out of damaged copies, as the program
 * refuses one alone, which the page leaves out. */
async function bothOf(bytes, hasHeader = true) {
    const summary = printed(bytes, "summary");
    if (summary.status > 1) {
        const message = await messageOf(new Model().open(bytes));
        return [message, summary.error.trimEnd().replace("perf_data: -: ", "")];
    }
    const model = new Model();
    const overview = await model.open(bytes);
    const isCompared = (line) => hasHeader || !line.startsWith("# ");
    const found = modelLines(overview).filter(isCompared);
    const expected = programLines(summary.text).filter(isCompared);
    found.push(...await foldedTexts(model));
    expected.push(...WEIGHTS.map((weight) => printed(bytes, "fold", "--weight", weight).text));
    return [found.join("\n"), expected.join("\n")];
}

/** A stream as a file. */
function converted(name) {
    const stream = join(TOP, "examples", `${name}.stream`);
    return new Uint8Array(execFileSync("sh", [join(TOP, "examples/stream-to-perf-data.sh"), stream]));
}

async function compareExamples() {
    const files = [...FILES.map((name) => [`${name}.data`, bytesIn("examples", `${name}.data`)]),
        ...STREAMS.map((name) => [`${name}.stream as a file`, converted(name)])];
    for (const [name, bytes] of files) {
        const [found, expected] = await bothOf(bytes);
        same(`numbers of ${name} by perf_data`, found.split("\n"), expected.split("\n"));
    }
    for (const name of STREAMS) {
        const [stream, file] = await Promise.all([bytesIn("examples", `${name}.stream`), converted(name)].map(
            async (bytes) => {
                const model = new Model();
                return [...modelLines(await model.open(bytes)), ...await foldedTexts(model)];
            }));
        same(`numbers of ${name}.stream as of that file`, stream, file);
    }
}

async function compareMade() {
    let differ = 0;
    for (let seed = 1; seed <= 30; seed++) {
        const [found, expected] = await bothOf(fileOf(framesOf(seed)));
        differ += found === expected ? 0 : 1;
    }
    same("histories that have other numbers by perf_data", differ, 0);
}

async function compareDamaged() {
    const random = numbersFrom(1234);
    const wrong = [];
    let read = 0;
    for (let number = 0; number < 240; number++) {
        const name = FILES[number % FILES.length];
        const bytes = bytesIn("examples", `${name}.data`);
        const end = number % 4 ? bytes.length : 1200;
        for (let change = 0; change < 1 + random(12); change++) {
            bytes[random(end)] = [0, 1, 8, 16, 127, 128, 255][random(7)];
        }
        const [found, expected] = await bothOf(bytes, false);
        read += expected.startsWith("file ") ? 1 : 0;
        if (found !== expected) {
            wrong.push(`${name} ${number}`);
            const place = found.split("\n").findIndex((line, at) => line !== expected.split("\n")[at]);
            console.log(`    ${name} ${number}: ${found.split("\n")[place]}, not ${expected.split("\n")[place]}`);
        }
    }
    same(`240 damaged copies, of which ${read} are read, that have other numbers by perf_data`, wrong.join(), "");
}

export async function comparePrograms() {
    if (PROGRAM === undefined) {
        skip("numbers by perf_data: it is not given");
        return;
    }
    await compareExamples();
    await compareMade();
    await compareDamaged();
}
