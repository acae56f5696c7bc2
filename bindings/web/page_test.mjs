// Tests of what the page does without a browser: node bindings/web/page_test.mjs

import assert from "node:assert";
import test from "node:test";
import { boxColour, coloursOf } from "./page/colours.mjs";
import { FlameLayout } from "./page/flame_layout.mjs";
import { stepOf, timeOf, xOf } from "./page/timeline_picture.mjs";
import { filterOf, initialState, readAddress, writeAddress } from "./page/view_state.mjs";
import { clockText, countText, dumpText, shareText, spanText } from "./page/words.mjs";

/** The relative luminance of #rrggbb, and the contrast of two colours, as WCAG 2 defines them. */
function luminance(colour) {
    const parts = [1, 3, 5].map((at) => Number.parseInt(colour.slice(at, at + 2), 16) / 255);
    const linear = parts.map((part) => part <= 0.03928 ? part / 12.92 : ((part + 0.055) / 1.055) ** 2.4);
    return 0.2126 * linear[0] + 0.7152 * linear[1] + 0.0722 * linear[2];
}

function contrast(one, other) {
    const [most, least] = [luminance(one), luminance(other)].sort((first, second) => second - first);
    return (most + 0.05) / (least + 0.05);
}

for (const dark of [false, true]) {
    test(`what is drawn has enough contrast, ${dark ? "dark" : "light"}`, () => {
        const colours = coloursOf(dark);
        const least = (ratio, one, other, what) =>
            assert.ok(contrast(one, other) >= ratio, `${what}: ${contrast(one, other)}`);
        for (let number = 0; number < 3000; number += 1) {
            for (const name of [`lib${number}.so+0x${number}`, `0x${number}_[k]`, `function${number}`, "[unknown]"]) {
                least(4.5, boxColour(name, colours), colours.box.text, name);
            }
        }
        const texts = [["text", "ground"], ["text", "chosen"], ["quiet", "ground"], ["quiet", "raised"],
            ["quiet", "chosen"], ["accent", "ground"], ["paleText", "pale"], ["foundText", "found"]];
        texts.forEach(([one, other]) => least(4.5, colours[one], colours[other], one));
        Object.entries(colours.marks).forEach(([name, colour]) => least(3, colour, colours.stripe, name));
        ["density", "running", "accent"].forEach((name) => least(3, colours[name], colours.stripe, name));
    });
}

test("an address has the state, and a wrong one is read as the initial state", () => {
    const state = { ...initialState(), tab: "flame", range: { from: 5, to: 900 }, event: 0, pid: 7, comm: "a&b=#;é",
        inverted: true, box: "sh;libc.so.6+0x12", weight: "period" };
    assert.deepStrictEqual(readAddress(writeAddress(state)), state);
    assert.strictEqual(writeAddress(initialState()), "#");
    const wrong = "#tab=x&range=9-3&view=1-x&event=-1&pid=99999999999999999999&inverted=yes&__proto__=1&constructor=2";
    assert.deepStrictEqual(readAddress(wrong), initialState());
    const expected = { event: 0, pid: 7, tid: undefined, cpu: undefined, comm: undefined };
    assert.deepStrictEqual(filterOf({ ...state, comm: "" }, false), expected);
});

/** all 10: a 6 (x 4), b 4 (x 3), and below x of a: y 2. */
function layout() {
    const nodes = { name: ["all", "a", "b", "x", "y"], of: Int32Array.of(0, 1, 2, 3, 3, 4),
        parent: Int32Array.of(-1, 0, 0, 1, 2, 3), depth: Uint16Array.of(0, 1, 1, 2, 2, 3),
        start: Float64Array.of(0, 0, 6, 0, 6, 0), worth: Float64Array.of(10, 6, 4, 4, 3, 2) };
    return new FlameLayout({ total: 10, nodes, samples: 10 });
}

test("boxes of a flame graph are found by their paths, their places and their neighbours", () => {
    const boxes = layout();
    assert.strictEqual(boxes.find("a;x;y"), 5);
    assert.strictEqual(boxes.find("b;x;y"), -1);
    assert.strictEqual(boxes.pathOf(5), "a;x;y");
    assert.deepStrictEqual([[2, 3.9], [2, 4.5], [2, 6], [9, 1]].map((place) => boxes.nodeAt(...place)), [3, -1, 4, -1]);
    assert.deepStrictEqual([boxes.largestChild(0), boxes.largestChild(5)], [1, -1]);
    assert.deepStrictEqual([boxes.sibling(1, 1), boxes.sibling(1, -1)], [2, -1]);
    assert.deepStrictEqual(Array.from(boxes.between(2, 0, 10)), [3, 4]);
});

test("a search counts each part once", () => {
    const boxes = layout();
    assert.deepStrictEqual([boxes.search("X").worth, boxes.search("x").count], [7, 2]);
    assert.strictEqual(boxes.search("a").worth, 6, "the root is not searched");
    assert.strictEqual(boxes.search("").worth, 10);
});

test("places on the timeline and times are each other's", () => {
    const view = { from: 1000, to: 5000 };
    assert.strictEqual(Math.round(timeOf(xOf(1234, view, 900), view, 900)), 1234);
    assert.deepStrictEqual([1, 3, 70, 100, 101, 4e8].map(stepOf), [1, 5, 100, 100, 200, 5e8]);
});

test("numbers, times and bytes are written for people", () => {
    assert.deepStrictEqual([countText(1234567), countText(12n), countText(0)], ["1,234,567", "12", "0"]);
    const spans = ["0 ns", "999 ns", "1.000 µs", "12.35 ms", "3.000 s"];
    assert.deepStrictEqual([0, 999, 1000, 12345678, 3e9].map(spanText), spans);
    assert.strictEqual(clockText(904355445346n, 5), "904.355445351");
    assert.strictEqual(clockText(5n, 0), "0.000000005");
    assert.deepStrictEqual([shareText(1, 3), shareText(1, 300), shareText(0, 0)], ["33.3%", "0.33%", "0%"]);
    assert.strictEqual(dumpText(Uint8Array.of(0x41, 0, 0xff), 16), `0010  ${"41 00 ff".padEnd(49)} A..`);
});
