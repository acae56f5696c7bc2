// Tests the model of a recording in Node, with the library in a folder that `make -C bindings js` made, and with the
// proved program if its path is given:
//
//     node bindings/web/model_test.mjs FOLDER [PERF_DATA]
//
// A line is what passed, failed or was skipped; the status is 0 if nothing failed. It needs python3.

if (process.argv[2] === undefined) {
    console.error("usage: model_test.mjs FOLDER [PERF_DATA]");
    process.exit(2);
}
const { results } = await import("./test/harness.mjs");
for (const name of ["compare", "histories", "hostile", "programs", "symbols"]) {
    for (const test of Object.values(await import(`./test/${name}.mjs`))) {
        await test();
    }
}
console.log(Object.entries(results).map(([result, number]) => `${number} ${result.toLowerCase()}`).join(", "));
process.exit(results.FAILED === 0 ? 0 : 1);
