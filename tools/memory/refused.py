#!/usr/bin/env python3
"""Runs the tests of the crate `perf_out_of_memory` with no allocation refused, and with the first of each test refused, the
second, the third, the fourth and the sixteenth.

All are tried by one `rt try` that refuses the sixteenth of each process: each test stands there six times, and makes 16
- N requests before, if its request N is to be refused. A test of a table stands there for each of its rows. Records of
a slice are the same, and a sample with only raw bytes makes one allocation. With a buffered reader, which makes the
first allocation, a run over nothing makes none, and one that lists a sample allocates capacity for the frame, then for
the sample, and then for its call chain. If capacity for one answer is refused, it is requested again. The fourth
request of a report is for the line of its second frame, or for the list in it: the first line is printed. The sixteenth
comes after the calls of each row of `requests` and each test of `reports`: how many are granted before it tells how
many requests the calls made.
"""

import re
import sys
import tempfile
from pathlib import Path

sys.dont_write_bytecode = True
sys.path.insert(0, str(Path(__file__).resolve().parent.parent / "quick"))
from joined import Room  # noqa: E402

CRATE = "perf_out_of_memory"
LAST = 16
# What is printed if a request is refused.
LINES = {
    1: ["0 9 0 16 refused OutOfMemory, then [true, true]", "a text: Faulted, 22 bytes"],
    2: [
        "0 9 0 16 Sample raw=aabb, then [false, true]",
        "nothing: 0 listed, done, then [false, true]",
        "half a header: 0 listed, cut, then [true, true]",
        "no frame: 0 listed, limit, then [false, true]",
    ],
    3: [
        "a call chain: 1 listed, out of memory",
        "a short chain: 1 listed, done, then [true, true]",
        "a chain alone: 1 listed, done, then [true, true]",
    ],
    4: [
        "a call chain: 1 listed, out of memory",
        "a short chain: 1 listed, done",
        "a chain alone: 0 listed, out of memory",
        "a report of tasks: result Some(1)",
        "a report of samples: result Some(1)",
    ],
}
# How many requests the calls of each test make, at most. A list of records has capacity for all frames that are shown at
# once; a reader makes a request of its own. A sample with a list needs one for it, and as a record one for its box; in the
# place of another, only for a list that is longer than those before it. A parser's list that does not fit has capacity
# for as many items as there are bytes.
MOST = {
    "single numbers": 0,
    "records without a list": 0,
    "visits without a list": 0,
    "samples without a list, into a place": 0,
    "lying lists, into a place": 0,
    "visits of lying lists": 0,
    "frames that are handed out": 0,
    "flat frames": 0,
    "frames of a reader": 1,
    "a list of records": 1,
    "a list of records of pieces": 1,
    "a lying list of a parser": 1,
    "counts of samples": 1,
    "samples with a list, into a place": 1,
    "a list of records of a reader": 2,
    "visits with a list": 2,
    "samples with growing lists, into a place": 2,
    "samples with each list, into a place": 6,
    "records with a box and a list": 4,
    "a report of samples": 5,
    "a report of tasks": 6,
}
TEST = re.compile(r"^#\[test\]\nfn (\w+)\(rt: HostRuntime\) \{\n(.*?^\}\n)", re.MULTILINE | re.DOTALL)
# The table of a test, whose rows are tried alone, and how many it has.
ROWS = re.compile(r"^    \w+\(&rt, &([A-Z]+)\);\n\}\n$")
TABLE = re.compile(r"^const ([A-Z]+): \[Row<'static>; (\d+)\] =", re.MULTILINE)
SPEND = """//! Requests for memory before those of a test.

/// Makes this many requests, and gives back what is granted.
pub fn spend(rt: &impl AllocGlobal, count: usize) {
    for _ in 0..count {
        let _ = Vec::from_slice(rt.alloc(), &[0u8]);
    }
}
"""
CALL = """#[test]
fn {name}_{request}(rt: HostRuntime) {{
    crate::spend::spend(&rt, {spent});
{body}
"""


def rows_of(name, body, tables):
    """A test of a table, once for each row; any other test, once."""
    table = ROWS.match(body)
    if not table:
        return [(name, body)]
    return [(f"{name}_{row}", body.replace(table[1], f"{table[1]}[{row}..{row + 1}]")) for row in range(tables[table[1]])]


def copies(tests):
    """Tests, once for each request of them that is refused."""
    requests = (0, *LINES, LAST)
    return "".join(CALL.format(name=name, request=it, spent=LAST - it, body=body) for name, body in tests for it in requests)


def copy_tests(source):
    """Makes of each test of the crate one for each request that is refused, and returns how many tests there are."""
    count = 0
    for file in source.rglob("*.rt"):
        text = file.read_text(encoding="utf-8")
        tables = {name: int(rows) for name, rows in TABLE.findall(text)}
        tests = [rows_of(*found, tables) for found in TEST.findall(text)]
        if len(tests) != text.count("#[test]"):
            raise ValueError(f"{file.name} has a test in another form")
        made = iter(tests)
        file.write_text(TEST.sub(lambda _: copies(next(made)), text), encoding="utf-8")
        count += sum(map(len, tests))
    (source / "spend.rt").write_text(SPEND, encoding="utf-8")
    with open(source / "lib.rt", "a", encoding="utf-8") as it:
        it.write("#[cfg(test)]\nmod spend;\n")
    return count


def told(output):
    """The lines of the tests of each request."""
    found, request = {}, None
    for line in output.split("\n"):
        test = re.match(r"test [\w:]+_(\d+) ", line)
        request = int(test[1]) if test else request
        found.setdefault(request, []).append(line.strip())
    return found


def faults(lines):
    """What is not as it has to be, in a line each; and what is, printed."""
    for request, wanted in LINES.items():
        for text in wanted:
            if any(text in it for it in lines.get(request, [])):
                print(f"request {request} refused: {text}")
            else:
                yield f"request {request} refused, but not: {text}"
    for name, most in MOST.items():
        found = [re.fullmatch(rf"{name}: result Some\(0\), (\d+) granted", it) for it in lines.get(LAST, [])]
        made = [LAST - 1 - int(it[1]) for it in found if it]
        if len(made) == 1 and made[0] <= most:
            print(f"{name}: {made[0]} requests, at most {most}")
        else:
            yield f"{name}: more than {most} requests, or none told"


def main():
    with tempfile.TemporaryDirectory(prefix="refused-") as folder:
        room = Room(Path(__file__).resolve().parent.parent.parent, folder)
        count = copy_tests(room.source(CRATE))
        status, output, why = room.run(CRATE, "--test", "--fail-alloc", str(LAST))
    output = output.decode(errors="replace")
    found = list(faults(told(output)))
    if status or found:
        print("\n".join([output, why, *found]))
        return 1
    print(f"{count} tests with none refused, and with each of {len(LINES) + 1} requests")
    return 0


if __name__ == "__main__":
    sys.exit(main())
