#!/usr/bin/env python3
"""Draws docs/layers.svg, the crates of crates.txt and what each returns, and docs/frame.svg, a frame's way from bytes
to a record, a flat frame and a line of text.

Usage, at the top of the repository: tools/pages/diagrams.py          writes both
                                     tools/pages/diagrams.py --check  fails if one is not as it would be drawn
"""

import sys
from html import escape
from pathlib import Path

# What each crate returns. Examples, measurements and tests are in OTHERS.
RETURNS = {
    "perf_words": "sets of flags, named numbers",
    "perf_base": "byte orders, errors, configurations",
    "perf_buffers": "the next bytes, in place or together",
    "perf_reader": "numbers, strings, header, attribute",
    "perf_counters": "reads of counters",
    "perf_types": "records but samples",
    "perf_sample_types": "samples and sample ids",
    "perf_records": "a frame's record, visit, numbers",
    "perf_parser": "runs, frames handed out, own types",
    "perf_flat": "a frame as one struct, no memory",
    "perf_sections": "the sections of a perf.data file",
    "perf_file": "the frames of a perf.data file",
    "perf_outlines": "the same without memory",
    "perf_history": "names of threads, and what is mapped",
    "perf_walk": "frames in turn, what is known then",
    "perf_event_data": "the public names",
    "perf_event_c": "the calls for C, one archive",
    "perf_text": "text that is written backward",
    "perf_flame": "folded stacks, flame graphs",
    "perf_fold": "folded stacks of a file, of texts",
    "perf_columns": "the columns of lines",
    "perf_script": "the text of samples",
    "perf_lines": "the lines of frames",
    "perf_run": "the text of a run",
    "perf_reports": "lines of tasks, counts",
    "perf_data_text": "the text of a perf.data file",
    "perf_summary": "a file's summary, as JSON too",
    "perf_data_cli": "its commands, their words",
    "perf_data": "that text",
    "perfrec": "a line for each frame",
    "perf_tasks": "lines about tasks",
    "perf_samples": "lines of samples",
    "perf_count": "three numbers",
}
FACES = ("perf_event_data", "perf_event_c", "perf_file", "perf_history", "perf_flame")
OTHERS = {
    "Examples and measurements": ["perf_uses", "perf_bench", "perf_file_bench"],
    "Tests": ["perf_program_tests", "perf_unit_tests", "perf_call_tests", "perf_frame_tests", "perf_out_of_memory", "perf_replay"],
    "Tests of files": ["perf_file_tests", "perf_script_tests"],
    "Tests without a parser": ["perf_value_tests"],
    "What tests share": ["perf_test_inputs", "perf_test_helpers", "perf_test_texts", "perf_test_runs"],
}

STYLE = """<style>
text { font-family: sans-serif; fill: #1b1f24 }
.name { font-weight: bold; font-size: 14px } .what { font-size: 12px } .code { font-family: monospace; font-size: 13px }
.box { fill: #eef3fa; stroke: #4a6785 } .first { fill: #e3f1e3; stroke: #4c7a4c } .second { fill: #fbefdc; stroke: #a57a35 }
line, path { stroke: #6b7785; fill: none }
</style>"""


def picture(width, height, parts):
    head = f'<svg xmlns="http://www.w3.org/2000/svg" viewBox="0 0 {width} {height}" width="{width}" height="{height}">'
    ground = f'<rect width="{width}" height="{height}" fill="#ffffff"/>'
    return "\n".join([head, STYLE, ground, *parts, "</svg>", ""])


def text(x, y, words, kind="what", anchor="middle"):
    return f'<text x="{x}" y="{y}" class="{kind}" text-anchor="{anchor}" xml:space="preserve">{escape(words)}</text>'


def box(x, y, width, height, kind="box"):
    return f'<rect x="{x}" y="{y}" width="{width}" height="{height}" rx="5" class="{kind}"/>'


def line(x, y, to_x, to_y):
    return f'<line x1="{x}" y1="{y}" x2="{to_x}" y2="{to_y}"/>'


def arrow(x, y, to_y):
    return f"{line(x, y, x, to_y)}\n" + f'<path d="M {x - 5} {to_y - 7} L {x} {to_y} L {x + 5} {to_y - 7}"/>'


# ---- the layers


def uses_of_crates():
    """The crates that each crate uses, but for those that another of these uses."""
    lines = [it.split(":") for it in Path("crates.txt").read_text().splitlines() if it and it[0] != "#"]
    every = {name.split()[0]: used.split() for name, used in lines}
    unknown = set(every) - set(RETURNS).union(*OTHERS.values())
    if unknown:
        sys.exit(f"the tables of {sys.argv[0]} do not have {', '.join(unknown)}")
    uses = {name: [it for it in every[name] if it in RETURNS] for name in RETURNS if name in every}

    def below(name):
        return {it for used in uses[name] for it in [used, *below(used)]}

    return {name: [it for it in used if not any(it in below(other) for other in used)] for name, used in uses.items()}


def levels_of(uses):
    """The level of each crate: above all that it uses; of programs the highest, and of one that uses none below those of its users
    that use others too."""
    levels = {}
    for _ in uses:
        for name, used in uses.items():
            levels[name] = 1 + max((levels.get(it, 0) for it in used), default=-1)
    for name, used in uses.items():
        users = [it for it in uses if name in uses[it]]
        if not used:
            levels[name] = min((levels[it] for it in users if len(uses[it]) > 1), default=1) - 1
        elif not any(uses[it] for it in used):
            levels[name] = 1 + max(levels[it] for it in used)
        elif not users and name not in FACES:
            levels[name] = max(levels.values())
    return levels


def layers():
    uses = uses_of_crates()
    levels = levels_of(uses)
    width, step, high = 960, 66, 42
    top = max(levels.values())
    places, parts = {}, []
    for level in range(top + 1):
        row = [name for name in uses if levels[name] == level]
        for at, name in enumerate(row):
            half = min(117, width // (2 * len(row)) - 3)
            places[name] = (width * (2 * at + 1) // (2 * len(row)), 30 + (top - level) * step, half)
    for name, used in uses.items():
        parts += [line(places[name][0], places[name][1] + high, places[it][0], places[it][1]) for it in used]
    for name, (x, y, half) in places.items():
        kind = "first" if levels[name] == top else "second" if name in FACES else "box"
        parts += [box(x - half, y, 2 * half, high, kind), text(x, y + 17, name, "name"), text(x, y + 34, RETURNS[name])]
    height = 30 + (top + 1) * step + 24 + 20 * len(OTHERS)
    told = ["Each crate uses those below it that a line leads to. Green: programs. Yellow: what a program of yours names."]
    told += [f"{what}: {', '.join(names)}" for what, names in OTHERS.items()]
    parts += [text(width // 2, height - 20 * (len(told) - at), row) for at, row in enumerate(told)]
    return picture(width, height, parts)


# ---- a frame

# The parts of a COMM in little endian: its bytes, and what they are.
FRAME = [("03 00 00 00", "type 3"), ("00 00", "misc 0"), ("18 00", "size 24"), ("05 00 00 00", "pid 5"),
         ("05 00 00 00", "tid 5"), ("73 68 00 00 00 00 00 00", "name sh, and zeros")]
RECORD = ["Record::Comm(Comm {", "  pid: 5,", "  tid: 5,", "  comm: b\"sh\",", "})"]
FLAT = ["read: 3, refusal: 0", "numbers: 5, 5", "spans: at 16, len 2"]
TEXT = ["0 3 0 24 Comm pid=5 tid=5 comm=7368"]


def output(x, y, wide, title, by, rows):
    high = 52 + 18 * len(rows)
    parts = [box(x, y, wide, high, "first"), text(x + wide // 2, y + 19, title, "name"), text(x + wide // 2, y + 36, by)]
    return parts + [text(x + 12, y + 58 + 18 * at, row, "code", "start") for at, row in enumerate(rows)]


def frame():
    parts, x, y = [text(480, 24, "bytes: a frame of 24, from a slice in place, from a reader where it shows them whole, or put together")], 30, 40
    edges = []
    for octets, what in FRAME:
        wide = 37 * len(octets.split())
        parts += [box(x, y, wide, 46, "second"), text(x + wide // 2, y + 19, octets, "code"), text(x + wide // 2, y + 37, what)]
        edges.append((x, x + wide))
        x += wide + 2
    (left, _), (_, middle), (right, end) = edges[0], edges[2], (edges[3][0], edges[5][1])
    head, body = (left + middle) // 2, (right + end) // 2
    parts += [arrow(head, 86, 128), arrow(body, 86, 128)]
    parts += [box(left, 128, middle - left, 44), text(head, 147, "header", "name"), text(head, 163, "perf_reader: type, misc and size")]
    parts += [box(right, 128, end - right, 44), text(body, 147, "body", "name")]
    parts += [text(body, 163, "perf_records: what is left of the frame without its sample id, by the table of its type")]
    parts += [arrow(right + 150, 172, 224), arrow(right + 470, 172, 224)]
    parts += output(right, 224, 300, "record", "perf_types, perf_sample_types; Frame::record", RECORD)
    parts += output(right + 350, 224, 240, "flat frame", "perf_flat; C, C++, Rust and Python", FLAT)
    parts += [arrow(right + 150, 366, 400)]
    parts += output(right - 60, 400, 420, "line of text", "perf_lines; perfrec", TEXT)
    parts += [text(150, 254, "A refusal, such as Eof or InvalidRecord,"), text(150, 272, "takes the place of each of the three,"),
              text(150, 290, "and the next frame begins", "what"), text(150, 308, "where this one's size ends.", "what")]
    return picture(960, 490, parts)


def main(words):
    wrong = 0
    for name, drawn in (("docs/layers.svg", layers()), ("docs/frame.svg", frame())):
        if words != ["--check"]:
            Path(name).write_text(drawn)
        elif Path(name).read_text() != drawn:
            wrong += 1
            print(f"{name} is not as tools/pages/diagrams.py draws it")
    return 1 if wrong else 0


sys.exit(main(sys.argv[1:]))
