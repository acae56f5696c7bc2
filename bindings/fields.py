#!/usr/bin/env python3
"""Makes what the faces state about the fields of records, of the table bindings/fields.txt, whose head explains it, and
what JavaScript has of the C header, the refusals of files:

    bindings/fields.py [--check]

In each file of `FILES` it replaces the lines between one that names the table and one with "up to here". With --check it
writes nothing, and names the files in which something else stands; the status is 1 then.
"""
import itertools
import re
import sys
import textwrap
from collections import namedtuple
from pathlib import Path

HERE = Path(__file__).resolve().parent
TABLE = r"(?:(?:bindings/)?fields\.txt|perf_event_data\.h)"
MADE = re.compile(rf"^([^\n]*made of {TABLE} by[^\n]*\n)(.*?)(^[^\n]*up to here[^\n]*\n)", re.M | re.S)
WIDTHS = {"u16": "H", "u32": "I", "u64": "Q", "address": "Q", "bytes8": "Q"}
LISTS = {"numbers": 1, "pairs": 2, "branches": 3, "counters": 0}  # numbers of an item; 0: by the read format
OWN = "pid tid time id stream_id cpu".split()
C_FORMS = {"enabled": "PERF_FORMAT_TOTAL_TIME_ENABLED", "running": "PERF_FORMAT_TOTAL_TIME_RUNNING", "id": "PERF_FORMAT_ID",
           "group": "PERF_FORMAT_GROUP", "lost": "PERF_FORMAT_LOST", "single": "SINGLE", "build_id": "BUILD_ID", "inode": "INODE"}
NO_BREAKS = {"break_long_words": False, "break_on_hyphens": False}
RUST_TEXTS = {"address": " as HexAddr", "name": " as ByteStr", "build_id": " as HexStr"}
RUST_BY_HAND = "unknown", "read", "switch", "switch_cpu_wide"

# The place is n, s or f, and how many come before; flags and forms are lists of names.
Field = namedtuple("Field", "name place at item flags forms is_summed note")
# Each type is its number, its name, and that name as C and Python write it.
Record = namedtuple("Record", "member types fields")


def read_field(line):
    words, _, note = line.partition(";")
    name, place, item, *more = words.split()
    flags, _, forms = "".join(it for it in more if it != "+").partition("&")
    flags, forms = ("", flags) if flags.islower() else (flags, forms)
    at = OWN.index(name) if place == "f" else int(place[1:])
    return Field(name, place[0], at, item, flags and flags.split("|"), forms and forms.split("&"), "+" in more, note.strip())


def read_table():
    """The records, and each type with its record, by the numbers."""
    records = []
    for line in (HERE / "fields.txt").read_text().splitlines():
        if line.startswith("  "):
            records[-1].fields.append(read_field(line))
        elif not line.startswith("#"):
            member, *types = line.split()
            types = [it.split("=") for it in types]
            types = [(int(number), name, name.lower() if len(types) > 1 else member) for number, name in types]
            records.append(Record(member, types, []))
    types = sorted((*type_, record) for record in records for type_ in record.types)
    assert [it[0] for it in types] == list(range(len(types))), "a number of a type is absent, or there twice"
    return records, types


def is_always(field):
    return not field.flags and not field.forms


def placed(record, place):
    """The numbers or the spans of a record, in their order: each place is taken once, from 0 on."""
    found = sorted((it for it in record.fields if it.place == place), key=lambda it: it.at)
    assert [it.at for it in found] == list(range(len(found))), record.member
    return found


def widths(record):
    """The numbers before its lists and byte strings, as letters of the module `struct`."""
    plain = itertools.takewhile(lambda it: it.item in WIDTHS and is_always(it), record.fields)
    return "".join(WIDTHS[it.item] for it in plain)


def names_of_line(record):
    return [it.name for it in record.fields if it.item not in ("count", "one", "more")]


def filled(words, width, indent, more="    "):
    """Lines of words, which may have spaces."""
    text = " ".join(it.replace(" ", "\0") for it in words)
    rows = textwrap.wrap(text, width, initial_indent=indent, subsequent_indent=indent + more, **NO_BREAKS)
    return "".join(row.replace("\0", " ") + "\n" for row in rows)


def comment(note):
    return f"/* {note} */" if note else ""


def union(records, place, kind):
    """The members of a union of the header. A note ends the line of its field."""
    made = ""
    for record in records:
        names = "".join(it.name + (f"; {it.note}\n" if it.note else ", ") for it in placed(record, place))
        parts = [it.removesuffix(", ").partition("; ") for it in names.splitlines()]
        types = " and ".join(name.upper() for _, name, _ in record.types) if len(record.types) > 1 else ""
        if len(parts) == 1:
            names, _, note = parts[0]
            made += filled([*f"struct {{ {kind} {names}; }} {record.member};".split(), comment(note or types)], 104, "    ")
        elif parts:
            rows = [filled([*f"{kind} {names};".split(), comment(note)], 104, "        ") for names, _, note in parts]
            made += f"    struct {{\n{''.join(rows)}    }} {record.member};\n"
    return made


def c_field(field):
    kind = {"n": "NUMBER", "f": "OWN"}.get(field.place) or (field.item.upper() if field.item in LISTS else "BYTES")
    if field.item in ("one", "more") or field.forms or len(field.flags) > 1 or "LBR_HW_INDEX" in field.flags:
        before = {"one": " values=", "more": ":"}.get(field.item, f" {field.name}=")
        flags = " | ".join(f"PERF_SAMPLE_{it}" for it in field.flags).replace("PERF_SAMPLE_LBR", "PED_HAS_LBR")
        return f'{{"{before}", {kind}, {field.at}, {flags or 0}, {" | ".join(C_FORMS[it] for it in field.forms) or 0}}},'
    return f"{'IF' if field.flags else 'FIELD'}({', '.join([field.name, kind, str(field.at), *field.flags])}),"


def c_records(types):
    made = ""
    for _, name, _, record in types:
        fields = [c_field(it) for it in record.fields if it.item != "count"]
        made += filled([f'{{"{name}", {{', *fields, "END}},"], 112, "    ")
    return made.replace("{ ", "{")


def rust_type(record):
    has_lists = any(it.place == "s" and it.item != "bytes8" for it in record.fields)
    return record.types[0][1] + ("<'a>" if has_lists else "")


def rust_types(types):
    return "".join(f"            {name}({rust_type(record)}) visit_{other} PERF_RECORD_{other.upper()} = {number};\n"
                   for number, name, other, record in types if record.member not in ("unknown", "switch"))


def rust_records(records):
    """What is read of counters is `values`, and an ABI is a part of registers."""
    own = [it for record in records for it in record.fields if it.place == "f"]
    made = ""
    for record in [*records, Record("", [(0, "SampleId", "")], own)]:
        fields = [it for it in record.fields if it.item not in ("count", "abi") and (it.flags != ["READ"] or it.place == "s")]
        always = set(map(is_always, fields))
        kind = "some" if len(always) > 1 else "fields" if True in always else "calls"
        texts = [f"{it.name}: {it.at if is_always(it) else '()'}{RUST_TEXTS.get(it.item, '')}," for it in fields]
        if record.member not in RUST_BY_HAND:
            made += filled([f"$call! {{ {kind} {rust_type(record)} {{", *texts, "} }"], 100, "        ")
    return made


def rows_of(record):
    """Rows of what the faces of Python and JavaScript state of a record: its fields, and what each needs."""
    parts = []
    for it in placed(record, "n") + [None] + placed(record, "s"):
        star = f"*{LISTS[it.item]}" if it and it.item in LISTS else ""
        parts.append("/".join([it.name + star, "|".join(it.flags), "&".join(it.forms)]).rstrip("/") if it else ";")
    return textwrap.wrap(" ".join(parts), 108, **NO_BREAKS)


def python_records(types):
    words = []
    for _, _, name, record in types:
        text = '"\n" '.join(rows_of(record))
        words += f'"{name}": "{text}",'.split("\n")
    return filled(words, 120, "    ", "")


def javascript_records(types):
    rows = [(name, '"\n        + " '.join(rows_of(record))) for _, _, name, record in types]
    return "".join(f'    {name}: "{text}",\n' for name, text in rows)


def javascript_refusals():
    """The refusals of files by their numbers: of each its kind, and the text that ped_file_message has for it."""
    header = (HERE / "c/perf_event_data.h").read_text()
    texts = {name: "".join(re.findall('"([^"]*)"', text))
             for name, text in re.findall(r'case PED_FILE_(\w+):\s*return ((?:\s*"[^"]*")+);', header)}
    names = re.findall(r"PED_FILE_(\w+) = [1-9]", header)
    pairs = [(name.title().replace("_", ""), texts.get(name)) for name in names]
    return "".join(f'    ["{kind}", "{text}"],\n' if text else "    undefined,\n" for kind, text in pairs)


FILES = {
    "c/perf_event_data.h": lambda records, _: [union(records, "n", "uint64_t"), union(records, "s", "struct ped_span")],
    "c/text.c": lambda _, types: [c_records(types)],
    "js/fields.mjs": lambda _, types: [javascript_records(types), javascript_refusals()],
    "rust/src/fields.rs": lambda records, types: [rust_types(types), rust_records(records)],
    "python/perf_event_data.py": lambda _, types: [python_records(types)]}


def main(words):
    if words not in ([], ["--check"]):
        print(__doc__, file=sys.stderr)
        return 2
    status = 0
    for name, make in FILES.items():
        text, blocks = (HERE / name).read_text(), make(*read_table())
        made = MADE.sub(lambda it: it[1] + blocks.pop(0) + it[3], text)
        assert not blocks, f"bindings/{name} lacks a place"
        if made != text and words:
            print(f"bindings/{name} is not as bindings/fields.py makes it")
            status = 1
        elif made != text:
            (HERE / name).write_text(made)
    return status


if __name__ == "__main__":
    sys.exit(main(sys.argv[1:]))
