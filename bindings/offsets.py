#!/usr/bin/env python3
"""Prints a C program that prints where each member of each struct of bindings/c/perf_event_data.h is, and its size:

    offsets.py >offsets.c

So the structs of two machines can be compared. The members are taken from the text of the header.
"""
import re
import sys
from pathlib import Path

HEADER = Path(__file__).resolve().parent / "c/perf_event_data.h"
# A struct or union in another one, members whose type is one of the header's, and members of a plain type.
MEMBER = re.compile(r"\s*(?:struct \{(?P<inner>[^}]*)\} (?P<of>\w+)|(?P<kind>struct|union) (?P<type>\w+) (?P<those>[^;]+)|\w+ (?P<names>[^;]+));")


def declared():
    """The text between the braces of each struct and union, by its kind and name."""
    text = re.sub(r"/\*.*?\*/", "", HEADER.read_text(), flags=re.S)
    found = re.findall(r"^(struct|union) (\w+) \{\n(.*?)^\};", text, re.S | re.M)
    return {(kind, name): body for kind, name, body in found}


def names(text):
    return [name.strip().partition("[")[0] for name in text.split(",")]


def members(body, types):
    """The path of each member of a struct with this text, and of the members inside it."""
    found, at = [], 0
    while body[at:].strip():
        member = MEMBER.match(body, at)
        if member is None:
            sys.exit(f"no member: {body[at:]!r}")
        at = member.end()
        if member["inner"] is not None:
            own, inside = [member["of"]], member["inner"]
        elif member["kind"]:
            own, inside = names(member["those"]), types[member["kind"], member["type"]]
        else:
            own, inside = names(member["names"]), ""
        is_list = "[" in member[0] and not member["inner"]
        below = [] if is_list else members(inside, types)
        for name in own:
            found += [name, *(f"{name}.{path}" for path in below)]
    return found


def main():
    types = declared()
    print("#include <stdio.h>\n#include \"perf_event_data.h\"\n\nint main(void)\n{")
    for (kind, name), body in types.items():
        whole = f"{kind} {name}"
        print(f'    printf("%zu bytes: {whole}\\n", sizeof({whole}));')
        for path in members(body, types):
            print(f'    printf("%zu %zu {whole} {path}\\n", offsetof({whole}, {path}), sizeof((({whole} *)0)->{path}));')
    print("    return 0;\n}")


main()
