"""Copies of functions, each with a wrong body, beside the functions themselves: so many bodies are tried in one check,
and none of them stands in another's way."""

import re
import shutil

from edits import FUNCTION, located


class Place:
    """Where a body is tried: in a copy of its function, under a name of its own, or in the function itself. It has that
    function's name, as the prover knows it, and its lines."""

    def __init__(self, body, lines=None):
        self.body, self.path, self.lines = body, body.path, lines
        self.first, self.last, self.functions = body.first, body.last, body.functions()
        if lines is not None:
            self.functions = [self.functions[0] + suffix(body)]

    def proves(self, folder):
        """Whether a folder of proofs is that of the function."""
        return self.body.proves(folder) if self.lines is None else folder.replace("/", "::") == self.functions[0]


def suffix(body):
    """What the name of a body's copy ends with."""
    return f"_wrong{body.number}"


def place_of(body, text):
    """Where a body is tried, in a file as it stands. A trait's method is tried in itself, and so is a function that the
    body writes again, or beside which it writes another."""
    names = body.functions()
    if not body.is_copied or body.others or body.is_declared or body.is_apart() or len(names) > 1:
        return Place(body)
    copy = "\n".join(text.split("\n")[body.first - 1 : body.last])
    for path, old, new in body.pairs:
        if path != body.path or copy.count(old) != 1 or FUNCTION.search(new) or "*/" in new:
            return Place(body)
        copy = copy.replace(old, new)
    name = names[0].split("::")[-1]
    copy, count = re.subn(rf"\bfn {name}\b", f"fn {name}{suffix(body)}", copy)
    is_whole = count == 1 and all(copy.count(it[0]) == copy.count(it[1]) for it in ("{}", "()", "[]"))
    return Place(body, copy.split("\n") if is_whole else None)


def insert(text, places):
    """A file with the copies that belong there, each after its function. It tells the places where their lines are now."""
    lines, added = text.split("\n"), 0
    for place in sorted(places, key=lambda it: it.last):
        at = place.last + added
        if place.lines is None:
            place.first, place.last = place.first + added, at
        else:
            lines[at:at] = ["", *place.lines]
            place.first, place.last = at + 2, at + 1 + len(place.lines)
            added += 1 + len(place.lines)
    return "\n".join(lines)


def hollow(path, text, names, types, traits):
    """A file in which the bodies of these functions never end, line by line as long as before. What counts as proved
    is used by its contract alone, and the borrow checker would go through its body all the same."""
    lines = text.split("\n")
    for name, body in located(path, text, types, traits):
        head = lines[body.line - 1]
        indent = head[: len(head) - len(head.lstrip())]
        within = range(body.line - 1, body.last)
        opens = [at for at in within if lines[at] == indent + "{"] or [at for at in within if lines[at].endswith(" {")]
        start = opens[0] if opens else body.last
        is_whole = start + 1 < body.last - 1 and lines[body.last - 1] == indent + "}"
        if name in names and is_whole and not body.is_in_macro and "const fn" not in head:
            lines[start + 1 : body.last - 1] = [f"{indent}    loop {{}}"] + [""] * (body.last - start - 3)
    return "\n".join(lines)


def is_hidden(place, places, text):
    """Whether a copy stands in the comment in which another body hides its old function: then it waits for the next check."""
    opens = any("/*" in new for it in places if it.lines is None and it.path == place.path for _, _, new in it.body.pairs)
    if place.lines is None or not opens:
        return False
    return f"fn {place.functions[0].split('::')[-1]}" not in re.sub(r"/\*.*?\*/", "", text, flags=re.DOTALL)


def copy_proof(place, proofs):
    """Gives a copy the files of its function's proof, with its own name in them."""
    whole = place.body.functions()[0]
    folder, name = proofs / whole.replace("::", "/"), whole.split("::")[-1]
    if not folder.is_dir():
        return
    copied = folder.with_name(name + suffix(place.body))
    shutil.copytree(folder, copied)
    cited = re.compile(rf"((?:proofs|contracts)\.{re.escape(whole.replace('::', '.'))})(?![\w'-])|\b({name})(?=_spec\b)")
    for file in copied.glob("*.antt"):
        text = file.read_text(encoding="utf-8")
        file.write_text(cited.sub(lambda it: it[0] + suffix(place.body), text), encoding="utf-8")
