"""Reads the edits of a crate: wrong bodies, and by which names the prover knows the functions that they change."""

import re
from functools import cache

FUNCTION = re.compile(r"\bfn\s+(\w+)")
TRAIT = re.compile(r"(?:pub(?:\(\w+\))? )?trait (\w+)")
DECLARED = re.compile(r"^(?:pub(?:\(\w+\))? )?trait (\w+)", re.MULTILINE)
TYPE = re.compile(r"^(?:pub(?:\(\w+\))? )?(?:struct|enum|union) (\w+)", re.MULTILINE)


class Body:
    """The pairs of an edit that change one function, and the lines of that function."""

    def __init__(self, edit, path, at, is_whole, line):
        self.edit, self.path, self.at, self.is_whole = edit, path, at, is_whole
        self.line = self.first = self.last = line
        self.pairs, self.names, self.owner, self.others, self.text = [], [], "", [], ""
        # the functions of its file, the traits of its crate, and the module of its type
        self.known, self.traits, self.home = set(), set(), None
        self.told, self.why, self.tries, self.took, self.number, self.is_declared = "", "", 0, 0, 0, False
        self.is_copied, self.is_in_macro = True, False
        # where it is known to be refused, if it need not be tried
        self.before = ""

    def place(self, lines, starts):
        """Finds the function around the edited line, and the type whose impl contains it, where functions start at these lines."""
        self.text = lines[self.line - 1]
        ends = [it for it in lines[: self.line] if it.startswith(("macro_rules!", "}"))]
        self.is_in_macro = bool(ends) and ends[-1].startswith("macro_rules!")
        before = [at for at in starts if at <= self.line and begins(lines[at - 1])]
        after = min([at for at in starts if at > self.line], default=len(lines) + 1)
        own, end = max(before, default=0), item_start(lines, after) - 1
        if own and self.line <= (closed := closing(lines, own)):
            self.first, self.last = item_start(lines, own), min(closed, end)
            self.names = FUNCTION.findall(lines[own - 1])
        self.names += FUNCTION.findall(self.text) or ["?"]
        for at, text in enumerate(lines[: self.first]):
            trait = TRAIT.match(text)
            if text.startswith("impl"):
                header = header_of(lines, at)
                self.owner, self.others = owner_of(header), other_owners(header)
            elif trait or text.startswith("}"):
                self.owner, self.others = trait[1] if trait else "", []
            self.is_declared = bool(trait) or self.is_declared and not text.startswith("}")

    def functions(self):
        """The names, below the crate, by which the prover knows the function that is to be refused: that of a method
        which is no trait's begins with the module of its type."""
        if self.at:
            return self.at
        _, _, new = self.pairs[0]
        named = [it for it in [*FUNCTION.findall(new), *self.names] if it in self.known] or self.names
        module = self.home if self.home is not None and not self.others else module_of(self.path)
        is_taken = self.others and self.owner in self.traits
        return ["::".join(filter(None, [module, self.others[0] if is_taken else self.owner, named[0]]))]

    def proves(self, folder):
        """Whether a folder of proofs is that of its function: a method's is below its type."""
        *around, name = folder.split("/")
        if self.owner:
            owner = (around[-1].partition("+")[0] if around else "").lower()
            return name in self.names and owner in (self.owner.lower(), *(it.lower() for it in self.others))
        return name in self.names and "::".join(around) == module_of(self.path)

    def is_apart(self):
        """Whether it is in no function, as a flag's number is, or in several, but in no macro that makes the functions
        which the edit names: it is refused there."""
        return self.is_whole or self.names == ["?"] and not (self.is_in_macro and self.at)


def module_of(path):
    return "" if path in ("src/lib.rt", "src/main.rt") else path[len("src/") : -len(".rt")].replace("/", "::")


def starts_of(lines):
    """The lines at which functions start."""
    return [at for at, text in enumerate(lines, 1) if "fn" in text and is_function(text)]


def is_function(text):
    return bool(FUNCTION.search(text)) and not text.lstrip().startswith("//")


def begins(text):
    """Whether a line begins with a function or an impl, and does not end another one first."""
    return text.lstrip().startswith("impl") or "}" not in FUNCTION.split(text)[0]


def header_of(lines, at):
    """The header of an impl, which may be written in several lines."""
    end = next((it for it in range(at, len(lines)) if "{" in lines[it]), at)
    return " ".join(it.strip() for it in lines[at : end + 1])


def closing(lines, at):
    """The line of the brace that ends the function which begins on a line."""
    first = lines[at - 1]
    indent = first[: len(first) - len(first.lstrip())]
    after = [it for it in range(at, len(lines)) if lines[it].startswith(indent + "}")]
    return after[0] + 1 if after else len(lines)


def item_start(lines, at):
    """Where the attributes and documentation of a function begin: the prover's notes are there."""
    while at > 1 and lines[at - 2].lstrip().startswith(("#[", "//")):
        at -= 1
    return at


def capital(name):
    return name[:1].upper() + name[1:]


def parts_of(header):
    """The trait of an impl, whether it has one, and what the impl is for."""
    return re.sub(r"^impl(<.*?>)? (?=[\w&\[])", "", header).rpartition(" for ")


def owner_of(header):
    """The name of the folder of an impl's proofs: its type, and after that its trait and what the
    trait is of."""
    trait, is_trait, of = parts_of(header)
    of = re.sub(r"'\w+|\s", "", of)
    name = re.match(r"&?\[?(\w+)", of)
    name = name[1] if name else ""
    if of.startswith("&"):
        name = f"RefSlice{capital(name)}" if of.startswith("&[") else "Ref"
    else:
        name = "Any" if len(name) == 1 else f"Array{capital(name)}" if of.startswith("[") else name
    return capital(name) + trait_of(trait) if is_trait else name


def trait_of(trait):
    """A trait's part of such a name. A parameter, which is one letter, adds nothing."""
    name, _, of = re.sub(r"'\w+,?\s*", "", trait).replace("()", "Unit").partition("<")
    of = next((it for it in re.findall(r"&?[\w:]+", of) if len(it) > 1), "")
    of = "".join(map(capital, of.replace("&", "Ref::").split("::")))
    return capital(name.split("::")[-1]) + of


def other_owners(header):
    """Other names of that folder, if a trait of the crate has that name itself."""
    trait, is_trait, of = parts_of(header)
    return [re.match(r"\w*", of)[0] + "Any" + trait_of(trait)] if is_trait else []


def read_edit(edit):
    """The changes of an edit, each with its file, and where it is to be refused, if that is stated: of one change, or
    before the first file of all, which then are one body."""
    changes, path, old, at, whole = [], "", "", [], []
    for line in edit.read_text(encoding="utf-8").split("\n"):
        word, _, rest = line.partition(": ")
        if word == "file":
            path, whole, at = rest.strip(), whole or at, []
        elif word == "at":
            at = rest.split()
        elif word == "old":
            old = rest
        elif line.startswith("new:"):
            changes.append((path, old, line[len("new:") :].removeprefix(" "), at))
            at = []
    return changes, whole


def continues(old, new):
    """Whether a pair belongs to the one before: it ends a comment, or adds a function to call."""
    adds = new.lstrip().startswith("fn ") and not FUNCTION.search(old)
    return adds or new.lstrip().startswith("*/")


def bodies_of(edit, folder):
    """The bodies of an edit, over the files of a crate's folder."""
    changes, whole = read_edit(edit)
    texts, found = {}, []
    for path, old, new, at in changes:
        text = texts.get(path) or (folder / path).read_text(encoding="utf-8")
        if text.count(old) != 1:
            raise ValueError(f"an old text of {edit.name} is in {path} {text.count(old)} times, and not once: {old}")
        if not (found and (whole or found[-1].path == path and continues(old, new))):
            found.append(Body(edit.stem, path, whole or at, bool(whole), text[: text.index(old)].count("\n") + 1))
        found[-1].pairs.append((path, old, new))
        texts[path] = text.replace(old, new)
    files, types, traits = texts_of(folder), types_of(folder), traits_of(folder)
    lines = {path: text.split("\n") for path, text in texts.items()}
    starts = {path: starts_of(it) for path, it in lines.items()}
    for body in found:
        body.place(lines[body.path], starts[body.path])
        body.known, body.traits, body.home = set(FUNCTION.findall(files[body.path])), traits, types.get(body.owner)
    return found if whole else joined(found)


def functions_of(folder):
    """The names of the functions that stand in the source of a crate, but for those that traits declare, as the prover
    knows them."""
    types, traits = types_of(folder), traits_of(folder)
    return {name for path, text in texts_of(folder).items() for name, _ in located(path, text, types, traits)}


def located(path, text, types, traits):
    """The functions of a file, but for those that traits declare: the prover's name of each, and its place."""
    lines = text.split("\n")
    starts = starts_of(lines)
    for line in starts:
        body = Body("", path, [], False, line)
        body.pairs = [(path, "", lines[line - 1])]
        body.place(lines, starts)
        body.known, body.traits, body.home = set(body.names), traits, types.get(body.owner)
        if not body.is_declared:
            yield body.functions()[0], body


@cache
def texts_of(folder):
    """The files of a crate's source, and their texts when they were first read."""
    return {f"src/{it.relative_to(folder / 'src')}": it.read_text(encoding="utf-8") for it in folder.glob("src/**/*.rt")}


@cache
def types_of(folder):
    """The module of each type that stands in the source of a crate."""
    return {name: module_of(path) for path, text in texts_of(folder).items() for name in TYPE.findall(text)}


@cache
def traits_of(folder):
    return {name for text in texts_of(folder).values() for name in DECLARED.findall(text)}


def joined(bodies):
    """The bodies, in which consecutive pairs in one function are one body."""
    kept = []
    for body in bodies:
        if kept and (kept[-1].path, kept[-1].first, kept[-1].last) == (body.path, body.first, body.last):
            kept[-1].pairs += body.pairs
        else:
            kept.append(body)
    return kept
