#!/usr/bin/env python3
"""Writes a manual page and a completion for bash of each program:

    bindings/manual.py FOLDER

They are FOLDER/NAME.1 and FOLDER/completions/NAME. All is taken from the program's sources, so it is what the program
does: the page from the head of main.rt, and what `--help` prints from USAGE; the completion from the first line of
USAGE. A program with `clap` has no USAGE: its words are those of each `Command`, `flag`, `option` and `choice` in the
files of NAME_cli, and its usage is what the head has of it as code. The benchmark is no such program, and those without
words have no page.
"""
import re
import sys
from pathlib import Path

HERE = Path(__file__).resolve().parent
NO_PROGRAMS = ["perf_bench", "perf_file_bench"]
VERSION = (HERE / "VERSION").read_text().strip()
OTHERS = ["perf-record (1)", "perf_event_open (2)"]
PAGE = """.TH {upper} 1 "" "perf_event_data {version}" "Records of Linux performance events"
.SH NAME
{name} \\- {purpose}
.SH SYNOPSIS
{synopsis}
.SH DESCRIPTION
{description}
{options}.SH EXIT STATUS
{status}
.SH SEE ALSO
{others}
"""
COMPLETION = """# Completes the words of {name} in bash.
_{name}()
{{
    local words=
    case $COMP_CWORD:${{COMP_WORDS[COMP_CWORD - 1]}} in
{cases}
    esac
    mapfile -t COMPREPLY < <(compgen -W "$words" -- "${{COMP_WORDS[COMP_CWORD]}}")
}}
complete -o default -F _{name} {name}
"""


class Program:
    """What its sources state about a program.

    `usage` are its forms, `places` the words at the first places after its name, `options` by their names the values of
    each, what stands for one, and its text, and `help` what `--help` prints, if that is in main.rt."""

    def __init__(self, path):
        text = path.read_text()
        self.name = path.parent.parent.name
        head = "\n".join(re.findall(r"^//! ?(.*)$", text, re.M))
        self.purpose, *self.paragraphs = [re.sub(r"\s+", " ", part) for part in head.strip().split("\n\n")]
        self.options, self.help = {}, []
        if "use clap::" in text:
            files = sorted((path.parents[2] / f"{self.name}_cli").rglob("*.rt"))
            self.read_clap("\n".join(it.read_text() for it in files), re.sub(r"\s+", " ", head))
        else:
            self.read_usage(text)

    def read_usage(self, text):
        lines = re.search(r'^const USAGE: &str = "([^"]*)";', text, re.M)[1].splitlines()
        self.usage = [lines[0].removeprefix("usage: ")]
        words = self.usage[0].partition(" <")[0].split()[1:]
        self.places = [[] if word.isupper() else word.strip("[]").split("|") for word in words]
        if "perf_text::usage::print_usage" in text:
            self.help = lines
            self.usage.append(f"{self.name} --help")
            self.places = [[*(self.places or [[]])[0], "--help"], *self.places[1:]]

    def read_clap(self, text, head):
        self.usage = [*re.findall(rf"`({self.name} [^`]*)`", head), f"{self.name} --help"]
        commands = [name for name in re.findall(r'Command::new\(alloc, "(\w+)"\)', text) if name != self.name]
        self.places = [[*commands, "--help"]]
        words = r'\((?:\s*option\()?\s*alloc,\s*"(.*?)",\s*(?:"([^"]*)",\s*)?"([^"]*)",?\s*\)(?:,\s*&\[(.*?)\])?'
        for long, value, about, choices in sorted(re.findall(r"\b(?:flag|option|choice)" + words, text)):
            values = re.findall(r'"(.*?)"', choices)
            self.options["--" + long] = values, "|".join(values) or value, about


def roff(text):
    """A text in the language of manual pages, in which code is bold."""
    text = re.sub(r"`([^`]*)`", r"\\fB\1\\fR", text.replace("\\", "\\e").replace("-", "\\-"))
    return re.sub(r"^([.'])", r"\\&\1", text, flags=re.M)


def marked(usage):
    """A usage, with what is written as it stands in bold, and in italics what another word replaces."""
    return re.sub(r"[\w-]+", lambda it: f"\\f{'I' if it[0].isupper() else 'B'}{roff(it[0])}\\fR", usage)


def options(program):
    """The section of options, if there are any."""
    entries = [f".TP\n.B {' '.join([roff(name), roff(value)]).rstrip()}\n{roff(about)}" for name, (_values, value, about)
               in program.options.items()]
    if program.help:
        entries.append(f".TP\n.B {roff('--help')}\nPrints this:\n.PP\n.nf\n" + roff("\n".join(program.help)) + "\n.fi")
    return "\n".join([".SH OPTIONS", *entries, ""]) if entries else ""


def page(program, names):
    """The text of a manual page. Without a paragraph of its own, the exit status is that of the usage."""
    status = [it for it in program.paragraphs if it.startswith("The exit status")]
    status = status or [it.removeprefix("Status: ") for it in program.help if it.startswith("Status: ")]
    others = OTHERS + [f"{name} (1)" for name in names if name != program.name]
    return PAGE.format(
        upper=program.name.upper(), version=VERSION, name=program.name,
        purpose=roff(program.purpose[0].lower() + program.purpose[1:].rstrip(".")),
        synopsis="\n.br\n".join(map(marked, program.usage)),
        description="\n.PP\n".join(roff(it) for it in program.paragraphs if it not in status), options=options(program),
        status="\n".join(map(roff, status)), others=" ,\n".join(f".BR {roff(it)}" for it in others))


def completion(program):
    """The text of a completion: the words after an option, then those at each place, then the options, after a dash."""
    words = {f"*:{name}": values for name, (values, *_texts) in program.options.items() if values}
    words.update({f"{place}:*": names for place, names in enumerate(program.places, 1) if names})
    cases = [f'    {pattern}) words="{" ".join(names)}" ;;' for pattern, names in words.items()]
    if program.options:
        cases.append(f'    *) [[ ${{COMP_WORDS[COMP_CWORD]}} == -* ]] && words="{" ".join(program.options)}" ;;')
    return COMPLETION.format(name=program.name, cases="\n".join(cases))


def has_words(path):
    text = path.read_text()
    return path.parent.parent.name not in NO_PROGRAMS and ("\nconst USAGE" in text or "\nuse clap::" in text)


def main(folder):
    programs = [Program(path) for path in sorted(HERE.glob("../crates/*/src/main.rt")) if has_words(path)]
    names = [program.name for program in programs]
    (folder / "completions").mkdir(parents=True, exist_ok=True)
    for program in programs:
        (folder / f"{program.name}.1").write_text(page(program, names))
        (folder / "completions" / program.name).write_text(completion(program))


if __name__ == "__main__":
    if len(sys.argv) != 2:
        print(__doc__, file=sys.stderr)
        sys.exit(2)
    main(Path(sys.argv[1]))
