#!/usr/bin/env python3
"""Counts the places in src/ that the design pass looks at: tools/places.py [--list] [POINT ..]

Each pattern below is one kind of place. A place that stays is one that was read and kept; docs/DESIGN-PASS.md says why.
"""
import re
import subprocess
import sys
from collections import Counter
from pathlib import Path

TOP = Path(__file__).resolve().parent.parent
SOURCES = sorted(TOP.glob("crates/*/src/*.rt"))
CLAUSE = re.compile(r"^\s+(?:requires|ensures) (?:[a-z_]+ )?(\{.*\})$")
FUNCTION = re.compile(r"fn ([a-z_]+)(?:<[^(]*>)?\(([^{]*?)\)\s*(?:->|requires|ensures|\{|;)", re.S)

# the kinds of places that one line shows, by point
LINES = {
    "1a enums of one's own": r"^\s*(pub(\(crate\))? )?enum ",
    "1b flags in structs": r"^    (pub(\(crate\))? )?[a-z_]+: bool,$",
    "1c numbers that stand for a case": r"^\s*(pub(\(crate\))? )?const [A-Z_]+: (u8|u16|u32|u64|usize) ",
    "1d results and options handed on by hand": r"(Err|Some)\([a-z_]+\) => (return )?(Err|Some|Ok)\(|None => \{\}|(Ok|Some)\(_\) => \{\}",
    "1e let .. else": r"^\s*let (Some|Ok)\(.*\) = ",
    "3 loops that count": r"^\s*(let \w+ = |[\w.]+ = )?('[a-z]+: )?(for [a-z_]+ in \(?[0-9a-z]+\.\.|while |loop )",
    "4 conversion and printing": r"^impl.* (From|Display)<?.* for |write!\(|writeln!\(|push_str\(|format!\(|from_str\(",
    "6 arrays of a fixed length": r"(: &?(mut )?|= |\()\[[A-Za-z0-9_<>]+; [0-9A-Z]+\]",
    "7 tables of functions and switches on a step": r"\bfn\(|\bdyn |Box<|match line",
}


def shown(path):
    return path.relative_to(TOP).as_posix()


def by_line(pattern):
    for path in SOURCES:
        if "checks" in path.parts:
            continue
        for number, line in enumerate(path.read_text().splitlines(), 1):
            if re.search(pattern, line) and not line.lstrip().startswith("//"):
                yield f"{shown(path)}:{number}: {line.strip()}"


def same_names():
    """Functions and structs of one name, in one crate or in two."""
    names = Counter()
    for path in SOURCES:
        if "checks" in path.parts:
            continue
        for kind, name in re.findall(r"^\s*(?:pub(?:\(crate\))? )?(fn|struct) ([A-Za-z_]+)", path.read_text(), re.M):
            names[kind, name] += 1
    for (kind, name), many in sorted(names.items()):
        if many > 1 and name not in ("fmt", "from", "main", "new"):
            yield f"{many} x {kind} {name}"


def same_clauses():
    """A fact that stands in three contracts or more."""
    clauses = Counter()
    for path in SOURCES:
        for line in path.read_text().splitlines():
            if match := CLAUSE.match(line):
                clauses[match.group(1)] += 1
    for clause, many in clauses.most_common():
        if many >= 3:
            yield f"{many} x {clause}"


def many_parameters():
    """A function of five parameters or more."""
    for path in SOURCES:
        for name, parameters in FUNCTION.findall(path.read_text()):
            parts = [p for p in re.split(r",(?![^<(\[]*[>)\]])", parameters) if p.strip()]
            if len(parts) >= 5:
                yield f"{shown(path)}: {name} takes {len(parts)}"


def proofs():
    """Lines of proofs, and answers that are written out."""
    files = [p for p in TOP.glob("crates/*/proofs/**/*.antt")]
    answers = [p for p in files if p.name == "Answers.antt"]
    yield f"{sum(len(p.read_text().splitlines()) for p in files)} lines in {len(files)} files"
    yield f"{sum(len(re.findall(r'^pub ', p.read_text(), re.M)) for p in answers)} answers of {len(answers)} functions"


def duplicates():
    """What the tree repeats, by the tool library's command."""
    try:
        said = subprocess.run(["duplicates"], cwd=TOP, capture_output=True, text=True).stdout
    except FileNotFoundError:
        return
    yield from (line for line in said.splitlines() if line.startswith("D"))


KINDS = {name: (lambda p=pattern: by_line(p)) for name, pattern in LINES.items()}
KINDS["2a one name twice"] = same_names
KINDS["2b repeated lines"] = duplicates
KINDS["5a one fact in three contracts or more"] = same_clauses
KINDS["5b five parameters or more"] = many_parameters
KINDS["8 proofs"] = proofs

if __name__ == "__main__":
    wanted = [a for a in sys.argv[1:] if not a.startswith("-")]
    for kind in sorted(KINDS):
        if wanted and not any(kind.startswith(w) for w in wanted):
            continue
        places = list(KINDS[kind]())
        print(f"{kind}: {'; '.join(places)}" if kind.startswith("8") else f"{kind}: {len(places)}")
        if "--list" in sys.argv and not kind.startswith("8"):
            for place in places:
                print("    " + place)
