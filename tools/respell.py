#!/usr/bin/env python3
"""Turns this repository's own names in specs/, proofs/ and clauses to today's spelling: words in snake case, types in camel
case. It goes once over a tree that the kit's port.py has turned. The names stand in respell.txt beside it, one a line in the
old spelling. Comments, strings and the code of functions keep what they have.
"""
import pathlib
import re
import sys

HERE = pathlib.Path(__file__).resolve().parent
TOKEN = re.compile(r"[A-Za-z_][\w']*(?:-[\w']+)+")


def respelt(name):
    """A type has a capital, and its words are joined; any other name has them joined by a low line."""
    if name[0].isupper():
        return "".join(word[0].upper() + word[1:] for word in name.split("-"))
    return name.replace("-", "_").replace("getD", "get_or")


def turned(line, names, comment, strings):
    """The line with the names respelt, but for its comment and, in code, its strings."""
    code, mark, rest = line.partition(comment)
    parts = re.split(r'("(?:[^"\\]|\\.)*")', code) if strings else [code]
    parts[::2] = [TOKEN.sub(lambda m: names.get(m[0], m[0]), part) for part in parts[::2]]
    return "".join(parts) + mark + rest


def main():
    root = pathlib.Path(sys.argv[1] if len(sys.argv) > 1 else HERE.parent)
    old = (HERE / "respell.txt").read_text().split()
    names = {name: respelt(name) for name in old}
    together = [name for name in names if list(names.values()).count(names[name]) > 1]
    if together:
        raise SystemExit(f"these fall together: {together}")
    for path in sorted(root.glob("crates/*/*/**/*")):
        if path.suffix not in (".antt", ".rt") or "out" in path.parts:
            continue
        comment, strings = ("//", True) if path.suffix == ".rt" else ("--", False)
        text = path.read_text()
        new = "".join(turned(line, names, comment, strings) for line in text.splitlines(keepends=True))
        if new != text:
            path.write_text(new)


if __name__ == "__main__":
    main()
