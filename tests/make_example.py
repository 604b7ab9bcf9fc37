#!/usr/bin/env python3
"""Writes the example survey and its pattern, and what the two programs are run on by the gate: page on a survey, audit on
the same survey with its pattern after it, both on standard input.

A survey's bytes are its rows, its columns, its percentage, the number of its workshops in two bytes, and for each workshop
its cell in two bytes and its turnover in four; low byte first. A pattern has one byte for each cell, 1 where it is blank.
"""
import pathlib

from differential import survey_bytes

ROOT = pathlib.Path(__file__).resolve().parent.parent

ROWS, COLUMNS, PERCENT = 3, 3, 15
# the turnovers of each cell, by rows
CELLS = [
    [40, 30, 20, 10], [90, 5], [30, 25, 20],
    [25, 20, 15], [50, 40, 30], [12, 10, 8, 6],
    [70, 60, 50, 40], [35, 30, 20, 15], [20, 18, 16],
]
PATTERN = [0, 1, 1, 0, 0, 0, 0, 1, 1]


def main():
    workshops = [(cell, turnover) for cell, turnovers in enumerate(CELLS) for turnover in turnovers]
    survey = survey_bytes(ROWS, COLUMNS, PERCENT, workshops)
    (ROOT / "examples").mkdir(exist_ok=True)
    (ROOT / "examples" / "a.survey").write_bytes(survey)
    (ROOT / "examples" / "a.pattern").write_bytes(bytes(PATTERN))
    (ROOT / "crates" / "page" / "stdin").write_bytes(survey)
    (ROOT / "crates" / "audit" / "stdin").write_bytes(survey + bytes(PATTERN))


if __name__ == "__main__":
    main()
