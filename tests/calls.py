#!/usr/bin/env python3
"""Calls both programs as an officer would, rightly and wrongly, and holds what they print and how they end to the rule book.

    tests/calls.py [--bin FOLDER]

No contract can say what a program reads, prints and ends with; this is where it is tested. The programs lie where tests/build.sh
leaves them, or in the folder that is named. Ends with status 1 at the first difference.
"""
import argparse
import pathlib
import subprocess
import sys
import tempfile

ROOT = pathlib.Path(__file__).resolve().parent.parent
sys.path.insert(0, str(ROOT / "tests"))
from differential import program as built, survey_bytes  # noqa: E402

EXAMPLE = (ROOT / "examples" / "a.survey").read_bytes()
PATTERN = (ROOT / "examples" / "a.pattern").read_bytes()
PAGE = b"100 - - 270\n60 120 36 216\n220 - - 374\n380 315 165 860\n"
ABOUT = {
    "page": b"Reads a survey and prints its page.",
    "audit": b"Reads a survey and the pattern of blanks after it, and judges the pattern.",
}


def usage(program):
    return b"\n".join([
        b"usage: " + program.encode() + b" [--full] [FILE]",
        ABOUT[program],
        b"  FILE    where the input is; without it, standard input is read",
        b"  --full  serve surveys of more than 64 cells or 2,000 workshops too",
        b"  --help  print this",
    ]) + b"\n"


def small(rows, columns, workshops):
    """a survey in which no cell lacks anything: three equal workshops each, as far as they go"""
    return survey_bytes(rows, columns, 15, [(i // 3 % (rows * columns), 10) for i in range(workshops)])


def cases(folder):
    """program, words, input, what is printed, what is told on standard error (None: anything but nothing), status"""
    name = folder + "/survey"
    pathlib.Path(name).write_bytes(EXAMPLE)
    both = folder + "/both"
    pathlib.Path(both).write_bytes(EXAMPLE + PATTERN)
    for program in ("page", "audit"):
        help_text = usage(program)
        yield program, ["--help"], b"", help_text, b"", 0
        yield program, ["--full", "--help", "--bogus"], b"", help_text, b"", 0
        for words in (["--bogus"], ["--bogus", "--help"], ["-"], ["-f"], [name, name], [b"\xff"]):
            yield program, words, EXAMPLE, b"", b"wrong call\n" + help_text, 1
        for words in ([folder + "/nothing"], [folder], [""]):
            yield program, words, EXAMPLE, b"", None, 1
    for words, data in (([], EXAMPLE), (["--full"], EXAMPLE), ([name], b""), (["--full", name], b""), ([name, "--full"], b"")):
        yield "page", words, data, PAGE, b"", 0
    for words, data in (([], EXAMPLE + PATTERN), ([both], b""), ([both, "--full"], b"")):
        yield "audit", words, data, b"protected\n", b"", 0
    yield "audit", [], EXAMPLE + bytes(9), b"open 1 printed\n", b"", 1
    yield "audit", [], EXAMPLE + bytes([0, 1, 1, 0, 0, 0, 0, 0, 0]), b"open 1 rows 0 columns 2\n", b"", 1
    lone = survey_bytes(2, 2, 15, [(0, 100)] + [(d, 30) for d in (1, 2, 3) for _ in range(2)])
    yield "audit", [], lone + bytes([1, 1, 1, 1]), b"open 1 rows 0 columns\n", b"", 1
    refused = [
        (b"", 4, 0), (EXAMPLE[:4], 4, 4), (b"\0" + EXAMPLE[1:], 1, 0), (EXAMPLE[:1] + b"\x29" + EXAMPLE[2:], 1, 1),
        (EXAMPLE[:2] + b"\x65" + EXAMPLE[3:], 2, 2), (EXAMPLE[:3] + b"\xff\xff" + EXAMPLE[5:], 3, 3), (EXAMPLE[:-1], 4, 184),
        (survey_bytes(1, 1, 1, [(0, 1), (1, 1)]), 5, 1), (survey_bytes(1, 1, 1, [(0, 1), (0, 1000000001)]), 6, 1),
    ]
    for data, number, place in refused:
        for program in ("page", "audit"):
            yield program, [], data, b"refused %d at %d\n" % (number, place), b"", 1
    yield "page", [], EXAMPLE + b"\0", b"refused 4 at 186\n", b"", 1
    yield "page", [], lone, b"refused 9 at 1\n", b"", 1
    yield "audit", [], EXAMPLE + PATTERN[:-1], b"refused 7 at 8\n", b"", 1
    yield "audit", [], EXAMPLE + PATTERN[:-1] + b"\2", b"refused 7 at 8\n", b"", 1
    # the limits without --full: 64 cells and 2,000 workshops are served, one more of either is not
    for rows, columns, workshops in ((8, 8, 192), (1, 1, 2000)):
        served = small(rows, columns, workshops)
        for program, data in (("page", served), ("audit", served + bytes(rows * columns))):
            yield program, [], data, None, b"", 0
    for rows, columns, workshops in ((5, 13, 195), (1, 1, 2001)):
        large = small(rows, columns, workshops)
        for program, data in (("page", large), ("audit", large + bytes(rows * columns))):
            yield program, [], data, b"refused 8 at 0\n", b"", 1
            yield program, ["--full"], data, None, b"", 0
        # what else is wrong comes first
        yield "page", [], large[:-1], b"refused 4 at %d\n" % (len(large) - 1), b"", 1
        yield "audit", [], large + bytes(rows * columns - 1) + b"\2", b"refused 7 at %d\n" % (rows * columns - 1), b"", 1


def main():
    args = argparse.ArgumentParser()
    args.add_argument("--bin", help="the folder of other builds of both programs")
    args = args.parse_args()
    place = {name: f"{args.bin}/{name}" if args.bin else built(name) for name in ABOUT}
    count = 0
    with tempfile.TemporaryDirectory() as folder:
        for program, words, data, out, err, status in cases(folder):
            done = subprocess.run([place[program]] + words, input=data, stdout=subprocess.PIPE, stderr=subprocess.PIPE)
            told = err is not None and done.stderr == err or err is None and done.stderr != b""
            if done.returncode != status or not told or (out is not None and done.stdout != out) or (out is None and not done.stdout):
                sys.exit(f"{program} {words}: wanted {out!r}, {err!r}, {status}; got {done.stdout!r}, {done.stderr!r}, {done.returncode}")
            count += 1
    # nothing can be printed
    for program, data in (("page", EXAMPLE), ("audit", EXAMPLE + PATTERN), ("page", b"")):
        with open("/dev/full", "wb") as full:
            done = subprocess.run([place[program]], input=data, stdout=full, stderr=subprocess.PIPE)
        if done.returncode != 1:
            sys.exit(f"{program} into a full device: status {done.returncode}")
        count += 1
    print(f"{count} calls: as they should be")


if __name__ == "__main__":
    main()
