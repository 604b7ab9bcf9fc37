#!/usr/bin/env python3
"""Times the proved programs beside the plain one (plain.cpp) on surveys by seed, and prints the ratio.

    bench/compare.py [--seeds 5] [--runs 20]

The programs must have been built (tests/build.sh). Each figure is the least processor time of so many runs on 40 x 40 cells with 19,000 workshops.
"""
import argparse
import os
import pathlib
import subprocess
import sys
import tempfile

ROOT = pathlib.Path(__file__).resolve().parent.parent
sys.path[:0] = [str(ROOT / "bench"), str(ROOT / "tests")]
import generate  # noqa: E402
from differential import program  # noqa: E402


def run(command, path):
    """the output and the processor time of one run"""
    with open(path, "rb") as source, tempfile.TemporaryFile() as sink:
        child = subprocess.Popen(command, stdin=source, stdout=sink)
        _, status, usage = os.wait4(child.pid, 0)
        child.returncode = status
        sink.seek(0)
        return sink.read(), usage.ru_utime + usage.ru_stime


def least(command, path, runs):
    results = [run(command, path) for _ in range(runs)]
    return results[0][0], min(t for _, t in results)


def main():
    args = argparse.ArgumentParser()
    args.add_argument("--seeds", type=int, default=5)
    args.add_argument("--runs", type=int, default=20)
    args = args.parse_args()
    with tempfile.TemporaryDirectory() as folder:
        plain = folder + "/plain"
        subprocess.run(["g++", "-O2", "-o", plain, str(ROOT / "bench" / "plain.cpp")], check=True)
        for percent, spread in ((15, "15 per cent"), (2, "2 per cent")):
            for seed in range(1, args.seeds + 1):
                survey = generate.survey(seed, 40, 40, 19000, percent)
                path = folder + "/survey"
                pathlib.Path(path).write_bytes(survey)
                ours = least([program("page"), "--full"], path, args.runs)
                theirs = least([plain, "page"], path, args.runs)
                if ours[0] != theirs[0]:
                    sys.exit(f"seed {seed}: the pages differ")
                line = f"{spread}, seed {seed}: page {ours[1] * 1000:.1f} ms, plain {theirs[1] * 1000:.1f} ms, ratio {ours[1] / max(theirs[1], 1e-4):.2f}"
                if b"-" in ours[0]:
                    blanks = [cell == b"-" for row in ours[0].splitlines()[:40] for cell in row.split()[:40]]
                    pathlib.Path(path).write_bytes(survey + bytes(blanks))
                    ours = least([program("audit"), "--full"], path, args.runs)
                    theirs = least([plain, "audit"], path, args.runs)
                    if ours[0] != theirs[0]:
                        sys.exit(f"seed {seed}: the audits differ")
                    line += f"; audit {ours[1] * 1000:.1f} ms, plain {theirs[1] * 1000:.1f} ms, ratio {ours[1] / max(theirs[1], 1e-4):.2f}; {sum(blanks)} blanks"
                print(line)


if __name__ == "__main__":
    main()
