#!/usr/bin/env python3
"""Plants the bugs of planted.txt, one at a time, and tells who caught each: the proof, a test, or nobody.

    tests/planted.py [--only survey,flow/last_parent] [--again] [--write docs/PLANTED.md]

The bugs are planted in two copies of the repository. Each is first tried on its own crate (rt check). One that the crate is
still proved with is then tried on everything: the crates above it, the programs' runs, the crates' tests (rt all test), and,
where all that passes, on tests/calls.py and tests/differential.py. Ends with status 1 where a bug survives, where an edit
does not fit the code, or where one is refused only because a name of the proof is gone, which shows nothing. It takes about
half an hour on four cores; what was told of a bug before is kept under target/ and told again while neither the bug nor its
crate has changed, unless --again is given.
"""
import argparse
import concurrent.futures
import hashlib
import json
import pathlib
import queue
import re
import shutil
import subprocess
import sys
import tempfile

ROOT = pathlib.Path(__file__).resolve().parent.parent
KEPT = ROOT / "target" / "planted.json"
# what the checker says where a proof file names what is no longer there
GONE = re.compile(r"has no (field|name)|no .{1,80} that can be named|is not in scope|cannot be named|has no `")


class Bug:
    def __init__(self, block):
        head, *lines = block
        self.name, self.what = head.split(": ", 1)
        self.crate, self.label = self.name.split("/")
        self.lines = lines
        self.caught = None

    def edit(self):
        return "\n".join(self.lines) + "\n"

    def key(self):
        """the bug and its crate as they stand"""
        digest = hashlib.sha256(self.edit().encode())
        for part in ("src", "specs", "proofs"):
            for path in sorted((ROOT / "crates" / self.crate / part).rglob("*")):
                if path.is_file():
                    digest.update(str(path.relative_to(ROOT)).encode() + b"\0" + path.read_bytes())
        return digest.hexdigest()

    def plant(self, repo):
        """writes the bug into the crate, and gives back what stood there"""
        before, path, old = {}, None, None
        for line in self.lines:
            if line.startswith("file: "):
                path = repo / "crates" / self.crate / line[6:]
                before.setdefault(path, path.read_text())
            elif line.startswith("old: "):
                old = line[5:]
            elif line.startswith("name: "):
                was, now = line[6:].split()
                for proof in (repo / "crates" / self.crate / "proofs").rglob("*.antt"):
                    text = proof.read_text()
                    if was in text:
                        before.setdefault(proof, text)
                        proof.write_text(text.replace(was, now))
            else:
                text = path.read_text()
                if text.count(old) != 1:
                    sys.exit(f"{self.name}: {old!r} stands {text.count(old)} times in {path.name}")
                path.write_text(text.replace(old, line[4:].removeprefix(" ")))
        return before


def bugs(only):
    blocks, block = [], []
    for line in (ROOT / "tests" / "planted.txt").read_text().splitlines() + [""]:
        if line.startswith("#"):
            continue
        if line.strip():
            block.append(line)
        elif block:
            blocks.append(block)
            block = []
    found = [Bug(b) for b in blocks]
    names = [b.name for b in found]
    if len(set(names)) != len(names):
        sys.exit("two bugs have one name")
    wanted = only.split(",") if only else []
    return [b for b in found if not wanted or b.name in wanted or b.crate in wanted]


def copy_to(repo):
    """the repository as it stands; rt begins there with what it has proved of it here"""
    files = subprocess.run(["git", "ls-files", "-co", "--exclude-standard"], cwd=ROOT, stdout=subprocess.PIPE, check=True, text=True)
    for name in files.stdout.splitlines():
        if (ROOT / name).is_file():
            (repo / name).parent.mkdir(parents=True, exist_ok=True)
            shutil.copy2(ROOT / name, repo / name)
    (repo / ".git").mkdir()


def first_error(log):
    """where the prover first said something against it, and what"""
    for pattern in (r"^(\S+?):\d+:\d+: error: (.*(?:\n .*)*)", r"^note: (\S+?):\d+:\d+: (it is not proved .*)$"):
        match = re.search(pattern, log, re.M)
        if match:
            place = re.sub(r"^(.*/crates/[a-z]+|\.)/", "", match.group(1))
            return place, " ".join(match.group(2).split())
    return "", "it is not proved"


def try_proof(repo, bug):
    """a bug on its own crate: what caught it, None where the crate is still proved"""
    before = bug.plant(repo)
    try:
        done = subprocess.run(["rt", "check"], cwd=repo / "crates" / bug.crate, stdout=subprocess.PIPE, stderr=subprocess.STDOUT, text=True)
    finally:
        for path, text in before.items():
            path.write_text(text)
    if done.returncode == 0:
        return None
    if "logic=not-proved" not in done.stdout:
        return "bad edit", done.stdout.strip().splitlines()[-1]
    place, why = first_error(done.stdout)
    return "only a name" if GONE.search(why) else "proof", f"{place}: {why}"


def try_proofs(repos, planted):
    """each bug on its own crate, in as many copies as there are"""
    free = queue.Queue()
    for repo in repos:
        free.put(repo)

    def one(bug):
        repo = free.get()
        bug.caught = try_proof(repo, bug)
        free.put(repo)
        print(f"{bug.name}: {bug.caught[0] if bug.caught else 'still proved'}", flush=True)

    with concurrent.futures.ThreadPoolExecutor(len(repos)) as pool:
        list(pool.map(one, planted))


def try_tests(repo, bug):
    """a bug that its crate is proved with: the crates above, the programs' runs and all tests"""
    before = bug.plant(repo)
    try:
        # a bug that is laid out otherwise than rt fmt does would be refused for that alone
        subprocess.run(["rt", "fmt"], cwd=repo / "crates" / bug.crate, stdout=subprocess.DEVNULL, stderr=subprocess.DEVNULL, check=True)
        done = subprocess.run(["rt", "all", "test"], cwd=repo, stdout=subprocess.PIPE, stderr=subprocess.STDOUT, text=True)
        if done.returncode != 0:
            if "logic=not-proved" in done.stdout:
                return "proof above", "{}: {}".format(*first_error(done.stdout))
            crate = re.search(r"^(\w+): failed", done.stdout, re.M)
            said = re.search(r"^(test .* FAILED|.*the program's output differs.*)", done.stdout, re.M)
            return "test in the gate", f"crates/{crate[1] if crate else '?'}: {said[1] if said else 'rt all test'}"
        for command in (["tests/build.sh"], ["tests/calls.py"], ["tests/differential.py", "--inputs", "2000", "--large", "10", "--cells", "1000"]):
            done = subprocess.run(command, cwd=repo, stdout=subprocess.PIPE, stderr=subprocess.STDOUT, text=True)
            if done.returncode != 0:
                return "test", command[0] + ": " + done.stdout.strip().splitlines()[-1]
        return "nobody", ""
    finally:
        for path, text in before.items():
            path.write_text(text)


def remember(planted):
    kept = json.loads(KEPT.read_text()) if KEPT.is_file() else {}
    kept.update({b.key(): b.caught for b in planted if b.caught})
    KEPT.parent.mkdir(exist_ok=True)
    KEPT.write_text(json.dumps(kept, indent=1))


def table(planted):
    lines = ["# Planted bugs", "", (ROOT / "tests" / "planted.md").read_text().strip(), ""]
    tally = {}
    for bug in planted:
        tally[bug.caught[0]] = tally.get(bug.caught[0], 0) + 1
    lines += ["**" + str(len(planted)) + " planted.** Caught by: " + ", ".join(f"{k} {n}" for k, n in sorted(tally.items(), key=lambda t: -t[1])) + ".", ""]
    for crate in dict.fromkeys(b.crate for b in planted):
        lines += [f"### {crate}", "", "| bug | what is wrong | caught by | where |", "|---|---|---|---|"]
        for bug in planted:
            if bug.crate == crate:
                where = bug.caught[1].split(": ")[0] if bug.caught[0] != "nobody" else ""
                lines.append(f"| `{bug.label}` | {bug.what} | {bug.caught[0]} | {'`' + where + '`' if where else ''} |")
        lines.append("")
    return "\n".join(lines)


def main():
    args = argparse.ArgumentParser()
    args.add_argument("--only", help="names of crates or of bugs, with commas between")
    args.add_argument("--again", action="store_true", help="keep nothing of what was told before")
    args.add_argument("--write", help="write the table of all bugs to this file")
    args = args.parse_args()
    planted = bugs(args.only)
    kept = json.loads(KEPT.read_text()) if KEPT.is_file() and not args.again else {}
    for bug in planted:
        bug.caught = tuple(kept[bug.key()]) if bug.key() in kept else None
    new = [b for b in planted if b.caught is None]
    with tempfile.TemporaryDirectory(prefix="planted-") as folder:
        repos = [pathlib.Path(folder) / name for name in ("one", "two")] if new else []
        for repo in repos:
            copy_to(repo)
        if new:
            try_proofs(repos, new)
        # the programs first: less has to be proved again after a bug in one of them
        for bug in reversed(new):
            if bug.caught is None:
                bug.caught = try_tests(repos[0], bug)
                print(f"{bug.name}: {bug.caught[0]} ({bug.caught[1]})", flush=True)
    remember(new)
    for bug in planted:
        print(f"{bug.caught[0]:16} {bug.name:44} {bug.caught[1][:120]}")
    if args.write:
        (ROOT / args.write).write_text(table(planted))
    loose = [b.name for b in planted if b.caught[0] in ("nobody", "bad edit", "only a name")]
    if loose:
        sys.exit("not caught, or not as it should be: " + ", ".join(loose))


if __name__ == "__main__":
    main()
