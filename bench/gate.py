#!/usr/bin/env python3
"""Where the time of the gate goes.

    bench/gate.py watch LOG [NAME..]   runs `rt ci`, or `rt ci NAME..`, and writes to LOG what it says and what each crate took
    bench/gate.py LOG                  prints the table of such a log

`rt ci` tells no times, so `watch` looks at its processes twice a second: LOG ends with a line for each crate and kind of work (its
proof, its tests, its edits), with the processor seconds and the seconds from the first to the last look. The end of each process,
half a second at most, is missed. Of another log of `rt ci` the table has the counts alone.
"""
import collections, os, re, subprocess, sys, time

KINDS = ("proof", "tests", "edits")
TICKS = os.sysconf("SC_CLK_TCK")
TOOK = re.compile(r"gate: (\w+) (proof|tests|edits) took ([\d.]+) processor seconds in ([\d.]+)$")


def processes():
    """Every process by number: its parent, its own processor seconds with those of its children that have ended, and its words."""
    found = {}
    for number in filter(str.isdigit, os.listdir("/proc")):
        try:
            with open(f"/proc/{number}/stat") as file:
                fields = file.read().rpartition(")")[2].split()
            with open(f"/proc/{number}/cmdline") as file:
                words = file.read().split("\0")
        except OSError:
            continue
        found[int(number)] = int(fields[1]), sum(map(int, fields[11:15])) / TICKS, words
    return found


def work_of(number, words):
    """The crate that a process checks, and as what; none where it checks none."""
    if "--crate-name" not in words:
        return None
    crate = words[words.index("--crate-name") + 1]
    if "--test" in words:
        return crate, "tests"
    try:
        tries = "/rt-edit" in os.readlink(f"/proc/{number}/cwd")
    except OSError:
        tries = False
    return crate, "edits" if tries else "proof"


def look(top, works):
    """Adds what the processes below `top` have taken so far to the table of works, by process."""
    found, now = processes(), time.monotonic()
    taken = collections.Counter()
    for number, (parent, seconds, words) in found.items():
        # the outermost process that names a crate stands for all below it
        root, at = None, number
        while at in found and at != top:
            root = at if "--crate-name" in found[at][2] else root
            at = found[at][0]
        if at == top and root is not None:
            taken[root] += seconds
    for root, seconds in taken.items():
        work, first, _, most = works.get(root) or (work_of(root, found[root][2]), now, now, 0.0)
        works[root] = work, first, now, max(most, seconds)


def watch(log, names):
    """Runs the gate, and writes what it says and what its crates took."""
    works, begun = {}, time.monotonic()
    with open(log, "w") as file:
        gate = subprocess.Popen(["rt", "ci", *names], stdout=file, stderr=subprocess.STDOUT)
        while gate.poll() is None:
            look(gate.pid, works)
            time.sleep(0.5)
    sums = collections.defaultdict(lambda: [0.0, 0.0])
    for work, first, last, seconds in works.values():
        if work:
            sums[work][0] += seconds
            sums[work][1] += last - first
    with open(log, "a") as file:
        for (crate, kind), (seconds, wall) in sorted(sums.items()):
            file.write(f"gate: {crate} {kind} took {seconds:.1f} processor seconds in {wall:.1f}\n")
        file.write(f"gate: all took {time.monotonic() - begun:.0f} seconds\n")
    return gate.returncode


def dependencies(root):
    """Each crate of crates.txt with the crates of the repository that it stands on."""
    with open(f"{root}/crates.txt") as file:
        lines = [line.partition("#")[0].partition(":") for line in file]
    named = {name.split()[0]: rest.split() for name, colon, rest in lines if colon}
    return {name: [it for it in below if it in named] for name, below in named.items()}


def longest(below, seconds):
    """The chain of crates, each standing on the one before, whose proofs take the most seconds one after another."""
    best = {}

    def chain(name):
        if name not in best:
            under = max((chain(it) for it in below[name]), default=(0.0, []))
            best[name] = under[0] + seconds[name, "proof"], under[1] + [name]
        return best[name]

    return max((chain(name) for name in below), default=(0.0, []))


def read(log):
    """What a log tells: by crate and kind the seconds, by crate the numbers of functions, tests and edits, and its last words."""
    seconds, walls, counts, last, at = collections.Counter(), collections.Counter(), collections.Counter(), [], None
    with open(log, errors="replace") as file:
        for line in map(str.rstrip, file):
            if head := re.match(r"== (\w+)(: its tests)?$", line):
                at = head[1], "tests" if head[2] else "proof"
            elif at and line.startswith("logic=proved"):
                number = re.search(r"tests=(\d+)" if at[1] == "tests" else r"functions=(\d+)", line)
                counts[at] = int(number[1]) if number else 0
            elif edit := re.match(r"rt: must-fail (\w+)/", line):
                counts[edit[1], "edits"] += 1
            elif took := TOOK.match(line):
                seconds[took[1], took[2]], walls[took[1], took[2]] = float(took[3]), float(took[4])
            elif re.match(r"rt: (ok|FAILED)|\d+ passed, |gate: all", line):
                last.append(line)
    return seconds, walls, counts, last


def table(log):
    """Prints the table of a log."""
    root = os.path.dirname(os.path.dirname(os.path.abspath(__file__)))
    seconds, walls, counts, last = read(log)
    below = dependencies(root)
    names = sorted(below, key=lambda name: -sum(seconds[name, kind] for kind in KINDS))
    print("| Crate | Functions | Tests | Edits | Proof, s | Tests, s | Edits, s | All, s |\n|---|---|---|---|---|---|---|---|")
    for name in names:
        taken = [seconds[name, kind] for kind in KINDS]
        row = [f"`{name}`", *(counts[name, kind] for kind in KINDS), *(f"{it:.0f}" for it in taken), f"{sum(taken):.0f}"]
        print("|", " | ".join(map(str, row)), "|")
    taken = [sum(seconds[name, kind] for name in names) for kind in KINDS]
    row = ["all", *(sum(counts[name, kind] for name in names) for kind in KINDS), *(f"{it:.0f}" for it in taken), f"{sum(taken):.0f}"]
    print("|", " | ".join(map(str, row)), "|")
    for what, of in (("processor seconds", seconds), ("seconds", walls)):
        length, chain = longest(below, of)
        links = [f"{name} {of[name, 'proof']:.0f}" for name in chain if of[name, "proof"]]
        print(f"\nThe longest chain of proofs takes {length:.0f} {what}: {', '.join(links)}.")
    print("\n" + "\n".join(last))


if __name__ == "__main__":
    if len(sys.argv) > 2 and sys.argv[1] == "watch":
        sys.exit(watch(sys.argv[2], sys.argv[3:]))
    if len(sys.argv) != 2:
        sys.exit(__doc__.strip())
    table(sys.argv[1])
