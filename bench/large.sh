#!/usr/bin/env bash
# What the largest runs take: sources of half a megabyte and of a whole one that start as many threads at once as they can, print, read through
# eight stars, and write, on few servers and many, with many workers, without a cache and with one colour an address; and the generated programs of
# size 2000 and 4000 on 64 servers. Each with its events, its seconds by a clock, the growth where there is twice as much to do, and the memory at the
# peak. Needs the built program (./build).
#   bench/large.sh
. "$(dirname "$0")/program.sh" drust_main ./build
exec python3 - "$program" <<'PY'
import sys
from timed import growth, timed
program = sys.argv[1]
MEGABYTE = 1_048_576

# as often an item as fit in so many bytes
def filled(before, item, behind):
    return lambda size: before + item * ((size - len(before) - len(behind)) // len(item)) + behind

spawns = filled("{", "spawn(){};", "()}")
prints = filled("{", "print 1;", "()}")
writes = filled("{let mut x=box 1;", "*x=2;", "()}")
stars = filled("{let mut x=" + "box " * 8 + "1;", "print ********x;", "()}")
# pairs of threads, each at a server of its own, that read through one reference and eight stars
shared = filled("{let mut x=" + "box " * 8 + "1;{let mut r=&*x;", "par(r){print ********r}(r){print ********r};", "()}}")

# a run: its name, its source by the size, and its options
RUNS = (
    ("spawns", spawns, "--servers 1"),
    ("spawns", spawns, "--servers 64"),
    ("spawns", spawns, "--servers 64 --workers 64"),
    ("prints", prints, "--servers 1"),
    ("writes", writes, "--servers 1"),
    ("writes", writes, "--servers 1 --colours 1"),
    ("eight stars", stars, "--servers 1"),
    ("shared stars", shared, "--servers 8"),
    ("shared stars", shared, "--servers 8 --cache 0"),
    ("shared stars", shared, "--servers 64 --workers 64 --colours 1"),
)

print(f"{'work':12} {'options':38} {'status':>6} {'events':>9} {'seconds':>8} {'growth':>8} {'MB':>5}")
for name, source, options in RUNS:
    before = None
    for size in (MEGABYTE // 2, MEGABYTE):
        words = [program, "run", "--turns", "1000000000", *options.split()]
        seconds, status, out, peak = timed(words, source(size), runs=3)
        events = int(out.rsplit("\nevents ", 1)[1].split()[0])
        print(f"{name:12} {options:38} {status:6} {events:9} {seconds:8.3f} {growth(seconds, before)} {peak / 1e6:5.0f}")
        before = seconds
for number, kind in enumerate(("counting", "sharing", "handing")):
    options, before = "--servers 64 --workers 64", None
    for size in (2000, 4000):
        words = [program, "load", "--turns", "1000000000", "--number", str(number), "--size", str(size), *options.split()]
        seconds, status, out, peak = timed(words, runs=3)
        events = int(out.rsplit("\nevents ", 1)[1].split()[0])
        print(f"{kind:12} {options:38} {status:6} {events:9} {seconds:8.3f} {growth(seconds, before)} {peak / 1e6:5.0f}")
        before = seconds
PY
