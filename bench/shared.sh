#!/usr/bin/env bash
# How long replays of programs with mutexes and pairs of threads take: a source that locks and unlocks one mutex again and again, one that
# makes and drops shares of it, and one that starts pair after pair, each as large as a source with its order may be, and a half and a quarter
# of that. More don't fit into the megabyte that a source and its order may have: it holds some 144,000 steps of locks and unlocks, 320,000 of
# shares, and 56,000 of pairs and their threads. Beside each stands the time up to the end of the checker (the same source with a fault in its
# last term), so that the difference is the replay, what it takes a step, and the memory of both. The seconds are processor seconds. Needs the
# built program (./build).
#   bench/shared.sh
. "$(dirname "$0")/program.sh" drust_main ./build
exec python3 - "$program" <<'PY'
import sys
from timed import growth, timed
program = sys.argv[1]
LIMIT = 1_048_576

# so many locks without a lock's body, shares that are dropped at once, or pairs of threads that end at once: source, order and steps
def locks(many, last):
    return "{let mut m=mutex 1;" + "lock m as x{};" * many + last + "}", f"0.0 mutex 0.1\n0.0 {2 * many + 4}\n", 2 * many + 5

def shares(many, last):
    return "{let mut m=mutex 1;" + "dup m;" * many + last + "}", f"0.0 mutex 0.1\n0.0 {2 * many + 4}\n", 2 * many + 5

def pairs(many, last):
    order = []
    for n in range(1, 2 * many, 2):
        order.append(f"0.0 threads 0.{n} 0.{n + 1}\n0.{n} 1\n0.{n + 1} 1\n0.0 1\n")
    return "{" + "par(){}(){};" * many + last + "}", "".join(order) + "0.0 2\n", 4 * many + 2

def replayed(source, order, wanted):
    if len(source) + len(order) + 2 > LIMIT:
        sys.exit(f"{len(source) + len(order)} bytes are too many")
    seconds, status, out, peak = timed([program, "replay"], source + "%\n" + order, processor=True)
    if status != wanted:
        sys.exit(f"status {status} and not {wanted}: {out}")
    return seconds, out, peak

print(f"{'what':>7} {'many':>7} {'steps':>8} {'seconds':>8} {'checked':>8} {'replay':>8} {'ns/step':>8} {'growth':>8} {'MB':>6} {'checked':>8}")
for name, make, most in (("locks", locks, 72_000), ("shares", shares, 160_000), ("pairs", pairs, 14_000)):
    before = None
    for many in (most // 4, most // 2, most):
        fault = "print y"
        source, order, steps = make(many, "print 1")
        whole, out, peak = replayed(source, order, 0)
        if int(out.split()[-1]) != steps:
            sys.exit(f"{name}: {out.split()[-1]} steps and not {steps}")
        front, _, front_peak = replayed(make(many, fault)[0], order, 4)
        run = whole - front
        print(f"{name:>7} {many:7} {steps:8} {whole:8.3f} {front:8.3f} {run:8.3f} {run / steps * 1e9:8.0f} {growth(run, before)} {peak >> 20:6} {front_peak >> 20:8}")
        before = run
PY
