#!/usr/bin/env bash
# How long one server takes for each event, by the kind of work: steps that print, writes of an object here, objects that are dropped, locks and
# unlocks (messages to itself), and threads that start at once; each with so many times the work and ten times as much, with the nanoseconds an
# event (without what the front takes, which is timed by a run of one turn) and the growth. Needs the built program (./build).
#   bench/events.sh
. "$(dirname "$0")/program.sh" drust_main ./build
exec python3 - "$program" <<'PY'
import sys
from timed import growth, timed
program = sys.argv[1]
KINDS = {
    "prints": ("{ ", "print 1;", "()}", 100000),
    "local writes": ("{ let mut x = box 0; ", "*x=1;", "()}", 100000),
    "drops": ("{ let mut x = box 0; ", "x=box 1;", "()}", 100000),
    "messages to itself": ("{ let mut m = mutex 0; ", "lock m as a{};", "()}", 60000),
    "threads": ("{ ", "spawn(){};", "()}", 100000),
}

print(f"{'work':20} {'times':>7} {'status':>6} {'events':>9} {'seconds':>8} {'front':>8} {'ns/event':>9} {'growth':>8}")
for kind, (before, item, behind, most) in KINDS.items():
    last = None
    for times in (most // 10, most):
        source = before + item * times + behind
        words = [program, "run", "--turns", "1000000000", "--servers", "1"]
        seconds, status, out, peak = timed(words, source, processor=True)
        front, _, _, _ = timed([program, "run", "--turns", "1", "--servers", "1"], source, processor=True)
        events = int(out.split("\nevents ")[1].split()[0])
        each = (seconds - front) / events
        print(f"{kind:20} {times:7} {status:6} {events:9} {seconds:8.3f} {front:8.3f} {each * 1e9:9.0f} {growth(each, last)}")
        last = each
PY
