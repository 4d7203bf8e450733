#!/usr/bin/env bash
# What a call on the memory of one server costs: makes, stores and frees of 100,000 and of 1,000,000 objects, with the
# nanoseconds a round (a make, a store and a third of a free), how much a round's time grows, and the bytes of memory for
# each address in use, where they are more than the timing itself takes. Needs the built program: rt run in crates/memory_bench.
. "$(dirname "$0")/program.sh" memory_bench '(cd crates/memory_bench && rt run)'
exec python3 - "$program" <<'PY'
import sys
from timed import growth, timed
program = sys.argv[1]

def run(rounds):
    seconds, status, out, peak = timed([program, str(rounds)])
    if status != 0:
        sys.exit(f"status {status}")
    return seconds, peak, int(out.split()[3])

empty, base, _ = run(0)
before = None
print(f"{'rounds':>10} {'seconds':>10} {'ns/round':>10} {'growth':>8} {'bytes/address':>14}")
for rounds in (100_000, 1_000_000):
    taken, peak, used = run(rounds)
    each = (taken - empty) / rounds * 1e9
    room = f"{(peak - base) / used:14.1f}" if peak > base else f"{'-':>14}"
    print(f"{rounds:10} {taken:10.3f} {each:10.1f} {growth(each, before)} {room}")
    before = each
PY
