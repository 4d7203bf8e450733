#!/usr/bin/env bash
# What it takes to check a journal and to write its texts: of legal journals of 250,000 and of 1,000,000 entries, the processor seconds
# of `legal`, of `order_text` and of `trace_text`, how much they grow, and how many megabytes of text a second are written. Each is done
# several times in a run, and what an empty run takes is subtracted. Needs the built program: rt run in crates/journal_bench.
. "$(dirname "$0")/program.sh" journal_bench '(cd crates/journal_bench && rt run)'
exec python3 - "$program" <<'PY'
import sys
from timed import growth, timed
program = sys.argv[1]
TIMES = {"nothing": 1, "legal": 5, "order": 50, "trace": 5}

def run(entries, task):
    seconds, status, out, peak = timed([program, str(entries), task, str(TIMES[task])], processor=True)
    if status != 0:
        sys.exit(f"status {status}")
    return seconds, int(out.split()[-1]), peak

before = {}
print(f"{'entries':>10} {'task':>8} {'seconds':>10} {'growth':>8} {'MB/second':>10} {'MB':>8}")
for entries in (250_000, 1_000_000):
    empty, _, _ = run(entries, "nothing")
    for task in ("legal", "order", "trace"):
        taken, size, peak = run(entries, task)
        each = (taken - empty) / TIMES[task]
        speed = f"{'-':>10}" if task == "legal" else f"{size / each / 1e6:10.1f}"
        print(f"{entries:10} {task:>8} {each:10.4f} {growth(each, before.get(task))} {speed} {peak / 1e6:8.1f}")
        before[task] = each
PY
