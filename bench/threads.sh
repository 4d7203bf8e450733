#!/usr/bin/env bash
# How long replays over many threads take: a source that starts some 250, 500 and 1,000 threads of 1,000 steps each, with an order
# behind it in which each of them steps to its end, the last one started first. Beside each stands the time up to the end of the
# checker (the same source with a fault in its last term), so that the difference is the replay; and the memory of both. Then the
# same number of steps under orders of more and more lines. At last threads that start one after another, each when the one before has
# ended, with the bytes of memory that a thread more takes beyond what the checker had. Needs the built program (./build).
#   bench/threads.sh
. "$(dirname "$0")/program.sh" drust_main ./build
exec python3 - "$program" <<'PY'
import sys
from timed import growth, timed
program = sys.argv[1]
# a thread reads its one variable and drops what it read, again and again, drops the variable, and ends
READS = 499
STEPS = 2 * READS + 2

def source(threads, last):
    body = "x;" * READS + "()"
    return "{let mut x=1;" + f"spawn(x){{{body}}};" * threads + last + "}"

# main starts all threads, then each of them steps to its end, `lines` lines each, and then main ends
def order(threads, lines):
    text, part = ["0.0 1\n"], STEPS // lines
    for n in range(1, threads + 1):
        text.append(f"0.0 thread 0.{n}\n0.0 1\n")
    for n in range(threads, 0, -1):
        text.append(f"0.{n} {part}\n" * (lines - 1) + f"0.{n} {STEPS - part * (lines - 1)}\n")
    text.append("0.0 4\n")
    return "".join(text)

# the steps: main's own, those that start and discard a task, and the threads'
def steps(threads):
    return 1 + 2 * threads + STEPS * threads + 4

def replayed(text):
    if len(text) > 1_048_576:
        sys.exit(f"{len(text)} bytes are too many")
    return timed([program, "replay"], text)

def row(threads, lines, before):
    text = source(threads, "print x") + "%\n" + order(threads, lines)
    whole, status, out, peak = replayed(text)
    if status != 0 or int(out.split()[-1]) != steps(threads):
        sys.exit(f"status {status}: {out}")
    front, status, _, front_peak = replayed(source(threads, "print y") + "%\n" + order(threads, lines))
    if status != 4:
        sys.exit(f"status {status} of the refused source")
    run = whole - front
    print(f"{threads:7} {steps(threads):9} {2 * threads + threads * lines + 2:7} {len(text):9} {whole:8.3f} {front:8.3f} {run:8.3f} {growth(run, before)} {peak >> 20:6} {front_peak >> 20:6}")
    return run

print(f"{'threads':>7} {'steps':>9} {'lines':>7} {'bytes':>9} {'seconds':>8} {'checked':>8} {'replay':>8} {'growth':>8} {'MB':>6} {'checked':>6}")
before = None
for threads in (250, 500, 1000):
    before = row(threads, 1, before)
for lines in (1, 10, 100):
    row(250, lines, None)

# so many threads that end at once
def ended(threads):
    source = "{" + "spawn(){};" * threads
    order = "".join(f"0.0 thread 0.{n}\n0.{n} 1\n0.0 1\n" for n in range(1, threads + 1)) + "0.0 2\n"
    _, status, out, peak = replayed(source + "print 1}%\n" + order)
    if status != 0 or int(out.split()[-1]) != 3 * threads + 2:
        sys.exit(f"status {status}: {out}")
    _, status, _, front_peak = replayed(source + "print y}%\n" + order)
    if status != 4:
        sys.exit(f"status {status} of the refused source")
    return peak, front_peak

print(f"{'ended':>7} {'MB':>6} {'checked':>7} {'bytes/thread':>12}")
last = None
for threads in (5_500, 11_000, 22_000):
    peak, front = ended(threads)
    more = peak - front - last[0] + last[1] if last else 0
    each = f"{more / (threads - last[2]):12.0f}" if more > 0 else f"{'-':>12}"
    print(f"{threads:7} {peak >> 20:6} {front >> 20:7} {each}")
    last = (peak, front, threads)
PY
