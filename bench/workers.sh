#!/usr/bin/env bash
# What workers beside each other save and cost: the seconds of a run with 1, 2, 4 and 8 workers, the best of some runs that take turns, and each
# against that with one worker. First eight long threads on eight servers, each with nothing to wait for, in short and in long rounds: there is
# as much parallel work as may be. Then one long thread, and generated programs of the three kinds, in which threads wait for each other: there
# is hardly any. Needs the built program (./build).
#   bench/workers.sh [RUNS]
. "$(dirname "$0")/program.sh" drust_main ./build
exec python3 - "$program" "${1:-5}" <<'PY'
import subprocess, sys, time
program, runs = sys.argv[1], int(sys.argv[2])
WORKERS = (1, 2, 4, 8)

# so many threads that step by themselves, for so many turns each
def long_threads(threads, turns):
    names = [chr(ord("a") + n) for n in range(threads)]
    body = "{ let mut x = 1" + "; x = (x + 1)" * turns + " }"
    return "{ " + "; ".join([f"let mut {name} = spawn () {body}" for name in names] + [f"join {name}" for name in names]) + " }"

def run(words, text):
    start = time.perf_counter()
    done = subprocess.run([program, *words], input=text.encode(), stdout=subprocess.PIPE)
    return time.perf_counter() - start, done.stdout

def row(name, words, text=""):
    best, written = {}, set()
    for _ in range(runs):
        for workers in WORKERS:
            seconds, out = run([*words, "--servers", "8", "--workers", str(workers)], text)
            best[workers] = min(seconds, best.get(workers, seconds))
            written.add(out)
    if len(written) != 1:
        sys.exit(f"{name}: what is written depends on the workers")
    events = int(written.pop().decode().split("\nevents ")[1].split()[0])
    print(f"{name:24} {events:9} " + " ".join(f"{best[workers]:8.3f}" for workers in WORKERS) + "   " + " ".join(f"{best[workers] / best[1]:6.2f}" for workers in WORKERS[1:]))

print(f"{'program':24} {'events':>9} " + " ".join(f"{workers:8}" for workers in WORKERS) + "   " + " ".join(f"{workers:6}" for workers in WORKERS[1:]))
eight, one = long_threads(8, 4000), long_threads(1, 30000)
for quantum in ("16", "128", "1024"):
    row(f"eight threads, {quantum}", ["run", "--quantum", quantum], eight)
for quantum in ("16", "1024"):
    row(f"one thread, {quantum}", ["run", "--quantum", quantum], one)
for number, kind in enumerate(("counting", "sharing", "handing")):
    for quantum in ("16", "1024"):
        row(f"{kind}, {quantum}", ["load", "--number", str(number), "--size", "2000", "--quantum", quantum])
PY
