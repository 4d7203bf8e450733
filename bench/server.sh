#!/usr/bin/env bash
# How long an event takes that `Cluster::apply` does, by the kind of work: steps that print, writes of an object here, objects that are dropped, locks
# (messages to the server itself), locks of a mutex at another server, and prints at eight servers, each event drawn as in a run in rounds. Then
# threads: main starts them all, then the messages come that bring them, the oldest first, and then each steps and ends while the others are there. At
# last messages: main gives up objects, each with a message, and then these are drawn out of all that wait. Each is timed with 10,000 events, threads
# or messages and with ten times as many: how many messages wait and how many threads can step where the timed events begin, how many there
# are, their processor seconds (the best of some runs, less the best of runs that end where they begin), events a second, nanoseconds an
# event, and the growth. Needs the built program: rt run in crates/server_bench.
#   bench/server.sh
. "$(dirname "$0")/program.sh" server_bench '(cd crates/server_bench && rt run)'
exec python3 - "$program" <<'PY'
import sys
from timed import growth, timed
program = sys.argv[1]

# as often an item as so many events take, where each takes so many
def repeated(before, item, each, behind):
    return lambda events: before + item * (events // each + 1) + behind

def eight_threads(events):
    return "{" + ("spawn(){" + "print 1;" * (events // 8) + "()};") * 8 + "()}"

def many_threads(threads):
    return "{" + "spawn(){};" * threads + "()}"

def many_messages(messages):
    return "{let mut x=box 0;" + "x=box 1;" * messages + "()}"

def first(size):
    return 1, size + 1

# where main has started that many threads, there are as many messages that bring them, and as many of tasks that were dropped
def started(size):
    return 2 * size + 1

def given_up(size):
    return 2 * size + 4

# a kind: its source by the size, the order of events, the servers, and the events at whose end the timed ones begin and end
KINDS = {
    "prints": (repeated("{", "print 1;", 1, "()}"), "drawn", 1, first),
    "local writes": (repeated("{let mut x=box 0;", "*x=1;", 1, "()}"), "drawn", 1, first),
    "drops": (repeated("{let mut x=box 0;", "x=box 1;", 2, "()}"), "drawn", 1, first),
    "locks here": (repeated("{let mut m=mutex 0;", "lock m as a{};", 4, "()}"), "drawn", 1, first),
    "locks elsewhere": (repeated("{let mut m=mutex 0;let mut n=dup m;spawn(n){", "lock n as a{};", 4, "()};()}"), "drawn", 2, first),
    "prints at eight": (eight_threads, "drawn", 8, first),
    "threads start": (many_threads, "messages", 1, lambda size: (1, started(size))),
    "threads come": (many_threads, "messages", 1, lambda size: (started(size), started(size) + 2 * size)),
    "threads end": (many_threads, "messages", 1, lambda size: (started(size) + 2 * size, started(size) + 4 * size)),
    "objects given up": (many_messages, "main", 1, lambda size: (1, given_up(size))),
    "objects freed": (many_messages, "main", 1, lambda size: (given_up(size), given_up(size) + size)),
}

# the best processor seconds of a run until so many events were done, and what is left then
def run(kind, text, order, servers, events):
    words = [f"order={order}", f"servers={servers}", f"events={events}"]
    seconds, status, out, _ = timed([program, *words], text, processor=True, runs=5 if events > 50_000 else 15)
    left = {name: int(count) for name, count in map(str.split, out.splitlines())}
    if status != 0 or left["events"] != events:
        sys.exit(f"{kind}: status {status} and not {events} events")
    return seconds, left

print(f"{'work':17} {'waiting':>8} {'stepping':>8} {'events':>8} {'seconds':>8} {'events/s':>10} {'ns/event':>9} {'growth':>8}")
for kind, (source, order, servers, events) in KINDS.items():
    last = None
    for size in (10_000, 100_000):
        text, (begin, end) = source(size), events(size)
        before, left = run(kind, text, order, servers, begin)
        seconds = run(kind, text, order, servers, end)[0] - before
        each = seconds / (end - begin)
        print(f"{kind:17} {left['waiting']:8} {left['stepping']:8} {end - begin:8} {seconds:8.3f} {1 / each:10.0f} {each * 1e9:9.0f} {growth(each, last)}")
        last = each
PY
