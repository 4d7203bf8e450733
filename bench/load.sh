#!/usr/bin/env bash
# How long generated programs take on servers: of each of the three kinds (counting under a mutex, sharing a box, handing a box on) the
# sizes 1000, 2000 and 4000, on one server and on eight, with the events, the events a second, the growth of the time of an event, and the
# bytes an event at the peak of memory. Needs the built program (./build).
#   bench/load.sh
. "$(dirname "$0")/program.sh" drust_main ./build
exec python3 - "$program" <<'PY'
import sys
from timed import growth, timed
program = sys.argv[1]
KINDS = ("counting", "sharing", "handing")

print(f"{'kind':9} {'servers':>7} {'size':>5} {'status':>6} {'events':>9} {'seconds':>8} {'events/s':>10} {'growth':>8} {'bytes':>6}")
for number, kind in enumerate(KINDS):
    for servers in (1, 8):
        before = None
        for size in (1000, 2000, 4000):
            words = ["load", "--number", str(number), "--size", str(size), "--servers", str(servers), "--turns", "1000000000"]
            seconds, status, out, peak = timed([program, *words])
            events = int(out.split("\nevents ")[1].split()[0])
            each = seconds / events
            print(f"{kind:9} {servers:7} {size:5} {status:6} {events:9} {seconds:8.3f} {events / seconds:10.0f} {growth(each, before)} {peak / events:6.0f}")
            before = each
PY
