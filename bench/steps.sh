#!/usr/bin/env bash
# How long steps take, on one server and on the plain machine: sources of a megabyte at most that run for some 250,000, 500,000 and 1,000,000 steps in
# blocks 50 levels deep, with boxes made, read and dropped among them. Beside each stands the time of the same source up to the end
# of the checker, where its last term is refused, so that the difference is the run, and the time of its replay under an order that
# is one line. Needs the built program (./build).
#   bench/steps.sh
. "$(dirname "$0")/program.sh" drust_main ./build
exec python3 - "$program" <<'PY'
import sys
from timed import growth, timed
program = sys.argv[1]

# so many rounds of reads at every depth, a box at the innermost one
def source(rounds, last):
    deep, inner = 50, "x;" * 1000 + "box x;" + "let mut b = box x; *b = 2; *b;"
    tower = "{" * deep + inner + "x;" * 1000 + "}" * deep + "; "
    return "{ let mut x = 1; " + tower * rounds + last + " }"

def ended(text, word, wanted):
    turns = ["--turns", "1000000000"] if word == "run" else []
    seconds, status, out, peak = timed([program, word, *turns], text)
    if status != wanted:
        sys.exit(f"status {status} of the {word}, and not {wanted}")
    return seconds, out, peak

print(f"{'bytes':>9} {'steps':>9} {'seconds':>8} {'checked':>8} {'run':>8} {'growth':>8} {'replay':>8}")
before = None
for rounds in (62, 125, 250):
    text = source(rounds, "print x")
    whole, out, peak = ended(text, "run", 0)
    steps = int(out.split("\nsteps ")[1].split()[0])
    front, _, _ = ended(source(rounds, "print y"), "run", 4)
    run = whole - front
    again, _, _ = ended(text + f"%\n0.0 {steps}\n", "replay", 0)
    print(f"{len(text):9} {steps:9} {whole:8.3f} {front:8.3f} {run:8.3f} {growth(run, before)} {again:8.3f}   {peak >> 20} MB")
    before = run
PY
