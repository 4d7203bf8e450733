#!/usr/bin/env bash
# How long the program takes on large sources: for each shape a quarter, a half and a whole megabyte, with the seconds,
# the megabytes a second and how much longer twice the source takes. Needs the built program (./build).
#   bench/front.sh            all shapes
#   bench/front.sh lets       one of them; the shapes are those below
# Each is run to its end; some are refused: hostile text, and names that nothing declares. Each has the status that it must end with.
. "$(dirname "$0")/program.sh" drust_main ./build
work=$(mktemp -d)
trap 'rm -rf "$work"' EXIT

# a source of at most so many bytes, in that shape
source_of() {
  python3 - "$1" "$2" <<'PY'
import sys
shape, size = sys.argv[1], int(sys.argv[2])
def block(head, item, tail):
    parts, total, count = [], len(head) + len(tail), 0
    while True:
        text = item(count)
        if total + len(text) > size:
            break
        parts.append(text)
        total += len(text)
        count += 1
    return head + "".join(parts) + tail
if shape == "lets":        # variables with boxes, all dropped at the end
    print(block("{ ", lambda n: f"let mut v{n} = box {n}; ", "() }"))
elif shape == "prints":    # assignments through a box, and prints
    print(block("{ let mut x = box 0; ", lambda n: f"*x = {n}; print *x; ", "() }"))
elif shape == "depth":     # 60 blocks in one another, again and again
    deep = "{ " * 60 + "1" + " }" * 60 + "; "
    print(block("{ ", lambda n: deep, "() }"))
elif shape == "names":     # names of 32 bytes
    print(block("{ ", lambda n: f"let mut {'n' * 25}{n:07d} = {n}; ", "() }"))
elif shape == "list":      # a long list of constants
    print(block("{ ", lambda n: "1; ", "() }"))
elif shape == "sums":      # arithmetic, 60 levels deep, again and again
    deep = "(" * 60 + "1" + " + 1)" * 60 + "; "
    print(block("{ ", lambda n: deep, "() }"))
elif shape == "reborrows": # each reference is borrowed again from the one before it
    print(block("{ let mut v0 = 1; let mut v1 = &v0; ", lambda n: f"let mut v{n + 2} = &*v{n + 1}; ", "() }"))
elif shape == "mutably":   # the same, mutably
    print(block("{ let mut v0 = 1; let mut v1 = &mut v0; ", lambda n: f"let mut v{n + 2} = &mut *v{n + 1}; ", "() }"))
elif shape == "chain":     # each reference is to the one before it
    print(block("{ let mut v0 = 1; ", lambda n: f"let mut v{n + 1} = &v{n}; ", "() }"))
elif shape == "towers":    # boxes 60 levels deep, each moved once
    deep = "box " * 60
    print(block("{ ", lambda n: f"let mut v{n} = {deep}{n}; let mut w{n} = v{n}; ", "() }"))
elif shape == "moves":     # a box of 60 levels that is moved again and again
    deep = "box " * 60
    print(block("{ let mut v0 = " + deep + "1; ", lambda n: f"let mut v{n + 1} = v{n}; ", "() }"))
elif shape == "loans":     # many loans of one variable
    print(block("{ let mut x = box 1; ", lambda n: f"let mut v{n} = &*x; print *v{n}; ", "() }"))
elif shape == "blocks":    # loans that end with their block, again and again
    print(block("{ let mut x = 1; ", lambda n: "{ let mut r = &mut x; *r = (*r + 1) }; ", "print x }"))
elif shape == "turns":     # assignments to references at the end of two long chains
    count = size // 64
    head = "{ let mut a0 = 1; let mut b0 = 1; "
    head += "".join(f"let mut a{n + 1} = &a{n}; let mut b{n + 1} = &b{n}; " for n in range(count))
    last = f"let mut r = &a{count}; "
    print(block(head + last, lambda n: f"r = &b{count}; r = &a{count}; ", "() }"))
elif shape == "captures":  # one capture list
    print(block("{ spawn (x", lambda n: f", x{n}", ") { } }"))
elif shape == "threads":   # threads and locks
    print(block("{ ", lambda n: "par (x) { &x } (y) { lock *m as c { c } }; ", "() }"))
elif shape == "open":      # nothing but opening marks
    print(block("", lambda n: "{", ""))
elif shape == "stars":     # nothing but stars in a block
    print(block("{ ", lambda n: "*", ""))
elif shape == "parens":    # nothing but parentheses in a block
    print(block("{ ", lambda n: "(", ""))
elif shape == "reads":     # names of 32 bytes with nothing between them
    print(block("{ ", lambda n: f"{'n' * 25}{n:07d} ", ""))
elif shape == "long":      # a name that is too long, as long as the source
    print(block("{ ", lambda n: "n", " }"))
else:                      # a number of as many digits as fit
    print(block("{ ", lambda n: "9", " }"))
PY
}

printf '%-9s %10s %10s %10s %8s\n' shape bytes seconds MB/s growth
for row in lets:0 prints:0 depth:0 names:0 list:0 sums:0 reborrows:0 mutably:0 chain:0 towers:0 moves:0 loans:0 blocks:0 turns:0 captures:4 threads:4 open:3 stars:3 parens:3 reads:3 long:3 digits:3; do
  shape=${row%:*} status=${row#*:}
  [ "${1:-$shape}" = "$shape" ] || continue
  before=
  for size in 262144 524288 1048000; do
    source_of "$shape" "$size" > "$work/source"
    python3 - "$program" "$work/source" "$shape" "$status" "$before" <<'PY' > "$work/line"
import sys
from timed import growth, timed
program, path, shape, wanted, before = sys.argv[1:6]
with open(path) as source:
    text = source.read()
best, status, _, peak = timed([program, "run", "--turns", "1000000000"], text)
if status != int(wanted):
    sys.exit(f"{shape}: status {status} and not {wanted}")
size = len(text)
print(f"{shape:9} {size:10} {best:10.3f} {size / best / 1e6:10.1f} {growth(best, float(before) if before else None)}   {peak >> 20} MB")
print(best)
PY
    head -n 1 "$work/line"
    before=$(tail -n 1 "$work/line")
  done
done
