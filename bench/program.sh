# For the benchmarks, which source it: goes to the project's root, sets `program` to the built program of that crate, lets Python
# find timed.py, and asks for large pages as ./drust does (GLIBC_TUNABLES= bench/load.sh measures without them). Stops with the
# command that builds the program where it isn't built.
#   . bench/program.sh CRATE COMMAND
set -eu
cd "$(dirname "$0")/.."
program=crates/$1/out/$1
[ -x "$program" ] || { echo "build the program first: $2" >&2; exit 1; }
export PYTHONPATH=bench PYTHONDONTWRITEBYTECODE=1
export GLIBC_TUNABLES=${GLIBC_TUNABLES-glibc.malloc.hugetlb=1}
