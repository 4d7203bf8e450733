"""How the benchmarks time a program."""
import os, subprocess, time

def timed(command, text="", processor=False, runs=5):
    """The best of so many runs with that text on standard input: its seconds, or its processor seconds, which other work on the machine
    changes less; of the last run the exit status and the output; and the most memory that any of them took, in bytes (never less than
    this interpreter's own, since they start as copies of it)."""
    best, peak = None, 0
    for _ in range(runs):
        start = time.perf_counter()
        process = subprocess.Popen(command, stdin=subprocess.PIPE, stdout=subprocess.PIPE)
        process.stdin.write(text.encode())
        process.stdin.close()
        out = process.stdout.read()
        _, status, usage = os.wait4(process.pid, 0)
        taken = usage.ru_utime + usage.ru_stime if processor else time.perf_counter() - start
        best = taken if best is None else min(best, taken)
        peak = max(peak, usage.ru_maxrss * 1024)
    return best, os.waitstatus_to_exitcode(status), out.decode(), peak

def growth(now, before):
    """How many times as much as before, in a column of eight; a dash where nothing was before."""
    return f"{now / before:8.2f}" if before else "       -"
