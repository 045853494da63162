#!/usr/bin/env python3
"""Usage: bench/long.py SHELL FOLDER [RUNS [UPSERTS]]. A store that is used for long: so many RUNS (400) of the shell on one
store below FOLDER, each of so many UPSERTS (50,000) in transactions of ten over 20,000 rows. Prints the most memory that a
run has taken, the longest log that one has left, how long an opening takes at the end, how many rows there are, and the
time of all. A run writes the log anew where it has grown long since, so none of these grows with the runs.
"""
import os
import random
import resource
import shutil
import subprocess
import sys
import time

ROWS, IN_TRANSACTION, KEPT = 20_000, 10, 100  # so many transactions are told of before messages are let go


def script(rng, upserts):
    lines = ["settle"]
    for number in range(upserts // IN_TRANSACTION):
        lines.append("begin t")
        for _ in range(IN_TRANSACTION):
            lines += [f"upsert t key{rng.randrange(ROWS):012} value{rng.randrange(10 ** 9):09}", "settle"]
        lines += ["commit t", "settle"]
        if number % KEPT == 0:
            lines += ["forget", "tell", f"low {number}", "tend"]
    return "".join(f"{line}\n" for line in lines).encode()


def run(shell, store, text):
    """Plays a script on the store, which is made where it isn't there."""
    done = subprocess.run([shell, "run", "--create", "--store", store], input=text, capture_output=True)
    if done.returncode:
        sys.exit(f"{shell}: status {done.returncode}: {done.stdout[-200:]} {done.stderr[-200:]}")
    return done.stdout


def main(shell, folder, runs=400, upserts=50_000):
    store, rng, longest, begun = os.path.join(folder, "long_store"), random.Random(1), 0, time.monotonic()
    shutil.rmtree(store, ignore_errors=True)
    for _ in range(runs):
        run(shell, store, script(rng, upserts))
        longest = max(longest, os.path.getsize(os.path.join(store, "log")))
    took = time.monotonic() - begun
    most = resource.getrusage(resource.RUSAGE_CHILDREN).ru_maxrss
    begun = time.monotonic()
    run(shell, store, b"")
    opening = time.monotonic() - begun
    rows = run(shell, store, b"table\n").count(b"=")
    print(f"{runs * upserts} upserts in {runs} runs, {took:.0f} s: at most {most / 1024:.0f} MB of memory and "
          f"{longest / 1e6:.1f} MB of log; {rows} rows are opened in {opening:.2f} s")
    shutil.rmtree(store)


if __name__ == "__main__":
    if len(sys.argv) not in (3, 4, 5):
        sys.exit(__doc__)
    main(sys.argv[1], sys.argv[2], *map(int, sys.argv[3:]))
