#!/usr/bin/env python3
"""Usage: tests/engine.py BENCH SHELL [KILLS [MILLISECONDS]]. Clients of the engine under one lock, by built programs.

BENCH is a built bench_node, SHELL a built undo_shell. First eight clients of an engine commit for so many MILLISECONDS
(10,000 unless they are given), each as often as it gets its turn: the one with the least turns has at least a tenth of the
mean. Then four clients of an engine over one store count, each in a record of its own, and say each number once it is
committed; the process is killed at random, KILLS times (30), and the next one goes on. After each kill a record has the
last number that its client said, or the one after it, which was committed and not said. Exit status 1 where one differs.
"""
import os
import random
import shutil
import subprocess
import sys
import tempfile
import time

CLIENTS = 4


def turns(bench, lasts):
    """How often each of eight clients had its turn."""
    text = subprocess.run([bench, "x", "monitor-turns", str(lasts)], capture_output=True, text=True, check=True).stdout
    return [int(line.split()[1]) for line in text.splitlines() if "," not in line]


def are_fair(counts):
    least, mean = min(counts), sum(counts) / len(counts)
    print(f"turns of {len(counts)} clients: least {least}, mean {mean:.0f}")
    return len(counts) == 8 and 10 * least >= mean


def said(bench, folder, seconds):
    """The last number that each client has said before the process was killed."""
    with subprocess.Popen([bench, "x", "monitor-tells", "1000000", folder], stdout=subprocess.PIPE) as process:
        time.sleep(seconds)
        process.kill()
        text = process.stdout.read()
    last = {}
    for line in text.split(b"\n")[:-1]:
        client, number = line.split()
        last[int(client)] = int(number)
    return last


def rows(shell, folder):
    """The number that each client's record has."""
    text = subprocess.run([shell, "dump", "--store", folder], capture_output=True, text=True, check=True).stdout
    found = {}
    for line in text.splitlines():
        if "=" in line:
            key, value = line.split("=")
            found[ord(key) - ord("A")] = int(value[1:], 16)
    return found


def follows(before, last, after):
    """Whether a client's record is as it was, or has what was said, or one commit more."""
    return after in ((before, 1) if last is None else (last, last + 1))


def main():
    bench, shell = sys.argv[1:3]
    kills = int(sys.argv[3]) if len(sys.argv) > 3 else 30
    lasts = int(sys.argv[4]) if len(sys.argv) > 4 else 10_000
    right = are_fair(turns(bench, lasts))
    rng, before, told, differ = random.Random(1), {}, 0, 0
    folder = tempfile.mkdtemp()
    store = os.path.join(folder, "store")
    for _ in range(kills):
        last = said(bench, store, rng.uniform(0.02, 0.4))
        after = rows(shell, store)
        told += sum(last.values())
        differ += sum(not follows(before.get(c), last.get(c), after.get(c)) for c in range(CLIENTS))
        before = after
    shutil.rmtree(folder)
    print(f"kills {kills}, told commits {told}, records that differ {differ}")
    sys.exit(0 if right and differ == 0 else 1)


main()
