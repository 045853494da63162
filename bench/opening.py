#!/usr/bin/env python3
"""Usage: bench/opening.py SHELL FOLDER [COMMITS KEYS EACH].. How long SHELL, a built undo_shell, opens a store.

Makes in FOLDER, one after another, a store of COMMITS transactions of EACH upserts of a value of 60 bytes over KEYS keys,
opens it three times and prints the milliseconds for each 1,000 commits by the least, and the most memory that the
process took, beside the bytes of the log. The start of the process is in it; the records aren't printed. Where nothing
is said, the stores have 20,000 commits of one upsert over 1,000, 5,000 and 20,000 keys, and 100,000 of ten over 100,000.
"""
import os
import shutil
import subprocess
import sys
import time

VALUE = "v" * 60
STORES = [20000, 1000, 1, 20000, 5000, 1, 20000, 20000, 1, 100000, 100000, 10]


def script(commits, keys, each):
    """Each operation is sent before it is stable. The log is forced once, at the commit, and the other component told:
    before that no leaf is split that an operation has changed. As many leaves are tended then as it may be."""
    number = 0
    for txn in range(commits):
        yield f"begin t{txn}\n"
        for _ in range(each):
            # Keys are scattered: the step has no factor in common with these counts.
            yield f"upsert t{txn} k{number * 7919 % keys:07} {VALUE}\nsend t{txn}\nreq 1\nrep 1\nforget\n"
            number += 1
        yield f"commit t{txn}\nforce\ntell\nreq 1\nforget\n" + each * "tend\n"


def make(program, store, commits, keys, each):
    shell = subprocess.Popen([program, "run", "--create", "--store", store], stdin=subprocess.PIPE, stdout=subprocess.DEVNULL)
    for lines in script(commits, keys, each):
        shell.stdin.write(lines.encode())
    shell.stdin.close()
    if shell.wait():
        sys.exit(f"{program}: status {shell.returncode}")


def opened(program, store):
    """The seconds of an opening, and the most memory that it took, in bytes."""
    begin = time.monotonic()
    shell = subprocess.Popen([program, "run", "--store", store], stdin=subprocess.DEVNULL, stdout=subprocess.DEVNULL)
    _, status, used = os.wait4(shell.pid, 0)
    shell.returncode = status
    if status:
        sys.exit(f"{program}: status {status}")
    return time.monotonic() - begin, used.ru_maxrss * 1024


def main(program, folder, *numbers):
    numbers = [int(number) for number in numbers] or STORES
    os.makedirs(folder, exist_ok=True)
    store = os.path.join(folder, "store")
    for at in range(0, len(numbers), 3):
        commits, keys, each = numbers[at:at + 3]
        make(program, store, commits, keys, each)
        size = os.path.getsize(os.path.join(store, "log"))
        took, memory = min(opened(program, store) for _ in range(3))
        print(f"{commits} commits of {each} over {keys} keys: {took:.3f} s, {took / commits * 1e6:.1f} ms for each 1,000;"
              f" {memory / size:.1f} bytes of memory for each of {size}")
        shutil.rmtree(store)


if __name__ == "__main__":
    if len(sys.argv) < 3 or len(sys.argv) % 3:
        sys.exit(__doc__)
    main(*sys.argv[1:])
