#!/usr/bin/env python3
"""Usage: bench/store.py SHELL FOLDER [COMMITS]. How fast SHELL, a built undo_shell, commits on a store, beside SQLite.

Makes two databases in FOLDER, one after the other: a store, and one of SQLite with a log of its own (WAL) that is synced
at each commit (synchronous FULL), by Python's sqlite3. Each gets COMMITS transactions (2,000 if not given) of one upsert
of a value of 60 bytes over 1,000 keys; then it is opened again and read whole. Prints the seconds of both, three rounds
one after another: of the commits, and of the opening. A store's time has the start of the process and the reading of
its script in it, and an opening performs again what the log has.
"""
import os
import shutil
import sqlite3
import subprocess
import sys
import time

KEYS = 1000
VALUE = "v" * 60


def script(commits):
    """One transaction after another, each sent before it is stable and forced once, at its commit."""
    lines = []
    for n in range(commits):
        lines += [f"begin t{n}", f"upsert t{n} k{n % KEYS:04} {VALUE}", f"send t{n}", "req 1", "rep 1", "forget",
                  f"commit t{n}", "force", "tend"]
    return "\n".join(lines) + "\n"


def shell(program, store, text):
    start = time.monotonic()
    ran = subprocess.run([program, "run", "--create", "--store", store], input=text.encode(), capture_output=True)
    took = time.monotonic() - start
    if ran.returncode:
        sys.exit(f"{program}: status {ran.returncode}: {ran.stdout[-200:]} {ran.stderr[-200:]}")
    return took, ran.stdout.decode()


def store_times(program, folder, commits):
    store = f"{folder}/store"
    took, told = shell(program, store, script(commits))
    if told.count("committed") != commits:
        sys.exit(f"{told.count('committed')} commits were told, not {commits}")
    opened, read = shell(program, store, "table\n")
    if f"rows {min(commits, KEYS)}\n" not in read:
        sys.exit("the store was opened with other rows")
    size = os.path.getsize(f"{store}/log")
    shutil.rmtree(store)
    return took, opened, size


def sqlite_times(folder, commits):
    path = f"{folder}/sqlite"
    start = time.monotonic()
    db = sqlite3.connect(path, isolation_level=None)
    db.execute("pragma journal_mode = wal")
    db.execute("pragma synchronous = full")
    db.execute("create table rows (key text primary key, value text) without rowid")
    for n in range(commits):
        db.execute("begin")
        db.execute("insert or replace into rows values (?, ?)", (f"k{n % KEYS:04}", VALUE))
        db.execute("commit")
    took = time.monotonic() - start
    # What a kill leaves: the log isn't moved into the database.
    shutil.copy(path, f"{path}2")
    shutil.copy(f"{path}-wal", f"{path}2-wal")
    size = os.path.getsize(path) + os.path.getsize(f"{path}-wal")
    db.close()
    start = time.monotonic()
    db = sqlite3.connect(f"{path}2")
    rows = len(db.execute("select * from rows").fetchall())
    opened = time.monotonic() - start
    db.close()
    if rows != min(commits, KEYS):
        sys.exit("SQLite was opened with other rows")
    for name in os.listdir(folder):
        if name.startswith("sqlite"):
            os.remove(f"{folder}/{name}")
    return took, opened, size


def main(program, folder, commits="2000"):
    commits = int(commits)
    os.makedirs(folder, exist_ok=True)
    for _ in range(3):
        for name, (took, opened, size) in (("store", store_times(program, folder, commits)),
                                           ("SQLite", sqlite_times(folder, commits))):
            print(f"{name}: {commits} commits in {took:.2f} s, {commits / took:,.0f} a second; opened and read in"
                  f" {opened:.3f} s; {size:,} bytes")


if __name__ == "__main__":
    if len(sys.argv) not in (3, 4):
        sys.exit(__doc__)
    main(*sys.argv[1:])
