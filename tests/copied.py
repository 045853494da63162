#!/usr/bin/env python3
"""Usage: tests/copied.py SHELL. Copies a store again and again, `log` first and then `store`, while SHELL, a built
undo_shell, commits on it, and opens each copy: it has every commit that was told before its copying began. Prints how
many copies differ; exit status 1 where one does.
"""
import os
import shutil
import subprocess
import sys
import tempfile
import threading

COMMITS = 2000
LEAST = 10  # copies


def script():
    yield "settle"
    for number in range(1, COMMITS + 1):
        yield f"begin t\nupsert t n {number}\nsettle\ncommit t\nsettle\nforget"


def last_committed(shell, store):
    done = subprocess.run([shell, "dump", "--store", store], capture_output=True, text=True, timeout=60)
    rows = done.stdout.splitlines()
    if done.returncode != 0 or rows not in (["rows 0"], [rows[0], "rows 1"]):
        sys.exit(f"a copy isn't read: {done}")
    return int(rows[0].removeprefix("n=")) if len(rows) == 2 else 0


def main(shell):
    with tempfile.TemporaryDirectory() as folder:
        store, copy = os.path.join(folder, "store"), os.path.join(folder, "copy")
        subprocess.run([shell, "run", "--create", "--store", store], input=b"settle\n", stdout=subprocess.DEVNULL, check=True)
        with open(os.path.join(folder, "script"), "w") as text:
            text.write("\n".join(script()))
        with open(os.path.join(folder, "script")) as text:
            process = subprocess.Popen([shell, "run", "--store", store], stdin=text, stdout=subprocess.PIPE)
        told = 0

        def listen():
            nonlocal told
            for line in process.stdout:
                told += line.startswith(b"committed ")

        listener = threading.Thread(target=listen)
        listener.start()
        copies = wrong = 0
        while process.poll() is None or copies < LEAST:
            before = told
            shutil.rmtree(copy, ignore_errors=True)
            os.mkdir(copy)
            for name in ("log", "store"):
                shutil.copyfile(os.path.join(store, name), os.path.join(copy, name))
            found = last_committed(shell, copy)
            copies += 1
            if found < before or found > COMMITS:
                wrong += 1
                print(f"copy {copies}: {before} commits were told, {found} are there")
        listener.join()
        if process.wait() != 0 or told != COMMITS or last_committed(shell, store) != COMMITS:
            sys.exit(f"the run ended with {process.returncode}, and {told} commits")
    print(f"{COMMITS} commits, copied meanwhile: {wrong} wrong")
    return wrong != 0


if __name__ == "__main__":
    sys.exit(main(os.path.abspath(sys.argv[1])))
