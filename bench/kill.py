#!/usr/bin/env python3
"""Usage: bench/kill.py SHELL RUNS [SEED]. Kills the shell, a built undo_shell, amid random scripts on a store.

Each run opens the store that the run before it has left, settles, prints the records, and goes on with a script that it
doesn't live to end: it is killed by SIGKILL after a random time, or once it has printed a random number of lines. What it
printed is compared with a plain model (store_model.py): each answer, row and table, and after the next opening that
every commit that was told is there, that nothing is there of a transaction that hasn't committed, and that the node
settles. Each twentieth run begins a new store, and half of these are killed while they make it. In each fourth run the
log's file can't grow beyond some size, and forces fail: standard error may say so then, and of what else may befall a
run. Before each third run the store's log is written anew, by a process that most times is killed amid that. At times a
second shell is started beside the first, and must be refused the store. Prints a count; where something differs, what,
and the folder that has the script, the text and the store, exit status 1.
A kill takes no byte from the system that was handed to it, so this shows nothing of a machine that stops.
"""
import os
import random
import re
import resource
import shutil
import signal
import subprocess
import sys
import tempfile
import threading

sys.dont_write_bytecode = True
from store_model import Differs, Model, Writer, follow

LINES = 3000
LONGEST = 1.5  # seconds of a run
MAKING = 0.02  # seconds in which a store is made
COMPACTING = 0.02  # seconds in which a log is written anew
EACH = 20  # runs on a store
# What a run may say on standard error, a line each.
TOLD = re.compile(r"undo_shell: (.*: a torn block of [0-9]+ bytes at byte [0-9]+ is left out|NotConnected: .*)")
UNWRITTEN = re.compile(r"undo_shell: .*: cannot (write|sync) the store's file `log`: File too large.*")
NO_STORE = b"no store: "


class Run:
    """A run of a script that is killed: what it printed, and how it ended."""

    def __init__(self, shell, store, script, chance, longest, room):
        with tempfile.TemporaryFile() as given:
            given.write("\n".join(script).encode())
            given.seek(0)
            process = subprocess.Popen([shell, "run", "--continue", "--create", "--store", store], stdin=given,
                                       stdout=subprocess.PIPE, stderr=subprocess.PIPE, restore_signals=False)
        timer = threading.Timer(chance.uniform(0, longest), process.kill)
        most = chance.choice([None, chance.randrange(1, LINES)])
        has_second = chance.random() < 0.05
        self.second_ran = False
        self.is_limited = room is not None
        printed = []
        timer.start()
        for line in process.stdout:
            printed.append(line)
            if room is not None and line.startswith(b"rows "):
                limit(process, os.path.getsize(os.path.join(store, "log")) + room)
                room = None
            if has_second and len(printed) == 2:
                self.second_ran = runs_beside(shell, store, process)
            if len(printed) == most:
                process.kill()
        self.text = b"".join(printed)
        self.fault = process.stderr.read().decode(errors="replace").strip()
        self.status = process.wait()
        timer.cancel()
        process.stdout.close()
        process.stderr.close()

    def check(self):
        for line in self.fault.splitlines():
            if not TOLD.fullmatch(line) and not (self.is_limited and UNWRITTEN.fullmatch(line)):
                raise Differs(f"exit status {self.status}: {self.fault}")
        if self.status not in (-signal.SIGKILL, 0, 3):
            raise Differs(f"exit status {self.status}: {self.fault}")
        if self.second_ran:
            raise Differs("a second shell wasn't refused the store")


def limit(process, size):
    """From now on no file of the process grows beyond this size: a write there fails, as on a full disk."""
    try:
        resource.prlimit(process.pid, resource.RLIMIT_FSIZE, (size, size))
    except ProcessLookupError:
        pass  # killed meanwhile


def runs_beside(shell, store, process):
    """Whether a second shell isn't refused the store while the first has it."""
    beside = subprocess.run([shell, "run", "--store", store], input=b"table\n", capture_output=True)
    is_refused = beside.returncode == 2 and beside.stderr and not beside.stdout
    # Where the first was killed before the second began, that may have the store.
    return not is_refused and process.poll() is None


def compact(shell, store, chance):
    """Writes the log anew, or is killed before that is done. Gives whether it was done. Where a kill came while the store
    was made there may be none."""
    process = subprocess.Popen([shell, "compact", "--store", store], stdout=subprocess.PIPE, stderr=subprocess.PIPE)
    timer = threading.Timer(chance.choice([COMPACTING, 60]) * chance.random(), process.kill)
    timer.start()
    _, fault = process.communicate()
    timer.cancel()
    if process.returncode == 2 and NO_STORE in fault and not is_made(store):
        return False
    if process.returncode not in (-signal.SIGKILL, 0) or fault and b"torn block" not in fault:
        raise Differs(f"compact: exit status {process.returncode}: {fault.decode(errors='replace')}")
    return process.returncode == 0


def is_made(store):
    """Whether the folder has a store: its mark has a number, which takes 33 bytes."""
    try:
        return os.path.getsize(os.path.join(store, "store")) >= 33
    except FileNotFoundError:
        return False


def main(shell, runs, seed):
    chance = random.Random(seed)
    folder = tempfile.mkdtemp()
    store = os.path.join(folder, "store")
    killed = full = lines = commits = untold = renewals = renewed = 0
    for number in range(runs):
        longest = LONGEST
        if number % EACH == 0:
            shutil.rmtree(store, ignore_errors=True)
            model = Model()
            longest = chance.choice([MAKING, LONGEST])
        elif chance.random() < 1 / 3:
            renewals += 1
            model.renew()
            try:
                renewed += compact(shell, store, chance)
            except Differs as error:
                print(f"run {number + 1} of seed {seed}, {folder}: {error}")
                return 1
        before = len(model.told), model.untold
        # A node whose log can't grow may not get to rest, and only then the model knows what a crash has left.
        room = chance.choice([None, None, None, chance.randrange(4000)])
        script = Writer(chance, room is None).script(LINES)
        run = Run(shell, store, script, chance, longest, room)
        try:
            run.check()
            lines += follow(model, script, run.text)
        except Differs as error:
            keep(folder, script, run.text)
            print(f"run {number + 1} of seed {seed}, {folder}: {error}")
            return 1
        full += b"no 10 Device" in run.text and room is not None
        killed += run.status == -signal.SIGKILL
        commits += len(model.told) - before[0]
        untold += model.untold - before[1]
    shutil.rmtree(folder)
    print(f"{runs} runs, {killed} of them killed and {full} with a full disk; {lines} lines, {commits} commits, {untold} of them told by the records "
          f"alone; {renewals} renewals, {renewed} of them not killed; 0 differ")
    return 0


def keep(folder, script, text):
    with open(os.path.join(folder, "script"), "w") as out:
        out.write("\n".join(script) + "\n")
    with open(os.path.join(folder, "text"), "wb") as out:
        out.write(text)


if __name__ == "__main__":
    if len(sys.argv) not in (3, 4):
        sys.exit(__doc__)
    sys.exit(main(os.path.abspath(sys.argv[1]), int(sys.argv[2]), int(sys.argv[3]) if len(sys.argv) == 4 else 1))
