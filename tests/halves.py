#!/usr/bin/env python3
"""Usage: tests/halves.py SHELL. The two halves of a node as processes, joined by pipes: messages that a script names by
their numbers, and the pages that the data component keeps.

Prints each check that fails, then the counts; exit status 1 where one fails.
"""
import os
import selectors
import shutil
import struct
import subprocess
import sys
import tempfile

TICK = struct.pack(">Q", 0)

# What one process prints of these, `tc` prints too, but for the lines `req`: what comes of a request it doesn't know.
BY_HAND = """connect
req 1
rep 1
recover
req 2
rep 2
begin t
insert t a 1
send t
req 3
rep 3
rep 3
insert t b 2
send t
req 4
req 4
rep 5
rep 4
rep 6
commit t
force
tell
req 5
low 5
req 6
checkpoint
req 7
rep 6
rep 7
req 99
rep 99
forget
begin u
get u a
send u
rep 1
req 1
rep 1
rollback u
settle
"""
AGAIN = "settle\nbegin u\nscan u a *\nsettle\n"
ELSEWHERE = ["table", "log", "leaves", "split a", "merge a", "tend", "flush a", "crash dc 0 0", "restart dc", "fail pages 1"]


class Checks:
    def __init__(self):
        self.done = self.failed = 0

    def check(self, what, found, wanted):
        self.done += 1
        if found != wanted:
            self.failed += 1
            print(f"{what}: {found!r} for {wanted!r}")


def open_half(shell, *words):
    return subprocess.Popen([shell, *words], stdin=subprocess.PIPE, stdout=subprocess.PIPE, stderr=subprocess.PIPE)


def both(shell, folder, script, serves=True):
    """Plays a script on both. What each has told, and their statuses."""
    path = f"{folder}/script"
    with open(path, "w") as out:
        out.write(script)
    tc = open_half(shell, "tc", "--store", f"{folder}/store", "--script", path)
    dc = open_half(shell, "dc", "--store", f"{folder}/leaves")
    poll = selectors.DefaultSelector()
    poll.register(tc.stdout, selectors.EVENT_READ, dc.stdin)
    poll.register(dc.stdout, selectors.EVENT_READ, tc.stdin)
    idle = 0
    while True:
        ready = poll.select(0.02)
        try:
            if not ready:
                idle += 1
                tc.stdin.write(TICK)
                tc.stdin.flush()
            for key, _ in ready:
                more = os.read(key.fileobj.fileno(), 1 << 16)
                if not more:
                    poll.unregister(key.fileobj)
                elif serves:
                    key.data.write(more)
                    key.data.flush()
        except BrokenPipeError:
            pass
        if tc.poll() is not None:
            break
    tc_told, dc_told = tc.stderr.read().decode(), ""
    try:
        dc.stdin.close()
        dc_told = dc.stderr.read().decode()
    except BrokenPipeError:
        pass
    return tc_told.split("\n")[:-2], tc.returncode, dc_told, dc.wait()


def look(shell, folder):
    """What the data component tells that has nothing to serve."""
    done = subprocess.run([shell, "dc", "--store", f"{folder}/leaves"], stdin=subprocess.DEVNULL, capture_output=True, text=True)
    return done.stderr, done.returncode


def messages(shell, folder, checks):
    one = subprocess.run([shell, "run"], input=BY_HAND, capture_output=True, text=True).stdout
    # Of each `req` line one process tells what came of it.
    answers, tc_told = [], both(shell, folder, BY_HAND)
    told = tc_told[0]
    lines = BY_HAND.split("\n")[:-1]
    requests = [f"request {line[4:]}" if line != "req 99" else "no 16 Unsent" for line in lines if line.startswith("req ")]
    for text in one.split("\n")[:-1]:
        if text.startswith("reply ") or text == "noted":
            answers.append(requests.pop(0))
        else:
            if text == "no 16 Unsent" and requests and requests[0] == text:
                requests.pop(0)
            answers.append(text)
    checks.check("by hand", told, answers)
    checks.check("its status", tc_told[1], 0)
    checks.check("the other's", (tc_told[2].split("\n")[0].split()[2:], tc_told[3]), (["refused", "0", "bad", "0"], 0))
    told, status, _, _ = both(shell, folder, AGAIN)
    checks.check("again", (told[-4:], status), (["rows 12 2", "a=1", "b=2", "settled"], 0))
    for line in ELSEWHERE:
        _, status, _, _ = both(shell, folder, f"{line}\n")
        checks.check(line, status, 2)
    told, status, _, _ = both(shell, folder, "connect\nreq 1\nrep 1\n", serves=False)
    checks.check("no reply", (told, status), (["request 1", "request 1", "no 16 Unsent"], 0))


def pages(shell, folder, checks):
    where = f"{folder}/leaves/pages"
    whole = look(shell, folder)
    checks.check("the rows of pages", whole, ("done 0 refused 0 bad 0\na=1\nb=2\nrows 2\n", 0))
    names = sorted(os.listdir(where))
    checks.check("pages", [len(name) for name in names], [16] * len(names))
    for name in names:
        path, bytes_ = f"{where}/{name}", open(f"{where}/{name}", "rb").read()
        fault = f"undo_shell: {folder}/leaves: the store's folder `pages`: the file of page {int(name, 16)} isn't what was written there\n"
        for at in range(len(bytes_)):
            open(path, "wb").write(bytes_[:at] + bytes([bytes_[at] ^ 1 << at % 8]) + bytes_[at + 1:])
            checks.check(f"byte {at}", look(shell, folder), (fault, 2))
        for end in [*range(0, len(bytes_), 7), len(bytes_) - 1]:
            open(path, "wb").write(bytes_[:end])
            checks.check(f"{end} bytes", look(shell, folder), (fault, 2))
        open(path, "wb").write(bytes_ + b"\0")
        checks.check("a byte more", look(shell, folder), (fault, 2))
        open(path, "wb").write(bytes_)
        other = f"{int(name, 16) + 1:016x}"
        os.rename(path, f"{where}/{other}")
        checks.check("another name", look(shell, folder), (fault.replace(f"page {int(name, 16)} ", f"page {int(other, 16)} "), 2))
        os.rename(f"{where}/{other}", path)
    open(f"{where}/new", "wb").write(b"begun")
    checks.check("what a kill leaves", look(shell, folder), whole)
    open(f"{where}/0", "wb").close()
    fault = f"undo_shell: {folder}/leaves: the store's folder `pages` has a file that is no page's\n"
    checks.check("a foreign file", look(shell, folder), (fault, 2))
    os.remove(f"{where}/0")
    os.rename(where, f"{folder}/away")
    fault = f"undo_shell: {folder}/leaves: cannot list the store's folder `pages`: "
    told, status = look(shell, folder)
    checks.check("no pages", (told[:len(fault)], status), (fault, 2))
    os.rename(f"{folder}/away", where)
    checks.check("at last", look(shell, folder), whole)


def sessions(shell, folder, checks):
    """A low number that is a session's own, and a device that fails."""
    told, status, _, _ = both(shell, folder, "settle\nlow 1\nsettle\nconnect\nsettle\n")
    checks.check("low", (told, status), (["settled", "request 3", "settled", "request 4", "settled"], 0))
    told, status, _, _ = both(shell, folder, "fail tclog 1\nsettle\nsettle\n")
    checks.check("fail", (told, status), (["set", "no 10 Device"], 3))


def main(shell):
    checks, folder = Checks(), tempfile.mkdtemp()
    os.mkdir(f"{folder}/other")
    sessions(shell, f"{folder}/other", checks)
    messages(shell, folder, checks)
    pages(shell, folder, checks)
    shutil.rmtree(folder)
    print(f"two halves by hand: {checks.done} checks, {checks.failed} fail")
    return 1 if checks.failed else 0


if __name__ == "__main__":
    if len(sys.argv) != 2:
        sys.exit(__doc__)
    sys.exit(main(os.path.abspath(sys.argv[1])))
