#!/usr/bin/env python3
"""Usage: bench/damage.py SHELL [BITS]. Damages the files of small stores, and opens each with SHELL, a built undo_shell.

Of every byte BITS bits are flipped, one at a time (1 if not given, 8 for all); every file is cut to each shorter length,
made longer, taken away, made a folder, a link to itself, and a file that may not be read; the folder is a file, or lies
in none. Each run must end with a refusal that names the file (status 2 and nothing on standard output), or with the
records of the store; with those of an earlier commit only where the log was cut short, and then standard error tells the torn block's place
and length, if one is left. Where a bit of the log was flipped it must be refused, with the place of that block; and where
no whole block of the log is left, or a file is a folder, a pipe or a link to itself. Opened once more a store must give
the same. Prints how many
runs there were of each kind, and a line for each that did something else; exit status 1 then.
"""
import collections
import os
import random
import shutil
import subprocess
import sys
import tempfile

sys.dont_write_bytecode = True
from store_model import Model, follow, read

COMMITS = """settle
table
begin a
insert a k1 one
settle
insert a k2 #0000000000000005
settle
commit a
settle
begin b
update b k1 two
settle
add b k2 7
settle
delete b k1
settle
commit b
settle
begin c
upsert c k3 .
settle
rollback c
settle
begin d
upsert d k1 four
settle
commit d
force""".split("\n")
OPEN = COMMITS + """begin e
delete e k2
settle
save e
insert e k5 five
settle
insert e k6 six
force""".split("\n")


def run(shell, store, script):
    """What the shell prints of the script and to standard error, and its exit status: None where it doesn't end."""
    try:
        done = subprocess.run([shell, "run", "--create", "--store", store], input=script, capture_output=True, timeout=20)
    except subprocess.TimeoutExpired:
        return b"", "", None
    return done.stdout, done.stderr.decode(errors="replace"), done.returncode


def records(text):
    """The records that a settled node printed, or None."""
    lines = text.decode("latin-1").split("\n")
    if "settled" not in lines:
        return None
    lines = lines[lines.index("settled") + 1:]
    if len(lines) < 2 or lines[-2] != f"rows {len(lines) - 2}":
        return None
    return {key.encode(): read(value) for key, value in (line.split("=") for line in lines[:-2])}


def blocks(log):
    """The place of each block of a log (docs/STORE.md)."""
    places = []
    at = 0
    while at < len(log):
        places.append(at)
        assert log[at] == 2
        at += 32 + int.from_bytes(log[at + 8:at + 16], "big")
    assert at == len(log)
    return places


class Damage:
    def __init__(self, shell, script):
        self.shell = shell
        self.folder = tempfile.mkdtemp()
        self.counts = collections.Counter()
        self.faults = 0
        whole = self.path("whole")
        text, fault, status = run(shell, whole, "\n".join(script).encode())
        model = Model()
        if status != 0 or follow(model, script, text) != len(script):
            sys.exit(f"a store isn't made: {fault} {text.decode(errors='replace')}")
        self.history = model.history
        self.files = {name: open(os.path.join(whole, name), "rb").read() for name in sorted(os.listdir(whole))}

    def path(self, name):
        return os.path.join(self.folder, name)

    def store(self, files):
        """A fresh folder with these files."""
        folder = self.path("store")
        shutil.rmtree(folder, ignore_errors=True)
        os.mkdir(folder)
        for name, data in files.items():
            with open(os.path.join(folder, name), "wb") as out:
                out.write(data)
        return folder

    def judge(self, what, folder, names, oldest, torn=None):
        """Opens the store. `oldest`: how many commits it may lack, None where it must be refused. `torn`: what standard
        error must have where it isn't refused."""
        text, fault, status = run(self.shell, folder, b"settle\ntable\n")
        kind = self.kind(folder, text, fault, status, names, oldest)
        if torn is not None and status == 0 and torn not in fault:
            kind = f"not told: standard error must have {torn!r}"
        self.counts[kind.split(":")[0]] += 1
        if ":" in kind:
            self.faults += 1
            print(f"{what}: {kind}; status {status}, {fault.strip()!r}")

    def kind(self, folder, text, fault, status, names, oldest):
        if status == 2:
            if text or not any(name in fault for name in names):
                return "refused without a name: the text must name one of " + ", ".join(names)
            return "refused"
        if status != 0:
            return "ended otherwise: it must be refused with status 2, or run"
        found = records(text)
        if found not in self.history:
            return f"wrong records: {found}"
        again = run(self.shell, folder, b"settle\ntable\n")
        if again[2] != 0 or records(again[0]) != found:
            return "changed: opened once more it gives something else"
        if oldest is None:
            return "not refused: it must be"
        lacks = len(self.history) - 1 - self.history.index(found)
        if lacks > oldest:
            return f"lost: it lacks {lacks} commits"
        return "right" if lacks == 0 else "an earlier commit"

    def bytes(self, bits):
        chance = random.Random(1)
        for name, data in self.files.items():
            places = blocks(data) if name == "log" else []
            for at in range(len(data)):
                named = [f"byte {place} " for place in places if place <= at][-1:]
                for bit in sorted(chance.sample(range(8), bits)):
                    changed = bytearray(data)
                    changed[at] ^= 1 << bit
                    folder = self.store({**self.files, name: bytes(changed)})
                    self.judge(f"{name}, bit {bit} of byte {at}", folder, named or [name], None if named else 0)

    def lengths(self):
        for name, data in self.files.items():
            places = blocks(data) if name == "log" else []
            last = data[places[-1]:] if places else data
            for length in range(len(data)):
                folder = self.store({**self.files, name: data[:length]})
                oldest, torn = len(self.history), None
                if places and length < places[1]:
                    oldest = None
                elif places:
                    end = max(place for place in places if place <= length)
                    torn = f"a torn block of {length - end} bytes at byte {end} " if end < length else None
                self.judge(f"{name}, cut to {length}", folder, self.files, oldest, torn)
            for more in (b"\0", b"\0" * 8, b"\0" * 4096, b"\xff" * 16, b"\0" * 7 + b"\x01\x09", b"x" * 100, last):
                folder = self.store({**self.files, name: data + more})
                self.judge(f"{name}, longer by {more[:16]!r}", folder, [name], 0)

    def places(self):
        for name in self.files:
            path = os.path.join(self.path("store"), name)
            for what, make in (("gone", None), ("a folder", lambda: os.mkdir(path)),
                               ("a link to itself", lambda: os.symlink(name, path)),
                               ("a pipe", lambda: os.mkfifo(path)),
                               ("not to be read", lambda: os.close(os.open(path, os.O_CREAT, 0)))):
                if what == "not to be read" and os.geteuid() == 0:
                    continue  # root reads all
                folder = self.store(self.files)
                os.remove(path)
                if make:
                    make()
                self.judge(f"{name}, {what}", folder, self.files, None)
        other = self.path("file")
        with open(other, "w") as out:
            out.write("no store\n")
        self.judge("a file for the folder", other, ["file"], None)
        self.judge("a folder in none", self.path("none/store"), ["none/store"], None)
        folder = self.store({"letters": b"not of a store\n"})
        self.judge("a folder with a file of another", folder, ["store"], None)

    def close(self):
        shutil.rmtree(self.folder)


def main(shell, bits):
    counts = collections.Counter()
    faults = 0
    for script in (COMMITS, OPEN):
        damage = Damage(shell, script)
        damage.bytes(bits)
        damage.lengths()
        damage.places()
        damage.close()
        counts += damage.counts
        faults += damage.faults
    print(", ".join(f"{kind} {count}" for kind, count in sorted(counts.items())) + f"; {faults} faults")
    return int(faults > 0)


if __name__ == "__main__":
    if len(sys.argv) not in (2, 3):
        sys.exit(__doc__)
    sys.exit(main(os.path.abspath(sys.argv[1]), int(sys.argv[2]) if len(sys.argv) == 3 else 1))
