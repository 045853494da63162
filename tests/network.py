#!/usr/bin/env python3
"""Usage: tests/network.py SHELL [RUNS [OPERATIONS [FIRST]]]. The two halves of a node as processes, and a network between
them over UDP on the loopback.

SHELL is a built undo_shell: one process of it is the data component (`dc`), another the transaction component (`tc`),
which plays a script of some OPERATIONS (2,000 unless they are given), each on a store of its own. By the run's seed,
FIRST (1) and so on, messages are lost (30 %), sent twice (20 %), held back so that others overtake them, and beside them
comes what is no message; and either process is killed and started again. What clients were told is compared with a plain
model, and at the end so are the rows of both. Prints a line for each run that differs, then the counts of all runs; exit
status 1 where one differs.
"""
import collections
import os
import random
import selectors
import shutil
import socket
import struct
import subprocess
import sys
import tempfile
import time

LOSS, TWICE, LATE, NOISE = 0.3, 0.2, 0.2, 0.02
CHECKPOINTS, LOWS = 0.05, 0.1  # how often a transaction is followed by leaves written to pages, or by a low number
WRITING = 0.1  # how often a request to write pages is answered by a kill
TICK = 0.001  # seconds without any message until the transaction component is sent a tick
HEAD = struct.Struct(">Q")
CHECKPOINT = 6  # the kind of a request by which the data component writes its pages
KEYS = [f"k{number:02}" for number in range(40)]


class Frames:
    """What comes out of a pipe, message by message."""

    def __init__(self):
        self.bytes = b""

    def take(self, more):
        self.bytes += more
        while len(self.bytes) >= 8:
            length = 8 + HEAD.unpack_from(self.bytes)[0]
            if len(self.bytes) < length:
                return
            yield self.bytes[:length]
            self.bytes = self.bytes[length:]


class Network:
    """Messages between two sockets; each of them goes its way by the run's own chances."""

    def __init__(self, rng, counts):
        self.rng, self.counts = rng, counts
        self.near, self.far = (socket.socket(socket.AF_INET, socket.SOCK_DGRAM) for _ in range(2))
        for one in (self.near, self.far):
            one.bind(("127.0.0.1", 0))
            one.setblocking(False)
        self.held = []  # (how many messages it waits for, socket, address, bytes)

    def close(self):
        self.near.close()
        self.far.close()

    def send(self, one, other, frame):
        self.counts["sent"] += 1
        if self.rng.random() < LOSS:
            self.counts["lost"] += 1
            return
        copies = 2 if self.rng.random() < TWICE else 1
        self.counts["twice"] += copies - 1
        if self.rng.random() < NOISE:
            self.counts["noise"] += 1
            one.sendto(HEAD.pack(3) + bytes([255, 0, 1]), other.getsockname())
        for _ in range(copies):
            if self.rng.random() < LATE:
                self.counts["late"] += 1
                self.held.append([self.rng.randrange(1, 5), one, other, frame])
            else:
                one.sendto(frame, other.getsockname())
        for item in self.held:
            item[0] -= 1
        for item in [it for it in self.held if it[0] <= 0]:
            self.held.remove(item)
            item[1].sendto(item[3], item[2].getsockname())


class Model:
    """The rows that stand, and what each answer has to be."""

    def __init__(self):
        self.rows, self.faults = {}, []
        self.begin()

    def begin(self):
        self.own, self.saves, self.asked, self.ending = dict(self.rows), [], None, None

    def answer(self, words):
        """What an operation is answered; it is done."""
        kind, key = words[0], words[2]
        old = self.own.get(key)
        if kind == "get":
            return f"row {old or '-'}"
        if kind == "insert" and old is not None:
            return "answer exists"
        if kind in ("update", "delete") and old is None:
            return "answer missing"
        if kind == "delete":
            del self.own[key]
            return f"answer deleted {old}"
        self.own[key] = words[3]
        if kind == "upsert":
            return f"answer was {old or '-'}"
        return "answer inserted" if kind == "insert" else f"answer updated {old}"

    def line(self, line):
        """A line of a script: what it is told at the next `settle`, without the transaction's number; None where nothing."""
        words = line.split()
        if words[0] == "begin":
            self.begin()
        elif words[0] == "save":
            self.saves.append(dict(self.own))
        elif words[0] == "back":
            self.own = dict(self.saves[int(words[2]) - 1])
            del self.saves[int(words[2]):]
            self.asked = f"back {words[2]}"
        elif words[0] == "rollback":
            self.ending, self.asked = dict(self.rows), "rolled back"
        elif words[0] == "commit":
            self.ending, self.asked = self.own, "committed"
        elif words[0] == "scan":
            rows = sorted(self.own.items())
            self.asked = "\n".join([f"rows {len(rows)}"] + [f"{key}={value}" for key, value in rows])
        elif words[0] in ("low", "tell", "checkpoint"):
            pass
        elif words[0] == "settle":
            told, self.asked = self.asked, None
            if self.ending is not None:
                self.rows, self.ending = self.ending, None
            return told
        else:
            self.asked = self.answer(words)
        return None


def lines_of(rng, count, before):
    """A script of about so many operations, whose transactions come one after another, on a log of so many before."""
    lines, number, logged = ["settle"], 0, before
    while count > 0:
        label, number, saved = f"t{number}", number + 1, 0
        lines.append(f"begin {label}")
        for _ in range(rng.randrange(1, 9)):
            key, value, what = rng.choice(KEYS), rng.randrange(10000), rng.random()
            if what < 0.4:
                lines += [f"upsert {label} {key} v{value}", "settle"]
            elif what < 0.55:
                lines += [f"insert {label} {key} w{value}", "settle"]
            elif what < 0.65:
                lines += [f"delete {label} {key}", "settle"]
            elif what < 0.75:
                lines += [f"update {label} {key} x{value}", "settle"]
            elif what < 0.9:
                lines += [f"get {label} {key}", "settle"]
            elif what < 0.95 or not saved:
                lines.append(f"save {label}")
                saved += 1
            else:
                saved = rng.randrange(1, saved + 1)
                lines += [f"back {label} {saved}", "settle"]
            count, logged = count - 1, logged + 1
        lines += [f"{'commit' if rng.random() < 0.7 else 'rollback'} {label}", "settle"]
        if rng.random() < CHECKPOINTS:
            lines += ["tell", "checkpoint", "settle"]
        if rng.random() < LOWS:
            lines += [f"low {rng.randrange(logged + 1)}", "settle"]
    return lines


def blocks_of(text, settles):
    """The lines told by each `settle` that came to its end, and those of one that didn't."""
    blocks, block = [], []
    for line in text.split("\n")[:-1]:
        if line == "settled":
            blocks.append(block)
            block = []
        else:
            block.append(line)
    return blocks[:settles], block


def told_in(block):
    """What a transaction is told in these lines, without its number."""
    told = []
    for line in block:
        words = line.split()
        if words[0] in ("answer", "row", "back", "rows"):
            told.append(" ".join([words[0], *words[2:]]))
        elif words[0] in ("committed",):
            told.append("committed")
        elif line.startswith("rolled back"):
            told.append("rolled back")
        elif "=" in line:
            told.append(line)
    return "\n".join(told)


class Run:
    """One run: processes, the network between them, and the model."""

    def __init__(self, shell, seed, folder, count, counts):
        self.shell, self.rng, self.folder, self.counts = shell, random.Random(seed), folder, counts
        self.whole, self.left, self.model = count, count, Model()
        self.network = Network(self.rng, counts)
        self.dc = None

    def start_dc(self):
        self.dc = subprocess.Popen([self.shell, "dc", "--store", f"{self.folder}/leaves"], stdin=subprocess.PIPE, stdout=subprocess.PIPE,
                                   stderr=open(f"{self.folder}/dc", "wb"))
        os.set_blocking(self.dc.stdout.fileno(), False)
        self.from_dc = Frames()

    def start_tc(self, lines):
        path = f"{self.folder}/script"
        with open(path, "w") as out:
            out.write("\n".join(lines) + "\n")
        self.tc = subprocess.Popen([self.shell, "tc", "--store", f"{self.folder}/store", "--script", path],
                                   stdin=subprocess.PIPE, stdout=subprocess.PIPE, stderr=open(f"{self.folder}/tc", "wb"))
        os.set_blocking(self.tc.stdout.fileno(), False)
        self.from_tc = Frames()

    def pump(self, kill_tc, kill_dc):
        """Carries messages until the transaction component has ended, or was killed after so many of its messages."""
        network, frames = self.network, 0
        while True:
            poll = selectors.DefaultSelector()
            for one in (self.tc.stdout, self.dc.stdout, network.near, network.far):
                poll.register(one, selectors.EVENT_READ)
            ready = [key.fileobj for key, _ in poll.select(TICK)]
            poll.close()
            if not ready:
                self.counts["ticks"] += 1
                self.give(self.tc, HEAD.pack(0))
                if self.rng.random() < 0.2:
                    self.give(self.dc, HEAD.pack(0))
            if self.tc.stdout in ready:
                more = self.tc.stdout.read(1 << 16)
                if not more:
                    return True
                for frame in self.from_tc.take(more):
                    frames += 1
                    network.send(network.near, network.far, frame)
            if self.dc.stdout in ready:
                for frame in self.from_dc.take(self.dc.stdout.read(1 << 16) or b""):
                    network.send(network.far, network.near, frame)
            if kill_dc and frames >= kill_dc and self.may_kill_dc():
                kill_dc = 0
                self.kill_dc()
                continue
            if kill_tc and frames >= kill_tc and self.may_kill_tc():
                self.counts["tc killed"] += 1
                self.tc.kill()
                return False
            if network.far in ready:
                frame = network.far.recv(1 << 16)
                self.give(self.dc, frame)
                if frame[8] == CHECKPOINT and self.rng.random() < WRITING:
                    time.sleep(self.rng.random() * 0.01)
                    self.counts["dc killed amid pages"] += 1
                    self.kill_dc()
                    continue
            if network.near in ready:
                self.give(self.tc, network.near.recv(1 << 16))

    def may_kill_dc(self):
        return True

    def may_kill_tc(self):
        return True

    def kill_dc(self):
        self.counts["dc killed"] += 1
        self.dc.kill()
        self.dc.wait()
        self.start_dc()

    @staticmethod
    def give(process, frame):
        try:
            process.stdin.write(frame)
            process.stdin.flush()
        except BrokenPipeError:
            pass

    def segment(self, lines, kill_tc, kill_dc):
        """Plays a script, and judges what was told. Gives whether it came to its end."""
        self.start_tc(lines)
        ended = self.pump(kill_tc, kill_dc)
        status = self.tc.wait()
        text = open(f"{self.folder}/tc").read()
        if ended:
            text, counts = text.rstrip("\n").rsplit("\n", 1)
            text += "\n"
            words = counts.split()
            for name, number in zip(words[::2], words[1::2]):
                self.counts[f"tc {name}"] += int(number)
        if ended and status != 0:
            self.model.faults.append(f"status {status}: {text[-300:]}")
        self.judge(lines, text, ended)
        return ended

    def judge(self, lines, text, ended):
        settles = lines.count("settle")
        blocks, rest = blocks_of(text, settles)
        if ended and len(blocks) != settles:
            self.model.faults.append(f"{len(blocks)} of {settles} settles ended")
        at = 0
        for line in lines:
            if line == "settle":
                if at == len(blocks):
                    break
                wanted, found = self.model.line(line) or "", told_in(blocks[at])
                at += 1
                if wanted != found:
                    self.model.faults.append(f"told {found!r} for {wanted!r}")
                    return
                self.counts["answers"] += 1 if wanted else 0
            else:
                self.model.line(line)
        # A commit that a kill came upon may stand, whether its client was told or not.
        self.undecided = None if ended or self.model.ending is None else self.model.ending
        if "committed" in told_in(rest) and self.undecided is not None:
            self.model.rows, self.undecided = self.undecided, None

    def look(self):
        """Who was open is lost, and one that was committing is or isn't: a scan tells."""
        rows = self.model.rows
        self.model.begin()
        if self.undecided is not None:
            self.model.own = self.undecided
        lines = ["settle", "begin z", "scan z a *", "settle", "rollback z", "settle"]
        self.start_tc(lines)
        self.pump(0, 0)
        self.tc.wait()
        blocks, _ = blocks_of(open(f"{self.folder}/tc").read(), 3)
        found = dict(line.split("=") for line in blocks[1] if "=" in line)
        if found != rows and found != self.undecided:
            self.model.faults.append(f"rows {found} for {rows} or {self.undecided}")
        self.model.rows = found
        self.counts["looks"] += 1

    def play(self):
        self.start_dc()
        while self.left > 0 and not self.model.faults:
            count = min(self.left, self.rng.randrange(100, 500))
            kill_tc, kill_dc = (self.rng.randrange(20, 21 + count * 3) if self.rng.random() < 0.6 else 0 for _ in range(2))
            lines = lines_of(self.rng, count, self.whole - self.left)
            self.left -= count
            if not self.segment(lines, kill_tc, kill_dc):
                self.look()
        self.undecided = None
        self.look()
        self.dc.stdin.close()
        self.dc.wait()
        self.network.close()
        self.counts["pages"] += len(os.listdir(f"{self.folder}/leaves/pages"))
        text = open(f"{self.folder}/dc").read().split("\n")
        words = text[0].split()
        for name, number in zip(words[::2], words[1::2]):
            self.counts[f"dc {name}"] += int(number)
        rows = dict(line.split("=") for line in text if "=" in line)
        if rows != self.model.rows:
            self.model.faults.append(f"the data component has {rows} for {self.model.rows}")
        return self.model.faults


def main(shell, runs=10, count=2000, first=1):
    counts, differ = collections.Counter(), 0
    begun = time.time()
    for seed in range(first, first + runs):
        folder = tempfile.mkdtemp()
        faults = Run(shell, seed, folder, count, counts).play()
        shutil.rmtree(folder)
        if faults:
            differ += 1
            print(f"run {seed}: {faults[0]}")
    print(", ".join(f"{name} {number}" for name, number in sorted(counts.items())), file=sys.stderr)
    print(f"{time.time() - begun:.0f} s", file=sys.stderr)
    print(f"two halves over a network: {runs} runs, {differ} differ")
    return 1 if differ else 0


if __name__ == "__main__":
    if len(sys.argv) not in range(2, 6):
        sys.exit(__doc__)
    sys.exit(main(os.path.abspath(sys.argv[1]), *map(int, sys.argv[2:])))
