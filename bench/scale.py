#!/usr/bin/env python3
"""Usage: bench/scale.py SHELL [OPERATIONS]. One transaction component with several data components (docs/SCALE.md), as a
simulation: SHELL is a built undo_shell, of which one process is `tc` and k are `dc`, for k of 1, 2 and 4.

Requests for one key go to the data component of its range, the others to all; what all reply to is told once all have, and
the rows of a scan are put one behind another. That is done between the processes, by this program, since `tc` knows one data
component. Prints for each k how many operations a second there are and how many messages each takes; at the end the rows are
those of a plain map, whatever k is.
"""
import os
import selectors
import shutil
import struct
import subprocess
import sys
import tempfile
import time

HEAD = struct.Struct(">Q")
CONNECT, PERFORM, GET, SCAN, LOW_WATER, CHECKPOINT, REDO_END, STABLE_END = range(1, 9)
ROWS = 0x14


def frames(kept, more):
    kept += more
    out = []
    while len(kept) >= 8 and len(kept) >= 8 + HEAD.unpack_from(kept)[0]:
        length = 8 + HEAD.unpack_from(kept)[0]
        out.append(kept[:length])
        kept = kept[length:]
    return kept, out


def key_of(frame):
    """The key of a Perform or a Get."""
    at = 8 + 25 + 1 if frame[8] == PERFORM else 8 + 17
    return frame[at + 1:at + 1 + frame[at]]


def joined(replies):
    """The one reply of several; rows are those of one data component behind another."""
    if replies[0][8] != ROWS:
        return replies[0]
    count = sum(HEAD.unpack_from(reply, 25)[0] for reply in replies)
    body = replies[0][8:25] + HEAD.pack(count) + b"".join(reply[33:] for reply in replies)
    return HEAD.pack(len(body)) + body


class Router:
    def __init__(self, shell, parts, ends):
        self.ends = ends
        self.parts = [subprocess.Popen([shell, "dc"], stdin=subprocess.PIPE, stdout=subprocess.PIPE, stderr=subprocess.PIPE)
                      for _ in range(parts)]
        self.kept = [b""] * parts
        self.waiting = {}  # a reply's kind and numbers -> what the data components have said
        self.messages = 0

    def part_of(self, key):
        return sum(1 for end in self.ends if key >= end)

    def send(self, frame):
        one = frame[8] in (PERFORM, GET)
        targets = [self.part_of(key_of(frame))] if one else range(len(self.parts))
        for part in targets:
            self.messages += 1
            self.parts[part].stdin.write(frame)
            self.parts[part].stdin.flush()

    def hear(self, part, frame):
        """The reply that goes on, if all have said it."""
        self.messages += 1
        if frame[8] in (0x12, 0x13):
            return frame
        told = self.waiting.setdefault(frame[8:25] if frame[8] == ROWS else frame[8:17], {})
        told[part] = frame
        if len(told) < len(self.parts):
            return None
        replies = [told[part] for part in sorted(told)]
        told.clear()
        return joined(replies)


def play(shell, parts, lines, ends):
    folder = tempfile.mkdtemp()
    with open(f"{folder}/script", "w") as out:
        out.write("\n".join(lines) + "\n")
    router = Router(shell, parts, ends)
    tc = subprocess.Popen([shell, "tc", "--store", f"{folder}/store", "--script", f"{folder}/script"],
                          stdin=subprocess.PIPE, stdout=subprocess.PIPE, stderr=open(f"{folder}/text", "wb"))
    poll = selectors.DefaultSelector()
    poll.register(tc.stdout, selectors.EVENT_READ, -1)
    for part, dc in enumerate(router.parts):
        poll.register(dc.stdout, selectors.EVENT_READ, part)
    begun, kept, ended = time.time(), b"", False
    while not ended:
        for key, _ in poll.select():
            more = os.read(key.fd, 1 << 16)
            if key.data < 0:
                ended |= not more
                kept, out = frames(kept, more)
                for frame in out:
                    router.send(frame)
                continue
            router.kept[key.data], out = frames(router.kept[key.data], more)
            for frame in out:
                reply = router.hear(key.data, frame)
                if reply:
                    tc.stdin.write(reply)
                    tc.stdin.flush()
    took = time.time() - begun
    rows = {}
    for dc in router.parts:
        dc.stdin.close()
        text = dc.stderr.read().decode().split("\n")
        rows.update(line.split("=") for line in text if "=" in line)
        dc.wait()
    status = tc.wait()
    shutil.rmtree(folder)
    return took, router.messages, rows, status


def main(shell, count=20000):
    keys = [f"k{number:03}" for number in range(1000)]
    lines, wanted, number = ["settle"], {}, 0
    clients = [f"t{client}" for client in range(8)]
    while number < count:
        lines += [f"begin {client}" for client in clients]
        for _ in range(10):
            for at, client in enumerate(clients):
                key = keys[(number * 7 + at * 125) % 1000]
                lines += [f"upsert {client} {key} v{number}", f"send {client}"]
                wanted[key] = f"v{number}"
                number += 1
            lines.append("settle")
        lines += [f"commit {client}" for client in clients] + ["settle"]
    differ = 0
    for parts in (1, 2, 4):
        ends = [keys[1000 * part // parts].encode() for part in range(1, parts)]
        took, messages, rows, status = play(shell, parts, lines, ends)
        same = rows == wanted and status == 0
        differ += not same
        print(f"{parts} data components: {number / took:.0f} operations a second, {messages / number:.2f} messages each, "
              f"{'the rows of a map' if same else 'OTHER ROWS'}")
    return 1 if differ else 0


if __name__ == "__main__":
    if len(sys.argv) not in (2, 3):
        sys.exit(__doc__)
    sys.exit(main(os.path.abspath(sys.argv[1]), *map(int, sys.argv[2:])))
