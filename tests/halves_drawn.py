#!/usr/bin/env python3
"""Usage: tests/halves_drawn.py SHELL FILE [SEED [OPERATIONS]]. A picture of a run of the two halves of a node as processes.

Runs them as tests/network.py does, of this SEED (1) with some OPERATIONS (6), and writes what both did as a script of one
process into FILE.script: `req N` and `rep N` where a message was delivered, in the order in which each half saw them,
`crash` and `restart` where a process was killed and started again, and the events of each `settle` of the transaction
component one by one, as docs/FORMATS.md says in which order it does them. Then it plays that script, compares what the
transaction component has printed with what it prints there, and draws it into FILE.svg. Exit status 1 where one differs.
"""
import collections
import fcntl
import os
import shutil
import subprocess
import sys
import tempfile
import termios

import network

CONNECT = 1  # the kind of a request that begins a session
TOLD = ("answer", "row", "rows", "count", "back", "rolled", "committed", "lost")
NOTHING = ("nothing", "no 3 NotOpen", "no 4 Unanswered", "no 5 RollingBack", "no 9 NotConnected", "no 16 Unsent", "no 18 NotNow")


class Recorded(network.Run):
    """A run that keeps what each process has seen. None is killed but where it waits, and has said what it is to say."""

    def __init__(self, *words):
        super().__init__(*words)
        self.seen = []
        send = self.network.send

        def note(one, other, frame):
            self.seen.append(("tc" if one is self.network.near else "dc", frame))
            send(one, other, frame)
        self.network.send = note

    def give(self, process, frame):
        self.seen.append(("to tc" if process is self.tc else "to dc", frame))
        super().give(process, frame)

    def may_kill_tc(self):
        return waits(self.tc)

    def may_kill_dc(self):
        return waits(self.dc)

    def kill_dc(self):
        self.seen.append(("dc killed", None))
        super().kill_dc()

    def start_tc(self, lines):
        self.seen.append(("tc started", lines))
        super().start_tc(lines)

    def judge(self, lines, text, ended):
        self.seen.append(("tc ended" if ended else "tc killed", text))
        super().judge(lines, text, ended)


def waits(process):
    """Whether a process has read all that it was given, waits for more, and has written nothing that isn't read."""
    return not unread(process.stdin) and reads(process.pid) and not unread(process.stdout)


def unread(pipe):
    return any(fcntl.ioctl(pipe, termios.FIONREAD, bytes(4)))


def reads(pid):
    with open(f"/proc/{pid}/syscall") as call:
        return call.read().startswith("0 0x0 ")


class Node:
    """A node in one process, which answers line by line. The lines that have changed it are kept."""

    def __init__(self, shell):
        self.process = subprocess.Popen([shell, "run", "--interactive"], stdin=subprocess.PIPE, stdout=subprocess.PIPE,
                                        stderr=subprocess.DEVNULL, text=True)
        self.lines, self.printed = [], []

    def ask(self, line):
        # A line outside the grammar is answered too: so it is known where the answer ends.
        self.process.stdin.write(f"{line}\n?\n")
        self.process.stdin.flush()
        answer = []
        while not (text := self.process.stdout.readline().rstrip("\n")).startswith("no 17 "):
            answer.append(text)
        return answer

    def do(self, line):
        return self.keep(line, self.ask(line))

    def keep(self, line, answer):
        self.lines.append(line)
        self.printed += answer
        return answer

    def attempt(self, line):
        """What the line comes to; None where it changes nothing, and then it isn't kept."""
        answer = self.ask(line)
        return None if answer[0] in NOTHING else self.keep(line, answer)

    def is_stable(self):
        words = self.ask("log")[-1].split()
        return words[1] == words[3]

    def close(self):
        self.process.stdin.close()
        self.process.wait()


def request_in(answer):
    """The number of the request that was made, if one was."""
    words = answer[0].split()
    return int(words[1]) if words[0] == "request" else None


class Replay:
    """What both processes did, done again by a node."""

    def __init__(self, node):
        self.node, self.faults, self.answers = node, [], 0
        self.requests = {}  # frame: number
        self.replies = collections.defaultdict(list)  # frame: numbers, those first that weren't delivered yet
        self.given = collections.deque()  # numbers of replies whose frames are still to be seen
        self.is_first = True

    def tell(self, answer):
        self.text += [line for line in answer if line.split()[0] in TOLD or "=" in line]

    def start(self, lines):
        if not self.is_first:
            self.node.do("crash tc 0 0")
            self.node.do("restart tc")
        self.is_first, self.left, self.text, self.open = False, list(lines), [], []
        self.phase, self.settles, self.last = "unconnected", False, None
        self.unsent = collections.deque()  # numbers of requests that lines have made

    def until_request(self):
        """Does what the component does up to its next request: the number of that; None where its script ends before."""
        while True:
            if self.settles and self.unsent:
                return self.unsent.popleft()
            if self.settles:
                answer = self.settling()
                if answer is None:
                    self.text.append("settled")
                    self.settles = False
                elif request_in(answer) is not None:
                    self.tell(answer)
                    return request_in(answer)
                else:
                    self.tell(answer)
            elif not self.left:
                return None
            else:
                line = self.left.pop(0)
                if line == "settle":
                    self.settles = True
                    continue
                if line.startswith("begin "):
                    self.open.append(line.split()[1])
                answer = self.node.do(line)
                self.text += answer
                if (number := request_in(answer)) is not None:
                    self.unsent.append(number)

    def settling(self):
        """The next event of a settle, as crate shell_halves does them: what it comes to, None where nothing is left."""
        if self.phase == "unconnected":
            self.phase = "recovering"
            return self.node.do("connect")
        if self.phase == "recovering":
            if answer := self.node.attempt("recover"):
                return answer
            self.phase = "running"
        for line in [f"send {label}" for label in self.open] + [f"undo {label}" for label in self.open]:
            if answer := self.node.attempt(line):
                return answer
        return None if self.node.is_stable() else self.node.do("force")

    def sent_by_tc(self, frame):
        if frame == self.last:
            return
        self.last = frame
        if frame[8] == CONNECT and self.phase != "unconnected":
            answer = self.node.do("connect")
            self.tell(answer)
            self.phase, number = "recovering", request_in(answer)
        else:
            number = self.until_request()
        self.requests[frame] = number
        if number is None:
            self.faults.append("the transaction component sends more than its script asks for")

    def reaches_dc(self, frame):
        if len(frame) == 8:
            self.node.attempt("tend")
        elif frame in self.requests:
            answer = self.node.do(f"req {self.requests[frame]}")
            if answer[0].startswith("reply "):
                self.given.append(int(answer[0].split()[1]))

    def sent_by_dc(self, frame):
        if self.given:
            self.replies[frame].append(self.given.popleft())
        else:
            self.faults.append("the data component replies more than it was asked")

    def reaches_tc(self, frame):
        numbers = self.replies.get(frame)
        if len(frame) > 8 and numbers:
            number = numbers.pop(0) if len(numbers) > 1 else numbers[0]
            self.tell(self.node.do(f"rep {number}"))

    def ends(self, text):
        found = text.split("\n")[:-1]
        self.answers += sum(line.split()[0] in TOLD for line in found)
        if found != self.text:
            self.faults.append(f"told {found} for {self.text}")

    def play(self, seen):
        for what, detail in seen:
            if what == "tc started":
                self.start(detail)
            elif what == "tc":
                self.sent_by_tc(detail)
            elif what == "to dc":
                self.reaches_dc(detail)
            elif what == "dc":
                self.sent_by_dc(detail)
            elif what == "to tc":
                self.reaches_tc(detail)
            elif what == "dc killed":
                self.given.clear()
                self.node.do("crash dc 0 0")
                self.node.do("restart dc")
            else:
                if what == "tc ended" and self.until_request() is not None:
                    self.faults.append("the transaction component sends less than its script asks for")
                self.ends(detail)


def main(shell, file, seed=1, count=6):
    network.WRITING = 0  # what such a kill leaves isn't known
    network.TICK = 0.02  # so that a request is seldom sent again before it can be answered
    folder = tempfile.mkdtemp()
    run = Recorded(shell, seed, folder, count, collections.Counter())
    run.start_dc()
    lines = network.lines_of(run.rng, count, 0)
    kill_dc = run.rng.randrange(5, 15)
    kill_tc = kill_dc + (run.rng.randrange(2, 9) if run.rng.random() < 0.5 else run.rng.randrange(25, 50))
    if not run.segment(lines, kill_tc, kill_dc):
        run.look()
    run.dc.stdin.close()
    run.dc.wait()
    run.network.close()
    shutil.rmtree(folder)
    node = Node(shell)
    replay = Replay(node)
    replay.play(run.seen)
    node.close()
    script = "".join(f"{line}\n" for line in node.lines)
    again = subprocess.run([shell, "run"], input=script, capture_output=True, text=True).stdout
    if again != "".join(f"{line}\n" for line in node.printed):
        replay.faults.append("the script prints something else in one piece")
    with open(f"{file}.script", "w") as out:
        out.write(script)
    drawn = subprocess.run([shell, "draw"], input=script, capture_output=True, text=True)
    with open(f"{file}.svg", "w") as out:
        out.write(drawn.stdout)
    faults = run.model.faults + replay.faults
    print("".join(f"{fault}\n" for fault in faults), end="")
    print(f"two halves drawn: {len(node.lines)} lines, {replay.answers} answers, {len(faults)} differ")
    return 1 if faults or drawn.returncode else 0


if __name__ == "__main__":
    if len(sys.argv) not in range(3, 6):
        sys.exit(__doc__)
    sys.exit(main(os.path.abspath(sys.argv[1]), sys.argv[2], *map(int, sys.argv[3:])))
