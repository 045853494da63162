#!/usr/bin/env python3
"""Usage: examples/replicated/test_replicated.py [COMMITS]. Three servers of etcd on the loopback, which keep a node's log.

A process commits one transaction after another, each of which counts on in two records, and tells each commit. Amid that
one server is killed, and later the process. The server stays down. Another process opens the log from the two that are
left: it must have each commit that was told, at most one that wasn't, and of each both records or none. It goes on, the
server comes back, another is killed, and a third process opens the log again. Then two have it open at once, and of these
one must be refused. Prints what was found and the times; exit status 1 where something differs.
"""
import os
import shutil
import signal
import socket
import statistics
import subprocess
import sys
import tempfile
import time

sys.path.insert(0, os.path.dirname(os.path.abspath(__file__)))

NAME = "counts"


def free_ports(count):
    holds = [socket.socket() for _ in range(count)]
    for hold in holds:
        hold.bind(("127.0.0.1", 0))
    ports = [hold.getsockname()[1] for hold in holds]
    for hold in holds:
        hold.close()
    return ports


class Cluster:
    def __init__(self, folder):
        ports = free_ports(6)
        self.folder, self.clients, self.peers = folder, ports[:3], ports[3:]
        self.servers = [self.start(place) for place in range(3)]

    def start(self, place):
        at = [f"http://127.0.0.1:{port}" for port in (self.clients[place], self.peers[place])]
        together = ",".join(f"s{one}=http://127.0.0.1:{self.peers[one]}" for one in range(3))
        words = ["etcd", "--name", f"s{place}", "--data-dir", os.path.join(self.folder, f"s{place}"),
                 "--listen-client-urls", at[0], "--advertise-client-urls", at[0],
                 "--listen-peer-urls", at[1], "--initial-advertise-peer-urls", at[1],
                 "--initial-cluster", together, "--initial-cluster-state", "new", "--log-level", "error"]
        return subprocess.Popen(words, stdout=subprocess.DEVNULL, stderr=subprocess.DEVNULL)

    def kill(self, place):
        self.servers[place].kill()
        self.servers[place].wait()

    def restart(self, place):
        self.servers[place] = self.start(place)

    def end(self):
        for place in range(3):
            self.kill(place)


def increased(t, key):
    number = int(t.get(key, b"0")) + 1
    t[key] = b"%d" % number
    return number


def commit_on(ports):
    """Commits until it is killed, and tells each commit once it has returned."""
    import replicated
    with replicated.Node(ports, NAME) as node:
        print("opened", flush=True)
        while True:
            begun = time.monotonic()
            with node.transaction() as t:
                number = increased(t, b"one")
                t[b"key%d" % (number % 100)] = b"%d" % number
                increased(t, b"two")
            print(number, time.monotonic() - begun, flush=True)


class Committer:
    """Another process, which commits."""

    def __init__(self, ports):
        begun = time.monotonic()
        words = [sys.executable, os.path.abspath(__file__), "commit", *map(str, ports)]
        self.process = subprocess.Popen(words, stdout=subprocess.PIPE, text=True)
        if self.process.stdout.readline() != "opened\n":
            raise SystemExit("a node wasn't opened")
        self.opened = time.monotonic() - begun
        self.told, self.times = 0, []

    def hear(self, count):
        for _ in range(count):
            number, took = self.process.stdout.readline().split()
            self.told = int(number)
            self.times.append(float(took))

    def kill(self):
        self.process.send_signal(signal.SIGKILL)
        for line in self.process.stdout:
            if line.endswith("\n"):
                self.told = int(line.split()[0])
        self.process.wait()


def look(ports, told):
    """What a node has that is opened from the servers; it must have what was told."""
    import replicated
    begun = time.monotonic()
    with replicated.Node(ports, NAME) as node:
        took = time.monotonic() - begun
        with node.transaction() as t:
            one, two = int(t.get(b"one", b"0")), int(t.get(b"two", b"0"))
            last = int(t.get(b"key%d" % (one % 100), b"0"))
    if one != two or last != one or not told <= one <= told + 1:
        raise SystemExit(f"{told} commits were told, and the records are {one}, {two} and {last}")
    return one, took


def fence(ports):
    """Of two that have the log open the second to commit is refused."""
    import replicated
    first, second = replicated.Node(ports, NAME), replicated.Node(ports, NAME)
    with second.transaction() as t:
        increased(t, b"fenced")
    try:
        with first.transaction() as t:
            increased(t, b"fenced")
    except replicated.Taken:
        return
    raise SystemExit("two processes had the log")


def milliseconds(times):
    times = sorted(times)
    return f"{1000 * statistics.median(times):.1f} ms, the longest {1000 * times[-1]:.0f} ms"


def main(count):
    folder = tempfile.mkdtemp()
    cluster = Cluster(folder)
    try:
        first = Committer(cluster.clients)
        first.hear(count)
        cluster.kill(0)
        first.hear(count)
        first.kill()
        print(f"{first.told} commits were told, one server killed amid them, and then the process")
        print(f"a commit took {milliseconds(first.times[:count])}; with two servers {milliseconds(first.times[count:])}")
        found, took = look(cluster.clients, first.told)
        print(f"another process opened the log of two servers in {1000 * took:.0f} ms: {found} commits")
        second = Committer(cluster.clients)
        second.hear(count)
        cluster.restart(0)
        second.hear(count)
        time.sleep(2)
        cluster.kill(1)
        second.hear(count)
        second.kill()
        found, took = look(cluster.clients, second.told)
        print(f"a third, with another server killed: {found} commits, in {1000 * took:.0f} ms; none that was told is lost")
        fence(cluster.clients)
        print("of two that have the log open one is refused")
    finally:
        cluster.end()
        shutil.rmtree(folder)


if __name__ == "__main__":
    if sys.argv[1:2] == ["commit"]:
        commit_on([int(port) for port in sys.argv[2:]])
    else:
        main(int(sys.argv[1]) if len(sys.argv) > 1 else 200)
