#!/usr/bin/env python3
"""Usage: tests/told.py SHELL. What SHELL, a built undo_shell, tells beside a script's text: standard error, exit statuses,
and which stores it makes. Prints a line for each case that differs, and how many agree; exit status 1 where one differs.
"""
import os
import pty
import re
import resource
import shutil
import signal
import struct
import subprocess
import sys
import tempfile

BEGUN = "settle\nbegin t\ninsert t a 1\nsettle\n"
NO_STORE = "no store: the folder has no file `store` of one, or one that is no more than begun"
UNCONNECTED = ("undo_shell: NotConnected: a component is down, or the two have no session yet: `settle` before the line "
               "restarts and connects them\n")


def limited():
    """No file of the process grows beyond 60 bytes, as on a disk that is full then."""
    signal.signal(signal.SIGXFSZ, signal.SIG_IGN)
    resource.setrlimit(resource.RLIMIT_FSIZE, (60, 60))


def block(total, start, data):
    """A block of version 2 (docs/STORE.md), and the sum behind it."""
    front = struct.pack(">QQ", 2 << 56 | start, len(data))
    sealed = summed(total, front)
    total = summed(sealed, data + bytes(8 - len(data) % 8))
    return front + struct.pack(">QQ", sealed, total) + data, total


def summed(total, data):
    a, b = total >> 32, total & 0xffffffff
    for at in range(0, len(data), 8):
        x, y = struct.unpack_from(">II", data, at)
        a = (a + x + b) & 0xffffffff
        b = (b + y + a) & 0xffffffff
    return a << 32 | b


def cut(text):
    """As much of a line or a word as is shown."""
    return text if len(text) <= 60 else text[:60] + ".."


class Cases:
    def __init__(self, shell):
        self.shell = shell
        self.agree = self.differ = 0
        os.chdir(tempfile.mkdtemp())

    def run(self, words, script, status, text=None, told="", before=None):
        done = subprocess.run([self.shell, *words.split()], input=script.encode(), capture_output=True,
                              preexec_fn=before, timeout=60)
        found = done.returncode, done.stdout.decode(), done.stderr.decode()
        wanted = status, found[1] if text is None else text, told
        self.judge(words + " < " + repr(script), found, wanted)

    def judge(self, what, found, wanted):
        if found == wanted:
            self.agree += 1
        else:
            self.differ += 1
            print(f"{what}: found {found}, wanted {wanted}")

    def scripts(self):
        bad = "settle\n\ninsrt t a 1\nbegin u\n"
        reason = "undo_shell: line 3 `insrt t a 1`: no line begins with `insrt`; did you mean `insert`?\n"
        for task in ("run", "run --strict --continue", "explain", "draw"):
            self.run(task, bad, 2, "no 17 BadScript 3\n", reason)
        self.run("run", "settle\r\ntable\r\n", 2, "no 17 BadScript 1\n",
                 "undo_shell: line 1 `settle\\x0d`: it ends with CR LF; a line ends with LF alone\n")
        self.run("run", "begin t\nsettle\nbegin t\n", 0, "no 9 NotConnected\nsettled\ntxn 2\n", UNCONNECTED)
        busy = "settle\nbegin t\nbegin u\ninsert t a 1\ninsert u a 2\ninsert u . 2\n"
        text = "settled\ntxn 2\ntxn 3\nlogged 4\nno 2 Busy 2\nno 11 EmptyKey\n"
        self.run("run", busy, 0, text)
        self.run("run --strict", busy, 4, text, "undo_shell: 2 lines were refused\n")
        again = "settle\nbegin t\nbegin u\ncommit u\nbegin u\n"
        self.run("run --strict", again, 0, "settled\ntxn 2\ntxn 3\ncommit logged 4\ntxn 5\n",
                 "undo_shell: 0 lines were refused\n")
        self.run("run --strict", again + "begin t\n", 0, "settled\ntxn 2\ntxn 3\ncommit logged 4\ntxn 5\ntxn 6\n",
                 "undo_shell: line 6 begins the label of line 2 again: no line behind it names the transaction that has "
                 "begun there, and none between has ended it\nundo_shell: 0 lines were refused\n")
        self.run("run --strict", "table\n", 0, "rows 0\n", "undo_shell: 0 lines were refused\n")
        self.run("run --strict", "settle\nfail tclog 1\nbegin t\n", 3, "settled\nset\nno 10 Device\n",
                 "undo_shell: 1 line was refused\n")

    def explained(self):
        script = "# none\nsettle\ntable\n"
        self.run("explain --at 4", script, 2, "", "undo_shell: there is no line 4: the script has 3\n")
        for line in (1, 3):
            self.run(f"explain --at {line}", script, 0, "",
                     f"undo_shell: line {line} changes nothing, so nothing is said of it\n")
        self.run("explain --at 2", script, 0)
        self.run("explain --at 2", "settle\nsettle\n", 0, "",
                 "undo_shell: line 2 changes nothing, so nothing is said of it\n")
        self.run("explain --at 2", "settle\nforget", 0,
                 "line 2  forget\n  - every message is let go: none that was sent so far can arrive any more\n")
        self.run("--version", "", 0, "undo_shell 0.2.0\n")

    def stores(self):
        for folder in ("typo", "none/store"):
            for task in ("run", "run --read-only", "compact", "check", "dump", "stat"):
                hint = "; --create makes one in an empty folder" if task == "run" else ""
                self.run(f"{task} --store {folder}", "table\n", 2, "", f"undo_shell: {folder}: {NO_STORE}{hint}\n")
        self.judge("a store that was not to be made", os.path.exists("typo"), False)
        self.run("run --create --read-only --store typo", "", 2, "",
                 "undo_shell: --read-only makes no store, and --create does\n")
        self.run("load --store typo", "rows 0\n", 2, "",
                 f"undo_shell: typo: {NO_STORE}; --create makes one in an empty folder\n")
        for task in ("compact", "check", "dump", "load", "stat"):
            self.run(task, "", 2, "", f"undo_shell: {task} wants a store: --store FOLDER\n")
        for flag in ("--create", "--read-only"):
            self.run(f"run {flag}", "settle\n", 2, "", f"undo_shell: {flag} wants a store: --store FOLDER\n")
        self.run("run --create --store made", BEGUN + "commit t\nsettle\n", 0)
        self.run("run --store made", "table\n", 0, "a=1\nrows 1\n")
        self.run("run --create --store made", "begin t\ninsert t b 2\nsettle\n", 0)
        self.run("run --read-only --store made", "table\n", 0, "a=1\nrows 1\n")

    def full_disk(self):
        """The session's block has 41 bytes: the next one goes beyond the 60."""
        self.run("run --create --store full", "", 0)
        told = "undo_shell: full: cannot write the store's file `log`: File too large (os error 27)\n"
        self.run("run --store full", "table\n", 3, "", told, limited)
        shutil.rmtree("full")
        self.run("run --create --store full --continue", BEGUN + "table\n", 3,
                 "settled\ntxn 2\nlogged 3\nno 10 Device\nrows 0\n", told, limited)
        # The head of a block, which has 32 bytes, was written up to there.
        self.run("run --store full", "table\n", 0, "rows 0\n",
                 "undo_shell: full: the store's file `log`: a torn block of 19 bytes at byte 41 is left out\n")

    def checked(self):
        """Records: of the first run a session, one that commits and one that is left open; of the second its session."""
        self.run("run --create --store seen",
                 BEGUN + "commit t\nsettle\nbegin u\ninsert u b 2\nforce\n", 0)
        size = os.path.getsize("seen/log")
        self.run("check --store seen", "", 0,
                 "blocks 5\nbytes 122\nrecords 7\ncommitted 1\nopen 1\nrows 1\ncompacted 74\n")
        self.judge("a store that was checked", os.path.getsize("seen/log"), size)

    def keys(self):
        """Keys of any bytes, which are told from what stands beside them."""
        script = "settle\nbegin t\ninsert t #613d620a726f77732037 1\nsettle\nget t #61\nsettle\n"
        self.run("run", script + "insert t #61 .\nsettle\ntable\n", 0,
                 "settled\ntxn 2\nlogged 3\nanswer 2 inserted\nsettled\nasked 1\nrow 2 -\nsettled\n"
                 "logged 5\nanswer 2 inserted\nsettled\na=.\n#613d620a726f77732037=1\nrows 2\n")
        for word in ("#", "#6", "#6A", "#" + "61" * 121):
            self.run("run", f"settle\nget t {word}\n", 2, "no 17 BadScript 2\n",
                     f"undo_shell: line 2 `{cut('get t ' + word)}`: `{cut(word)}` is not a key: letters and digits, a dot, or # "
                     "and 1 to 120 bytes of two lower case hexadecimal digits\n")

    def dumped(self):
        """A dump is loaded again, in any order; what isn't one leaves a store as it was."""
        rows = [b"a=1", b"#00=.", b"#ff0a=#3d", b"b=z"]
        text = b"\n".join(rows + [b"rows 4"]) + b"\n"
        wanted = b"\n".join([rows[1], rows[0], rows[3], rows[2], b"rows 4"]).decode() + "\n"
        self.run("load --create --store one", text.decode(), 0, "4 records are put\n")
        self.run("dump --store one", "", 0, wanted)
        self.run("load --create --store two", wanted.rstrip("\n"), 0, "4 records are put\n")
        self.run("load --store two", "a=2\nrows 1\n", 0, "1 records are put\n")
        self.run("dump --store two", "", 0, wanted.replace("a=1", "a=2"))
        self.run("stat --store two", "", 0, "rows 4\nkey bytes 5\nvalue bytes 3\nlongest key 2\nlongest value 1\nleaves 1\n")
        record = "is no record `K=V`, nor `rows N`"
        for bad, reason in (("", "the text is cut: `rows N` isn't its last line"),
                            ("a=3\n", "the text is cut: `rows N` isn't its last line"),
                            ("a=3\nrows 2\n", "the text has 1 records, and says 2"),
                            ("a=3\nrows 1\nb=3\n", "something stands behind the line `rows N`"),
                            ("a=3\nb\nrows 2\n", f"line 2 {record}"), ("a=3\n\nrows 1\n", f"line 2 {record}"),
                            ("a=3\nrows 01\n", f"line 2 {record}"), (".=3\nrows 1\n", f"line 1 {record}"),
                            (f"{'k' * 33}=3\nrows 1\n", f"line 1 {record}"),
                            (f"a={'v' * 121}\nrows 1\n", f"line 1 {record}"), ("a=3=4\nrows 1\n", f"line 1 {record}"),
                            ("a=3\r\nrows 1\n", f"line 1 {record}")):
            self.run("load --store two", bad, 2, "", f"undo_shell: {reason}: nothing is put\n")
        self.run("dump --store two", "", 0, wanted.replace("a=1", "a=2"))
        self.run("load --create --store lost", "a=1\nrows 1\n", 3, "",
                 "undo_shell: lost: nothing is put: a device failed\nundo_shell: lost: cannot write the store's file `log`: "
                 "File too large (os error 27)\n", limited)
        self.run("dump --store lost", "", 0, "rows 0\n",
                 "undo_shell: lost: the store's file `log`: a torn block of 19 bytes at byte 41 is left out\n")
        many = "".join(f"k{n * 7919 % 5000:04}={n}\n" for n in range(5000)) + "rows 5000\n"
        self.run("load --create --store many", many, 0, "5000 records are put\n")
        self.run("dump --store many", "", 0, "\n".join(sorted(many.splitlines())) + "\n")

    def conversing(self):
        """Each line is answered before the next is read; one outside the grammar is refused, and the next is read."""
        process = subprocess.Popen([self.shell, "run", "--interactive"], stdin=subprocess.PIPE, stdout=subprocess.PIPE,
                                   stderr=subprocess.PIPE)
        found = []
        for line, answers in ((b"settle\n", 1), (b"begn t\n", 1), (b"\n# none\nbegin t\n", 1), (b"insert t a 1\n", 1),
                              (b"settle\n", 2)):
            process.stdin.write(line)
            process.stdin.flush()
            found += [process.stdout.readline() for _ in range(answers)]
        left, told = process.communicate(b"table")
        wanted = [b"settled\n", b"no 17 BadScript 2\n", b"txn 2\n", b"logged 3\n", b"answer 2 inserted\n", b"settled\n"]
        self.judge("a conversation", found, wanted)
        self.judge("its end", (left, told, process.returncode),
                   (b"a=1\nrows 1\n", b"undo_shell: line 2 `begn t`: no line begins with `begn`; did you mean `begin`?\n", 2))
        self.run("run --interactive --strict", "begin t\nbegin t\n", 4, "no 9 NotConnected\nno 9 NotConnected\n",
                 UNCONNECTED + "undo_shell: 2 lines were refused\n")
        script = "settle\nfail tclog 1\nbegin t\ntable\n"
        self.run("run --interactive", script, 3, "settled\nset\nno 10 Device\n")
        self.run("run --interactive --continue", script, 3, "settled\nset\nno 10 Device\nrows 0\n")
        self.run("run --create --interactive --store talk", BEGUN + "commit t\nsettle\n", 0)
        self.run("run --interactive --store talk", "table\n", 0, "a=1\nrows 1\n")

    def on_terminal(self):
        """A terminal is asked for each line."""
        signal.alarm(60)  # (a shell that doesn't ask would be waited for)
        child, end = pty.fork()
        if child == 0:
            os.execv(self.shell, [self.shell, "run"])
        text = b""
        for line in (b"settle\n", b"table\n", b"\x04"):
            while not text.endswith(b"> "):
                text += os.read(end, 4096)
            os.write(end, line)
            text += os.read(end, 1)
        try:
            while more := os.read(end, 4096):
                text += more
        except OSError:  # (so a terminal ends)
            pass
        _, status = os.waitpid(child, 0)
        signal.alarm(0)
        shown = text.replace(b"\r", b"").replace(b"^D", b"").replace(b"\b", b"")
        self.judge("a terminal", (shown, os.WEXITSTATUS(status)), (b"> settle\nsettled\n> table\nrows 0\n> \n", 0))

    def told_on_terminal(self, words):
        """What is told on standard error where that is a terminal."""
        ours, theirs = pty.openpty()
        process = subprocess.Popen([self.shell, *words.split()], stdin=subprocess.DEVNULL, stdout=subprocess.DEVNULL,
                                   stderr=theirs)
        os.close(theirs)
        text = b""
        try:
            while more := os.read(ours, 4096):
                text += more
        except OSError:  # (so a terminal ends)
            pass
        os.close(ours)
        return text, process.wait(timeout=60)

    def far(self):
        """How far an opening is that takes long, on a terminal alone."""
        count = 300000
        rows = "".join(f"k{number:06}=v{number}\n" for number in range(count))
        self.run("load --create --store long", f"{rows}rows {count}\n", 0, f"{count} records are put\n")
        self.run("load --create --store short", "a=1\nrows 1\n", 0, "1 records are put\n")
        for task in ("run --read-only", "check", "stat", "dump"):
            self.run(f"{task} --store long", "", 0)
            self.judge(f"{task} of a short log on a terminal", self.told_on_terminal(f"{task} --store short"), (b"", 0))
        length = os.path.getsize("long/log") - 32 * self.blocks("long")
        first = f"\r{length} bytes of log are read\r\x1b[K".encode()
        for task in ("run --read-only", "check", "stat", "dump"):
            text, status = self.told_on_terminal(f"{task} --store long")
            self.judge(f"{task} of a long log on a terminal",
                       (text[:len(first)], re.fullmatch(rb"(\r[0-9]+ [a-z ]+|\r\x1b\[K)*\r\x1b\[K", text) is not None, status),
                       (first, True, 0))

    def grown(self):
        """A log of more than 4 MB, and of twice its first block, is written anew before a script is run, unless its store
        is only read or the log is to be kept; one of fewer bytes isn't."""
        # Messages are carried by hand: to settle is to sync the file.
        carried = "send t\nreq 1\nrep 1\nforget\n"
        once = ("begin t\nforget\n" + "".join(f"upsert t k{key:02} #{'61' * 120}\n{carried}" for key in range(60))
                + "commit t\nsettle\n")
        self.run("run --create --store small", "settle\n" + once * 5, 0)
        self.run("run --create --store large", "settle\n" + once * 500, 0)
        rows = "".join(f"k{key:02}={'a' * 120}\n" for key in range(60)) + "rows 60\n"
        for words in ("small", "large --read-only", "large --keep-log"):
            blocks = self.blocks(words.split()[0])
            self.run(f"run --store {words}", "table\n", 0, rows)
            # Whoever may write logs a session.
            more = 0 if "read" in words else 1
            self.judge(f"blocks of {words}", self.blocks(words.split()[0]), blocks + more)
        self.run("run --store large", "table\n", 0, rows)
        self.judge("a log that was written anew has a block, and a session", self.blocks("large"), 2)
        self.run("run --store large", "table\n", 0, rows)
        self.judge("and stays so", self.blocks("large"), 3)

    def blocks(self, folder):
        """How many blocks of version 2 a store's file has."""
        with open(f"{folder}/log", "rb") as file:
            data = file.read()
        place = count = 0
        while place < len(data):
            place += 32 + struct.unpack_from(">Q", data, place + 8)[0]
            count += 1
        return count

    def places(self):
        """Whole blocks of bytes that are no record: the place that is told is the file's."""
        os.mkdir("bad")
        number = 0x0123456789abcdef
        with open("bad/store", "w") as out:
            out.write(f"jakumshe store 2 {number:016x}\n")
        session, total = block(number, 0, bytes.fromhex("0000000000000001" "01"))
        wrong, _ = block(total, 9, bytes.fromhex("0000000000000001" "02" "0000000000000001" "77"))
        with open("bad/log", "wb") as out:
            out.write(session + wrong)
        # The first block has 41 bytes, the second a head of 32, and a Begin of 9 stands before the wrong frame.
        told = ("undo_shell: bad: the store's file `log`: the log isn't opened: the bytes at offset 82 aren't in the grammar "
                "or don't fit\n")
        for task in ("run", "run --read-only", "compact", "check"):
            self.run(f"{task} --store bad", "", 2, "", told)


def main(shell):
    cases = Cases(shell)
    cases.scripts()
    cases.explained()
    cases.stores()
    cases.full_disk()
    cases.checked()
    cases.keys()
    cases.dumped()
    cases.conversing()
    cases.on_terminal()
    cases.far()
    cases.grown()
    cases.places()
    print(f"what is told: {cases.agree} agree, {cases.differ} differ")
    return 1 if cases.differ else 0


if __name__ == "__main__":
    if len(sys.argv) != 2:
        sys.exit(__doc__)
    sys.exit(main(os.path.abspath(sys.argv[1])))
