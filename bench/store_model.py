"""Scripts for the shell, and a plain model that follows what the shell prints of them.

The model believes a line only once its text was printed. It says what each answer, row and table must be, and after a
kill which records a store may have: those of all transactions whose commit was told, and of a beginning of those whose
commit was logged and not told yet, in the order of their commit records.
"""
import re
import string

NUMBER = re.compile(r"[0-9]+")
LABELS = "abcdef"
KEYS = 60
PLAIN = string.ascii_letters + string.digits


class Differs(Exception):
    """The shell printed what the model doesn't allow."""


class Ended(Exception):
    """No more text: the shell was killed, or ended."""


def shown(value):
    """A value as the shell prints it."""
    text = value.decode("latin-1")
    if not text:
        return "."
    return text if all(letter in PLAIN for letter in text) else "#" + value.hex()


def read(word):
    """The bytes of a value that a script or the shell has written."""
    if word == ".":
        return b""
    return bytes.fromhex(word[1:]) if word.startswith("#") else word.encode()


class Text:
    """Lines that were printed, whole ones alone."""

    def __init__(self, data):
        self.lines = data.decode("latin-1").split("\n")[:-1]
        self.at = 0

    def next(self):
        if self.at == len(self.lines):
            raise Ended()
        self.at += 1
        return self.lines[self.at - 1]

    def starts_with(self, word):
        if self.at == len(self.lines):
            raise Ended()
        return self.lines[self.at].startswith(word)


class Txn:
    def __init__(self, number):
        self.number = number
        self.effects = []  # what was done, oldest first: (key, value before, value after) or (key, amount)
        self.savepoints = {}
        self.expected = None  # what it waits for


def put(table, key, value):
    if value is None:
        table.pop(key, None)
    else:
        table[key] = value


def raised(value, amount):
    return ((int.from_bytes(value, "big") + amount) % 2**64).to_bytes(8, "big")


def redo(table, effects):
    for effect in effects:
        if len(effect) == 3:
            put(table, effect[0], effect[2])
        else:
            table[effect[0]] = raised(table[effect[0]], effect[1])


def undo(table, effects):
    for effect in reversed(effects):
        if len(effect) == 3:
            put(table, effect[0], effect[1])
        else:
            table[effect[0]] = raised(table[effect[0]], -effect[1])


class Model:
    """What the store has, as far as was printed."""

    def __init__(self):
        self.base = {}  # the records of the commits that were told
        self.history = [{}]  # base after each of them
        self.told = set()  # their transactions
        self.pending = []  # (transaction, effects) whose commit was logged and not told, in that order
        self.untold = 0  # how many of these a store had when it was opened again
        self.is_settled = False  # the line before this one left nothing to do
        self.open_again()

    def open_again(self):
        """The transaction component is opened on its log: open transactions are lost, and which of the pending commits
        the log has is told by the records alone."""
        self.current = dict(self.base)
        self.txns = {}
        self.labels = {}
        self.unsure = True

    def renew(self):
        """The log may have been written anew: then the numbers of transactions begin anew."""
        self.told = set()

    def possible(self):
        """The tables that the store may have, the one of what was told first."""
        tables = [dict(self.base)]
        for _, effects in self.pending:
            table = dict(tables[-1])
            redo(table, effects)
            tables.append(table)
        return tables

    # ---- what a line printed

    def play(self, line, text):
        words = line.split(" ")
        if words[0] == "settle":
            self.settle(len(words) == 1, text)
        elif words[0] == "table":
            self.table(text)
        else:
            out = text.next()
            if not out.startswith("no "):
                self.event(words, out)
                if words[0] in ("force", "connect"):
                    self.tell_committed(text)
            elif out.startswith("no 17") or out.startswith("no 19"):
                raise Differs(f"{line}: {out}")

    def event(self, words, out):
        name = words[0]
        if name == "begin":
            self.begin(words[1], int(self.after("txn ", out)))
        elif name == "crash" and words[1] == "tc" and out == "down":
            self.open_again()
        elif name in ("insert", "update", "upsert", "delete", "add"):
            self.after("logged ", out)
            self.act(self.txn(words[1]), name, words[2].encode(), words[3] if len(words) > 3 else None)
        elif name == "get":
            self.after("asked ", out)
            txn = self.txn(words[1])
            value = self.current.get(words[2].encode())
            txn.expected = ["row %d %s" % (txn.number, "-" if value is None else shown(value))]
        elif name == "scan":
            self.after("asked ", out)
            self.scan(self.txn(words[1]), words[2].encode(), None if words[3] == "*" else words[3].encode())
        elif name == "save":
            txn = self.txn(words[1])
            txn.savepoints[int(self.after("savepoint ", out))] = len(txn.effects)
        elif name in ("back", "rollback"):
            txn = self.txn(words[1])
            keep = txn.savepoints[int(words[2])] if name == "back" else 0
            undo(self.current, txn.effects[keep:])
            del txn.effects[keep:]
            txn.expected = [f"back {txn.number} {words[2]}" if name == "back" else f"rolled back {txn.number}"]
        elif name == "commit":
            self.after("commit logged ", out)
            txn = self.txn(words[1])
            self.pending.append((txn.number, txn.effects))

    @staticmethod
    def after(start, out):
        if not out.startswith(start):
            raise Differs(f"{out}, not {start}..")
        return out[len(start):]

    def txn(self, label):
        if label not in self.labels or self.labels[label] not in self.txns:
            raise Differs(f"a call of {label}, which isn't open, was taken")
        return self.txns[self.labels[label]]

    def begin(self, label, number):
        if number in self.told or number in self.txns:
            raise Differs(f"txn {number} is begun again")
        if self.unsure:
            raise Differs(f"txn {number} is begun before a settled node's records were printed")
        self.labels[label] = number
        self.txns[number] = Txn(number)

    def act(self, txn, name, key, word):
        old = self.current.get(key)
        answer = self.answer_to(txn, name, key, word, old)
        txn.expected = [f"answer {txn.number} {answer}"]

    def answer_to(self, txn, name, key, word, old):
        if name == "insert" and old is not None:
            return "exists"
        if name in ("update", "delete", "add") and old is None:
            return "missing"
        if name == "add":
            if len(old) != 8:
                return "notnumber"
            self.do(txn, (key, int(word)))
            return f"added {int(word)}"
        self.do(txn, (key, old, None if name == "delete" else read(word)))
        if name == "insert":
            return "inserted"
        if name == "upsert":
            return "was " + ("-" if old is None else shown(old))
        return ("updated " if name == "update" else "deleted ") + shown(old)

    def do(self, txn, effect):
        txn.effects.append(effect)
        redo(self.current, [effect])

    def scan(self, txn, low, high):
        keys = sorted(key for key in self.current if low <= key and (high is None or key < high))
        txn.expected = [f"rows {txn.number} {len(keys)}"]
        txn.expected += [f"{key.decode()}={shown(self.current[key])}" for key in keys]

    # ---- told lines

    def settle(self, whole, text):
        while True:
            out = text.next()
            if out == "settled":
                return
            if out == "paused" or out.startswith("no 10 ") or out.startswith("no 1 "):
                if whole and out == "paused":
                    raise Differs("settle paused")
                return
            if out.startswith("no "):
                raise Differs(f"settle: {out}")
            self.tell(out, text)

    def tell_committed(self, text):
        # What follows may be the next line's text: only lines of commits are the line's own.
        try:
            while text.starts_with("committed "):
                self.committed(int(text.next()[10:]))
        except Ended:
            pass

    def tell(self, out, text):
        if out.startswith("committed "):
            self.committed(int(out[10:]))
        elif out.startswith("lost "):
            if int(out[5:]) in self.told:
                raise Differs(f"{out}, whose commit was told")
        else:
            self.reply(out, text)

    def reply(self, out, text):
        number = int(NUMBER.search(out)[0])
        txn = self.txns.get(number)
        if txn is None or txn.expected is None:
            raise Differs(f"{out}, which nobody waits for")
        for line in txn.expected:
            if out != line:
                raise Differs(f"{out}, not {line}")
            out = text.next() if line is not txn.expected[-1] else None
        txn.expected = None
        if line.startswith("rolled back "):
            del self.txns[number]

    def committed(self, number):
        if number in self.told:
            return  # told again where the component was opened since
        if not self.pending or self.pending[0][0] != number:
            raise Differs(f"committed {number}, whose turn it isn't")
        _, effects = self.pending.pop(0)
        redo(self.base, effects)
        if self.unsure:
            redo(self.current, effects)
        self.keep(number)
        self.txns.pop(number, None)

    def keep(self, number):
        self.history.append(dict(self.base))
        self.told.add(number)

    def table(self, text):
        found = {}
        while True:
            out = text.next()
            if out.startswith("no "):
                return
            if out.startswith("rows "):
                break
            key, value = out.split("=")
            found[key.encode()] = read(value)
        if not self.is_settled:
            return
        if self.unsure:
            self.adopt(found)
        elif found != self.current:
            raise Differs(difference(self.current, found))

    def adopt(self, found):
        tables = self.possible()
        if found not in tables:
            raise Differs(difference(tables[0], found))
        count = tables.index(found)
        self.untold += count
        for number, effects in self.pending[:count]:
            redo(self.base, effects)
            self.keep(number)
        self.pending = []
        self.open_again()
        self.unsure = False


def difference(wanted, found):
    keys = sorted(key for key in wanted.keys() | found.keys() if wanted.get(key) != found.get(key))
    return "records differ: " + ", ".join(
        f"{key.decode('latin-1')} is {found.get(key)}, not {wanted.get(key)}" for key in keys[:5])


def follow(model, script, data):
    """Follows a run of the script on the store of the model. Gives how many of its lines were printed whole."""
    text = Text(data)
    model.open_again()
    played = 0
    try:
        for line in script:
            model.play(line, text)
            # Only then the records are those of the model: no request is on its way, and no rollback amid its steps.
            model.is_settled = line == "settle" and text.lines[text.at - 1] == "settled"
            played += 1
    except Ended:
        pass
    except Differs as error:
        error.args = (f"line {played + 1}, {script[played]}: {error}",)
        raise
    return played


# ---- scripts

class Writer:
    """Random lines. It keeps in mind which labels it has begun, and not whether the shell took a line."""

    def __init__(self, random, crashes_tc):
        self.random = random
        self.crashes_tc = crashes_tc
        self.open = []

    def script(self, count):
        lines = ["settle", "table"]
        while len(lines) < count:
            lines += self.some()
        return lines

    def key(self):
        return f"k{self.random.randrange(KEYS):02}"

    def value(self):
        kind = self.random.randrange(4)
        if kind == 0:
            return "#%016x" % self.random.randrange(2**64)
        if kind == 1:
            return "."
        return "".join(self.random.choices(PLAIN, k=self.random.randrange(1, 40)))

    def some(self):
        chance = self.random.random()
        if chance < 0.02:
            return self.rare()
        if len(self.open) < self.random.randrange(1, len(LABELS)):
            label = next(one for one in LABELS if one not in self.open)
            self.open.append(label)
            return [f"begin {label}"]
        label = self.random.choice(self.open)
        if chance < 0.16:
            self.open.remove(label)
            end = self.random.choice(["commit", "commit", "rollback"])
            return ["settle", f"{end} {label}"] + self.random.choice([["settle"], ["settle", "table"], ["force"], []])
        if chance < 0.22:
            return ["settle", f"save {label}"]
        if chance < 0.26:
            return ["settle", f"back {label} {self.random.randrange(1, 4)}", "settle"]
        if chance < 0.34:
            return [self.random.choice(["tend", "tell", "force", f"split {self.key()}", f"merge {self.key()}"])]
        return [self.call(label)] + self.random.choice([["settle"], ["settle"], ["settle"], ["settle 2"], []])

    def call(self, label):
        name = self.random.choice(["insert", "insert", "update", "upsert", "upsert", "delete", "add", "add", "get", "scan"])
        if name == "scan":
            return f"scan {label} {self.key()} {self.random.choice(['*', self.key()])}"
        if name == "add":
            return f"add {label} {self.key()} {self.random.randrange(2**self.random.randrange(1, 64))}"
        if name in ("delete", "get"):
            return f"{name} {label} {self.key()}"
        return f"{name} {label} {self.key()} {self.value()}"

    def rare(self):
        kind = self.random.randrange(4)
        if kind == 0:
            return [f"fail tclog {self.random.randrange(1, 20)}"]
        if kind == 1 and self.crashes_tc:
            self.open = []
            crash = f"crash tc {self.random.randrange(6)} {self.random.randrange(30)}"
            return [crash, "restart tc", "settle", "settle", "table"]
        return [f"crash dc {self.random.randrange(3)} 0", "restart dc", "settle", "table"]
