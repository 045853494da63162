"""Random work beside sqlite3: each transaction is made on both, and what either gives is compared.

    python3 test_jakumshe.py [TRANSACTIONS] [SEED]
"""
import collections
import os
import random
import sqlite3
import struct
import sys
import tempfile
import threading
import unittest

import jakumshe

TRANSACTIONS = int(sys.argv[1]) if len(sys.argv) > 1 else 600
SEED = int(sys.argv[2]) if len(sys.argv) > 2 else 1


class Sqlite:
    """The same calls on a table of sqlite3."""

    def __init__(self):
        self.base = sqlite3.connect(":memory:", isolation_level=None)
        self.base.execute("create table t (k blob primary key, v blob) without rowid")

    def get(self, key):
        found = self.base.execute("select v from t where k = ?", (key,)).fetchone()
        return found and found[0]

    def put(self, key, value):
        self.base.execute("insert or replace into t values (?, ?)", (key, value))

    def delete(self, key):
        self.base.execute("delete from t where k = ?", (key,))

    def scan(self, low=b"", high=b"", prefix=b"", backward=False, limit=None):
        order = "desc" if backward else "asc"
        return self.base.execute(f"select k, v from t where k >= ? and (? = x'' or k < ?) and substr(k, 1, ?) = ? "
                                 f"order by k {order} limit ?",
                                 (low, high, high, len(prefix), prefix, -1 if limit is None else limit)).fetchall()


class Beside(unittest.TestCase):
    def setUp(self):
        self.random = random.Random(SEED)
        self.kinds = collections.Counter()

    def key(self):
        return bytes(self.random.choice(b"ab\x00\xff") for _ in range(self.random.choice([1, 2, 3, 4, 32])))

    def part(self):
        """A range, or a beginning of keys."""
        if self.random.random() < 0.4:
            return {"prefix": self.key()[:self.random.randrange(3)]}
        low, high = sorted([self.key(), self.key()])
        return {"low": low, "high": self.random.choice([b"", high]) if low != high else b""}

    def value(self):
        return self.random.randbytes(self.random.choice([0, 1, 8, 8, 120]))

    def refused(self, error, call, *words):
        self.kinds[error.__name__] += 1
        with self.assertRaises(error):
            call(*words)

    def operate(self, t, other):
        key, value = self.key(), self.value()
        found = other.get(key)
        kind = self.random.choice(["get", "put", "insert", "update", "delete", "add", "scan", "in"])
        self.kinds[kind] += 1
        if kind == "get":
            self.assertEqual(t.get(key), found)
        elif kind == "in":
            self.assertEqual(key in t, found is not None)
        elif kind == "put":
            t[key] = value
            other.put(key, value)
        elif kind == "insert" and found is not None:
            self.refused(jakumshe.Exists, t.insert, key, value)
        elif kind == "insert":
            t.insert(key, value)
            other.put(key, value)
        elif kind == "scan":
            part = self.part()
            how = {"backward": self.random.random() < 0.5, "limit": self.random.choice([None, 0, 1, 70])}
            scan, again = t.scan(**part, **how), t.scan(**part, **how)
            wanted = other.scan(**part, **how)
            self.assertEqual(list(zip(scan, again)), list(zip(wanted, wanted)))
            self.assertEqual(t.count(**part), len(other.scan(**part)))
        elif found is None:
            calls = {"update": (t.update, key, value), "delete": (t.__delitem__, key), "add": (t.add, key, 1)}
            self.refused(jakumshe.NoRecord, *calls[kind])
        elif kind == "update":
            t.update(key, value)
            other.put(key, value)
        elif kind == "delete":
            del t[key]
            other.delete(key)
        elif len(found) != 8:
            self.refused(jakumshe.NotNumber, t.add, key, 5)
        else:
            amount = self.random.randrange(2**64)
            t.add(key, amount)
            other.put(key, struct.pack(">Q", (struct.unpack(">Q", found)[0] + amount) % 2**64))

    def play(self, t, other, depth=0):
        """Operations, some in savepoints, of which some are left by an exception."""
        for _ in range(self.random.randrange(12)):
            if depth < 3 and self.random.random() < 0.1:
                self.kinds["savepoint"] += 1
                other.base.execute(f"savepoint s{depth}")
                try:
                    with t.savepoint():
                        self.play(t, other, depth + 1)
                        if self.random.random() < 0.5:
                            raise ValueError
                except ValueError:
                    other.base.execute(f"rollback to s{depth}")
                other.base.execute(f"release s{depth}")
            else:
                self.operate(t, other)

    def transact(self, node, other):
        other.base.execute("begin")
        try:
            with node.transaction() as t:
                self.play(t, other)
                if self.random.random() < 0.3:
                    raise ValueError
        except ValueError:
            other.base.execute("rollback")
        else:
            other.base.execute("commit")

    def compare(self, node, other):
        with node.transaction() as t:
            self.assertEqual(list(t.scan()), other.scan())
            self.assertEqual(list(t.scan(backward=True)), other.scan(backward=True))
            self.assertEqual(t.count(), len(other.scan()))

    def test_node(self):
        other = Sqlite()
        with jakumshe.Node() as node:
            for n in range(TRANSACTIONS):
                self.transact(node, other)
                if n % 50 == 0:
                    node.renew()
                    self.compare(node, other)
            self.compare(node, other)
        self.assertTrue(all(self.kinds[kind] for kind in ["Exists", "NoRecord", "NotNumber", "savepoint", "scan"]))

    def test_store(self):
        other = Sqlite()
        with tempfile.TemporaryDirectory() as folder:
            for n in range(10):
                with jakumshe.Store(os.path.join(folder, "store")) as store:
                    self.compare(store, other)
                    for _ in range(TRANSACTIONS // 20):
                        self.transact(store, other)
                    if n % 3 == 0:
                        store.renew()
                    self.compare(store, other)

    def test_refusals(self):
        with jakumshe.Node() as node, node.transaction() as t:
            t[b"k"] = b"v"
            with self.assertRaises(KeyError):
                t[b"other"]
            with self.assertRaises(jakumshe.EmptyKey):
                t[b""] = b"v"
            with self.assertRaises(jakumshe.TooLong):
                t[bytes(33)] = b"v"
            with self.assertRaises(jakumshe.BadRange):
                next(t.scan(b"b", b"a"))
            with self.assertRaises(jakumshe.BadRange):
                t.count(b"b", b"a")
            with self.assertRaises(jakumshe.TooLong):
                t.scan(prefix=bytes(33))
            with self.assertRaises(jakumshe.Active):
                node.renew()
            second = node.transaction()
            with self.assertRaises(jakumshe.Busy):
                second[b"k"]
            second.roll_back()
            with self.assertRaises(jakumshe.NotOpen):
                second.get(b"k")
        with self.assertRaises(jakumshe.Closed):
            node.transaction()
        with self.assertRaises(jakumshe.NotOpen):
            t[b"k"]
        with self.assertRaises(jakumshe.NotOpen):
            next(t.scan())
        with self.assertRaises(jakumshe.NotOpen):
            t.count()
        with tempfile.TemporaryDirectory() as folder, jakumshe.Store(folder):
            with self.assertRaises(jakumshe.Locked):
                jakumshe.Store(folder)
            with self.assertRaises(jakumshe.NotAStore):
                jakumshe.Store(os.path.dirname(__file__) or ".")

    def test_threads(self):
        """Four threads that add to one number, each by 1 in 200 transactions."""
        node = jakumshe.Node()
        with node.transaction() as t:
            t[b"n"] = bytes(8)

        def add():
            for _ in range(200):
                with node.transaction() as t:
                    t.add(b"n", 1)

        threads = [threading.Thread(target=add) for _ in range(4)]
        for thread in threads:
            thread.start()
        for thread in threads:
            thread.join()
        with node.transaction() as t:
            self.assertEqual(struct.unpack(">Q", t[b"n"])[0], 800)
        node.close()


if __name__ == "__main__":
    unittest.main(argv=sys.argv[:1])
