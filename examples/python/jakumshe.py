"""Jakumshe from Python, by ctypes over the shared library that `make` in c/ makes.

    import jakumshe
    with jakumshe.Store("bank") as store:
        with store.transaction() as t:
            t[b"alice"] = b"100"
            with t.savepoint():
                del t[b"bob"]
            for key, value in t.scan(b"a", b"c"):
                ...
            last = list(t.scan(prefix=b"order/", backward=True, limit=10))

Keys are bytes, 1 to 32 of them, and values 0 to 120. A transaction commits at the end of its `with`, or is rolled back
where that is left by an exception; a savepoint goes back likewise. Each refusal of the library is an exception of its
name (NoRecord, Busy, NotOpen ..), all of which are Errors. JAKUMSHE_SO names the library; else it is looked for in c/out
and where the system has its libraries. A node may be shared by threads: each call takes its lock.
"""
import ctypes
import os
import threading

VERSION = "0.2.0"
_PAGE = 64


class Error(Exception):
    """A call was refused."""


def _exceptions():
    """The exception of each status, by the names that include/jakumshe.h has."""
    made = {}
    for status in list(range(1, 21)) + list(range(32, 47)):
        name = _library.jakumshe_name(status).text.decode()
        bases = (Error, KeyError) if name == "NoRecord" else (Error, MemoryError) if name == "NoMemory" else (Error,)
        made[status] = type(name, bases, {"status": status, "__module__": __name__})
    return made


class _Node(ctypes.Structure):
    _fields_ = [("node", ctypes.c_void_p), ("keeps_log", ctypes.c_int), ("is_stored", ctypes.c_int),
                ("left", ctypes.c_size_t)]


class _Store(ctypes.Structure):
    _fields_ = [("node", _Node), ("error", ctypes.c_int), ("folder", ctypes.c_int), ("mark", ctypes.c_int),
                ("due", ctypes.c_int), ("log", ctypes.c_int), ("is_unsure", ctypes.c_int), ("number", ctypes.c_uint64),
                ("place", ctypes.c_uint64), ("sum", ctypes.c_uint64), ("kept", ctypes.c_size_t)]


class _Value(ctypes.Structure):
    _fields_ = [("length", ctypes.c_uint8), ("bytes", ctypes.c_uint8 * 120)]


class _Row(ctypes.Structure):
    _fields_ = [("key_length", ctypes.c_uint8), ("value_length", ctypes.c_uint8), ("key", ctypes.c_uint8 * 32),
                ("value", ctypes.c_uint8 * 120)]


class _Key(ctypes.Structure):
    _fields_ = [("length", ctypes.c_uint8), ("bytes", ctypes.c_uint8 * 32)]


class _Cursor(ctypes.Structure):
    _fields_ = [("txn", ctypes.c_uint64), ("low", _Key), ("high", _Key), ("is_backward", ctypes.c_int),
                ("is_at_end", ctypes.c_int)]


class _Name(ctypes.Structure):
    _fields_ = [("text", ctypes.c_char * 16)]


def _load():
    here = os.path.join(os.path.dirname(os.path.abspath(__file__)), "..", "..", "c", "out", "libjakumshe.so")
    library = ctypes.CDLL(os.environ.get("JAKUMSHE_SO") or (here if os.path.exists(here) else "libjakumshe.so"))
    size, number, text = ctypes.c_size_t, ctypes.c_uint64, ctypes.c_char_p
    node, store, on = ctypes.POINTER(_Node), ctypes.POINTER(_Store), [ctypes.POINTER(_Node), ctypes.c_uint64]
    counted, numbered, cursor = ctypes.POINTER(size), ctypes.POINTER(number), ctypes.POINTER(_Cursor)
    for name, words in {
        "open": [node], "close": [node], "renew": [node], "begin": [node, numbered],
        "insert": on + [text, size, text, size], "update": on + [text, size, text, size],
        "upsert": on + [text, size, text, size], "delete": on + [text, size], "add": on + [text, size, number],
        "get": on + [text, size, ctypes.POINTER(_Value)], "start": [cursor, number, text, size, text, size],
        "start_prefix": [cursor, number, text, size], "turn": [cursor], "count": [node, cursor, numbered],
        "next": [node, cursor, ctypes.POINTER(_Row), size, counted], "save": on + [numbered], "go_back": on + [number],
        "roll_back": on, "commit": on, "store_open": [store, text], "store_commit": [store, number],
        "store_sync": [store], "store_compact": [store], "store_close": [store],
    }.items():
        getattr(library, "jakumshe_" + name).argtypes = words
    library.jakumshe_name.restype = library.jakumshe_version.restype = _Name
    library.jakumshe_version.argtypes = []
    version = library.jakumshe_version().text.decode()
    if version != VERSION:
        raise ImportError(f"libjakumshe is of version {version}, and this is of {VERSION}")
    return library


_library = _load()
_errors = _exceptions()
globals().update({made.__name__: made for made in _errors.values()})


def _call(name, *words):
    """Makes a call, and raises what its status says."""
    status = getattr(_library, "jakumshe_" + name)(*words)
    if status != 0:
        raise _errors.get(status, Error)(name)


class Node:
    """A node in memory. `keeps_log`: its log is renewed by `renew` alone."""

    def __init__(self, keeps_log=False):
        self._node = _Node(keeps_log=keeps_log)
        self._lock = threading.RLock()
        self._open()

    def _open(self):
        _call("open", self._node)

    def _commit(self, txn):
        _call("commit", self._node, txn)

    def renew(self):
        """Lets go of what the node has logged, but for what makes its records. Refused Active."""
        with self._lock:
            _call("renew", self._node)

    def close(self):
        with self._lock:
            _call("close", self._node)

    def transaction(self):
        return Transaction(self)

    def __enter__(self):
        return self

    def __exit__(self, kind, error, trace):
        self.close()


class Store(Node):
    """A node whose log a folder keeps. `error` is the errno of the system's call that was refused last."""

    def __init__(self, folder, keeps_log=False):
        self._folder = os.fsencode(folder)
        self._store = _Store(node=_Node(keeps_log=keeps_log), folder=-1, mark=-1, log=-1)
        super().__init__(keeps_log)

    def _open(self):
        self._node = self._store.node  # (a part of the store's memory, no copy)
        _call("store_open", self._store, self._folder)

    def _commit(self, txn):
        _call("store_commit", self._store, txn)

    @property
    def error(self):
        return self._store.error

    def renew(self):
        """Writes the log anew, with the records alone. Refused Active."""
        with self._lock:
            _call("store_compact", self._store)

    def sync(self):
        with self._lock:
            _call("store_sync", self._store)

    def close(self):
        with self._lock:
            _call("store_close", self._store)


class Transaction:
    """What a client does; to be used by `with`, or ended by `commit` or `roll_back`."""

    def __init__(self, node):
        txn = ctypes.c_uint64()
        self._on, self._is_over = node, False
        with node._lock:
            _call("begin", node._node, txn)
        self._txn = txn.value

    def _call(self, name, *words):
        with self._on._lock:
            if self._is_over:  # (its number may be another's by now)
                raise NotOpen(name)
            _call(name, self._on._node, self._txn, *words)

    def __getitem__(self, key):
        value = _Value()
        self._call("get", key, len(key), value)
        return bytes(value.bytes[:value.length])

    def get(self, key, default=None):
        try:
            return self[key]
        except NoRecord:
            return default

    def __contains__(self, key):
        return self.get(key) is not None

    def __setitem__(self, key, value):
        self._call("upsert", key, len(key), value, len(value))

    def __delitem__(self, key):
        self._call("delete", key, len(key))

    def insert(self, key, value):
        """Puts a record where there is none. Refused Exists."""
        self._call("insert", key, len(key), value, len(value))

    def update(self, key, value):
        """Gives the record that is there another value. Refused NoRecord."""
        self._call("update", key, len(key), value, len(value))

    def add(self, key, amount):
        """Adds to the number that is there, a value of 8 bytes. Refused NoRecord, NotNumber."""
        self._call("add", key, len(key), amount % 2**64)

    def scan(self, low=b"\0", high=b"", *, prefix=None, backward=False, limit=None):
        """The rows from one key on, below another or to the end, or those whose keys begin with `prefix`: an iterator of
        (key, value), which reads a page of them at a time, from the last one on where it is to go backward, and no more
        than `limit`. What it has read is locked until the transaction ends."""
        return Scan(self, _range(self._txn, low, high, prefix), backward, limit)

    def count(self, low=b"\0", high=b"", *, prefix=None):
        """How many rows such a range has. All of it is locked."""
        count = ctypes.c_uint64()
        cursor = _range(self._txn, low, high, prefix)
        with self._on._lock:
            if self._is_over:
                raise NotOpen("count")
            _call("count", self._on._node, cursor, count)
        return count.value

    def savepoint(self):
        return Savepoint(self)

    def commit(self):
        with self._on._lock:
            if self._is_over:
                raise NotOpen("commit")
            self._on._commit(self._txn)
            self._is_over = True

    def roll_back(self):
        with self._on._lock:
            self._call("roll_back")
            self._is_over = True

    def __enter__(self):
        return self

    def __exit__(self, kind, error, trace):
        if self._is_over:
            return
        if kind is None:
            self.commit()
        else:
            self.roll_back()


class Savepoint:
    """A place in a transaction to which it may go back; at the end of its `with` it does where an exception leaves it."""

    def __init__(self, transaction):
        number = ctypes.c_uint64()
        transaction._call("save", number)
        self._transaction, self._number = transaction, number.value

    def go_back(self):
        """Undoes what was done since. The savepoint stays."""
        self._transaction._call("go_back", self._number)

    def __enter__(self):
        return self

    def __exit__(self, kind, error, trace):
        if kind is not None:
            self.go_back()


def _range(txn, low, high, prefix):
    """A cursor over a range, or over the keys that begin so."""
    cursor = _Cursor()
    if prefix is None:
        _call("start", cursor, txn, low, len(low), high, len(high))
    else:
        _call("start_prefix", cursor, txn, prefix, len(prefix))
    return cursor


class Scan:
    """The rows of a range, read a page at a time."""

    def __init__(self, transaction, cursor, backward, limit):
        self._transaction, self._cursor, self._rows, self._place = transaction, cursor, [], 0
        self._left = limit
        if backward:
            _call("turn", cursor)

    def _take_page(self):
        size = _PAGE if self._left is None else min(_PAGE, self._left)
        rows, count, transaction = (_Row * size)(), ctypes.c_size_t(), self._transaction
        with transaction._on._lock:
            if transaction._is_over:
                raise NotOpen("next")
            _call("next", transaction._on._node, self._cursor, rows, size, count)
        self._place = 0
        if self._left is not None:
            self._left -= count.value
        self._rows = [(bytes(row.key[:row.key_length]), bytes(row.value[:row.value_length]))
                      for row in rows[:count.value]]

    def __iter__(self):
        return self

    def __next__(self):
        if self._place == len(self._rows):
            self._take_page()
        if not self._rows:
            raise StopIteration
        self._place += 1
        return self._rows[self._place - 1]
