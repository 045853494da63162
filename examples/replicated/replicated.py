"""A node whose log is on other machines: each block of it is an entry of a replicated log, here of servers of etcd.

    import replicated
    with replicated.Node([2379, 2479, 2579], "bank") as node:     the ports of the servers, and the log's name
        with node.transaction() as t:
            t[b"alice"] = b"100"

A commit returns once a majority of the servers has its block: what it told is there whichever minority of them is lost,
and whatever becomes of this process. An opening reads the entries from the servers and makes the node of them, as that of
a store is made of its file (docs/STORE.md has the blocks). An entry is made only where there is none of its number, so of
two processes that have the log open one is refused at its next commit, Taken, and must open it again: it never overwrites.
The servers are spoken to by their JSON interface; the calls of transactions are those of examples/python.
"""
import base64
import ctypes
import http.client
import json
import os
import sys
import time

sys.path.insert(0, os.path.join(os.path.dirname(os.path.abspath(__file__)), "..", "python"))
import jakumshe

_PAGE = 256  # entries that one answer has at most
_OPENING = 8  # bytes before an entry's block
_library = jakumshe._library
_size, _number = ctypes.c_size_t, ctypes.c_uint64
_sized, _numbered = ctypes.POINTER(_size), ctypes.POINTER(_number)


class _Head(ctypes.Structure):
    _fields_ = [("bytes", ctypes.c_uint8 * 32)]


_on = ctypes.POINTER(jakumshe._Node)
_library.jakumshe_raw_unpack.argtypes = [ctypes.c_void_p, _size, _number, _sized, _sized, _numbered]
_library.jakumshe_raw_open_on.argtypes = [_on, ctypes.c_void_p, _size, _sized]
_library.jakumshe_raw_log.argtypes = [_on, _size, ctypes.c_void_p, _size, _sized]
_library.jakumshe_raw_head.argtypes = [_numbered, _number, ctypes.c_char_p, _size, ctypes.POINTER(_Head)]
_library.jakumshe_raw_head.restype = None


class Taken(jakumshe.Error):
    """Another process has written the entry: it has the log."""


class Unreachable(jakumshe.Error):
    """No majority of the servers has answered in time. Whether the entry is made is told by an opening alone."""


def _text(data):
    return base64.b64encode(data).decode()


class Servers:
    """The servers, of which one is asked after another until one answers."""

    def __init__(self, ports, patience=10.0):
        self._ports, self._patience, self._connection = list(ports), patience, None

    def _ask(self, path, words):
        """What the servers answer; asked again for so long."""
        end = time.monotonic() + self._patience
        while time.monotonic() < end:
            try:
                if self._connection is None:
                    self._connection = http.client.HTTPConnection("127.0.0.1", self._ports[0], timeout=2)
                self._connection.request("POST", path, json.dumps(words))
                answer = self._connection.getresponse()
                told = json.loads(answer.read())
                if answer.status == 200:
                    return told
            except (OSError, http.client.HTTPException, ValueError):
                pass
            self._connection = None
            self._ports.append(self._ports.pop(0))
            time.sleep(0.02)
        raise Unreachable(path)

    def make(self, key, value):
        """Makes an entry where there is none; else what stands there. One that was asked for twice is made once."""
        words = {
            "compare": [{"key": _text(key), "target": "CREATE", "create_revision": "0"}],
            "success": [{"request_put": {"key": _text(key), "value": _text(value)}}],
            "failure": [{"request_range": {"key": _text(key)}}],
        }
        told = self._ask("/v3/kv/txn", words)
        if told.get("succeeded"):
            return value
        return base64.b64decode(told["responses"][0]["response_range"]["kvs"][0].get("value", ""))

    def entries(self, prefix):
        """The values of the entries whose keys begin so, in the order of the keys, as a majority has them."""
        low, high = prefix, prefix[:-1] + bytes([prefix[-1] + 1])
        while True:
            told = self._ask("/v3/kv/range", {"key": _text(low), "range_end": _text(high), "limit": str(_PAGE)})
            for found in told.get("kvs", []):
                yield base64.b64decode(found.get("value", ""))
                low = base64.b64decode(found["key"]) + b"\0"
            if not told.get("more"):
                return


class Node(jakumshe.Node):
    """A node on a log that the servers keep. Its log is never renewed: an entry stays."""

    def __init__(self, ports, name, patience=10.0):
        self._servers, self._name = Servers(ports, patience), name.encode()
        super().__init__(keeps_log=True)

    def _open(self):
        number = self._servers.make(self._name + b"/number", os.urandom(7) + b"\1")
        self._opening = os.urandom(_OPENING)  # whose entries are this node's, also where another's have the same block
        blocks = [entry[_OPENING:] for entry in self._servers.entries(self._name + b"/block/")]
        self._count = len(blocks)
        file = ctypes.create_string_buffer(b"".join(blocks) or b"\0")
        size = sum(len(block) for block in blocks)
        length, end, self._sum, kept = _size(), _size(), _number(), _size()
        first = int.from_bytes(number, "big")
        jakumshe._call("raw_unpack", file, size, first, length, end, self._sum)
        if end.value != size:
            raise jakumshe.Error("an entry isn't a block")
        if not blocks:
            self._sum = _number(first)
        jakumshe._call("raw_open_on", self._node, file, length.value, kept)
        self._kept = kept.value

    def _commit(self, txn):
        super()._commit(txn)
        self.sync()

    def sync(self):
        """Brings the servers up to the node: what has committed is kept then."""
        none, whole = ctypes.create_string_buffer(1), _size()
        jakumshe._call("raw_log", self._node, self._kept, none, 0, whole)
        length = whole.value - self._kept
        if length <= 0:
            return
        data = ctypes.create_string_buffer(length)
        jakumshe._call("raw_log", self._node, self._kept, data, length, whole)
        total, head = _number(self._sum.value), _Head()
        _library.jakumshe_raw_head(total, self._kept, data.raw, length, head)
        entry = self._opening + bytes(head.bytes) + data.raw
        if self._servers.make(self._name + b"/block/%016d" % self._count, entry) != entry:
            raise Taken("commit")
        self._count, self._kept, self._sum = self._count + 1, self._kept + length, total
