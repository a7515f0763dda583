"""An index of funnel in this process, over the library that clients/c/build.sh builds, for Python 3.10 or newer.

    from funnel_index import Index

    with Index() as index:
        index.add(7, "The cat sat")
        print(list(index.find("CAT")))  # [7]

What the index refuses is an exception, as with `funnel.Client`, whose answers these calls have, but that numbers come as an array. An index may
be used by several threads: one call is made at a time. The library is that of FUNNEL_LIBRARY, or the one that the script has built.
"""

from __future__ import annotations

import ctypes
import json
import os
import re
from array import array
from collections.abc import Iterable, Mapping
from ctypes import POINTER, byref, c_bool, c_char_p, c_size_t, c_uint32, c_uint64, c_void_p
from threading import Lock
from typing import Any

from funnel import Absent, BadQuery, Commit, Deep, Document, Full, NoMemory, Placed, Present, Refused, Some, Spent, Stats, Trimmed

BUILT = os.path.join(os.path.dirname(os.path.realpath(__file__)), "../c/out/libfunnel.so")

Text = str | bytes

LINE_ENDS = re.compile("[\r\n]")


class Closed(Refused):
    """The index is closed."""


class NotUtf8(Refused):
    """A text of bytes is not UTF-8."""


class Misfit(Refused):
    """No configuration fits the documents; `numbers` has the number of why, as funnel.h has it."""


class BadConfig(Refused):
    """The text is no configuration; `numbers` has its fault."""


class Handle(ctypes.Structure):
    """What the library has of an index."""

    _fields_ = [("index", c_void_p)]


class Numbers(ctypes.Structure):
    """The numbers of an index, in the order of `Stats`."""

    _fields_ = [(name, c_uint64) for name in Stats.__dataclass_fields__]


# of each code, as funnel.h numbers them, the exception and how its reply begins; those with a number have it behind that
REFUSALS: dict[int, tuple[type[Refused], str]] = {
    1: (Closed, "closed"),
    3: (NotUtf8, "not UTF-8"),
    4: (BadConfig, "refused configuration {}"),
    5: (Present, "refused present {}"),
    6: (Full, "refused full"),
    7: (Absent, "refused absent"),
    8: (Trimmed, "refused trimmed {}"),
    9: (BadQuery, "refused query {}"),
    10: (Deep, "refused deep {}"),
    11: (Spent, "refused spent"),
    12: (NoMemory, "refused memory"),
    13: (Misfit, "refused fit {}"),
}

NUMBER = POINTER(c_uint64)
BYTES = (c_char_p, c_size_t)
CALLS: dict[str, tuple[Any, ...]] = {
    "open": (*BYTES, NUMBER),
    "close": (),
    "add": (c_uint64, *BYTES, NUMBER),
    "put": (c_uint64, *BYTES, NUMBER, NUMBER),
    "delete": (c_uint64, NUMBER),
    "get": (c_uint64, NUMBER, NUMBER),
    "find": (*BYTES, NUMBER),
    "query": (*BYTES, NUMBER),
    "count": (c_bool, *BYTES, NUMBER),
    "newest": (c_uint64, c_bool, *BYTES, NUMBER),
    "oldest": (c_uint64, c_bool, *BYTES, NUMBER),
    "place": (NUMBER,),
    "journal": (c_uint64, NUMBER),
    "stats": (POINTER(Numbers),),
    "fit": (c_uint64, *BYTES, NUMBER),
    "ids": (c_void_p, c_size_t, c_size_t),
    "bytes": (c_void_p, c_size_t, c_size_t),
}


class Library:
    """The library, with the types of its calls."""

    def __init__(self, path: str):
        library = ctypes.CDLL(path)
        for name, types in CALLS.items():
            call = library[f"funnel_{name}"]
            call.argtypes, call.restype = (POINTER(Handle), *types), c_uint32
            setattr(self, name, call)


libraries: dict[str, Library] = {}


def library() -> Library:
    """The library, which is loaded once."""
    path = os.environ.get("FUNNEL_LIBRARY", BUILT)
    if path not in libraries:
        libraries[path] = Library(path)
    return libraries[path]


def encoded(text: Text) -> bytes:
    return text.encode() if isinstance(text, str) else text


def in_range(number: int) -> int:
    """The number, where it is one of 64 bits: ctypes would cut it."""
    if not 0 <= number < 1 << 64:
        raise ValueError(f"{number} is not from 0 to 2^64 - 1")
    return number


class Index:
    """An index, empty at first, by a configuration: a mapping or the text of one; without one it has room for 128 documents."""

    def __init__(self, config: Mapping[str, Any] | Text | None = None):
        self.lock = Lock()
        self.calls: Any = library()
        self.handle = Handle()
        self.number, self.other = c_uint64(), c_uint64()
        self.at, self.first, self.second = byref(self.handle), byref(self.number), byref(self.other)
        text = json.dumps(dict(config or {})) if config is None or isinstance(config, Mapping) else config
        data = encoded(text)
        self.check(self.calls.open(self.at, data, len(data), self.first))

    def check(self, code: int) -> None:
        """Raises what the code says."""
        if code:
            kind, reply = REFUSALS[code]
            raise kind(reply.format(self.number.value))

    def kept_ids(self, count: int) -> array[int]:
        """The numbers that the last call kept."""
        ids = array("Q", bytes(8 * count))
        self.check(self.calls.ids(self.at, ids.buffer_info()[0], count, 0))
        return ids

    def kept_bytes(self, count: int) -> bytes:
        """The bytes that the last call kept."""
        data = ctypes.create_string_buffer(count)
        self.check(self.calls.bytes(self.at, data, count, 0))
        return data.raw

    def add(self, id: int, text: Text) -> int:
        """Adds a document, and gives the place of the add."""
        data = encoded(text)
        with self.lock:
            self.check(self.calls.add(self.at, in_range(id), data, len(data), self.first))
            return self.number.value

    def put(self, id: int, text: Text) -> Placed:
        """Adds a document, in the place of the live one with its number if there is one."""
        data = encoded(text)
        with self.lock:
            self.check(self.calls.put(self.at, in_range(id), data, len(data), self.first, self.second))
            return Placed(self.number.value, self.other.value == 1)

    def delete(self, id: int) -> int:
        """Deletes the document, and gives the place of the delete."""
        with self.lock:
            self.check(self.calls.delete(self.at, in_range(id), self.first))
            return self.number.value

    def get(self, id: int) -> Document:
        """The text of the document, and the place of its add."""
        with self.lock:
            self.check(self.calls.get(self.at, in_range(id), self.first, self.second))
            return Document(self.number.value, self.kept_bytes(self.other.value).decode())

    def find(self, words: Text = "") -> array[int]:
        """The numbers of the documents that have all these words, in the order of their adds."""
        data = encoded(words)
        with self.lock:
            self.check(self.calls.find(self.at, data, len(data), self.first))
            return self.kept_ids(self.number.value)

    def query(self, expression: Text) -> array[int]:
        """The numbers of the documents that the boolean query keeps, in the order of their adds."""
        data = encoded(expression)
        with self.lock:
            self.check(self.calls.query(self.at, data, len(data), self.first))
            return self.kept_ids(self.number.value)

    def count(self, expression: Text | None = None) -> int:
        """How many documents the boolean query keeps; without one, how many there are."""
        data = encoded(expression or "")
        with self.lock:
            self.check(self.calls.count(self.at, expression is None, data, len(data), self.first))
            return self.number.value

    def newest(self, most: int, expression: Text | None = None) -> Some:
        """How many documents the boolean query keeps, and at most so many of those that were added last, the newest first."""
        return self.some(self.calls.newest, most, expression)

    def oldest(self, most: int, expression: Text | None = None) -> Some:
        """How many documents the boolean query keeps, and at most so many of those that were added first, the oldest first."""
        return self.some(self.calls.oldest, most, expression)

    def some(self, call: Any, most: int, expression: Text | None) -> Some:
        data = encoded(expression or "")
        with self.lock:
            self.check(call(self.at, in_range(most), expression is None, data, len(data), self.first))
            count = self.number.value
            return Some(count, self.kept_ids(min(most, count)))  # type: ignore[arg-type]

    def place(self) -> int:
        """How many commits there were."""
        with self.lock:
            self.check(self.calls.place(self.at, self.first))
            return self.number.value

    def journal(self, after: int = 0) -> list[Commit]:
        """The commits after the first so many. An add of a number that is live replaces its document."""
        with self.lock:
            self.check(self.calls.journal(self.at, in_range(after), self.first))
            count = self.number.value
            signs, ids = self.kept_bytes(count), self.kept_ids(count)
        return [Commit(sign == ord("+"), id) for sign, id in zip(signs, ids, strict=True)]

    def stats(self) -> Stats:
        """How full the index is."""
        numbers = Numbers()
        with self.lock:
            self.check(self.calls.stats(self.at, byref(numbers)))
        return Stats(*(getattr(numbers, name) for name, _ in Numbers._fields_))

    def fit(self, documents: int, texts: Iterable[str]) -> dict[str, Any]:
        """A configuration for so many documents that is fitted to these texts, for another index: this one stays as it is."""
        data = "".join(f"add 1 {LINE_ENDS.sub(' ', text)}\n" for text in texts).encode()
        with self.lock:
            self.check(self.calls.fit(self.at, in_range(documents), data, len(data), self.first))
            return json.loads(self.kept_bytes(self.number.value))

    def close(self) -> None:
        """Frees the index. Each call after it is `Closed`, but this one."""
        with self.lock:
            self.calls.close(self.at)

    def __len__(self) -> int:
        return self.count()

    def __enter__(self) -> Index:
        return self

    def __exit__(self, *_: object) -> None:
        self.close()

    def __del__(self) -> None:
        if hasattr(self, "at"):
            self.calls.close(self.at)
