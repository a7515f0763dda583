"""A client of funnel's lines over TCP, of this one file, for Python 3.10 or newer.

    from funnel import Client

    with Client(port=7000) as client:
        client.add(7, "The cat sat")
        print(client.find("CAT"))  # [7]

Each call sends a line and waits for its reply. What the server refuses is an exception that is named as the reply is. Many
calls at a time go by `Client.pipeline`, which has refusals among its answers. A client is used by one thread at a time.
"""

from __future__ import annotations

import json
import selectors
import socket
import ssl
from collections.abc import Callable, Generator, Mapping, Sequence
from concurrent.futures import ThreadPoolExecutor, wait
from contextlib import closing
from dataclasses import dataclass
from typing import Any, Generic, TypeVar

Answer = TypeVar("Answer")


class Refused(Exception):
    """What the server answered in place of doing the call: the reply, and the numbers in it."""

    def __init__(self, reply: str):
        super().__init__(reply)
        self.numbers = [int(word) for word in reply.split() if word.isdigit()]


class Present(Refused):
    """A document with this number is live; `numbers` has the place of its add."""


class Absent(Refused):
    """No document with this number is live."""


class Full(Refused):
    """No column is left for the document."""


class HasNewline(Refused):
    """The text of the document has a newline, so that no line can tell it. It came over HTTP, which tells it."""


class Trimmed(Refused):
    """The journal no longer keeps the first so many commits, one of which was asked for."""


class BadQuery(Refused):
    """The text is no boolean query; `numbers` has the byte at which it goes wrong."""


class Deep(Refused):
    """The query nests too deep; `numbers` has the byte at which it does."""


class BadTuning(Refused):
    """The text gives no statistics; `numbers` has its fault."""


class NoRoom(Refused):
    """The rows of the statistics have no room: how many words they need in a slice, and how many there are."""


class NothingRetired(Refused):
    """There is no slice to be emptied."""


class Guarded(Refused):
    """Each slice that could be emptied is guarded: the lowest one, and the pass whose find guards it."""


class Spent(Refused):
    """The server takes no more calls."""


class NoMemory(Refused):
    """The server found no memory for the call."""


class BadLine(Refused):
    """The server reads no line so."""


class TooLong(Refused):
    """The line has more than 65,536 bytes."""


REFUSALS: dict[str, type[Refused]] = {
    "refused present": Present,
    "refused absent": Absent,
    "refused full": Full,
    "refused text": HasNewline,
    "refused trimmed": Trimmed,
    "refused query": BadQuery,
    "refused deep": Deep,
    "refused tuning": BadTuning,
    "refused room": NoRoom,
    "refused spent": Spent,
    "refused memory": NoMemory,
    "refused line": BadLine,
    "refused long": TooLong,
    "nothing retired": NothingRetired,
}


@dataclass(frozen=True)
class Commit:
    """A commit as the journal tells it."""

    is_add: bool
    id: int


@dataclass(frozen=True)
class Placed:
    """What a put did: the place of its add, and whether a document with the number was live."""

    place: int
    replaced: bool


@dataclass(frozen=True)
class Document:
    """A live document: the place of its add, and its text."""

    place: int
    text: str


@dataclass(frozen=True)
class Some:
    """How many documents were found, and the numbers of some of them."""

    count: int
    ids: list[int]


@dataclass(frozen=True)
class Stats:
    """How full the server is: live documents, commits, those that the journal no longer keeps, columns, unclaimed ones, slices that
    are retired, and finds that are running."""

    documents: int
    place: int
    base: int
    columns: int
    free: int
    retired: int
    finds: int


@dataclass(frozen=True)
class Call(Generic[Answer]):
    """A line, and by the word with which the reply begins where the call was done, what the words after it are read as."""

    line: bytes
    readers: Mapping[str, Callable[[Sequence[str]], Answer]]

    def answer(self, reply: str) -> Answer | Refused:
        """What the reply gives, or the refusal that it is."""
        word, *rest = reply.split(" ")
        if word in self.readers:
            return self.readers[word](rest)
        if word == "guarded":
            return Guarded(reply)
        refusal = REFUSALS.get(" ".join([word, *rest[:1]]))
        if refusal is None:
            raise ConnectionError(f"{self.line[:60]!r} was answered {reply[:60]!r}")
        return refusal(reply)


def number(words: Sequence[str]) -> int:
    return int(words[0])


def numbers(words: Sequence[str]) -> list[int]:
    return [int(word) for word in words[1:]]


def added(words: Sequence[str]) -> Placed:
    return Placed(int(words[0]), False)


def replaced(words: Sequence[str]) -> Placed:
    return Placed(int(words[0]), True)


def document(words: Sequence[str]) -> Document:
    return Document(int(words[0]), " ".join(words[1:]))


def some(words: Sequence[str]) -> Some:
    return Some(int(words[0]), numbers(words))


def stats(words: Sequence[str]) -> Stats:
    return Stats(**{name: int(told) for name, told in zip(words[::2], words[1::2], strict=True)})


def commits(words: Sequence[str]) -> list[Commit]:
    return [Commit(word[0] == "+", int(word[1:])) for word in words[1:]]


def call(line: str, **readers: Callable[[Sequence[str]], Answer]) -> Call[Answer]:
    """The call of a line. The server drops one carriage return at the end of a line, so there one more is sent."""
    if "\n" in line:
        raise ValueError("a newline would end the line")
    end = "\r\n" if line.endswith("\r") else "\n"
    return Call(f"{line}{end}".encode(), readers)


def behind(line: str, expression: str | None) -> str:
    """The line with an expression, or without one, by which every document counts."""
    return line if expression is None else f"{line} {expression}"


class Calls:
    """The calls, however they are sent."""

    def send(self, asked: Call[Answer]) -> Answer:
        raise NotImplementedError

    def add(self, id: int, text: str) -> int:
        """Adds a document, and gives the place of the add."""
        return self.send(call(f"add {id:d} {text}", added=number))

    def put(self, id: int, text: str) -> Placed:
        """Adds a document, in the place of the live one with its number if there is one. No find misses it meanwhile."""
        return self.send(call(f"put {id:d} {text}", added=added, replaced=replaced))

    def delete(self, id: int) -> int:
        """Deletes the document, and gives the place of the delete."""
        return self.send(call(f"del {id:d}", deleted=number))

    def get(self, id: int) -> Document:
        """The text of the document, and the place of its add."""
        return self.send(call(f"get {id:d}", text=document))

    def find(self, words: str = "") -> list[int]:
        """The numbers of the documents that have all these words, in the order of their adds."""
        return self.send(call(f"find {words}", found=numbers))

    def query(self, expression: str) -> list[int]:
        """The numbers of the documents that the boolean query keeps, in the order of their adds."""
        return self.send(call(f"query {expression}", found=numbers))

    def count(self, expression: str | None = None) -> int:
        """How many documents the boolean query keeps; without one, how many there are."""
        return self.send(call(behind("count", expression), count=number))

    def newest(self, most: int, expression: str | None = None) -> Some:
        """How many documents the boolean query keeps, and at most so many of those that were added last, the newest first."""
        return self.send(call(behind(f"newest {most:d}", expression), found=some))

    def oldest(self, most: int, expression: str | None = None) -> Some:
        """How many documents the boolean query keeps, and at most so many of those that were added first, the oldest first."""
        return self.send(call(behind(f"oldest {most:d}", expression), found=some))

    def place(self) -> int:
        """How many commits there were."""
        return self.send(call("place", place=number))

    def journal(self, after: int = 0) -> list[Commit]:
        """The commits after the first so many. An add of a number that is live replaces its document."""
        return self.send(call(f"journal {after:d}", commits=commits))

    def stats(self) -> Stats:
        """How full the server is."""
        return self.send(call("stats", stats=stats))

    def recycle(self) -> int:
        """Empties a slice that has no live document, and gives its number."""
        return self.send(call("recycle", recycled=number))

    def tune(self, statistics: Mapping[str, Any]) -> int:
        """Gives new statistics, and tells how many tunings there were."""
        return self.send(call(f"tune {json.dumps(statistics, ensure_ascii=False)}", tuned=number))


class Client(Calls):
    """A connection to a server. It is made at the first call, and anew where the server has closed it since the last one: that is a
    new session, and a server that was started anew has an empty index. A connection that is closed while calls have no reply is a
    `ConnectionError`.

    `timeout` is the number of seconds after which a call fails in which nothing was sent or read; by default it waits, also for a
    worker that is free. `tls` is for a server behind a proxy that takes TLS. With `one_session` a connection is never made anew, and
    each call after its end is a `ConnectionError`: for who has to know that all calls come to one index.
    """

    def __init__(
        self,
        host: str = "127.0.0.1",
        port: int = 7000,
        timeout: float | None = None,
        *,
        tls: ssl.SSLContext | None = None,
        one_session: bool = False,
    ):
        self.address = host, port
        self.timeout = timeout
        self.tls = tls
        self.one_session = one_session
        self.sessions = 0
        self.socket: socket.socket | None = None
        self.unread: list[bytes] = []  # the reply that has come in part

    def send(self, asked: Call[Answer]) -> Answer:
        answers: list[Any] = []
        self.exchange([asked], answers)
        [answer] = answers
        if isinstance(answer, Refused):
            raise answer
        return answer  # type: ignore[no-any-return]

    def pipeline(self) -> Pipeline:
        """Calls that are sent together: with client.pipeline() as calls: .. . Their answers are in `calls.answers` afterwards."""
        return Pipeline(self)

    def close(self) -> None:
        """Ends the connection. The next call makes a new one, or with `one_session` fails."""
        if self.socket is not None:
            self.socket.close()
        self.socket, self.unread = None, []

    def __enter__(self) -> Client:
        return self

    def __exit__(self, *_: object) -> None:
        self.close()

    def exchange(self, calls: Sequence[Call[Any]], answers: list[Any]) -> None:
        """Sends the calls while their replies come, and appends what each was answered, a refusal among them. Where this fails the
        connection is closed, and of the calls that have no answer it isn't known whether they were done."""
        try:
            with closing(self.replies(self.connected(), calls)) as replies:
                for asked, reply in zip(calls, replies, strict=True):
                    answers.append(asked.answer(reply))
        except BaseException:
            self.close()
            raise

    def connected(self) -> socket.socket:
        """The connection, which is a new one where there is none or the server closed it."""
        if self.socket is not None and is_closed(self.socket):
            self.close()
        if self.socket is None:
            if self.one_session and self.sessions:
                raise ConnectionError("the session is over")
            self.socket = self.connect()
            self.sessions += 1
        return self.socket

    def connect(self) -> socket.socket:
        """A new connection, on which no call waits."""
        made = socket.create_connection(self.address, self.timeout)
        made.setsockopt(socket.IPPROTO_TCP, socket.TCP_NODELAY, 1)
        if self.tls is not None:
            made = self.tls.wrap_socket(made, server_hostname=self.address[0])
        made.setblocking(False)
        return made

    def replies(self, open_socket: socket.socket, calls: Sequence[Call[Any]]) -> Generator[str, None, None]:
        """Sends the lines as the server takes them, and yields the replies as they come."""
        unsent = memoryview(b"".join(asked.line for asked in calls))
        left = len(calls)
        with selectors.DefaultSelector() as selector:
            selector.register(open_socket, selectors.EVENT_READ | selectors.EVENT_WRITE)
            while left:
                ready = selector.select(self.timeout)
                if not ready:
                    raise TimeoutError(f"nothing was sent or read for {self.timeout} seconds")
                for _, events in ready:
                    if events & selectors.EVENT_WRITE and unsent:
                        unsent = unsent[sent(open_socket, unsent) :]
                        if not unsent:
                            selector.modify(open_socket, selectors.EVENT_READ)
                    if events & selectors.EVENT_READ:
                        lines = self.read_lines(open_socket)
                        left -= len(lines)
                        yield from (line.decode() for line in lines)

    def read_lines(self, open_socket: socket.socket) -> list[bytes]:
        """The lines that one read completes."""
        try:
            data = open_socket.recv(1 << 18)
        except NOT_YET:
            return []
        if not data:
            raise ConnectionError("the server closed the connection before all replies")
        self.unread.append(data)
        if b"\n" not in data:
            return []
        *lines, last = b"".join(self.unread).split(b"\n")
        self.unread = [last]
        return lines


NOT_YET = (BlockingIOError, ssl.SSLWantReadError, ssl.SSLWantWriteError)


def sent(open_socket: socket.socket, data: memoryview) -> int:
    """Sends some of the bytes, and tells how many. TLS takes the same ones again until it has sent them."""
    try:
        return open_socket.send(data[: 1 << 16])
    except NOT_YET:
        return 0


def is_closed(open_socket: socket.socket) -> bool:
    """Whether the server has closed a connection on which no reply is awaited, or sent what nobody asked for."""
    try:
        open_socket.recv(1)
    except NOT_YET:
        return False
    except OSError:
        return True
    return True


class Pipeline(Calls):
    """Calls that are sent together, at the end of the `with`. Each gives its index in `answers`, an int, whatever its method says of
    a client; `answers` has what a client gives, or the refusal. Where sending them fails, it has those of the first calls."""

    def __init__(self, client: Client):
        self.client = client
        self.calls: list[Call[Any]] = []
        self.answers: list[Any] = []

    def send(self, asked: Call[Answer]) -> Any:
        self.calls.append(asked)
        return len(self.calls) - 1

    def __enter__(self) -> Pipeline:
        self.calls, self.answers = [], []
        return self

    def __exit__(self, kind: object, *_: object) -> None:
        if kind is None:
            self.client.exchange(self.calls, self.answers)


class Shards:
    """Servers of which each has the documents whose numbers leave its place, from 0 on, when they are divided by how many there are.
    Nothing is merged: what they answer comes in their order. It is used by one thread at a time, as a client is."""

    def __init__(self, clients: Sequence[Client]):
        self.clients = list(clients)
        self.threads = ThreadPoolExecutor(len(self.clients))

    def of(self, id: int) -> Client:
        """The server of the document."""
        return self.clients[id % len(self.clients)]

    def add(self, id: int, text: str) -> int:
        """Adds the document to its server, and gives the place of the add there."""
        return self.of(id).add(id, text)

    def put(self, id: int, text: str) -> Placed:
        """Puts the document to its server, and tells what was done there."""
        return self.of(id).put(id, text)

    def get(self, id: int) -> Document:
        """The text of the document, and the place of its add on its server."""
        return self.of(id).get(id)

    def delete(self, id: int) -> int:
        """Deletes the document from its server, and gives the place of the delete there."""
        return self.of(id).delete(id)

    def find(self, words: str = "") -> list[int]:
        """What the servers find, one after the other; each is asked beside the others."""
        return [id for ids in self.ask_all(lambda client: client.find(words)) for id in ids]

    def query(self, expression: str) -> list[int]:
        """What the servers find by the boolean query, one after the other; each is asked beside the others."""
        return [id for ids in self.ask_all(lambda client: client.query(expression)) for id in ids]

    def count(self, expression: str | None = None) -> int:
        """How many documents of all servers the boolean query keeps; without one, how many there are."""
        return sum(self.ask_all(lambda client: client.count(expression)))

    def newest(self, most: int, expression: str | None = None) -> list[Some]:
        """What each server answers: places are a server's own, so none tells which of two servers' documents is newer."""
        return self.ask_all(lambda client: client.newest(most, expression))

    def oldest(self, most: int, expression: str | None = None) -> list[Some]:
        """What each server answers, as to `newest`."""
        return self.ask_all(lambda client: client.oldest(most, expression))

    def stats(self) -> list[Stats]:
        """How full each server is."""
        return self.ask_all(lambda client: client.stats())

    def ask_all(self, ask: Callable[[Client], Answer]) -> list[Answer]:
        """What each server answers, in their order."""
        asked = [self.threads.submit(ask, client) for client in self.clients]
        wait(asked)  # also where one is refused: no client may still be in use by a thread
        return [it.result() for it in asked]

    def close(self) -> None:
        """Ends all connections."""
        self.threads.shutdown()
        for client in self.clients:
            client.close()

    def __enter__(self) -> Shards:
        return self

    def __exit__(self, *_: object) -> None:
        self.close()
