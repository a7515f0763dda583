"""Feeds funnel from a stream in Redis, by redis-py and clients/python: from_redis.py --help.

An entry of the stream puts a document, or deletes one:

    XADD documents * put 7 text "The cat sat"
    XADD documents * del 7

The feed sends them in order, and keeps in Redis which entry was the last one and which place funnel had after it. There it goes on when it
was stopped: some entries come twice, and leave the same documents. A funnel whose place is lower was started anew, and gets the stream
from its beginning. So funnel holds what the stream says, where

- the stream has every entry since the beginning, but for those of documents that later entries put or delete again,
- nobody else adds, puts or deletes there, and
- the feed has a worker's port to itself: so the lines of a feed that was killed are over before those of the next one.

A newline in a text becomes a space. An entry of another form, or with a text for which a line has no room, is told on standard error and
passed over. Where Redis or funnel can't be reached, or funnel has no room, it is told, and tried again each second.
"""

from __future__ import annotations

import argparse
import logging
import time
from collections.abc import Mapping, Sequence
from dataclasses import dataclass
from typing import NoReturn

import redis
from funnel import Absent, Client, Pipeline, Refused, TooLong

Entry = tuple[bytes, Mapping[bytes, bytes]]  # its id, and its fields

BATCH = 1000  # entries that are read and sent together
PAUSE = 1.0  # seconds for which a read waits, and before a new try


@dataclass(frozen=True)
class Part:
    """The documents whose numbers leave this rest when they are divided."""

    rest: int
    divisor: int

    def has(self, number: int) -> bool:
        return number % self.divisor == self.rest


@dataclass(frozen=True)
class Change:
    """A put of a document, or a delete, which has no text."""

    number: int
    text: str | None

    def ask(self, calls: Pipeline) -> None:
        if self.text is None:
            calls.delete(self.number)
        else:
            calls.put(self.number, self.text)


@dataclass(frozen=True)
class Position:
    """The last entry of the stream that was sent, and funnel's place after it."""

    entry: str
    place: int


BEGINNING = Position("0-0", 0)


def change_of(fields: Mapping[bytes, bytes]) -> Change | None:
    """What an entry with these fields asks for, if it has one of the two forms."""
    text: str | None
    if fields.keys() == {b"put", b"text"}:
        number, text = fields[b"put"], fields[b"text"].decode(errors="replace").replace("\n", " ")
    elif fields.keys() == {b"del"}:
        number, text = fields[b"del"], None
    else:
        return None
    if not (number.isdigit() and len(number) <= 20 and int(number) < 1 << 64):
        return None
    return Change(int(number), text)


class Feed:
    """A feed of the funnel that has a part of the stream's documents."""

    def __init__(self, server: redis.Redis, stream: str, name: str, part: Part):
        self.redis, self.stream, self.part = server, stream, part
        self.key = f"{stream}:{name}:{part.rest}/{part.divisor}"

    def run(self, client: Client) -> NoReturn:
        """Sends what the stream says, as long as it can. The client has one session, so that its funnel is one and the same."""
        position = self.start(client)
        logging.info("sending the entries after %s", position.entry)
        began, count, has_sent_all = time.monotonic(), 0, False
        while True:
            entries = self.read(position)
            position = self.send(client, entries, position)
            count += len(entries)
            if not entries and not has_sent_all:
                logging.info("sent all %d, up to %s, in %.1f seconds", count, position.entry, time.monotonic() - began)
                has_sent_all = True

    def start(self, client: Client) -> Position:
        """After which entry funnel is to be sent the stream."""
        kept = self.redis.hgetall(self.key)
        position = Position(kept[b"entry"].decode(), int(kept[b"place"])) if kept else BEGINNING
        if client.place() >= position.place:
            return position
        # It was started anew. Forgotten before anything is sent: a place that has grown since would no longer tell.
        self.redis.delete(self.key)
        return BEGINNING

    def read(self, position: Position) -> Sequence[Entry]:
        """Some of the next entries; none, where none comes before long."""
        streams: Sequence[tuple[bytes, Sequence[Entry]]]
        streams = self.redis.xread({self.stream: position.entry}, count=BATCH, block=int(PAUSE * 1000))
        return streams[0][1] if streams else []

    def send(self, client: Client, entries: Sequence[Entry], position: Position) -> Position:
        """Sends the entries of this part, and keeps the position after all of them. Without entries it looks whether funnel is there."""
        sent: list[bytes] = []
        with client.pipeline() as calls:
            for entry, fields in entries:
                change = change_of(fields)
                if change is None:
                    logging.warning("passed over, since it is no put and no delete: %s", entry.decode())
                elif self.part.has(change.number):
                    sent.append(entry)
                    change.ask(calls)
            calls.place()
        *answers, place = calls.answers
        if isinstance(place, Refused):
            raise place
        for entry, answer in zip(sent, answers, strict=True):
            check(entry, answer)
        if not entries:
            return position
        position = Position(entries[-1][0].decode(), place)
        self.redis.hset(self.key, mapping={"entry": position.entry, "place": position.place})
        return position


def check(entry: bytes, answer: object) -> None:
    """Raises a refusal after which the entry has to be sent again."""
    if isinstance(answer, TooLong):
        logging.warning("passed over, since a line has no room for it: %s", entry.decode())
    elif isinstance(answer, Refused) and not isinstance(answer, Absent):
        raise answer


def address(text: str) -> tuple[str, int]:
    host, _, port = text.rpartition(":")
    return host, int(port)


def part(text: str) -> Part:
    rest, divisor = map(int, text.split("/"))
    if not 0 <= rest < divisor:
        raise ValueError(text)
    return Part(rest, divisor)


def arguments() -> argparse.Namespace:
    parser = argparse.ArgumentParser(description="Feeds funnel from a stream in Redis.")
    parser.add_argument("--redis", default="redis://127.0.0.1:6379", metavar="URL", help="where Redis is: %(default)s")
    parser.add_argument("--stream", default="documents", metavar="KEY", help="the stream: %(default)s")
    parser.add_argument("--funnel", default="127.0.0.1:7000", type=address, metavar="HOST:PORT", help="a worker's port: %(default)s")
    parser.add_argument("--shard", default="0/1", type=part, metavar="I/N", help="only the documents whose numbers leave I, divided by N")
    parser.add_argument("--name", default="funnel", help="the feed's own, where several funnels have the same part: %(default)s")
    return parser.parse_args()


def main() -> NoReturn:
    logging.basicConfig(format="from_redis: %(message)s", level=logging.INFO)
    words = arguments()
    feed = Feed(redis.Redis.from_url(words.redis), words.stream, words.name, words.shard)
    while True:
        try:
            with Client(*words.funnel, one_session=True) as client:
                feed.run(client)
        except (OSError, redis.RedisError, Refused) as fault:
            logging.warning("to be tried again: %s", fault)
            time.sleep(PAUSE)


if __name__ == "__main__":
    main()
