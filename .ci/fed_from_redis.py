"""Writes so many puts, and some deletes, to a stream in Redis, from which one funnel is fed, and then three that have a part each; kills
each program amid it and starts it anew; and prints whether the funnels hold what the stream says: fed_from_redis.py ROOT PUTS."""

import json
import os
import subprocess
import sys
import time
from contextlib import ExitStack
from pathlib import Path
from random import Random
from threading import Thread

import redis

from ports import connect, free_port

root, puts = sys.argv[1], int(sys.argv[2])
sys.path.insert(0, f"{root}/clients/python")

from funnel import Client, Document, Shards  # noqa: E402

WORDS = 2000
CONFIGURATION = {"slices": puts * 17 // 16 // 4095 + 2, "max_rank": 6, "reserve": 4096, "tail": 6}
PATIENCE = 1800  # seconds
# Entries of every form, of which some are passed over, and what is left of them.
FIRST = [
    {"put": 1, "text": "it ends so\r"},
    {"put": 2, "text": "two\nlines"},
    {"put": 3, "text": ""},
    {"put": 3, "text": "a" * 65_536},
    {"put": (1 << 64) - 1, "text": "die größte Nummer"},
    {"put": 1 << 64, "text": "a larger one"},
    {"put": -1, "text": "a smaller one"},
    {"put": 4},
    {"put": 4, "text": "two", "del": 4},
    {"text": "no number"},
    {"del": 5},
    {"del": "x"},
]
LEFT = {1: "it ends so\r", 2: "two lines", 3: "", (1 << 64) - 1: "die größte Nummer"}


def entries(documents):
    """Yields the entries of the stream, and makes the documents what they leave, in the order of their last puts."""
    yield from FIRST
    documents.update(LEFT)
    chance = Random(1)
    for latest in range(6, puts + 6):
        number = latest if chance.random() < 0.8 else chance.randrange(6, latest + 1)
        text = " ".join(f"w{chance.randrange(WORDS)}" for _ in range(5)) + f" n{latest}"
        yield {"put": number, "text": text}
        documents.pop(number, None)
        documents[number] = text
        if chance.random() < 0.1:
            number = chance.randrange(6, latest + 1)
            yield {"del": number}
            documents.pop(number, None)


class Program:
    """A program that can be killed and started again."""

    def __init__(self, folder, *words, port=None, configuration="{}"):
        self.folder, self.words, self.port = Path(folder), words, port
        self.folder.mkdir()
        (self.folder / "funnel.json").write_text(configuration, encoding="utf-8")
        self.start()

    def start(self):
        with open(self.folder / "log", "ab") as log:
            environment = {**os.environ, "PYTHONPATH": f"{root}/clients/python", "PYTHONDONTWRITEBYTECODE": "1"}
            self.process = subprocess.Popen(self.words, cwd=self.folder, stdin=subprocess.DEVNULL, stdout=log, stderr=log, env=environment)
        if self.port is not None:
            connect(self.port).close()

    def kill(self):
        self.process.kill()
        self.process.wait()

    def restart(self):
        self.kill()
        self.start()

    def __enter__(self):
        return self

    def __exit__(self, *_):
        self.kill()


class Log:
    """A Redis that loses nothing, and its stream. An entry's id begins with its number."""

    def __init__(self, stack):
        self.port = free_port()
        words = ["--port", str(self.port), "--bind", "127.0.0.1", "--save", "", "--appendonly", "yes", "--appendfsync", "always"]
        self.program = stack.enter_context(Program("redis", "redis-server", *words, port=self.port))
        self.redis = redis.Redis(port=self.port, decode_responses=True)
        self.documents = {}
        self.last = 0

    def write(self):
        with self.redis.pipeline(transaction=False) as calls:
            for self.last, fields in enumerate(entries(self.documents), 1):
                calls.xadd("documents", fields, id=f"{self.last}-1")
                if self.last % 1000 == 0:
                    calls.execute()
            calls.execute()

    def sent(self, shards):
        """How many entries have been sent to each of so many funnels at least."""
        kept = [self.redis.hget(f"documents:funnel:{rest}/{shards}", "entry") for rest in range(shards)]
        return min(int(entry.partition("-")[0]) if entry else 0 for entry in kept)

    def wait_for(self, count, shards):
        """Waits until so many entries have been sent to each funnel."""
        end = time.monotonic() + PATIENCE
        while time.monotonic() < end:
            try:
                if self.sent(shards) >= count:
                    return
            except redis.ConnectionError:
                pass  # it is being started
            time.sleep(0.005)
        sys.exit(f"{count} entries have not been sent")


class Fed:
    """Funnels that have a part each, and their feeds. Each has a port for its feed, and one more."""

    def __init__(self, stack, log, shards):
        self.log, self.shards = log, shards
        self.funnels, self.feeds = [], []
        for rest in range(shards):
            folder, port = f"{rest} of {shards}", free_port()
            words = [f"{root}/funnel", "serve", "--port", str(port), "--workers", "2"]
            funnel = Program(f"funnel {folder}", *words, port=port, configuration=json.dumps(CONFIGURATION))
            self.funnels.append(stack.enter_context(funnel))
            words = ["--redis", f"redis://127.0.0.1:{log.port}", "--funnel", f"127.0.0.1:{port}", "--shard", f"{rest}/{shards}"]
            feed = Program(f"feed {folder}", sys.executable, f"{root}/examples/from_redis.py", *words)
            self.feeds.append(stack.enter_context(feed))

    def kill_amid(self, writing):
        """Kills the funnels three times, and each feed and Redis once while the second funnels are sent what the first ones had."""
        quarter = puts // 4
        for times in range(1, 4):
            self.log.wait_for(times * quarter, self.shards)
            for funnel in self.funnels:
                funnel.restart()
            for funnel in self.funnels:
                wait_for_commits(funnel.port + 1)
            if times == 2:
                self.log.wait_for(quarter // 2, self.shards)
                for feed in self.feeds:
                    feed.restart()
                writing.join()
                self.log.wait_for(quarter, self.shards)
                self.log.program.restart()
        self.log.wait_for(self.log.last, self.shards)

    def differences(self):
        """Where what the funnels hold isn't what the stream says."""
        documents = self.log.documents
        parts = [[number for number in documents if number % self.shards == rest] for rest in range(self.shards)]
        wanted = [number for part in parts for number in part]
        clients = [Client(port=funnel.port + 1) for funnel in self.funnels]
        with Shards(clients) as shards:
            if shards.find() != wanted or shards.count() != len(wanted):
                yield "the numbers"
            for word in range(0, WORDS, WORDS // 20):
                if shards.find(f"w{word}") != [number for number in wanted if f"w{word}" in documents[number].split(" ")]:
                    yield f"those with w{word}"
            for client, part in zip(clients, parts, strict=True):
                for begin in range(0, len(part), 1000):
                    yield from (f"the text of {number}" for number in differing(client, part[begin : begin + 1000], documents))


def wait_for_commits(port):
    """Waits until a funnel that was started anew has been sent something."""
    end = time.monotonic() + PATIENCE
    with Client(port=port) as client:
        while client.place() == 0:
            if time.monotonic() > end:
                sys.exit("nothing was sent to a new funnel")
            time.sleep(0.005)


def differing(client, numbers, documents):
    """The numbers whose documents have another text, or none."""
    with client.pipeline() as calls:
        for number in numbers:
            calls.get(number)
    for number, answer in zip(numbers, calls.answers, strict=True):
        if not isinstance(answer, Document) or answer.text != documents[number]:
            yield number


def main():
    with ExitStack() as stack:
        log = Log(stack)
        writing = Thread(target=log.write)
        writing.start()
        for shards in [1, 3]:
            with ExitStack() as programs:
                fed = Fed(programs, log, shards)
                fed.kill_amid(writing)
                print("funnels:", shards, "what differs from the stream:", *list(fed.differences())[:5] or ["nothing"])


main()
