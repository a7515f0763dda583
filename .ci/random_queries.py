"""Asks a serve so many random queries, counts, newest and oldest while two writers add, put, delete, tune and recycle: random_queries.py PROGRAM COUNT [SEED].

The words are exact ones, listed ones that share rows, and others that share rows or that hardly a document has; shared rows are so few
that most documents have bits of words that they lack. Writers fill slices and empty them again, and statistics change meanwhile. Each
answer has to be that of the plain scan after so many commits as there were at some time between the query's begin and its end."""

import json
import random
import subprocess
import sys
from threading import Semaphore, Thread

from history import History, commit_told
from ports import connect, free_port

SHAPES = [
    {"max_rank": 0, "blocks": 1, "slices": 4, "reserve": 64},
    {"max_rank": 1, "blocks": 3, "slices": 3, "reserve": 384},
    {"max_rank": 2, "blocks": 1, "slices": 3, "reserve": 256},
    {"max_rank": 6, "blocks": 4, "slices": 1},
]
STATISTICS = [
    {"max_rows": 8, "words": {"ant": 40, "bee": 16, "cat": 4, "dog": 2}},
    {"max_rows": 5, "private": 4, "words": {"ant": 3, "cat": 40, "elk": 9}},
    {"max_rows": 6, "private": 0, "words": {"bee": 60, "dog": 4, "fox": 1}},
]
COMMON = {"one_in": 20, "snr": 1, "documents": 64, "tail": 4}
WORDS = ["ant", "bee", "cat", "dog", "elk", "fox", "gnu"]
COMMONNESS = [10, 10, 6, 6, 6, 6, 1]
NUMBERS = range(1, 120)
# How many of the adds and deletes are adds, for so many of them: slices are filled, their documents are replaced, and they are emptied.
TIDES = [0.8, 0.5, 0.1]
TIDE = 300


class Client:
    def __init__(self, port, chance):
        self.chance = chance
        self.stream = connect(port).makefile("rwb")

    def ask(self, line):
        self.stream.write(line.encode() + b"\n")
        self.stream.flush()
        return self.stream.readline().decode().removesuffix("\n")


class Writer(Client):
    """A client that makes a commit, now and then also another request, for each query that is asked."""

    def __init__(self, port, chance):
        super().__init__(port, chance)
        self.turns = Semaphore(0)
        # The most commits that it was told of, and how many it made, with the one that it may be making.
        self.told = self.begun = 0
        self.texts = {}
        self.fault = None

    def write(self, count):
        for turn in range(count):
            self.turns.acquire()
            if turn % 40 == 0:
                self.say("recycle", ("recycled", "nothing", "guarded"))
            if turn % 100 == 0:
                self.say(f"tune {json.dumps(COMMON | self.chance.choice(STATISTICS))}", ("tuned",))
            adds = TIDES[turn // TIDE % len(TIDES)]
            command = self.chance.choice(["add", "put"]) if self.chance.random() < adds else "del"
            self.commit(command, self.chance.choice(NUMBERS))

    def say(self, line, words):
        reply = self.ask(line)
        if reply.split(" ")[0] not in words:
            self.fault = f"{line!r} was answered {reply!r}"

    def commit(self, command, number):
        text = " ".join(self.chance.choices(WORDS, COMMONNESS, k=self.chance.randrange(5))) if command != "del" else ""
        self.begun += 1
        reply = self.ask(f"{command} {number} {text}".rstrip())
        if made := commit_told((command, number), reply):
            self.told, _ = made
            self.texts[self.told] = text
        else:
            self.begun -= 1
            if not reply.startswith("refused "):
                self.fault = f"an {command} was answered {reply!r}"


def expression(chance, depth):
    """A random expression that nests at most so deep."""
    terms = [" ".join(factor(chance, depth) for _ in range(chance.choice([1, 1, 2, 3]))) for _ in range(chance.choice([1, 1, 2]))]
    return chance.choice([" | ", "|"]).join(terms)


def factor(chance, depth):
    kind = chance.random()
    if kind < 0.2:
        return "-" + factor(chance, depth)
    if kind < 0.5 and depth:
        return f"({expression(chance, depth - 1)})"
    words = chance.choices([*WORDS, "hen"], [*COMMONNESS, 1], k=chance.choices([0, 1, 2], [1, 20, 4])[0])
    return "-".join(words) or "!"


def search(chance):
    """A random request that searches, and its line."""
    kind, query, most = chance.choice(["query", "query", "count", "newest", "oldest"]), expression(chance, 2), chance.choice([0, 1, 4, 1000])
    if kind in ("newest", "oldest"):
        return (kind, most, query), f"{kind} {most} {query}"
    return (kind, query), f"{kind} {query}"


def talk(program, seed, count):
    """Returns the answers, each a request with its reply, the most commits told before it and the most that were begun by its end, and
    the history of all commits."""
    port = free_port()
    served = subprocess.Popen([program, "serve", "--port", str(port), "--workers", "3", "--one-port"], stdin=subprocess.DEVNULL)
    try:
        asker, *writers = (kind(port, random.Random(f"{seed} {at}")) for at, kind in enumerate([Client, Writer, Writer]))
        threads = [Thread(target=writer.write, args=[count], daemon=True) for writer in writers]
        for thread in threads:
            thread.start()
        answers = []
        for _ in range(count):
            request, line = search(asker.chance)
            for writer in writers:
                writer.turns.release()
            least = max(writer.told for writer in writers)
            reply = asker.ask(line)
            answers.append((request, reply, least, sum(writer.begun for writer in writers)))
        for writer, thread in zip(writers, threads):
            thread.join(60)
            if writer.fault or thread.is_alive():
                raise ValueError(writer.fault or "a writer doesn't end")
        commits = asker.ask("journal 0").split()[2:]
        return answers, History(commits, writers[0].texts | writers[1].texts)
    finally:
        served.kill()


def check(answers, history):
    """Raises where an answer is that of no time between its request's begin and its end."""
    for request, reply, least, most in answers:
        count = history.count_after(request, reply, least)
        if count is None or count > most:
            raise ValueError(f"{request!r} was answered {reply!r}, which it isn't after {least} to {most} commits")


def main(program, count, seed=1):
    for shape in SHAPES:
        with open("funnel.json", "w", encoding="utf-8") as file:
            json.dump({"passes": 3, "commits": 65536, **COMMON, **STATISTICS[0], **shape}, file)
        try:
            check(*talk(program, seed, count // len(SHAPES)))
        except ValueError as fault:
            sys.exit(f"seed {seed}, {shape}: {fault}")
    print(f"{count} queries ok")


main(sys.argv[1], *map(int, sys.argv[2:]))
