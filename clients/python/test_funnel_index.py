"""Tests the index of this process against a program that answers lines: test_funnel_index.py PROGRAM [SCRIPTS]."""

import json
import os
import random
import resource
import subprocess
import sys
import tempfile
import threading
import unittest
from array import array
from concurrent.futures import ThreadPoolExecutor

import funnel
import funnel_index
from funnel import Commit, Document, Placed, Refused, Some
from funnel_index import Closed, Index

PROGRAM, SCRIPTS = "", 2000
SMALL = {"slices": 2, "commits": 20, "documents": 4, "tail": 3, "words": {"a": 3}}
TEXTS = ["", "a", "a b", "b c", "A, c!", "Straße", "x'y z", "a b c d e f", "é a", "one two"]
EXPRESSIONS = ["a", "a b", "a | b", "-a", "(a | b) -c", "a |", "-(b | c) a", "", ")", "-" * 65 + "a", "straSSE"]


def numbered(ids):
    return "".join(f" {id}" for id in ids)


def answered(index, line):
    """What the index answers a line, as the reply of one."""
    word, _, rest = line.partition(" ")
    id, _, text = rest.partition(" ")
    if word == "add":
        return f"added {index.add(int(id), text)}"
    if word == "put":
        done = index.put(int(id), text)
        return f"{'replaced' if done.replaced else 'added'} {done.place}"
    if word == "del":
        return f"deleted {index.delete(int(id))}"
    if word == "get":
        found = index.get(int(id))
        return f"text {found.place} {found.text}"
    if word in ("find", "query"):
        ids = index.find(rest) if word == "find" else index.query(rest)
        return f"found {len(ids)}{numbered(ids)}"
    if word == "count":
        return f"count {index.count(rest if ' ' in line else None)}"
    if word in ("newest", "oldest"):
        some = getattr(index, word)(int(id), text if line.count(" ") > 1 else None)
        return f"found {some.count}{numbered(some.ids)}"
    if word == "place":
        return f"place {index.place()}"
    if word == "journal":
        commits = index.journal(int(rest))
        return f"commits {len(commits)}" + "".join(f" {'+' if it.is_add else '-'}{it.id}" for it in commits)
    numbers = vars(index.stats())
    return "stats" + "".join(f" {name} {number}" for name, number in numbers.items())


def reply(index, line):
    """The same, or how it is refused."""
    try:
        return answered(index, line)
    except Refused as refused:
        return str(refused)


def script(rng):
    """Random lines of all calls, over few numbers."""
    lines = []
    for _ in range(rng.randrange(1, 200)):
        id, text, expression = rng.choice([*range(9), (1 << 64) - 1]), rng.choice(TEXTS), rng.choice(EXPRESSIONS)
        lines.append(
            rng.choice(
                [
                    f"add {id} {text}",
                    f"put {id} {text}",
                    f"put {id} {text}",
                    f"del {id}",
                    f"get {id}",
                    f"find {text}",
                    f"query {expression}",
                    "count",
                    f"count {expression}",
                    f"newest {rng.randrange(4)} {expression}",
                    f"newest {rng.randrange(4)}",
                    f"oldest {rng.randrange(4)} {expression}",
                    f"oldest {(1 << 64) - 1}",
                    "place",
                    f"journal {rng.randrange(30)}",
                    "stats",
                ]
            )
        )
    return lines


class Scripts(unittest.TestCase):
    def check_script(self, seed):
        """A script's lines have one answer in the program and here."""
        rng = random.Random(seed)
        config = rng.choice([{}, SMALL, {**SMALL, "slices": 3, "reserve": 64}])
        lines = script(rng)
        with tempfile.TemporaryDirectory() as folder:
            with open(f"{folder}/funnel.json", "w", encoding="utf-8") as file:
                json.dump(config, file)
            told = subprocess.run([PROGRAM, "run"], input="\n".join([*lines, ""]).encode(), cwd=folder, stdout=subprocess.PIPE, check=True).stdout
        with Index(config) as index:
            here = [reply(index, line) for line in lines]
        self.assertEqual(told.decode().split("\n")[:-1], here, f"seed {seed}")

    def test_scripts(self):
        with ThreadPoolExecutor(4) as threads:
            for _ in threads.map(self.check_script, range(SCRIPTS)):
                pass


class Calls(unittest.TestCase):
    def test_each_call(self):
        with Index() as index:
            self.assertEqual(index.add(7, "The cat sat"), 1)
            self.assertEqual(index.put(9, "a black cat"), Placed(2, False))
            self.assertEqual(index.put(7, "A cat\nlies\0there"), Placed(3, True))
            self.assertEqual(index.get(7), Document(3, "A cat\nlies\0there"))
            self.assertEqual(index.find("CAT"), array("Q", [9, 7]))
            self.assertEqual(index.find("there"), array("Q", [7]))
            self.assertEqual(index.query("cat -black"), array("Q", [7]))
            self.assertEqual((index.count(), index.count("cat"), len(index)), (2, 2, 2))
            self.assertEqual(index.newest(1, "cat"), Some(2, array("Q", [7])))
            self.assertEqual(index.oldest(1), Some(2, array("Q", [9])))
            self.assertEqual(index.delete(9), 4)
            self.assertEqual(index.place(), 4)
            self.assertEqual(index.journal(1), [Commit(True, 9), Commit(True, 7), Commit(False, 9)])
            self.assertEqual((index.stats().documents, index.stats().columns), (1, 128))

    def test_refusals(self):
        with Index({"commits": 2}) as index:
            index.add(1, "a")
            for call, kind, numbers in [
                (lambda: index.add(1, "b"), funnel.Present, [1]),
                (lambda: index.delete(2), funnel.Absent, []),
                (lambda: index.get(2), funnel.Absent, []),
                (lambda: index.query("a |"), funnel.BadQuery, [3]),
                (lambda: index.count("-" * 65 + "a"), funnel.Deep, [64]),
                (lambda: index.add(2, b"a\xff"), funnel_index.NotUtf8, []),
                (lambda: Index({"slices": 0}), funnel_index.BadConfig, [5]),
                (lambda: Index("{"), funnel_index.BadConfig, [3]),
            ]:
                with self.assertRaises(kind) as told:
                    call()
                self.assertEqual(told.exception.numbers, numbers)
            for id in 2, 3:
                index.add(id, "a")
            with self.assertRaises(funnel.Trimmed) as told:
                index.journal(0)
            self.assertEqual(told.exception.numbers, [1])
            with self.assertRaises(ValueError):
                index.delete(1 << 64)
        with Index({"slices": 1}) as index:
            for id in range(64):
                index.add(id, "a")
            self.assertRaises(funnel.Full, index.add, 64, "a")

    def test_a_configuration_is_fitted(self):
        texts = ["the cat", "the dog\nthe cow", "a hen"]
        with tempfile.TemporaryDirectory() as folder, Index() as index:
            lines = "".join(f"add 1 {text}\n" for text in ["the cat", "the dog the cow", "a hen"])
            told = subprocess.run([PROGRAM, "fit", "--documents", "1000"], input=lines.encode(), cwd=folder, stdout=subprocess.PIPE, check=True).stdout
            config = index.fit(1000, texts)
            self.assertEqual(config, json.loads(told))
            with Index(config) as other:
                self.assertGreaterEqual(other.stats().columns, 1000)
            for documents, sample, why in (1000, [], 1), (0, texts, 5), (1 << 33, texts, 5):
                with self.assertRaises(funnel_index.Misfit) as misfit:
                    index.fit(documents, sample)
                self.assertEqual(misfit.exception.numbers, [why])

    def test_a_closed_index_is_told(self):
        index = Index()
        index.close()
        index.close()
        for call in index.place, index.stats, index.find, index.journal, lambda: index.add(1, "a"):
            self.assertRaises(Closed, call)

    def test_threads_share_an_index(self):
        with Index({"slices": 64, "commits": 10000}) as index:

            def work(thread):
                for at in range(500):
                    id = thread * 500 + at
                    index.add(id, f"thread{thread} all")
                    self.assertEqual(list(index.find(f"thread{thread}"))[-1], id)

            threads = [threading.Thread(target=work, args=[thread]) for thread in range(8)]
            for thread in threads:
                thread.start()
            for thread in threads:
                thread.join()
            self.assertEqual((len(index), index.place()), (4000, 4000))
            self.assertEqual(sorted(index.find("all")), list(range(4000)))

    def test_indexes_give_their_memory_back(self):
        def open_many(count):
            for _ in range(count):
                with Index() as index:
                    index.add(1, "some words")
            return resource.getrusage(resource.RUSAGE_SELF).ru_maxrss

        before = open_many(1000)
        self.assertLess(open_many(20000) - before, 1024)


if __name__ == "__main__":
    PROGRAM = os.path.realpath(sys.argv.pop(1))
    if len(sys.argv) > 1:
        SCRIPTS = int(sys.argv.pop(1))
    unittest.main()
