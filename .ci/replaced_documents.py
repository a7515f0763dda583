"""Replaces documents at random by four connections, while four others find a word that each version of a document has: replaced_documents.py
PROGRAM SECONDS. Four fifths of the columns have a live document. Prints how the finds and the replacements came out, by puts, and for a
second by deletes and adds."""

import json
import random
import subprocess
import sys
import threading
import time

from ports import connect, free_port

CONFIGURATION = {"passes": 8, "slices": 32, "max_rank": 3, "reserve": 512, "documents": 13107, "tail": 1, "words": {"all": 13107}}
DOCUMENTS = 13107
CLIENTS = 4


class Client:
    def __init__(self, port):
        self.stream = connect(port).makefile("rwb")

    def ask(self, line):
        self.stream.write(line.encode() + b"\n")
        self.stream.flush()
        return self.stream.readline().decode().removesuffix("\n")


class Replacements:
    """What the connections saw until the time was over."""

    def __init__(self, port, seconds, puts):
        self.port, self.puts = port, puts
        self.end = time.monotonic() + seconds
        self.replaced, self.refused, self.found, self.missed = 0, [], 0, 0
        self.lock = threading.Lock()

    def write(self, share):
        """Replaces the documents whose numbers leave this rest, so that each number has one writer."""
        client, chance = Client(self.port), random.Random(share)
        while time.monotonic() < self.end:
            number = chance.randrange(share, DOCUMENTS, CLIENTS)
            text = f"all v{chance.randrange(100)}"
            if self.puts:
                replies = [client.ask(f"put {number} {text}")]
                wanted = ["replaced"]
            else:
                replies = [client.ask(f"del {number}"), client.ask(f"add {number} {text}")]
                wanted = ["deleted", "added"]
            with self.lock:
                self.replaced += 1
                if [reply.split(" ")[0] for reply in replies] != wanted:
                    self.refused += replies

    def find(self):
        client = Client(self.port)
        while time.monotonic() < self.end:
            word, count, *found = client.ask("find all").split(" ")
            whole = word == "found" and len(found) == int(count) and sorted(map(int, found)) == [*range(DOCUMENTS)]
            with self.lock:
                self.found += 1
                self.missed += not whole

    def run(self):
        threads = [threading.Thread(target=self.write, args=(share,)) for share in range(CLIENTS)]
        threads += [threading.Thread(target=self.find) for _ in range(CLIENTS)]
        for thread in threads:
            thread.start()
        for thread in threads:
            thread.join()
        return self


def main(program, seconds):
    with open("funnel.json", "w", encoding="utf-8") as file:
        json.dump(CONFIGURATION, file)
    port = free_port()
    words = [program, "serve", "--port", str(port), "--workers", str(2 * CLIENTS), "--one-port"]
    served = subprocess.Popen(words, stdin=subprocess.DEVNULL, stderr=subprocess.DEVNULL)
    try:
        client = Client(port)
        for number in range(DOCUMENTS):
            client.ask(f"put {number} all v0")
        client.stream.close()
        puts = Replacements(port, seconds, True).run()
        both = Replacements(port, 1, False).run()
    finally:
        served.kill()
    print("documents were replaced and found:", puts.replaced > 0 and puts.found > 0)
    print("finds that missed one beside puts:", puts.missed)
    print("puts that were refused:", len(puts.refused), *puts.refused[:3])
    print("finds miss some beside deletes and adds:", both.missed > 0)


main(sys.argv[1], float(sys.argv[2]))
