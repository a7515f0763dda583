"""Serves a client that reads nothing for longer than a write may wait, and then reads on, and prints whether it got each reply whole:
slow_reader.py PROGRAM. Of the write that waited a part is taken, and the rest has to follow."""

import json
import subprocess
import sys
import time

from ports import connect, free_port

DOCUMENTS = 30_000
FINDS = 100
IDLE = 3  # seconds for which a read or a write may wait
QUIET = 0.5  # seconds after which a server that sends nothing more waits


def waiting(port, peer):
    """How many bytes a server at the port has sent to a peer that the peer's system hasn't taken."""
    with open("/proc/net/tcp", encoding="utf-8") as table:
        for line in table:
            _, local, remote, _, queues, *_ = line.split()
            if local.endswith(f":{port:04X}") and remote.endswith(f":{peer:04X}"):
                return int(queues.partition(":")[0], 16)
    return 0


def wait_until_it_waits(port, client):
    """Waits until the server can send nothing more."""
    peer = client.getsockname()[1]
    before, since = 0, time.monotonic()
    while before == 0 or time.monotonic() - since < QUIET:
        time.sleep(0.02)
        now = waiting(port, peer)
        if now != before:
            before, since = now, time.monotonic()


with open("funnel.json", "w", encoding="utf-8") as file:
    json.dump({"slices": 16, "max_rank": 5, "commits": 1}, file)
port = free_port()
words = [sys.argv[1], "serve", "--port", str(port), "--workers", "1", "--connections", "2", "--idle", str(IDLE)]
with subprocess.Popen(words, stdin=subprocess.DEVNULL) as program:
    with connect(port) as writer:
        writer.sendall("".join(f"add {number}\n" for number in range(DOCUMENTS)).encode() + b"place\n")
        replies = writer.makefile("r", encoding="utf-8")
        print("documents:", [replies.readline() for _ in range(DOCUMENTS + 1)][-1].rstrip())
    with connect(port) as reader:
        reader.sendall(b"find\n" * FINDS)
        wait_until_it_waits(port, reader)
        time.sleep(1.5 * IDLE - QUIET)
        replies = reader.makefile("r", encoding="utf-8")
        whole = f"found {DOCUMENTS} {' '.join(map(str, range(DOCUMENTS)))}\n"
        print("whole replies:", sum(replies.readline() == whole for _ in range(FINDS)))
print(f"status {program.returncode}")
