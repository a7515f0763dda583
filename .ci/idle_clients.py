"""Serves a client that asks, one that sends nothing, one that reads nothing, and one that asks, by one worker that lets each wait for some seconds,
and prints what they got: idle_clients.py PROGRAM."""

import subprocess
import sys
import time

from ports import connect, free_port

ADDS = "".join(f"add {number} x\n" for number in range(1, 101)).encode()
FINDS = b"find\n" * 10_000
IDLE = 3  # seconds for which a read or a write may wait


def wait_for_end(client):
    """Waits until the connection is closed, and tells whether that came after one read waited, and before a second one did."""
    begin = time.monotonic()
    while client.recv(1 << 16):
        pass
    return "closed" if 0.9 * IDLE < time.monotonic() - begin < 1.9 * IDLE else "closed at another time"


def send_until_closed(client):
    """Sends lines and reads no reply, until the connection is closed."""
    client.settimeout(60)
    try:
        while True:
            client.sendall(FINDS)
    except (BrokenPipeError, ConnectionResetError):
        return "closed"


def ask(client, lines, count):
    """Sends so many lines, and returns the last reply."""
    client.sendall(lines)
    replies = client.makefile("r", encoding="utf-8")
    return [replies.readline().rstrip() for _ in range(count)][-1]


port = free_port()
words = [sys.argv[1], "serve", "--port", str(port), "--workers", "1", "--connections", "4", "--idle", str(IDLE)]
with subprocess.Popen(words, stdin=subprocess.DEVNULL) as program:
    first = connect(port)
    print("a client that asks:", ask(first, ADDS + b"place\n", 101))
    first.close()
    silent = connect(port)
    print("a silent client:", wait_for_end(silent))
    deaf = connect(port)
    print("a deaf client:", send_until_closed(deaf))
    client = connect(port)
    print("the next client:", ask(client, b"add 101 a\n", 1))
    client.close()
print(f"status {program.returncode}")
