"""Serves clients that end well, that leave in the middle of a reply, and that reset their connection, and prints how many files the
program holds more than before them, and what the next client gets: gone_clients.py PROGRAM CLIENTS."""

import os
import socket
import struct
import subprocess
import sys
import time

from ports import connect, free_port

ADDS = "".join(f"add {number} x\n" for number in range(1, 101)).encode()
LONG_REPLIES = b"find x\n" * 2_000
RESET = struct.pack("ii", 1, 0)  # a close sends a reset, whatever is left to be sent or read


def ask(client, lines, count):
    """Sends so many lines, and returns the last reply."""
    client.sendall(lines)
    replies = client.makefile("r", encoding="utf-8")
    return [replies.readline().rstrip() for _ in range(count)][-1]


def leave_amid_reply():
    with connect(port) as client:
        client.sendall(LONG_REPLIES)
        client.recv(10)


def reset():
    with connect(port) as client:
        client.setsockopt(socket.SOL_SOCKET, socket.SO_LINGER, RESET)
        client.sendall(b"place\n")


def end_well():
    with connect(port) as client:
        ask(client, b"place\n", 1)


def files():
    """How many files the program holds, once it holds no connection."""
    end_well()
    counts = []
    while len(counts) < 3 or len(set(counts[-3:])) > 1:
        counts.append(len(os.listdir(f"/proc/{program.pid}/fd")))
        time.sleep(0.05)
    return counts[-1]


port = free_port()
words = [sys.argv[1], "serve", "--port", str(port), "--workers", "1"]
with subprocess.Popen(words, stdin=subprocess.DEVNULL) as program:
    with connect(port) as first:
        ask(first, ADDS, 100)
    before = files()
    for client in range(int(sys.argv[2])):
        (leave_amid_reply, reset, end_well)[0 if client % 100 == 0 else 1 + client % 2]()
    print("more files:", files() - before)
    with connect(port) as last:
        print("the next client:", ask(last, b"place\n", 1))
    program.terminate()
