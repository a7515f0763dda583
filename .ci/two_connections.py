"""Serves two connections at the same time, one a worker, then two more, and prints what each got: two_connections.py PROGRAM."""

import socket
import subprocess
import sys

from ports import connect, free_port


class Client:
    def __init__(self, name, port):
        self.name = name
        self.socket = connect(port)
        self.replies = self.socket.makefile("r", encoding="utf-8")

    def ask(self, line):
        """Sends a line and waits for its reply."""
        self.socket.sendall(line.encode() + b"\n")
        print(f"{self.name}: {self.replies.readline()}", end="")

    def end(self):
        """Sends no more, and reads to the end."""
        self.socket.shutdown(socket.SHUT_WR)
        print(f"{self.name} ends with {self.replies.read()!r}")


port = free_port()
words = [sys.argv[1], "serve", "--port", str(port), "--workers", "2", "--connections", "2"]
with subprocess.Popen(words, stdin=subprocess.DEVNULL) as program:
    first, second = Client("first", port), Client("second", port + 1)
    second.ask("add 1 a")
    first.ask("add 2 b")
    second.ask("find b")
    first.ask("del 1")
    second.ask("journal 0")
    first.end()
    third = Client("third", port)
    third.ask("find b")
    second.ask("place")
    second.end()
    third.end()
    fourth = Client("fourth", port + 1)
    fourth.ask("del 2")
    fourth.end()
print(f"status {program.returncode}")
