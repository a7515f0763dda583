"""Serves two clients, the second while the program may open no further file, and then while it may, and prints what they got:
few_descriptors.py PROGRAM."""

import resource
import socket
import subprocess
import sys

from ports import connect, free_port


def ask(client, line, seconds=60):
    """Sends a line if there is one, and returns the reply, if it comes in so many seconds."""
    client.settimeout(seconds)
    try:
        client.sendall(line)
        return client.recv(100).decode().rstrip()
    except socket.timeout:
        return "no reply"


port = free_port()
words = [sys.argv[1], "serve", "--port", str(port), "--workers", "1", "--connections", "2"]
with subprocess.Popen(words, stdin=subprocess.DEVNULL) as program:
    # A wait for a connection that has begun keeps its number of a file, so the number is taken away while there is none.
    with connect(port) as first:
        print("with a descriptor:", ask(first, b"add 1 a\n"))
        resource.prlimit(program.pid, resource.RLIMIT_NOFILE, (3, 64))
    with connect(port) as second:
        print("without one:", ask(second, b"find a\n", 1))
        resource.prlimit(program.pid, resource.RLIMIT_NOFILE, (64, 64))
        print("with one again:", ask(second, b""))
print(f"status {program.returncode}")
