"""Serves eight clients at once and then 1,000 one after another by four workers on one port, and prints how many are answered:
one_port.py PROGRAM."""

import subprocess
import sys
from concurrent.futures import ThreadPoolExecutor
from threading import Barrier

from ports import connect, free_port

port = free_port()


def is_answered(line, met=None):
    """Sends a line once all have met, and says whether the reply is that to a find of nothing."""
    with connect(port) as client:
        if met:
            met.wait()
        client.sendall(line)
        return client.recv(100) == b"found 0\n"


def at_once(count):
    met = Barrier(count)
    with ThreadPoolExecutor(count) as clients:
        return sum(clients.map(lambda _: is_answered(b"find a\n", met), range(count)))


words = [sys.argv[1], "serve", "--port", str(port), "--workers", "4", "--one-port"]
with subprocess.Popen(words, stdin=subprocess.DEVNULL) as program:
    print("at once:", at_once(8))
    print("one after another:", sum(is_answered(b"find a\n") for _ in range(1000)))
    program.terminate()
