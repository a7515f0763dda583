"""Runs the program on a port that is taken, which is that of its one worker, of its second one, or of all, and prints what it says,
with P for the port: taken_port.py PROGRAM."""

import socket
import subprocess
import sys

from ports import free_port

port = free_port() + 1
with socket.create_server(("127.0.0.1", port)):
    for words in (
        f"--port {port} --workers 1",
        f"--port {port - 1} --workers 2",
        f"--port {port} --workers 2 --one-port",
    ):
        run = [sys.argv[1], "serve", *words.split()]
        ended = subprocess.run(run, stdin=subprocess.DEVNULL, stderr=subprocess.PIPE, text=True, timeout=60)
        print(ended.stderr.replace(str(port), "P"), end="")
        print(f"status {ended.returncode}")
