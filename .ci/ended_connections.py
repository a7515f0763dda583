"""Serves a client whose request closes its connection, and one that sends nothing for longer than a read may wait, and prints for how long
each can go on sending after the end of what it reads: ended_connections.py PROGRAM."""

import subprocess
import sys
import time

from ports import connect, free_port

CLOSING = b"GET /place HTTP/1.1\r\nConnection: close\r\n\r\n"
IDLE = 1  # seconds for which a read or a write may wait
LONGEST = 20  # seconds after which a client gives up


def went_on(client):
    """Reads to the end, sends a byte now and then until the connection is closed, and tells about when that was."""
    while client.recv(1 << 16):
        pass
    begin = time.monotonic()
    try:
        while time.monotonic() - begin < LONGEST:
            client.sendall(b"x")
            time.sleep(0.02)
    except (BrokenPipeError, ConnectionResetError):
        pass
    seconds = time.monotonic() - begin
    return "not at all" if seconds < 0.5 else "a second" if 0.9 < seconds < 2 else f"{seconds:.1f} seconds"


port = free_port()
words = [sys.argv[1], "serve", "--port", str(port), "--workers", "1", "--http", "--connections", "2", "--idle", str(IDLE)]
with subprocess.Popen(words, stdin=subprocess.DEVNULL) as program:
    with connect(port) as client:
        client.sendall(CLOSING)
        print("after a response that closes:", went_on(client))
    with connect(port) as silent:
        print("after a read that waited too long:", went_on(silent))
print(f"status {program.returncode}")
