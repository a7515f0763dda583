"""Starts a serve whose address space has no room for the threads of its workers, and one that has too few descriptors for them, and prints
what they say, with P for the port and N for a worker: few_threads.py PROGRAM."""

import re
import resource
import subprocess
import sys

from ports import free_port


def limited(kind, most):
    """Runs a serve with so much of something, and prints how it ended."""
    port = free_port()
    words = [sys.argv[1], "serve", "--port", str(port), "--workers", "8", "--one-port"]
    ended = subprocess.run(
        words,
        stdin=subprocess.DEVNULL,
        stderr=subprocess.PIPE,
        text=True,
        timeout=60,
        preexec_fn=lambda: resource.setrlimit(kind, (most, most)),
    )
    print(re.sub(r"worker \d+", "worker N", ended.stderr.replace(str(port), "P")), end="")
    print(f"status {ended.returncode}")


limited(resource.RLIMIT_AS, 40_000_000)
limited(resource.RLIMIT_NOFILE, 12)
