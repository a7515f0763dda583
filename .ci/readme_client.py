"""Runs the client that the README shows against a served program, and tells whether it prints what it says: readme_client.py ROOT."""

import contextlib
import io
import re
import subprocess
import sys

from ports import connect, free_port

root = sys.argv[1]
sys.path.insert(0, f"{root}/clients/python")
with open(f"{root}/README.md", encoding="utf-8") as file:
    client = re.search(r"```python\n(.*?)```", file.read(), re.S)[1]
told = "".join(f"{line[2:]}\n" for line in client.splitlines() if line.startswith("# "))
port = free_port()
words = [f"{root}/funnel", "serve", "--port", str(port), "--workers", "2", "--connections", "2"]
with subprocess.Popen(words, stdin=subprocess.DEVNULL):
    for worker in range(2):
        connect(port + worker).close()
    output = io.StringIO()
    with contextlib.redirect_stdout(output):
        exec(client.replace("7010", str(port)).replace("7011", str(port + 1)), {})
print("it prints what it says:", output.getvalue() == told)
