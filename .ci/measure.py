"""Runs the gate, and writes into docs/ what it took and why each edit was refused: measure.py [LOG].

What a check takes is read from the system twice a second while it runs, and a check that ends between two looks lacks what it did
after the last one. With LOG, the output of an earlier run, only the edits are written."""

import collections
import os
import re
import resource
import subprocess
import sys
import threading
import time

ROOT = os.path.dirname(os.path.dirname(os.path.realpath(__file__)))
TICKS = os.sysconf("SC_CLK_TCK")
KINDS = ["proof", "tests", "edits"]


def is_below(process, gate):
    """Whether the gate began this process, or one of those that began it."""
    while int(process) > 1:
        with open(f"/proc/{process}/stat", encoding="utf-8", errors="replace") as file:
            process = file.read().rpartition(")")[2].split()[1]
        if int(process) == gate:
            return True
    return False


def look(seconds, gate):
    """Notes how many seconds of a processor each check of the gate has taken that runs now."""
    for process in filter(str.isdigit, os.listdir("/proc")):
        try:
            with open(f"/proc/{process}/cmdline", encoding="utf-8", errors="replace") as file:
                words = file.read().split("\0")
            if "--crate-name" not in words or not is_below(process, gate):
                continue
            kind = "edits" if "rt-edit-" in os.readlink(f"/proc/{process}/cwd") else "tests" if "--test" in words else "proof"
            with open(f"/proc/{process}/stat", encoding="utf-8", errors="replace") as file:
                times = file.read().rpartition(")")[2].split()[11:13]
        except OSError:
            continue
        key = process, words[words.index("--crate-name") + 1], kind
        seconds[key] = sum(map(int, times)) / TICKS


def run_gate():
    """Runs the gate, and gives what it wrote, its status and the seconds of a processor that each check took."""
    seconds, ended = {}, threading.Event()

    def watch(gate):
        while not ended.wait(0.5):
            look(seconds, gate)

    lines = []
    with subprocess.Popen(["bash", f"{ROOT}/.ci/run"], stdin=subprocess.DEVNULL, stdout=subprocess.PIPE, stderr=subprocess.STDOUT) as gate:
        watcher = threading.Thread(target=watch, args=[gate.pid])
        watcher.start()
        for line in gate.stdout:
            lines.append(line.decode(errors="replace"))
            print(lines[-1], end="", flush=True)
    ended.set()
    watcher.join()
    return "".join(lines), gate.returncode, seconds


def crates():
    with open(f"{ROOT}/crates.txt", encoding="utf-8") as file:
        return [line.partition(":")[0].split()[0] for line in file if line.strip()]


def time_table(seconds, refused, elapsed):
    """What each crate took, and what all took."""
    taken = collections.Counter()
    for (_, crate, kind), spent in seconds.items():
        taken[crate, kind] += spent
    counts = collections.Counter(crate for crate, _ in refused)
    told = lambda number: str(round(number)) if number else ""
    rows = ["| crate | proof | tests | edits | all of them |", "|---|---|---|---|---|"]
    for crate in crates():
        cells = [told(taken[crate, "proof"]), told(taken[crate, "tests"]), told(counts[crate]), told(taken[crate, "edits"])]
        rows.append(f"| `{crate}` | " + " | ".join(cells) + " |")
    sums = {kind: sum(taken[crate, kind] for crate in crates()) / 60 for kind in KINDS}
    spent = resource.getrusage(resource.RUSAGE_CHILDREN)
    minutes = (spent.ru_utime + spent.ru_stime) / 60
    head = (
        f"From nothing it took {elapsed / 60:.0f} minutes on a machine of {os.cpu_count()} processors, and {minutes:.0f} minutes of a processor: "
        f"{sums['proof']:.0f} for the proofs, {sums['tests']:.0f} for those of tests, and {sums['edits']:.0f} for the {sum(counts.values())} edits, "
        "which begin with the proof of their crate once more. In seconds of a processor:"
    )
    return "\n".join([head, "", *rows])


def refusals(log):
    """What refused each edit, by its crate and name: the goal, and the file of its proof or of the code."""
    found = {}
    for crate, name, why in re.findall(r"must-fail (\w+)/(\S+)\.edit: refused, as it must be(.*)", log):
        # a note comes before what refused it, of which the log has no more
        told = "" if re.search(r":\d+:\d+: note:", why) else why
        at = re.search(r"(?:\./)?((?:src|specs|proofs)/[^:\s]+):\d+:\d+:", told)
        goal = re.search(r"\(`([^`]+)`\)", told) or re.search(r"`([^`]+)`", told)
        where = f"`{at[1]}`" if at else "the check"
        found[crate, name] = f"{where}, `{goal[1]}`" if goal else where
        if "names what the edit took away" in why:
            found[crate, name] += " (for a name alone)"
    return found


def with_refusals(text, refused):
    """The page of edits, with what refused each at the end of its line."""
    crate, lines = None, []
    for line in text.splitlines():
        heading = re.match(r"## (\w+)$", line)
        crate = heading[1] if heading else crate
        row = re.match(r"- `(\w+)`: (.*?)\.(?: (.*))?$", line)
        if row and crate in crates():
            line = f"- `{row[1]}`: {row[2]}. {refused.get((crate, row[1]), row[3] or '')}".rstrip()
        lines.append(line)
    return "\n".join(lines) + "\n"


def rewrite(path, change):
    with open(f"{ROOT}/{path}", encoding="utf-8") as file:
        text = file.read()
    with open(f"{ROOT}/{path}", "w", encoding="utf-8") as file:
        file.write(change(text))


def main(words):
    if words:
        with open(words[0], encoding="utf-8") as file:
            log, status, seconds = file.read(), 0, {}
    else:
        began = time.monotonic()
        log, status, seconds = run_gate()
    refused = refusals(log)
    if seconds:
        table = time_table(seconds, refused, time.monotonic() - began)
        marked = r"(<!-- table -->\n).*?(<!-- end of table -->)"
        rewrite("docs/gate.md", lambda text: re.sub(marked, lambda at: f"{at[1]}{table}\n{at[2]}", text, flags=re.DOTALL))
    rewrite("docs/wrong-bodies.md", lambda text: with_refusals(text, refused))
    return status


if __name__ == "__main__":
    sys.exit(main(sys.argv[1:]))
