"""Proves and builds the program, or a library, crates that don't stand on each other side by side: build.py [CRATE]. Says on standard
error where it is.

`rt` lets one command at a time work in a crate and in those below it. So each crate is proved in a copy of what it stands on, and
what was made goes back to its own folder."""

import os
import shutil
import subprocess
import sys
import tempfile
import time
from concurrent.futures import FIRST_COMPLETED, ThreadPoolExecutor, wait

ROOT = os.path.dirname(os.path.dirname(os.path.realpath(__file__)))
PROGRAM = "funnel_program"
CHECK_BYTES = 3 << 30  # the most memory that a check of one of these crates was seen to take


def libraries():
    """Each crate of the repository, with the crates of the repository that it stands on."""
    with open(f"{ROOT}/crates.txt", encoding="utf-8") as file:
        lines = [line.partition(":") for line in file if line.strip()]
    named = {name.split()[0]: below.split() for name, _, below in lines}
    return {name: [it for it in below if it in named] for name, below in named.items()}


def needed(crate, below):
    """The crate, after all that it stands on."""
    found = []
    for it in below[crate]:
        found += [crate for crate in needed(it, below) if crate not in found]
    return [*found, crate]


def lanes():
    """How many checks may run at a time."""
    with open("/proc/meminfo", encoding="ascii") as file:
        free = next(int(line.split()[1]) << 10 for line in file if line.startswith("MemAvailable"))
    return max(1, min(len(os.sched_getaffinity(0)), free // CHECK_BYTES))


def link(source, target):
    """Gives the file a second name, or copies it where that can't be."""
    try:
        os.link(source, target)
    except OSError:
        shutil.copy2(source, target)


def set_apart(crate, below, folder):
    """Lays a copy of the crate and of what it stands on into the folder, with what was built of these."""
    crates = needed(crate, below)
    shutil.copy2(f"{ROOT}/HANDLES", folder)
    with open(f"{ROOT}/crates.txt", encoding="utf-8") as file, open(f"{folder}/crates.txt", "w", encoding="utf-8") as copy:
        copy.writelines(line for line in file if line.strip() and line.partition(":")[0].split()[0] in crates)
    for it in crates:
        shutil.copytree(f"{ROOT}/crates/{it}", f"{folder}/crates/{it}", copy_function=link, ignore=shutil.ignore_patterns("out"))
        kept = "out" if it == crate else "out/rlib"
        if os.path.isdir(f"{ROOT}/crates/{it}/{kept}"):
            shutil.copytree(f"{ROOT}/crates/{it}/{kept}", f"{folder}/crates/{it}/{kept}", copy_function=link, symlinks=True)


def prove(words, folder):
    """Runs `rt` with these words in the folder, and gives its status and what was said."""
    with tempfile.TemporaryFile("w+", errors="replace") as log:
        status = subprocess.call(["rt", *words], cwd=folder, stdin=subprocess.DEVNULL, stdout=log, stderr=log)
        log.seek(0)
        return status, log.read()


def build(crate, below, jobs):
    """Proves a crate, and gives the status of that and what was said."""
    out = f"{ROOT}/crates/{crate}/out"
    if crate == PROGRAM:
        return prove(["run", "--jobs", str(jobs), "--", "run"], f"{ROOT}/crates/{crate}")
    # beside the program, which is on the disk of all others and is never set apart itself
    beside = f"{ROOT}/crates/{PROGRAM}/out"
    os.makedirs(beside, exist_ok=True)
    os.makedirs(out, exist_ok=True)
    with tempfile.TemporaryDirectory(prefix="apart-", dir=beside) as folder:
        set_apart(crate, below, folder)
        status, log = prove(["lib", "--jobs", str(jobs)], f"{folder}/crates/{crate}")
        for name in os.listdir(f"{folder}/crates/{crate}/out") if status == 0 else []:
            shutil.rmtree(f"{out}/{name}", ignore_errors=True)
            os.rename(f"{folder}/crates/{crate}/out/{name}", f"{out}/{name}")
    return status, log


def say(text):
    print(f"funnel: {text}", file=sys.stderr, flush=True)


def size(crate):
    """How many bytes a check of the crate reads of it, by which it is guessed how long it takes."""
    files = (f"{path}/{name}" for it in ("src", "specs", "proofs") for path, _, names in os.walk(f"{ROOT}/crates/{crate}/{it}") for name in names)
    return sum(map(os.path.getsize, files))


def ways(crates, below):
    """Of each crate, how much has to be proved from it on, one crate after another, up to the program."""
    way = {}
    for crate in reversed(crates):  # each comes before those that it stands on
        way[crate] = size(crate) + max((way[it] for it in crates if crate in below[it]), default=0)
    return way


def build_all(below, left, most):
    """Builds these crates, each once those that it stands on are there. Returns whether all were built."""
    count, begun, running, built, way = len(left), time.monotonic(), {}, set(), ways(left, below)
    with ThreadPoolExecutor(most) as pool:
        while left or running:
            # those with the longest way before them come first, and what is on the longest of all gets all processors
            ready = sorted((it for it in left if built.issuperset(below[it])), key=lambda it: -way[it])
            for crate in ready[: most - len(running)]:
                first = all(way[crate] >= way[it] for it in [*left, *running.values()])
                left.remove(crate)
                minutes = round((time.monotonic() - begun) / 60)
                say(f"proving {crate} ({count - len(left)} of {count} crates, {minutes} minutes gone)")
                running[pool.submit(build, crate, below, most if first else 1)] = crate
            for ended in wait(running, return_when=FIRST_COMPLETED).done:
                crate = running.pop(ended)
                status, log = ended.result()
                if status:
                    say(f"the build of {crate} failed:\n" + "\n".join(log.splitlines()[-20:]))
                    return False
                built.add(crate)
    return True


def main():
    if not shutil.which("rt"):
        say("there is no command rt on the path: it comes with the Rattle kit")
        return 1
    below = libraries()
    crate = sys.argv[1] if len(sys.argv) > 1 else PROGRAM
    say(f"proving and building {'the program' if crate == PROGRAM else crate}, which takes 20 to 30 minutes on four processors the first time")
    say("it can be left alone, or broken off and begun again: what is proved stays so")
    return 0 if build_all(below, needed(crate, below), lanes()) else 1


if __name__ == "__main__":
    sys.exit(main())
