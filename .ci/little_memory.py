"""Runs the program with so many words that it has to take memory for them, by more and more memory: little_memory.py PROGRAM.
Prints each end that the program told itself and that is another than the one before. Where nothing is left for the stack to grow into, which
differs from run to run, the system ends it; that is left out."""

import resource
import subprocess
import sys

PROGRAM = sys.argv[1]
WORDS = ["run", *["x"] * 100000]
STEP, MOST = 1 << 18, 1 << 28
UNLOADED = 127  # the status that the loader gives


def ended(words, most):
    """What the program said where the system gives it so many bytes, and its status; None where the system didn't load it, or ended it."""
    def limit():
        resource.setrlimit(resource.RLIMIT_AS, (most, most))
    try:
        run = subprocess.run([PROGRAM, *words], preexec_fn=limit, stdin=subprocess.DEVNULL, capture_output=True, text=True)
    except (OSError, subprocess.SubprocessError):
        return None
    return None if run.returncode < 0 or run.returncode == UNLOADED else f"{run.stderr.partition(chr(10))[0]} status {run.returncode}"


def main():
    usage, ends = "funnel: usage status 1", []
    for most in range(STEP, MOST, STEP):
        end = ended(WORDS, most)
        if end is not None and ends[-1:] != [end]:
            ends.append(end)
        if end == usage:
            break
    print("\n".join(ends))


main()
