"""Looks that the program at the head of the engine is the one of its tests and of docs/library.md: one_program.py ROOT."""

import re
import sys


def read(path):
    with open(f"{sys.argv[1]}/{path}", encoding="utf-8") as file:
        return file.read()


head = re.search(r"//! ```text\n(.*?)//! ```\n", read("crates/engine/src/lib.rt"), re.S)[1]
program = "".join(f"{line[4:]}\n" for line in head.splitlines())
for path, more in [("crates/engine_tests/src/example.rt", "use std::test::*;\n"), ("docs/library.md", "use std::io;\n")]:
    print(f"{path} has it: {program in read(path).replace(more, '', 1)}")
