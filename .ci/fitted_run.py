"""Fits a configuration to the paragraphs of texts, and prints whether it counts them all, and whether a run with it answers as one
without it does: fitted_run.py PROGRAM TEXT.."""

import json
import subprocess
import sys
import tempfile
from pathlib import Path

program, *texts = sys.argv[1:]


def paragraphs():
    for text in texts:
        for paragraph in Path(text).read_text(encoding="utf-8").split("\n\n"):
            if paragraph.strip():
                yield " ".join(paragraph.split())


def said(configuration, *words):
    """What the program writes, where it has this configuration and is given the lines."""
    with tempfile.TemporaryDirectory() as folder:
        Path(folder, "funnel.json").write_text(configuration, encoding="utf-8")
        return subprocess.run([program, *words], cwd=folder, input=lines, stdout=subprocess.PIPE, encoding="utf-8", check=True, timeout=120).stdout


adds = [f"add {number} {paragraph}" for number, paragraph in enumerate(paragraphs())]
finds = [f"find {' '.join(add.split()[2:4])}" for add in adds]
lines = "".join(f"{line}\n" for line in [*adds, *finds])
fitted = said("", "fit", "--documents", str(len(adds)))
replies = said('{"slices":128}', "run")
print("each paragraph is added:", replies.count("added ") == len(adds))
print("each is counted:", json.loads(fitted)["documents"] == len(adds))
print("the replies are the same:", said(fitted, "run") == replies)
