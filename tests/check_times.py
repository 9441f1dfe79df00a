#!/usr/bin/env python3
"""Prints the table of docs/CHECK-TIMES.md: check_times.py. It proves each crate and tries its edits from nothing, one crate
after another, in a copy of the repository's last commit, and takes half an hour."""
import re
import subprocess
import sys
import tempfile
import time
from pathlib import Path


def seconds(folder, *words):
    started = time.monotonic()
    ran = subprocess.run(words, cwd=folder, stdout=subprocess.PIPE, stderr=subprocess.STDOUT, text=True)
    if ran.returncode:
        sys.exit(f"check_times.py: {' '.join(words)} failed in {folder}\n{ran.stdout[-2000:]}")
    return round(time.monotonic() - started)


def lowest_first(text):
    """The crates of crates.txt, each behind those that it rests on."""
    below = {m[1]: m[2].split() for m in re.finditer(r"(?m)^(\w+):(.*)$", text)}
    order = []

    def place(name):
        for other in below[name]:
            if other in below and other not in order:
                place(other)
        if name not in order:
            order.append(name)

    for name in below:
        place(name)
    return order


def main():
    top = Path(__file__).resolve().parent.parent
    total = [0, 0, 0]
    print("| crate | proved | edits | seconds of its edits |")
    print("|---|---|---|---|")
    with tempfile.TemporaryDirectory() as room:
        subprocess.run(["git", "clone", "-q", str(top), room], check=True)
        for name in lowest_first(Path(room, "crates.txt").read_text()):
            folder = Path(room, "crates", name)
            edits = len(list(folder.glob("must-fail/*.edit")))
            proved = seconds(folder, "rt", "verdict")
            tried = seconds(room, "rt", "must-fail", name, "--anew") if edits else 0
            total = [a + b for a, b in zip(total, (proved, edits, tried))]
            print(f"| `{name}` | {proved} | {edits} | {tried} |", flush=True)
    print(f"| all | {total[0]} | {total[1]} | {total[2]} |")


main()
