#!/usr/bin/env python3
"""An independent reckoning of action texts, and what `kiln action` prints of them.

usage: actions.py compare KILN
"""
import random
import subprocess
import sys

from keys import fnv1a


def key(data):
    return b"".join(w.to_bytes(8, "big") for w in fnv1a(data)) + len(data).to_bytes(4, "big")


def text(letter, arguments, inputs):
    parts = [b"\x01" + letter.encode()]
    parts += [bytes([2, len(a)]) + a.encode().ljust(16, b"\0") for a in arguments]
    parts += [b"\x03" + k for k in inputs]
    return b"".join(parts) + b"\0"


def compare(kiln):
    rng = random.Random(30)
    letters = [chr(c) for c in range(65, 91)]
    marks = [chr(c) for c in range(33, 127)]
    tried = 0
    for count in range(3):
        for size in range(1, 5):
            for _ in range(4):
                letter = rng.choice(letters)
                arguments = ["".join(rng.choices(marks, k=rng.randint(1, 16))) for _ in range(count)]
                if "from" in arguments:
                    continue
                inputs = [key(rng.randbytes(rng.randrange(50))) for _ in range(size)]
                want = text(letter, arguments, inputs)
                words = [kiln, "action", letter, *arguments, "from", *(k.hex() for k in inputs)]
                run = subprocess.run(words, capture_output=True, text=True)
                if run.returncode != 0 or run.stdout != f"text {want.hex()}\nkey {key(want).hex()}\n":
                    sys.exit(f"actions.py: {words[1:]} differs")
                tried += 1
    print(f"actions.py: {tried} actions, all alike")


if __name__ == "__main__":
    if sys.argv[1:2] != ["compare"] or len(sys.argv) != 3:
        sys.exit(__doc__)
    compare(sys.argv[2])
