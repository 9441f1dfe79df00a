#!/usr/bin/env python3
"""An independent reckoning of keys, and what `kiln key` prints of them.

usage: keys.py line [--digest NAME] FILE...   the lines that `kiln key` should print
       keys.py compare KILN                   compares the program with this file on many inputs
"""
import random
import subprocess
import sys
import tempfile
from pathlib import Path

LONGEST = 65536


def fnv1a(data):
    word = 0xCBF29CE484222325
    for byte in data:
        word = ((word ^ byte) * 0x100000001B3) % 2**64
    return [word, 0, 0, 0]


def tally(data):
    return [sum(data), sum((i + 1) * b for i, b in enumerate(data)), 0, 0]


DIGESTS = {"fnv1a": fnv1a, "tally": tally}


def key_of(digest, data):
    return b"".join(w.to_bytes(8, "big") for w in DIGESTS[digest](data)) + len(data).to_bytes(4, "big")


def line(digest, path):
    data = Path(path).read_bytes()
    return f"{key_of(digest, data).hex()}  {len(data)}  {path}"


def compare(kiln):
    rng = random.Random(20)
    sizes = [0, 1, 2, 7, 8, 9, 255, 256, 2048, LONGEST - 1, LONGEST] + [rng.randrange(5000) for _ in range(40)]
    with tempfile.TemporaryDirectory() as folder:
        names = []
        for i, size in enumerate(sizes):
            path = Path(folder) / f"{i}.bin"
            path.write_bytes(b"\xff" * size if i % 5 == 0 else rng.randbytes(size))
            names.append(str(path))
        for digest in DIGESTS:
            run = subprocess.run([kiln, "key", "--digest", digest, *names], capture_output=True, text=True)
            want = "".join(line(digest, name) + "\n" for name in names)
            if run.returncode != 0 or run.stdout != want:
                sys.exit(f"keys.py: {digest} differs")
    print(f"keys.py: {len(sizes)} files under {len(DIGESTS)} digests, all alike")


def main():
    words = sys.argv[1:]
    if words[:1] == ["compare"] and len(words) == 2:
        compare(words[1])
    elif words[:1] == ["line"]:
        digest = "fnv1a"
        files = words[1:]
        if files[:1] == ["--digest"]:
            digest, files = files[1], files[2:]
        for name in files:
            print(line(digest, name))
    else:
        sys.exit(__doc__)


if __name__ == "__main__":
    main()
