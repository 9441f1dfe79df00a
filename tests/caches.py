#!/usr/bin/env python3
"""Compares `kiln cache list` with a reader of its own on random, damaged and foreign cache files.

usage: caches.py compare KILN
"""
import os
import random
import struct
import subprocess
import sys
import tempfile

from keys import key_of

ROOM = 2048
SLOT = 1 + 36 + 4 + ROOM


def fnv1a_key(value):
    return key_of("fnv1a", value)


def pair(key, value):
    word = "own-key" if key == fnv1a_key(value) else "other-key"
    return f"{key.hex()}  {len(value)}  {word}\n"


def list_slots(name, data):
    count = min(len(data) // SLOT, 30)
    out = f"{name}: {count} slots\n"
    for i in range(count):
        slot = data[i * SLOT:(i + 1) * SLOT]
        size = int.from_bytes(slot[37:41], "big")
        if slot[0] == 1 and size <= ROOM:
            out += f"slot {i}  " + pair(slot[1:37], slot[41:41 + size])
        elif slot[0] != 0:
            out += f"slot {i}  damaged, read as empty\n"
    return out


def read_entry(data):
    """The entry at the front, and how many bytes it takes; none where no whole one stands there."""
    if len(data) < 41 or data[0] != 5:
        return None
    size = int.from_bytes(data[37:41], "big")
    if size > ROOM:
        return None
    blocks = (size + 31) // 32
    end = 41 + 33 * blocks
    if len(data) < end:
        return None
    value = b""
    for i in range(blocks):
        block = data[41 + 33 * i:41 + 33 * (i + 1)]
        if block[0] != 6:
            return None
        value += block[1:]
    if any(value[size:]):
        return None
    return data[1:37], value[:size], end


def list_log(name, data):
    out = f"{name}: a log of {len(data)} bytes\n"
    at = 0
    while (entry := read_entry(data[at:])) is not None:
        out += pair(entry[0], entry[1])
        at += entry[2]
    if at == len(data) or data[at] == 0:
        return out + f"the entries end at byte {at}\n"
    return out + f"damaged at byte {at}: no whole entry begins there, and nothing behind it is read\n"


def write_entry(key, value):
    out = b"\x05" + key + struct.pack(">I", len(value))
    for i in range(0, len(value), 32):
        out += b"\x06" + value[i:i + 32].ljust(32, b"\0")
    return out


def random_value(rng):
    return rng.randbytes(rng.choice([0, 1, 31, 32, 33, 64, 500, 2047, 2048]))


def random_key(rng, value):
    return fnv1a_key(value) if rng.random() < 0.7 else rng.randbytes(36)


def random_log(rng):
    data = b""
    for _ in range(rng.randrange(12)):
        value = random_value(rng)
        data += write_entry(random_key(rng, value), value)
    data = bytearray(data + rng.choice([b"", b"\0", b"\0" * 100, rng.randbytes(50)]))
    for _ in range(rng.choice([0, 0, 1, 3])):
        if data:
            data[rng.randrange(len(data))] = rng.randrange(256)
    return bytes(data[:65536])


def random_slots(rng):
    data = bytearray(rng.choice([bytes, rng.randbytes])(rng.choice([1, 2, 3, 30, 31, 33]) * SLOT + rng.randrange(50)))
    for i in range(len(data) // SLOT):
        value = random_value(rng)
        flag = rng.choice([0, 1, 1, 1, 2, 255])
        size = rng.choice([len(value), len(value), 2048, 2049, 1 << 31])
        head = bytes([flag]) + random_key(rng, value) + struct.pack(">I", size) + value
        data[i * SLOT:i * SLOT + len(head)] = head
    return bytes(data)


def listed(kiln, folder, words, name):
    run = subprocess.run([kiln, "cache", "list", *words, name], cwd=folder, capture_output=True)
    return run.returncode, run.stdout.decode()


def compare(kiln):
    rng = random.Random(4)
    tried = failed = 0
    with tempfile.TemporaryDirectory() as folder:
        for turn in range(300):
            make, layout = rng.choice([(random_log, "log"), (random_slots, "slots"), (lambda r: r.randbytes(5000), "slots")])
            data = make(rng)
            with open(os.path.join(folder, "cache"), "wb") as file:
                file.write(data)
            want = {"log": list_log, "slots": list_slots}
            cases = [(["--as", layout], want[layout])]
            if data:
                cases.append(([], list_log if data[0] == 5 else list_slots))
            for words, lister in cases:
                if lister is list_slots and len(data) < SLOT:
                    expected = (1, "")
                elif lister is list_log and len(data) > 65536:
                    expected = (1, "")
                else:
                    expected = (0, lister("cache", data[:65537]))
                got = listed(kiln, folder, words, "cache")
                tried += 1
                if got != expected:
                    failed += 1
                    print(f"caches.py: turn {turn} {words}: wanted {expected}, got {got}")
    print(f"caches.py: {tried} tried, {failed} failed")
    return failed


if __name__ == "__main__":
    if len(sys.argv) != 3 or sys.argv[1] != "compare":
        sys.exit(__doc__)
    sys.exit(1 if compare(os.path.abspath(sys.argv[2])) else 0)
