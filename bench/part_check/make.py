#!/usr/bin/env python3
"""Writes two split files of 64 MiB that nobody splits from a program, random.code and steps.code.

Both have two hosts and one part of `push`, up to its last instruction `back`, two million entries, and a label that
nobody forbids anything. In random.code the entries stand at random places of the part, with random needs, and what is
pushed has the need of nobody. In steps.code sixty-four of them stand at the first place, and each has in its need one
principal less than the one before, so that each goes over the whole part once more.
"""
import random
import struct

ENTRIES, MOST = 2_000_000, 67_108_864
LABEL = b"\xff" * 8 * 63 + bytes(8)
NUMBER = struct.Struct(">I")


def text(it):
    return NUMBER.pack(len(it)) + it


def entry(host, at, need):
    return struct.pack(">BIIQ", host, at, 0, need)


def write(name, entries):
    hosts = NUMBER.pack(2) + text(b"A") + LABEL + text(b"B") + LABEL
    front = b"JIFSPLIT" + struct.pack(">H", 1) + hosts + NUMBER.pack(1) + LABEL + NUMBER.pack(0) + NUMBER.pack(0)
    behind = NUMBER.pack(0) + bytes(1) + NUMBER.pack(1)
    other = NUMBER.pack(1) + struct.pack(">IIB", 0, 0, 13)
    left = MOST - len(front) - 4 - 17 * ENTRIES - len(behind) - 4 - len(other) - 9
    count = left // 13
    push = struct.pack(">IIBI", 0, 0, 8, 1)
    part = NUMBER.pack(count + 1) + push * count + struct.pack(">IIB", 0, 0, 13)
    with open(name, "wb") as file:
        file.write(front + NUMBER.pack(ENTRIES) + b"".join(entries(count)) + behind + part + other)


def at_random(count):
    picks = random.Random(1)
    yield entry(0, 0, 0)
    yield entry(0, count, 0)
    for _ in range(ENTRIES - 2):
        yield entry(0, picks.randrange(count), picks.getrandbits(64))


def in_steps(count):
    yield entry(0, 0, 0)
    yield entry(0, count, 0)
    for left in range(64):
        yield entry(0, 0, 2 ** (63 - left) - 1)
    for _ in range(ENTRIES - 66):
        yield entry(0, count, 0)


write("random.code", at_random)
write("steps.code", in_steps)
