#!/usr/bin/env python3
"""Prints a random script of the program's language, many of its calls at the edge of a limit.

    random_script.py SEED
"""
import random
import sys

pick = random.Random(sys.argv[1])


def name():
    kind = pick.random()
    if kind < 0.6:
        return pick.choice([b"a", b"b", b"c", b"dd", b"x:"])
    if kind < 0.7:
        return bytes(pick.randrange(0x21, 0x7F) for _ in range(pick.choice([1, 95, 96, 97])))
    if kind < 0.8:
        return bytes([pick.randrange(256)])
    return b"n%d" % pick.randrange(20)


def body():
    kind = pick.random()
    if kind < 0.3:
        return b""
    if kind < 0.9:
        return bytes(pick.randrange(256) for _ in range(pick.randrange(12)))
    return bytes(pick.choice([32_767, 32_768, 32_769]))


def word(data):
    return "x:" + data.hex()


def text():
    lines = [b"%s %s\n" % (name().hex().encode(), body().hex().encode()) for _ in range(pick.randrange(5))]
    whole = b"".join(lines)
    if whole and pick.random() < 0.4:
        at = pick.randrange(len(whole))
        whole = whole[:at] + bytes([pick.choice(b"0afAFg \n")]) + whole[at + 1 :]
    return whole[:-1] if pick.random() < 0.2 else whole


def call():
    kind = pick.random()
    if kind < 0.06:
        t = text()
        return f"open line {max(0, len(t) + pick.choice([-1, 0, 0, 8, 20, 100, 70_000]))} {word(t)}"
    if kind < 0.09:
        return f"open line {pick.choice([0, 3, 4, 5, 40, 200, 70_000])}"
    if kind < 0.13:
        return f"open table {pick.randrange(6)} {pick.choice([0, 1, 5, 30, 33_000, 100_000])}"
    if kind < 0.45:
        return f"file {word(name())} {word(body())}"
    if kind < 0.60:
        return f"get {word(name())}"
    if kind < 0.63:
        return f"get {word(name())} {pick.choice([0, 32_767, 32_768, 32_769])}"
    if kind < 0.75:
        return f"has {word(name())}"
    if kind < 0.85:
        return f"fits {pick.randrange(100)} {pick.choice([0, 1, 2, 3, 10, 50, 32_768, 2**64 - 1])}"
    if kind < 0.90:
        return "entries"
    if kind < 0.93:
        return "text"
    if kind < 0.95:
        return f"hash {word(bytes(pick.randrange(256) for _ in range(pick.choice([0, 1, 55, 56, 63, 64, 65, 119, 120, 128, 200, 1000]))))}"
    return pick.choice(["", "#x", " ", "has", "has a ", "fits 1", "get a 18446744073709551616", "text now", "x", "has x:6", "open", "open shelf"])


for _ in range(300):
    print(call())
