#!/usr/bin/env python3
"""A second implementation of the program's language, to compare its answers with.

    model.py < SCRIPT

Plain Python that shares no code with the program. It is not an independent witness: the same author wrote both,
and its order of mistakes on a line was once changed to the program's. It guards against slips, not misreadings.
"""
import hashlib
import re
import sys

NAME_MAX = 96
BODY_MAX = 32_768


class Mistake(Exception):
    pass


class Refused(Exception):
    def __init__(self, number):
        self.number = number


def is_name(name):
    return 1 <= len(name) <= NAME_MAX and all(0x21 <= b <= 0x7E for b in name)


class LineStore:
    def __init__(self, size, text):
        if len(text) > size:
            raise Refused(1)
        self.size = size
        self.entries = {}
        if text and not text.endswith(b"\n"):
            raise Refused(12)
        for line in text.split(b"\n")[:-1]:
            match = re.fullmatch(rb"((?:[0-9a-f]{2})*) ((?:[0-9a-f]{2})*)", line)
            if not match:
                raise Refused(12)
            name, body = (bytes.fromhex(part.decode()) for part in match.groups())
            if not is_name(name) or len(body) > BODY_MAX or name in self.entries:
                raise Refused(12)
            self.entries[name] = body

    def text(self):
        return b"".join(b"%s %s\n" % (n.hex().encode(), b.hex().encode()) for n, b in self.entries.items())

    def fits(self, n, b):
        return len(self.text()) + 2 * (n + b) + 2 <= self.size


class TableStore:
    def __init__(self, rows, size):
        self.rows = rows
        self.size = size
        self.entries = {}

    def text(self):
        raise Mistake("only a line store has a text")

    def fits(self, n, b):
        taken = sum(len(name) + len(body) for name, body in self.entries.items())
        return len(self.entries) < self.rows and taken + n + b <= self.size


class Words:
    def __init__(self, line):
        self.words = line.split(b" ")

    def next(self):
        if not self.words:
            raise Mistake("a word is missing")
        word = self.words.pop(0)
        if word == b"":
            raise Mistake("words have one space between them")
        return word

    def bytes(self):
        word = self.next()
        if not word.startswith(b"x:"):
            return word
        if not re.fullmatch(rb"(?:[0-9a-f]{2})*", word[2:]):
            raise Mistake("after x: an even number of lowercase hexadecimal digits is wanted")
        return bytes.fromhex(word[2:].decode())

    def number(self):
        word = self.next()
        if not re.fullmatch(rb"[0-9]+", word) or int(word) >= 2**64:
            raise Mistake("a number is wanted, below 2^64 and in decimal")
        return int(word)

    def end(self):
        if self.words:
            raise Mistake("there is a word too many")


class Session:
    def __init__(self):
        self.store = None

    def open(self, words):
        kind = words.next()
        if kind == b"line":
            size = words.number()
            text = words.bytes() if words.words else b""
            words.end()
            self.store = LineStore(size, text)
        elif kind == b"table":
            rows, size = words.number(), words.number()
            words.end()
            self.store = TableStore(rows, size)
        else:
            raise Mistake("a store is a line or a table")
        return ["opened"]

    def file(self, words):
        name, body = words.bytes(), words.bytes()
        words.end()
        if not is_name(name) or len(body) > BODY_MAX:
            raise Refused(9)
        if name in self.store.entries:
            raise Refused(21)
        if not self.store.fits(len(name), len(body)):
            raise Refused(22)
        self.store.entries[name] = body
        return ["filed"]

    def get(self, words):
        name = words.bytes()
        space = words.number() if words.words else BODY_MAX
        words.end()
        if space < BODY_MAX:
            raise Refused(1)
        if not is_name(name):
            raise Refused(9)
        if name not in self.store.entries:
            raise Refused(23)
        body = self.store.entries[name]
        return [f"got {len(body)} x:{body.hex()}"]

    def has(self, words):
        name = words.bytes()
        words.end()
        return ["yes" if name in self.store.entries else "no"]

    def fits(self, words):
        n, b = words.number(), words.number()
        words.end()
        return ["yes" if self.store.fits(n, b) else "no"]

    def entries(self, words):
        words.end()
        return [f"entry {n.decode()} x:{b.hex()}" for n, b in self.store.entries.items()] + ["end"]

    def text(self, words):
        text = self.store.text()
        words.end()
        return ["text x:" + text.hex()]

    def answer(self, line):
        words = Words(line)
        verb = words.next().decode("latin-1")
        if verb == "open":
            return self.open(words)
        if verb == "hash":
            message = words.bytes()
            words.end()
            return ["sha256 " + hashlib.sha256(message).hexdigest()]
        if verb not in ("file", "get", "has", "fits", "entries", "text"):
            raise Mistake("there is no such call")
        if self.store is None:
            raise Mistake("no store is open")
        return getattr(self, verb)(words)


def main():
    session = Session()
    for number, line in enumerate(sys.stdin.buffer.read().split(b"\n"), 1):
        if line == b"" or line.startswith(b"#"):
            continue
        try:
            answers = session.answer(line)
        except Refused as refusal:
            answers = [f"refused {refusal.number}"]
        except Mistake as mistake:
            answers = [f"line {number}: {mistake}"]
        print("\n".join(answers))


main()
