#!/usr/bin/env python3
"""Writes a journal of a kind to standard output: `journals.py KIND COUNT`.

COUNT is the number of its records, at most 1,000,000. Each is a widget or a removal: the body has 95 bytes, and in the kind
`larger` 1,000.
"""

import struct
import sys

MOST_KEYS = 4096
BODY = b'{"apiVersion":"demo.example/v1","kind":"Widget","spec":{"dimensions":{"size":3},"paused":true}}'


def text(value):
    return struct.pack(">H", len(value)) + value


def record(tag, revision, created, name, body):
    """The record behind an open gate."""
    key = text(b"demo.example") + text(b"widgets") + text(b"default") + text(b"widget%04d" % name)
    payload = struct.pack(">BQQ", tag, revision, created) + key + body
    return b"O" + struct.pack(">I", len(payload)) + payload


def puts(count, name_of, body=BODY):
    """A put at each revision, of the key that the number before it names."""
    created = {}
    for number in range(count):
        name = name_of(number)
        yield record(0, number + 1, created.setdefault(name, number + 1), name, body)


def turns(count):
    """A put and a removal of each key in turn."""
    for number in range(count):
        name = number // 2 % MOST_KEYS
        yield record(1, number + 1, 0, name, b"") if number % 2 else record(0, number + 1, number + 1, name, BODY)


KINDS = {
    "one": lambda count: puts(count, lambda number: 0),
    "rising": lambda count: puts(count, lambda number: number % MOST_KEYS),
    "mixed": lambda count: puts(count, lambda number: number * 1237 % MOST_KEYS),
    "turns": turns,
    "larger": lambda count: puts(count, lambda number: number * 1237 % MOST_KEYS, BODY.ljust(1000)),
}


def write(out, kind, count):
    """Writes the journal of so many records."""
    out.write(b"KEMUJNL1" + struct.pack(">Q", 0))
    for bytes_of_record in KINDS[kind](count):
        out.write(bytes_of_record)
    out.write(b"\0")


def main():
    words = sys.argv[1:]
    if len(words) != 2 or words[0] not in KINDS or not words[1].isdigit() or int(words[1]) > 1_000_000:
        sys.exit(f"usage: journals.py {'|'.join(KINDS)} COUNT")
    write(sys.stdout.buffer, words[0], int(words[1]))


if __name__ == "__main__":
    main()
