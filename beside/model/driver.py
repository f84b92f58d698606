#!/usr/bin/env python3
"""The driver's lines, in Python: document 01, "The driver", over the calls of store.py. Nothing is proved by it.

    driver.py < SCRIPT      # a reply for each line
"""

import re
import sys

sys.dont_write_bytecode = True

import areas
from areas import MOST
from store import Refused, Store

SLOTS = 8
MOST_LINE = 8500
MOST_READ = 4096


class Unreadable(Exception):
    pass


def number(field):
    digits = field.lstrip(b"0") or b"0"
    # Twenty digits are enough for 2^64-1, and Python refuses to convert thousands.
    if not re.fullmatch(rb"[0-9]+", field) or len(digits) > 20 or int(digits) > MOST:
        raise Unreadable
    return int(digits)


def name(field):
    return field


def hexadecimal(field):
    if not re.fullmatch(rb"([0-9a-f]{2})*", field):
        raise Unreadable
    return bytes.fromhex(field.decode())


CALLS = {
    b"format": [],
    b"store": [],
    b"append": [],
    b"reader": [],
    b"truncate": [],
    b"open": [number, name, number, number, number, number],
    b"put": [number, number, hexadecimal],
    b"shift": [number, number, number],
    b"cut": [number, number, number],
    b"read": [number, number, number, number],
    b"commit": [number],
    b"drop": [number],
}


def parse(line):
    word, *fields = line.split(b"\t")
    if len(line) > MOST_LINE or word not in CALLS or len(fields) != len(CALLS[word]):
        raise Unreadable
    return word.decode(), [field_of(field) for field_of, field in zip(CALLS[word], fields)]


def entry_size(store, handle):
    """1 where there is no such handle: a read's entries are counted then."""
    tape = areas.find_handle(store.session, handle) if areas.is_begun_session(store.session) else None
    return areas.get_handle(store.session, tape).entry if tape is not None else 1


def new_store():
    return Store(bytearray(areas.disk_bytes(SLOTS)), bytearray(areas.Session.BYTES))


def call(store, word, arguments):
    """Value and bytes of the reply."""
    if word == "format":
        return store.format(SLOTS), b""
    if word != "read":
        return getattr(store, word)(*arguments), b""
    _, handle, _, count = arguments
    room = count * entry_size(store, handle)
    if room > MOST_READ:
        raise Unreadable
    return count, store.read(*arguments, room)


def answer(store, line):
    try:
        value, read = call(store, *parse(line))
    except Unreadable:
        return b"-\t-\t-"
    except Refused as refused:
        return b"%d\t%d\t-" % (refused.number, refused.value)
    return b"0\t%d\t%s" % (value, read.hex().encode() or b"-")


def lines_of(script):
    lines = script.split(b"\n")
    return lines if lines[-1] else lines[:-1]


def main():
    store = new_store()
    for at, line in enumerate(lines_of(sys.stdin.buffer.read()), 1):
        sys.stdout.buffer.write(b"%d\t%s\n" % (at, answer(store, line)))


if __name__ == "__main__":
    main()
