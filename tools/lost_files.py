#!/usr/bin/env python3
"""Lists the queued and the lost files of a cache folder, and reads one of them back. It changes nothing.

    tools/lost_files.py FOLDER                              lists them
    tools/lost_files.py FOLDER --get PATH [--file NAME]     writes the bytes of one to the standard output

FOLDER is the folder `davcache`; no davsh may be running over it. A line of the list is `queued` or `lost` with the number that a
lost file has, the path as the index has it (escaped), the length in bytes, the name of the file in the folder, and `damaged` where
that file does not hold bytes with the length and the SHA-256 that were put on record. A file of the folder holds the bytes as they are,
so a plain copy serves as well as `--get`. PATH is a path of the list, or as it was typed, from the top. Where several files were closed
under one path, `--file` says which is meant.

Needs Python 3.8 alone and nothing of davsh. The format: docs/ARCHITECTURE.md, "What lies in the cache".
"""

import argparse
import hashlib
import os
import sys
from dataclasses import dataclass
from urllib.parse import quote

FORGOT, CLOSED, SENT, LOST, DROPPED = 2, 3, 4, 5, 6
BELOW = 2


class NotACache(Exception):
    """The index cannot be read, from an offset on."""


@dataclass(frozen=True)
class Body:
    """The first bytes of a file of the folder, with their SHA-256."""

    file: int
    length: int
    sum: bytes

    @property
    def name(self):
        return f"{self.file:010}"


@dataclass(frozen=True)
class Entry:
    """A path that is known: its newest bytes, and whether they are queued."""

    body: Body
    is_queued: bool


class Fields:
    """Reads the fields of a row's payload, one behind another. The highest byte of a number comes first."""

    def __init__(self, payload, at):
        self.payload, self.at, self.place = payload, 0, at

    def take(self, count):
        if self.at + count > len(self.payload):
            raise NotACache(f"the row at byte {self.place} is cut off")
        found = self.payload[self.at : self.at + count]
        self.at += count
        return found

    def number(self, size):
        return int.from_bytes(self.take(size), "big")

    def path(self):
        return self.take(self.number(2)).decode("ascii", "replace")

    def body(self):
        return Body(self.number(4), self.number(8), self.take(32))


def rows_of(index):
    """The rows that stand in an index, each with the offset of its gate."""
    at = 0
    while index[at : at + 1] != b"\0":
        length = int.from_bytes(index[at + 1 : at + 3], "big")
        payload = index[at + 3 : at + 3 + length]
        if not length or len(payload) < length:
            raise NotACache(f"no row stands at byte {at}")
        yield at, payload
        at += 3 + length


def base_of(payload):
    """The URL in the payload of the first row."""
    if payload[:5] != b"DAVC\x01" or int.from_bytes(payload[5:7], "big") != len(payload) - 7:
        raise NotACache("the first row is no head of a cache, version 1")
    return payload[7:].decode("utf-8", "replace")


def bare(path):
    """A path without the slash at its end."""
    return path.rstrip("/")


class Table:
    """What the rows say so far: the known paths, and the lost bytes by their numbers."""

    def __init__(self):
        self.entries, self.lost = {}, {}

    def replay(self, at, payload):
        """Takes up one more row."""
        fields = Fields(payload, at)
        kind = fields.number(1)
        if kind == FORGOT:
            path = fields.path()
            self.forget(path, fields.number(1))
        elif kind == CLOSED:
            path = bare(fields.path())
            self.entries[path] = Entry(fields.body(), True)
        elif kind == SENT:
            path = bare(fields.path())
            self.settle(path, fields.number(4))
        elif kind == LOST:
            number, path = fields.number(4), bare(fields.path())
            self.lose(number, path, fields.number(1))
        elif kind == DROPPED:
            self.lost.pop(fields.number(4), None)
        else:
            raise NotACache(f"the row at byte {at} is of the unknown kind {kind}")

    def forget(self, path, flags):
        top = bare(path)
        self.entries.pop(top, None)
        if flags & BELOW:
            self.entries = {it: entry for it, entry in self.entries.items() if not it.startswith(f"{top}/")}

    def settle(self, path, file):
        entry = self.entries.get(path)
        if entry and entry.body and entry.body.file == file:
            self.entries[path] = Entry(entry.body, False)

    def lose(self, number, path, stays):
        entry = self.entries.get(path)
        if not entry or not entry.is_queued:
            return
        self.lost[number] = (path, entry.body)
        if stays:
            self.entries[path] = Entry(None, False)
        else:
            del self.entries[path]


def read_cache(folder):
    """The URL and the table of a cache folder. The file 0000000000 is the index; a folder without one, or with a closed first gate, has
    nothing to tell."""
    index = os.path.join(folder, f"{0:010}")
    if not os.path.exists(index):
        return None, Table()
    with open(index, "rb") as it:
        text = it.read()
    rows = rows_of(text) if len(text) > 1 else iter(())
    head = next(rows, None)
    base, table = base_of(head[1]) if head else None, Table()
    for at, payload in rows:
        table.replay(at, payload)
    return base, table


def kept_in(table):
    """The queued files and then the lost ones, each as what it is, its path and its body."""
    queued = [("queued", path, entry.body) for path, entry in table.entries.items() if entry.is_queued]
    lost = [(f"lost {number}", path, body) for number, (path, body) in sorted(table.lost.items())]
    return sorted(queued) + lost


def bytes_of(folder, body):
    """The bytes of a body, or None where the file does not hold what was put on record."""
    try:
        with open(os.path.join(folder, body.name), "rb") as it:
            found = it.read(body.length)
    except OSError:
        return None
    return found if len(found) == body.length and hashlib.sha256(found).digest() == body.sum else None


def show(folder, base, kept):
    """Lists all that is kept."""
    print(f"cache of {base}" if base is not None else "nothing stands in this cache")
    for what, path, body in kept:
        damage = "" if bytes_of(folder, body) is not None else " damaged"
        print(f"{what} {path} {body.length} {body.name}{damage}")


def get(folder, kept, path, name):
    """Writes the bytes of the path, or of that file."""
    asked = bare(path), bare(quote(path))
    found = [body for _, it, body in kept if it in asked and name in (None, body.name)]
    if not found:
        sys.exit(f"nothing of {path} is queued or lost")
    if len(found) > 1:
        sys.exit(f"several files have the path {path}: say --file with one of {' '.join(it.name for it in found)}")
    text = bytes_of(folder, found[0])
    if text is None:
        sys.exit(f"the file {found[0].name} does not hold the bytes that were put on record")
    sys.stdout.buffer.write(text)


def main():
    words = argparse.ArgumentParser(description="Lists the queued and the lost files of a cache folder, and reads one of them back.")
    words.add_argument("folder", help="the folder davcache")
    words.add_argument("--get", metavar="PATH", help="write the bytes of this path to the standard output")
    words.add_argument("--file", metavar="NAME", help="of several files of one path, the one with this name")
    given = words.parse_args()
    if not os.path.isdir(given.folder):
        sys.exit(f"there is no folder {given.folder}")
    try:
        base, table = read_cache(given.folder)
    except NotACache as why:
        sys.exit(f"no index of a cache: {why}")
    kept = kept_in(table)
    if given.get is None:
        show(given.folder, base, kept)
    else:
        get(given.folder, kept, given.get, given.file)


if __name__ == "__main__":
    main()
