#!/usr/bin/env python3
"""Measures how a listing is walked, and how expat reads it, by the instructions that valgrind counts.

    tools/listing_speed/listing.py > listing.xml
    tools/listing_speed/measure.py PROGRAM listing.xml

PROGRAM is program.txt beside this file, compiled: a crate that stands on dav_text and dav_walk. At the length 0 it only reads the
listing, which is taken off what it needs at other lengths.
"""
import os
import re
import subprocess
import sys
import tempfile
import time

LENGTHS = (65536, 16384, 1000, 1)
EXPAT = '''
import sys, xml.parsers.expat
bytes = open(sys.argv[1], 'rb').read()
parser = xml.parsers.expat.ParserCreate(namespace_separator=' ')
if sys.argv[2] == 'walk':
    parser.Parse(bytes, True)
'''


def run(tool, words, path):
    """What valgrind's tool says of a program that has the listing as its input."""
    with open(path, 'rb') as listing, tempfile.TemporaryDirectory() as folder:
        out = os.path.join(folder, 'out')
        extra = ['--callgrind-out-file=' + out] if tool == 'callgrind' else []
        done = subprocess.run(['valgrind', '--tool=' + tool, *extra, *words], stdin=listing, capture_output=True, check=True)
    return done.stderr.decode()


def instructions(words, path):
    return int(re.search(r'Collected : (\d+)', run('callgrind', words, path)).group(1))


def allocations(words, path):
    return int(re.search(r'total heap usage: ([\d,]+) allocs', run('memcheck', words, path)).group(1).replace(',', ''))


def seconds(words, path):
    with open(path, 'rb') as listing:
        start = time.perf_counter()
        subprocess.run(words, stdin=listing, stdout=subprocess.DEVNULL, check=True)
        return time.perf_counter() - start


def main():
    program, path = sys.argv[1:]
    size = os.path.getsize(path)
    with open(path, 'rb') as listing:
        responses = listing.read().count(b'<D:response>')
    idle = instructions([program, '0'], path)
    idle_allocations = allocations([program, '0'], path)
    print(f'{size} bytes, {responses} responses')
    for length in LENGTHS:
        words = [program, str(length)]
        each = (instructions(words, path) - idle) / size
        made = (allocations(words, path) - idle_allocations) / responses
        print(f'walked in pieces of {length}: {each:.0f} instructions a byte, {made:.1f} allocations a response, {seconds(words, path):.2f} s')
    python = [sys.executable, '-c', EXPAT, path]
    each = (instructions([*python, 'walk'], path) - instructions([*python, 'idle'], path)) / size
    print(f'read by expat, which no one asks for an event: {each:.0f} instructions a byte, {seconds([*python, "walk"], path):.2f} s')


main()
