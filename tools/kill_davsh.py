#!/usr/bin/env python3
"""Kills davsh at random moments, and looks what became of each file that it said was closed.

    tools/kill_davsh.py PROGRAM URL FOLDER [ROUNDS]

PROGRAM is crates/davsh/out/davsh, as `rt run` leaves it; URL is a collection of a running WebDAV server in which nothing
stands; FOLDER is made anew, and the program runs in it, so its cache is FOLDER/davcache. In each round the program is given
lines `fput PATH TEXT` of new paths and of old ones, and is killed by SIGKILL after up to 0.4 s, as often in its drain as
before it. Then it is started again with no input, and sends what is queued. Of each path the bytes of the last line that was
answered `closed`, or of a later line whose answer was cut off, are then to be on the server, or among the lost files of the
cache where the server refused them.
"""

import os
import random
import subprocess
import sys
import time
import urllib.error
import urllib.request

from lost_files import bytes_of, read_cache


def lost_in(folder):
    """The bytes of the lost files of a cache, as pairs of path and bytes."""
    cache = f"{folder}/davcache"
    _, table = read_cache(cache)
    found = set()
    for path, body in table.lost.values():
        text = bytes_of(cache, body)
        if text is None:
            sys.exit(f"the file {body.name} does not hold the lost bytes of {path}")
        found.add((path, text.decode()))
    return found


def on_server(url, path):
    """The text that the server has under a path."""
    try:
        with urllib.request.urlopen(url.rstrip("/") + path) as reply:
            return reply.read().decode()
    except urllib.error.HTTPError:
        return None


def run_killed(program, url, folder, lines, after):
    """Runs the program over these lines, and kills it after so many seconds. Gives the lines that it answered."""
    text = "".join(f"fput {path} {text}\n" for path, text in lines)
    process = subprocess.Popen([program, url], cwd=folder, stdin=subprocess.PIPE, stdout=subprocess.PIPE)
    process.stdin.write(text.encode())
    process.stdin.close()
    time.sleep(after)
    was_running = process.poll() is None
    process.kill()
    answers = process.stdout.read().decode().split("\n")[:-1]
    process.wait()
    closed = [answer for answer in answers if answer.startswith("closed ")]
    for (path, text), answer in zip(lines, closed):
        if answer != f"closed {path} {len(text)}":
            sys.exit(f"{answer!r} answers the line of {path}")
    return len(closed), was_running


def main():
    program, url, folder = os.path.abspath(sys.argv[1]), sys.argv[2], sys.argv[3]
    rounds = int(sys.argv[4]) if len(sys.argv) > 4 else 100
    os.makedirs(folder)
    dice = random.Random(1)
    may_be = {}
    kills = closes = 0
    for round_number in range(rounds):
        lines = []
        for at in range(dice.randrange(1, 12)):
            old = dice.random() < 0.3 and may_be
            path = dice.choice(sorted(may_be)) if old else f"/r{round_number}f{at}"
            lines.append((path, f"text-{round_number}-{at}-" + "x" * dice.randrange(0, 3000)))
        answered, was_running = run_killed(program, url, folder, lines, dice.uniform(0.0, 0.4))
        kills += was_running
        closes += answered
        for path, text in lines[:answered]:
            may_be[path] = {text}
        for path, text in lines[answered:]:
            may_be.setdefault(path, {None}).add(text)
        again = subprocess.run([program, url], cwd=folder, stdin=subprocess.DEVNULL, capture_output=True, text=True)
        if again.returncode != 0 or "queued" in again.stdout and "queued 0 " not in again.stdout:
            sys.exit(f"round {round_number}: status {again.returncode}: {again.stdout}")
        lost = lost_in(folder)
        for path, texts in may_be.items():
            if not any(on_server(url, path) == text or (path, text) in lost for text in texts):
                sys.exit(f"round {round_number}: {path} is neither on the server nor lost")
    print(f"{kills} kills in {rounds} rounds, {closes} closes, {len(lost_in(folder))} lost files: each close is kept")


main()
