#!/usr/bin/env python3
"""Kills a writer of the store at random moments, and looks each time that what it acknowledged is read back.

    tools/kill_trial.py PROGRAM FOLDER [ROUNDS]

PROGRAM is crates/dav_trial/out/dav_trial, as `rt run` leaves it; FOLDER is made anew. In each round the program
adds bodies and rows, printing the number of each row that the store acknowledged, and is killed by SIGKILL after up
to 0.15 s. Then it reads all rows, each with its body, compares them with what was to be written, and prints their
count. That is to be the count of acknowledged rows, or one more: the row whose writing was cut short.
"""

import os
import random
import signal
import subprocess
import sys
import time


def main():
    program, folder = sys.argv[1], sys.argv[2]
    rounds = int(sys.argv[3]) if len(sys.argv) > 3 else 300
    os.makedirs(folder)
    dice = random.Random(1)
    rows = 0
    kept = 0
    for round_number in range(rounds):
        writer = subprocess.Popen([program, "write", folder], stdout=subprocess.PIPE, stderr=subprocess.STDOUT)
        time.sleep(dice.uniform(0.0, 0.15))
        os.kill(writer.pid, signal.SIGKILL)
        lines = writer.communicate()[0].decode().split("\n")
        acknowledged = [int(line) for line in lines[:-1]]
        if acknowledged != list(range(rows, rows + len(acknowledged))):
            sys.exit(f"round {round_number}: acknowledged {acknowledged} from {rows} on")
        rows += len(acknowledged)
        read = subprocess.run([program, "read", folder], capture_output=True, text=True)
        if read.returncode != 0:
            sys.exit(f"round {round_number}: {read.stderr.strip()}")
        found = int(read.stdout)
        if found not in (rows, rows + 1):
            sys.exit(f"round {round_number}: {found} rows where {rows} were acknowledged")
        kept += found - rows
        rows = found
    print(f"{rounds} kills, {rows} rows, {kept} of them whole but not acknowledged: all read back")


main()
