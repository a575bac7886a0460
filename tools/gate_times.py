#!/usr/bin/env python3
"""Measures what a run of the gate takes, crate by crate, in processor minutes.

    tools/gate_times.py --run LOG -- rt ci      runs the command, whose output stays as it is, and writes LOG
    tools/gate_times.py LOG                     prints the table of a LOG, for docs/GATE.md

Both are run at the top of the repository. While the command runs, the processes that it started are looked at four times a second:
each check of the prover names its crate among its words. A line of LOG is one such process: when it began and was last seen, in
seconds of the run, the processor seconds of it and of all that it started, what it did (`proof`, `tests`, `edits`, `run`), the
crate, and of an edit which. The first line has the command, and the last one the processor seconds that the system counted for
the whole run, so what was missed between two looks can be told. LOG is written anew once a minute, so a run that is cut off leaves
one without its last line. Only what was done in this run is there: what the toolchain kept from an earlier one costs nothing, and is not
in the table. Needs Linux and Python 3.9.
"""

import os
import re
import subprocess
import sys
import threading
import time
from collections import defaultdict
from dataclasses import dataclass

PAUSE = 0.25
LOOKS_A_MINUTE = 240
TICKS = os.sysconf("SC_CLK_TCK")
PARTS = ("proof", "tests", "edits")


@dataclass
class Check:
    """One process of the prover, or one run of a program, with all that it started."""

    start: float
    end: float
    seconds: float
    part: str
    crate: str
    what: str


@dataclass(frozen=True)
class Process:
    """A process as the system shows it; its seconds are its own and those of its children that have ended."""

    parent: int
    began: int
    seconds: float


# Looking at processes


def processes():
    """All processes, by their numbers."""
    found = {}
    for number in filter(str.isdigit, os.listdir("/proc")):
        try:
            with open(f"/proc/{number}/stat", encoding="utf-8", errors="replace") as it:
                fields = it.read().rpartition(")")[2].split()
        except OSError:
            continue
        found[int(number)] = Process(int(fields[1]), int(fields[19]), sum(map(int, fields[11:15])) / TICKS)
    return found


def words_of(number):
    """A process's words, and the folder that it stands in."""
    try:
        with open(f"/proc/{number}/cmdline", "rb") as it:
            words = it.read().decode("utf-8", "replace").split("\0")[:-1]
        return words, os.readlink(f"/proc/{number}/cwd")
    except OSError:
        return [], ""


def after(words, name):
    """The word behind this one, or an empty one."""
    return words[words.index(name) + 1] if name in words[:-1] else ""


def edits_of_all():
    """The edits of each crate, in the order in which they are tried, as they are when the run begins."""
    found = {}
    for crate in os.listdir("crates"):
        folder = f"crates/{crate}/must-fail"
        if os.path.isdir(folder):
            found[crate] = sorted(it for it in os.listdir(folder) if it.endswith(".edit"))
    return found


def edit_of(names, place):
    """The edit that is tried over the folder of kept work, which ends in the edit's number."""
    number = os.path.basename(place)
    if number.isdigit():
        return names[int(number)] if int(number) < len(names) else number
    return "seed" if number == "seed" else "from nothing"


def purpose_of(number, edits):
    """What a process does for which crate, or None where that is no work of its own."""
    words, folder = words_of(number)
    program = os.path.basename(words[0]) if words else ""
    if program == "rattle" and "--crate-name" in words:
        crate = after(words, "--crate-name")
        if "/rt-edit-" in folder:
            return "edits", crate, edit_of(edits.get(crate, []), after(words, "--incremental"))
        return ("tests" if "--test" in words else "proof"), crate, words[1]
    run = next((it for it in words if re.search(r"/rt-run-[^/]*/bin/[^/]+$", it)), "")
    if run:
        return "run", re.sub(r"_tests$", "", os.path.basename(run)), "tests" if run.endswith("_tests") else "program"
    return None


class Watch:
    """Looks at the processes below one, until it is told to stop."""

    def __init__(self, top):
        self.top, self.begun, self.checks, self.purposes = top, time.monotonic(), {}, {}
        self.edits = edits_of_all()

    def purpose(self, number, process):
        """What a process does, asked once more where it was not told yet: a process takes other words when it begins its program."""
        key = number, process.began
        if not self.purposes.get(key):
            self.purposes[key] = purpose_of(number, self.edits)
        return self.purposes[key]

    def look(self):
        """Adds what each check took up to now."""
        found, now, sums = processes(), time.monotonic() - self.begun, defaultdict(float)
        children = defaultdict(list)
        for number, process in found.items():
            children[process.parent].append(number)
        left = [(it, None) for it in children[self.top]]
        while left:
            number, owner = left.pop()
            process = found[number]
            if owner is None and self.purpose(number, process):
                owner = number, process.began
            if owner:
                sums[owner] += process.seconds
            left += [(it, owner) for it in children[number]]
        for key, seconds in sums.items():
            check = self.checks.setdefault(key, Check(now, now, 0.0, *self.purposes[key]))
            check.end, check.seconds = now, max(check.seconds, seconds)


def write(log, command, watch, last=None):
    """Writes the log of what was seen so far, with its last line once the run has ended."""
    with open(log, "w", encoding="utf-8") as it:
        print(f"# {' '.join(command)}", file=it)
        for check in sorted(watch.checks.values(), key=lambda check: check.start):
            row = f"{check.start:.1f}", f"{check.end:.1f}", f"{check.seconds:.2f}", check.part, check.crate, check.what
            print("\t".join(row), file=it)
        if last:
            print(last, file=it)


def measure(log, command):
    """Runs the command and writes the log; its status is the command's."""
    started = subprocess.Popen(command)
    watch, done = Watch(started.pid), threading.Event()

    def go_on():
        looks = 0
        while not done.wait(PAUSE):
            watch.look()
            looks += 1
            if looks % LOOKS_A_MINUTE == 0:
                write(log, command, watch)

    looking = threading.Thread(target=go_on)
    looking.start()
    try:
        _, status, used = os.wait4(started.pid, 0)
    finally:
        done.set()
        looking.join()
    seconds = time.monotonic() - watch.begun
    write(log, command, watch, f"# whole run: {seconds:.0f} s, {used.ru_utime + used.ru_stime:.0f} processor seconds")
    return os.waitstatus_to_exitcode(status)


# The table


def read(log):
    """The checks of a log, and what its last line says of a run that ended: seconds by the clock, and processor seconds."""
    checks, whole = [], None
    with open(log, encoding="utf-8") as it:
        for line in it:
            told = re.match(r"# whole run: (\d+) s, (\d+) processor seconds", line)
            if told:
                whole = int(told[1]), int(told[2])
            elif not line.startswith("#"):
                start, end, seconds, part, crate, what = line.rstrip("\n").split("\t")
                checks.append(Check(float(start), float(end), float(seconds), part, crate, what))
    return checks, whole


def crates_below():
    """Each crate with those of the repository that it stands on, in the order of crates.txt."""
    with open("crates.txt", encoding="utf-8") as it:
        lines = [line.partition("#")[0].strip() for line in it]
    said = {line.partition(":")[0].split()[0]: line.partition(":")[2].split() for line in lines if line}
    return {name: [it for it in uses if it in said] for name, uses in said.items()}


def lines_of(crate):
    """How many lines of Rattle the crate has, its tests among them."""
    count = 0
    for at, _, names in os.walk(f"crates/{crate}/src"):
        for name in names:
            with open(f"{at}/{name}", "rb") as it:
                count += it.read().count(b"\n")
    return count


def minutes(seconds):
    return f"{seconds / 60:.1f}" if seconds else ""


def table(checks, below):
    """The lines of the table: a crate in each of which something was done, and all of them."""
    spent = defaultdict(float)
    for check in checks:
        spent[check.crate, check.part] += check.seconds
    yield "| Crate | Lines | Proof | Tests | Edits | Edits tried | All | A 1,000 lines |"
    yield "|---|---|---|---|---|---|---|---|"
    done = [crate for crate in below if any(spent[crate, part] for part in PARTS)]
    for crate in done:
        tried = {it.what for it in checks if it.crate == crate and it.part == "edits"} - {"seed", "from nothing"}
        yield row_of(crate, lines_of(crate), [spent[crate, part] for part in PARTS], len(tried) or "")
    sums = [sum(spent[crate, part] for crate in done) for part in PARTS]
    yield row_of("all", sum(map(lines_of, done)), sums, "")


def row_of(name, lines, seconds, tried):
    """A line of the table. What a thousand lines cost is told where there are enough of them."""
    each = minutes(sum(seconds) * 1000 / lines) if lines >= 100 else ""
    return f"| {name} | {lines} | {' | '.join(map(minutes, seconds))} | {tried} | {minutes(sum(seconds))} | {each} |"


def lanes(checks):
    """What is one behind another in a run: each proof, the proof of a crate's tests, and of its edits what they begin with, the
    dearest, and the check behind them."""
    found, dearest = defaultdict(float), defaultdict(float)
    for check in checks:
        if check.part == "edits" and check.what != "seed":
            dearest[check.crate] = max(dearest[check.crate], check.seconds)
        elif check.part in PARTS:
            found[check.crate, check.part] += check.seconds
    for crate, seconds in dearest.items():
        found[crate, "edits"] += seconds
    return found


def longest_chain(checks, below):
    """The longest chain of work that waits for other work, as its seconds and its parts: proofs from below upwards, and at the top a
    crate's proof, tests or edits."""
    found, chains, best = lanes(checks), {}, (0.0, [])

    def behind(crate):
        return max((chain_of(it) for it in below[crate]), default=(0.0, []), key=lambda it: it[0])

    def chain_of(crate):
        if crate not in chains:
            seconds, parts = behind(crate)
            chains[crate] = seconds + found[crate, "proof"], [*parts, (crate, "proof", found[crate, "proof"])]
        return chains[crate]

    for crate in below:
        seconds, parts = behind(crate)
        for part in PARTS:
            own = found[crate, part]
            best = max(best, (seconds + own, [*parts, (crate, part, own)]), key=lambda it: it[0])
    return best


def slowest(checks):
    """The three parts of a crate that took most."""
    spent, times = defaultdict(float), {}
    for check in checks:
        key = check.crate, check.part
        spent[key] += check.seconds
        start, end = times.get(key, (check.start, check.end))
        times[key] = min(start, check.start), max(end, check.end)
    for crate, part in sorted(spent, key=spent.get, reverse=True)[:3]:
        start, end = times[crate, part]
        yield f"{crate}, {part}: {minutes(spent[crate, part])} processor minutes, {minutes(end - start)} by the clock"


def show_whole(checks, whole):
    """Says what the run took as a whole."""
    if whole is None:
        print("\nThe run was cut off: this is what was done until then.")
        return
    of_parts = sum(it.seconds for it in checks if it.part in PARTS)
    of_runs = sum(it.seconds for it in checks if it.part == "run")
    left = whole[1] - of_parts - of_runs
    print(f"\nThe whole run took {minutes(whole[0])} minutes by the clock and {minutes(whole[1])} processor minutes: {minutes(of_parts)}")
    print(f"of them are in the table, {of_runs:.0f} s went into running tests and programs, and {left:.0f} s into copying and linking.")


def show_dear_edits(checks):
    """Names the edits that took more than a minute of one processor."""
    dear = sorted((it for it in checks if it.part == "edits" and it.what != "seed"), key=lambda it: -it.seconds)
    over = [f"- {it.crate}, {it.what}: {it.seconds:.0f} s" for it in dear if it.seconds > 60]
    print("\nEdits of more than a minute of one processor:\n" if over else "\nNo edit took more than a minute of one processor.")
    for line in over:
        print(line)


def show(log):
    """Prints the table and what goes with it."""
    checks, whole = read(log)
    below = crates_below()
    print(*table(checks, below), sep="\n")
    show_whole(checks, whole)
    took, parts = longest_chain(checks, below)
    print(f"\nThe longest chain takes {minutes(took)} processor minutes:")
    print(", ".join(f"{crate} {part} {minutes(own)}" for crate, part, own in parts if own) + ".")
    print("\nThe slowest three lanes:\n")
    print(*(f"- {it}" for it in slowest(checks)), sep="\n")
    show_dear_edits(checks)


def main():
    words = sys.argv[1:]
    if len(words) > 3 and words[0] == "--run" and words[2] == "--":
        sys.exit(measure(words[1], words[3:]))
    if len(words) != 1 or words[0].startswith("-"):
        sys.exit(__doc__)
    show(words[0])


if __name__ == "__main__":
    main()
