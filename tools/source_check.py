#!/usr/bin/env python3
"""Checks the crate of the current folder alone, with the crates of this repository below it as sources, before any of them is proved.

    cd crates/NAME && ../../tools/source_check.py [--only FUNCTION_OR_MODULE] ..

`rt check` first proves and builds each crate below that is not built, which from nothing takes longer than all else; this takes one to
three minutes. With `--only` it proves the functions of the crate that are named, and reads just the files of proofs that they cite. It is
no verdict: `rt ci` is. Further arguments are the prover's own. What it did is kept in a folder under /tmp for the next run.
"""

import os
import subprocess
import sys


def crates(top):
    """The crates of the repository, each with what it stands on."""
    found = {}
    with open(os.path.join(top, "crates.txt"), encoding="utf-8") as it:
        for line in it:
            line = line.split("#")[0].strip()
            if line:
                name, below = line.split(":")
                found[name.split()[0]] = below.split()
    return found


def below(crate, all_crates, own, kit):
    """Fills the lists of the crates below: those of the repository, lowest first, and those of the kit."""
    for name in all_crates[crate]:
        if name not in all_crates:
            if name not in kit:
                kit.append(name)
        elif name not in own:
            below(name, all_crates, own, kit)
            own.append(name)


def main():
    top = os.path.abspath("../..")
    crate = os.path.basename(os.getcwd())
    home = os.path.dirname(subprocess.run(["rt", "doc"], check=True, capture_output=True, text=True).stdout.strip())
    all_crates = crates(top)
    own, kit = [], []
    below(crate, all_crates, own, kit)
    root = "src/main.rt" if os.path.exists("src/main.rt") else "src/lib.rt"
    words = [f"{home}/bin/rattle", "check", "--crate-name", crate, root]
    words += ["--antt-project", f"{home}/rattle/logic/antt-project.json", "--logic-built", f"{home}/logic_built"]
    for name in ["std"] + kit:
        words += ["--extern", f"{name}={home}/rlibs/{name}.rlib"]
    words += ["-L", f"dependency={home}/rlibs"]
    for name in own:
        words += ["--lib", f"{name}:{','.join(['std'] + all_crates[name])}={top}/crates/{name}/src/lib.rt"]
    words += ["--incremental", f"/tmp/source_check_{crate}", "--jobs", "1", "--allow-holes", "--progress"]
    return subprocess.call(words + sys.argv[1:])


if __name__ == "__main__":
    sys.exit(main())
