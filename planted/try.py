#!/usr/bin/env python3
"""Tries the planted mistakes of crates in a copy of the repository: the contracts of the crate must refuse each.

    planted/try.py [CRATE...]

Each file planted/CRATE/NAME.edit changes one line of that crate. Run this for a crate whose contracts changed; with no name it tries all, which
takes some two hours on one processor. Libraries that `rt` has built in `out/` are copied along, and spare their proofs. The line of each edit says
whether the prover refused it, and the last line counts them. The status is 0 where all were refused, 1 where one was not, and 2 for a wrong word.
"""

import os
import shutil
import subprocess
import sys
import tempfile

HERE = os.path.dirname(os.path.realpath(__file__))
ROOT = os.path.dirname(HERE)


def edits_of(crate):
    """The names of a crate's edits, in order."""
    return sorted(it for it in os.listdir(f"{HERE}/{crate}") if it.endswith(".edit"))


def planted_crates():
    """The crates that have edits here, in order."""
    return sorted(it for it in os.listdir(HERE) if os.path.isdir(f"{HERE}/{it}") and edits_of(it))


def copy_with_edits(crates, copy):
    """Copies the repository, with the edits of the crates at the place where `rt must-fail` looks for them."""
    shutil.copytree(ROOT, copy, ignore=shutil.ignore_patterns(".git", "planted", "__pycache__", "incremental"))
    for crate in crates:
        place = f"{copy}/crates/{crate}/must-fail"
        os.makedirs(place, exist_ok=True)
        for name in edits_of(crate):
            shutil.copyfile(f"{HERE}/{crate}/{name}", f"{place}/{name}")
    # `rt` takes the folder above crates.txt for the root only where it finds the top of a repository there
    subprocess.run(["git", "init", "-q"], cwd=copy, check=True)


def try_crate(crate, copy):
    """Tries the edits of a crate, prints what `rt` says of each, and returns how many were refused."""
    ran = subprocess.run(["rt", "must-fail", crate], cwd=copy, stdout=subprocess.PIPE, stderr=subprocess.STDOUT, text=True)
    said = [line for line in ran.stdout.splitlines() if f"must-fail {crate}/" in line]
    print("\n".join(said) or ran.stdout[-900:], flush=True)
    return sum("refused, as it must be" in line for line in said)


def main(words):
    known = planted_crates()
    unknown = [it for it in words if it not in known]
    if unknown:
        print(f"try.py: no edits of {unknown[0]} stand here; there are some of: {' '.join(known)}", file=sys.stderr)
        return 2
    crates = words or known
    tried = sum(len(edits_of(it)) for it in crates)
    with tempfile.TemporaryDirectory(prefix="planted-") as room:
        copy = f"{room}/copy"
        copy_with_edits(crates, copy)
        refused = sum(try_crate(it, copy) for it in crates)
    print(f"{refused} refused, {tried - refused} not refused")
    return 1 if refused < tried else 0


if __name__ == "__main__":
    sys.exit(main(sys.argv[1:]))
