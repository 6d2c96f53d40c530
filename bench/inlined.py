#!/usr/bin/env python3
"""Counts the instructions of a run by the function of the source that they are of, also where it is in line.

    inlined.py PROGRAM MAP MODULE.. [--rest] [--within WORD] [--top N]

PROGRAM is made by `unproved.py --names`. Of each function two numbers are printed: the instructions of its own, and with those of what
it has in line. With --rest the instructions of a run on the map and an empty module are taken off, which ends where the map is read;
with --within only what is in line of a function whose name has the word counts. It asks for valgrind and llvm-symbolizer.
"""

import argparse
import collections
import os
import re
import subprocess
import tempfile

from race import EMPTY_MODULE

# A line of costs: an address, or how far it is from the last one, a line number, and a count.
COST = re.compile(r"(0x[0-9a-f]+|[+-]\d+|\*) \S+(?: (\d+))?$")
OBJECT = re.compile(r"ob=\((\d+)\)(?: (.*))?$")


def counts(program, paths, folder):
    """The instructions of a run at each address of the program."""
    path = os.path.join(folder, "counts")
    words = ["valgrind", "--tool=callgrind", "--dump-instr=yes", f"--callgrind-out-file={path}", program, *paths]
    subprocess.run(words, stdout=subprocess.DEVNULL, stderr=subprocess.DEVNULL)
    found, objects, place, here, is_call = collections.Counter(), {}, 0, "", False
    with open(path) as file:
        for line in file:
            if named := OBJECT.match(line):
                here = objects.setdefault(named[1], named[2])
            elif line.startswith("cob="):
                number, _, name = line[4:].strip().partition(" ")
                objects.setdefault(number.strip("()"), name or None)
            elif line.startswith("calls="):
                is_call = True
            elif cost := COST.match(line):
                place = int(cost[1], 16) if cost[1].startswith("0x") else place + int(cost[1].replace("*", "0"))
                if cost[2] and not is_call and os.path.realpath(here) == program:
                    found[place] += int(cost[2])
                is_call = False
    return found


def functions(program, places):
    """The functions of each place: that of its instruction, and those that it is in line of."""
    words = ["llvm-symbolizer", "-e", program, "--inlines", "--functions=linkage"]
    told = subprocess.run(words, input="".join(f"{it:#x}\n" for it in places), capture_output=True, text=True, check=True).stdout
    return {place: part.strip().split("\n")[::2] for place, part in zip(places, told.split("\n\n"))}


def print_table(found, named, within, top):
    """Prints the functions with the most instructions."""
    own, whole = collections.Counter(), collections.Counter()
    for place, count in found.items():
        names = named[place]
        if any(within in name for name in names):
            own[names[0]] += count
            for name in set(names):
                whole[name] += count
    print(f"{sum(own.values()):12} in all")
    for name, count in whole.most_common(top):
        print(f"{own[name]:12} {count:12}  {name}")


def main():
    parser = argparse.ArgumentParser(description=__doc__.splitlines()[0])
    parser.add_argument("program")
    parser.add_argument("map")
    parser.add_argument("modules", nargs="+")
    parser.add_argument("--rest", action="store_true")
    parser.add_argument("--within", default="")
    parser.add_argument("--top", type=int, default=100)
    words = parser.parse_args()
    program = os.path.realpath(words.program)
    with tempfile.TemporaryDirectory() as folder:
        found = counts(program, [words.map, *words.modules], folder)
        if words.rest:
            empty_path = os.path.join(folder, "empty.wasm")
            with open(empty_path, "wb") as file:
                file.write(EMPTY_MODULE)
            found.subtract(counts(program, [words.map, empty_path], folder))
    print_table(found, functions(program, sorted(found)), words.within, words.top)


if __name__ == "__main__":
    main()
