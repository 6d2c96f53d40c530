#!/usr/bin/env python3
"""Counts the blocks of memory that a run asks for, by the functions of the source that ask, also where these are in line.

    blocks.py PROGRAM MAP MODULE.. [--within WORD] [--depth N] [--bytes] [--top N]

PROGRAM is made by `unproved.py --names`. Of each chain of functions, the innermost first and N of them (3 unless it is given), the blocks and their
bytes are printed, most blocks first, or most bytes with --bytes. With --within only chains with a function whose name has the word count. It asks
for valgrind, whose `dhat` notes the calls.
"""

import argparse
import collections
import json
import os
import re
import subprocess
import tempfile

# A frame as dhat tells it: an address, a function and where it stands.
FRAME = re.compile(r"0x[0-9A-F]+: (.*?) \(")
# Functions of this project; what stands inside them is the library that asks for them.
OWN = "dwc_"


def noted(program, paths, folder):
    """What dhat tells of a run."""
    path = os.path.join(folder, "blocks")
    words = ["valgrind", "--tool=dhat", "--read-inline-info=yes", "--num-callers=40", f"--dhat-out-file={path}", program, *paths]
    subprocess.run(words, stdout=subprocess.DEVNULL, stderr=subprocess.DEVNULL)
    with open(path) as file:
        return json.load(file)


def chains(told, depth):
    """The functions of each place that asks, the innermost first, with the blocks and the bytes that it asks for."""
    names = [found[1] if (found := FRAME.match(frame)) else frame for frame in told["ftbl"]]
    for place in told["pps"]:
        own = [names[number] for number in place["fs"] if OWN in names[number]]
        yield tuple(own[:depth]), own, place["tbk"], place["tb"]


def main():
    parser = argparse.ArgumentParser(description=__doc__.splitlines()[0])
    parser.add_argument("program")
    parser.add_argument("paths", nargs="+")
    parser.add_argument("--within", default="")
    parser.add_argument("--depth", type=int, default=3)
    parser.add_argument("--bytes", action="store_true")
    parser.add_argument("--top", type=int, default=40)
    words = parser.parse_args()
    blocks, sizes = collections.Counter(), collections.Counter()
    with tempfile.TemporaryDirectory() as folder:
        told = noted(os.path.abspath(words.program), words.paths, folder)
    for chain, own, count, size in chains(told, words.depth):
        if any(words.within in name for name in own) or not words.within:
            blocks[chain] += count
            sizes[chain] += size
    print(f"{sum(blocks.values()):>9} {sum(sizes.values()):>11} in all")
    for chain, _ in (sizes if words.bytes else blocks).most_common(words.top):
        print(f"{blocks[chain]:>9} {sizes[chain]:>11}  {' < '.join(chain) or 'before any function of the project'}")


if __name__ == "__main__":
    main()
