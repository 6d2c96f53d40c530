#!/usr/bin/env python3
"""Races the original and this program, side by side, on the same inputs, and prints what each takes.

    race.py ORIGINAL FOLDER [--program PROGRAM] [--rounds N] [--only NAME ...]

ORIGINAL is a program that takes the same words, MAP MODULE.., and prints the same text; with --time in front it tells on standard error
the seconds of its parts, among them `parse S` for the map and the module. PROGRAM is crates/dwarfcarry/out/dwarfcarry unless it is
given. FOLDER has pairs NAME.json and NAME.wasm. The two run in turn, N times each (5 unless it is given), and the best of each counts:
seconds, MB of DWARF a second, and the peak memory. A ratio is the original's figure by this program's: 2 is twice as fast, or half the
memory. The second row of a module is what is not the map: the original's whole without its parse, and this program's whole without a
run on the map and an empty module, which ends where the map is read. It asks for GNU time at /usr/bin/time.
"""

import argparse
import os
import re
import subprocess
import tempfile
import time

from run import DEFAULT, MB, print_row, real_runs, run

CUSTOM_SECTION = 0
EMPTY_MODULE = b"\0asm\1\0\0\0"


def read_uleb(body, place):
    """The number at a place, and the place behind it."""
    number = shift = 0
    while True:
        byte = body[place]
        number |= (byte & 0x7F) << shift
        place, shift = place + 1, shift + 7
        if byte < 0x80:
            return number, place


def dwarf_size(path):
    """How many bytes the sections of DWARF of a wasm file have."""
    with open(path, "rb") as file:
        body = file.read()
    place, size = 8, 0
    while place < len(body):
        kind = body[place]
        length, begin = read_uleb(body, place + 1)
        place = begin + length
        if kind == CUSTOM_SECTION:
            name_length, name = read_uleb(body, begin)
            size += place - name - name_length if body[name:].startswith(b".debug_") else 0
    return size


def best(runs):
    """The least seconds and the least peak memory of some runs, all of which ended well."""
    if any(status for _, _, status in runs):
        raise SystemExit("a run ended with a status that is not 0")
    return min(seconds for seconds, _, _ in runs), min(peak for _, peak, _ in runs)


def timed(words):
    """The seconds of a run, and what it wrote to standard error."""
    begin = time.perf_counter()
    told = subprocess.run(words, stdout=subprocess.DEVNULL, stderr=subprocess.PIPE, text=True).stderr
    return time.perf_counter() - begin, told


def rests(programs, paths, empty_path):
    """The seconds of a run of each program that are not the map."""
    original, told = timed([programs[0], "--time", *paths])
    parse = re.search(r"\bparse ([0-9.]+)", told)
    whole, alone = timed([programs[1], *paths])[0], timed([programs[1], paths[0], empty_path])[0]
    return original, float(parse[1]) if parse else 0.0, whole, alone


def race(programs, paths, folder, rounds):
    """What each program takes at best, the programs in turn, and what of it is not the map."""
    out_path, empty_path = os.path.join(folder, "out"), os.path.join(folder, "empty.wasm")
    with open(empty_path, "wb") as file:
        file.write(EMPTY_MODULE)
    turns, parts = [], []
    for _ in range(rounds):
        turns.append([run(program, paths, out_path) for program in programs])
        parts.append(rests(programs, paths, empty_path))
    original, parse, whole, alone = (min(column) for column in zip(*parts))
    return [best(runs) for runs in zip(*turns)], (original - parse, whole - alone)


def print_module(name, paths, folder, words):
    """Races on one module, and prints its two rows."""
    [(original, original_peak), (own, own_peak)], (rest, own_rest) = race([words.original, words.program], paths, folder, words.rounds)
    size = sum(dwarf_size(path) for path in paths[1:]) / MB
    times = [f"{size:.2f}", f"{original:.4f}", f"{own:.4f}", f"{original / own:.2f}", f"{size / original:.1f}", f"{size / own:.1f}"]
    print_row(name, [*times, f"{original_peak / MB:.1f}", f"{own_peak / MB:.1f}", f"{original_peak / own_peak:.2f}"])
    print_row("  not the map", ["", f"{rest:.4f}", f"{own_rest:.4f}", f"{rest / own_rest:.2f}"])


def main():
    parser = argparse.ArgumentParser(description=__doc__.splitlines()[0])
    parser.add_argument("original")
    parser.add_argument("folder")
    parser.add_argument("--program", default=DEFAULT)
    parser.add_argument("--rounds", type=int, default=5)
    parser.add_argument("--only", nargs="*")
    words = parser.parse_args()
    print_row("module", ["DWARF MB", "original s", "seconds", "ratio", "original/s", "MB/s", "original MB", "peak MB", "ratio"])
    with tempfile.TemporaryDirectory() as folder:
        for name, _, _, paths in real_runs(words.folder):
            if not words.only or name in words.only:
                print_module(name, paths, folder, words)


if __name__ == "__main__":
    main()
