#!/usr/bin/env python3
"""Compares what the program prints of compilers' modules with what the plain reading makes of them, byte for byte.

    real_modules.py FOLDER NAME[+NAME..] ... [--program PROGRAM] [--keep FOLDER] [--plain] [--check]

NAME is that of a pair NAME.json and NAME.wasm of FOLDER, a map and its module. Names with `+` between them are carried in one run, under a map that joins
theirs: their modules one behind another, with symbols raised so that no two functions share one. PROGRAM is crates/dwarfcarry/out/dwarfcarry unless it is given.

What the plain reading makes of large modules takes minutes, so with --keep it stays as NAME.txt in a folder, and is taken from there the next time; what the
program printed stays beside it as NAME.out. With --plain nothing is run, and with --check llvm-dwarfdump, readelf and eu-readelf are asked besides what they
read in the output.
"""

import argparse
import json
import os
import subprocess
import sys
import tempfile
import time

import check_cases
import plain_run
from run import DEFAULT


def read(path):
    with open(path, "rb") as file:
        return file.read()


def write(path, contents):
    with open(path, "wb") as file:
        file.write(contents)


# ---- maps


def joined(maps):
    """The map of the modules of all maps, which must tell the same but for these."""
    first, above = maps[0], 0
    modules = []
    for told in maps:
        if {**told, "modules": []} != {**first, "modules": []}:
            sys.exit("maps of different targets or names")
        symbols = [symbol for module in told["modules"] for function in module["functions"] if (symbol := function["symbol"]) is not None]
        modules += [raised(module, above) for module in told["modules"]]
        above += max(symbols, default=-1) + 1
    return {**first, "modules": modules}


def raised(module, by):
    """A module's part of a map, with its symbols raised."""
    higher = lambda symbol: None if symbol is None else symbol + by
    return {**module, "functions": [{**function, "symbol": higher(function["symbol"])} for function in module["functions"]]}


def map_of(folder, names):
    """The bytes of the map of some names; those of the file where there is one name."""
    texts = [read(os.path.join(folder, f"{name}.json")) for name in names]
    return texts[0] if len(texts) == 1 else json.dumps(joined([json.loads(text) for text in texts]), separators=(",", ":")).encode()


# ---- runs


def plain_text(keep, name, map_text, modules):
    """What the plain reading makes, and the seconds that it took; 0 where it was kept."""
    path = os.path.join(keep, f"{name}.txt")
    if os.path.exists(path):
        return read(path), 0
    begin = time.perf_counter()
    made = plain_run.printed_text(map_text, modules).encode()
    write(path, made)
    return made, time.perf_counter() - begin


def run(program, keep, name, paths):
    """The status of a run, what it printed, and the seconds that it took."""
    path = os.path.join(keep, f"{name}.out")
    begin = time.perf_counter()
    with open(path, "wb") as out:
        status = subprocess.run([program, *paths], stdout=out, stderr=subprocess.DEVNULL).returncode
    return status, read(path), time.perf_counter() - begin


def first_difference(wanted, printed):
    """The first line in which two texts differ, and how it begins in both, from where they do."""
    for number, (a, b) in enumerate(zip(wanted.split(b"\n"), printed.split(b"\n")), 1):
        if a != b:
            at = next((i for i, (x, y) in enumerate(zip(a, b)) if x != y), min(len(a), len(b)))
            return f"line {number}, byte {at}: wanted {a[at : at + 60]!r}, printed {b[at : at + 60]!r}"
    return f"one is a front of the other: {len(wanted)} bytes wanted, {len(printed)} printed"


def compare(words, keep, name):
    """Runs one group of names, prints a row, and answers whether all is as wanted, with what outside tools may be asked of."""
    names = name.split("+")
    paths = [os.path.join(words.folder, f"{one}.wasm") for one in names]
    map_text, modules = map_of(words.folder, names), [read(path) for path in paths]
    map_path = os.path.join(keep, f"{name}.map.json")
    write(map_path, map_text)
    wanted, seconds = plain_text(keep, name, map_text, modules)
    sizes = f"map {len(map_text)}, wasm {'+'.join(str(len(module)) for module in modules)}, plain {len(wanted)} in {seconds:.0f} s"
    if words.plain:
        print(f"{name}: {sizes}", flush=True)
        return True, None
    status, printed, seconds = run(words.program, keep, name, [map_path, *paths])
    equal = status == 0 and printed == wanted
    print(f"{name}: {sizes}, status {status}, printed {len(printed)} in {seconds:.1f} s, {'equal' if equal else 'DIFFERENT'}", flush=True)
    if not equal:
        print(" ", first_difference(wanted, printed), flush=True)
    return equal, (name, map_text.decode(), printed.decode())


def main():
    parser = argparse.ArgumentParser(description=__doc__.splitlines()[0])
    parser.add_argument("folder")
    parser.add_argument("names", nargs="+")
    parser.add_argument("--program", default=DEFAULT)
    parser.add_argument("--keep")
    parser.add_argument("--plain", action="store_true")
    parser.add_argument("--check", action="store_true")
    words = parser.parse_args()
    with tempfile.TemporaryDirectory() as folder:
        keep = words.keep or folder
        os.makedirs(keep, exist_ok=True)
        found = [compare(words, keep, name) for name in words.names]
        if words.check and not words.plain:
            check_cases.check([output for _, output in found])
    sys.exit(0 if all(equal for equal, _ in found) else 1)


if __name__ == "__main__":
    main()
