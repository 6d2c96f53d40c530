#!/usr/bin/env python3
"""Runs the built program on modules of growing size, and prints what each run takes.

    run.py [PROGRAM] [--rounds N] [--only KIND ...] [--KIND N ...] [--debugger] [--real FOLDER]

PROGRAM is crates/dwarfcarry/out/dwarfcarry unless it is given; the kinds are those of make_modules.py and hostile_modules.py. A row shows the status and
the best of the rounds (one alone where it takes ten seconds): seconds, MB of wasm and of map a second, the peak memory, and the time
beside that of the row above of the same kind, with the ratio of their sizes, which work that is linear in the module keeps to, and that of
all bytes that are read and written: where names hold names, what is written grows faster than the module. With --real the pairs
NAME.json and NAME.wasm of a folder are run too. The files that are made stand in a temporary folder, which is removed. It asks for GNU
time at /usr/bin/time.
"""

import argparse
import glob
import os
import subprocess
import tempfile
import time

import hostile_modules
import make_modules

make_modules.KINDS |= hostile_modules.KINDS
make_modules.SIZES |= hostile_modules.SIZES

DEFAULT = os.path.join(os.path.dirname(__file__), "..", "crates", "dwarfcarry", "out", "dwarfcarry")
MB = 1_000_000
LONG = 10  # seconds; what takes longer is run once


def run(program, paths, out_path):
    """The seconds, the peak memory in bytes and the status of one run."""
    peak_path = out_path + ".peak"
    timed = ["/usr/bin/time", "--quiet", "-f", "%M", "-o", peak_path, program, *paths]
    with open(out_path, "wb") as out:
        begin = time.perf_counter()
        status = subprocess.run(timed, stdout=out, stderr=subprocess.DEVNULL).returncode
        seconds = time.perf_counter() - begin
    with open(peak_path) as file:
        return seconds, int(file.read()) * 1024, status


def measure(program, paths, out_path, rounds):
    """The status, the best seconds, the peak memory, and the sizes of all modules, of the map and of the output."""
    runs = [run(program, paths, out_path)]
    while len(runs) < rounds and runs[0][0] < LONG:
        runs.append(run(program, paths, out_path))
    map_size, *wasm_sizes = [os.path.getsize(path) for path in paths]
    sizes = [sum(wasm_sizes), map_size, os.path.getsize(out_path)]
    return runs[0][2], min(seconds for seconds, _, _ in runs), max(peak for _, peak, _ in runs), sizes


def made_runs(folder, words):
    """Name, kind, size and paths of the modules that are made."""
    for kind, number, paths in make_modules.make(folder, make_modules.sizes_of(words), make_modules.asked_of(words)):
        yield f"{kind} {number}", kind, number, paths


def real_runs(folder):
    """The same of the modules of a folder."""
    for path in sorted(glob.glob(os.path.join(folder, "*.json"))):
        name = os.path.basename(path)[:-5]
        yield name, name, None, [path, path[:-5] + ".wasm"]


def print_row(name, cells):
    print(f"{name:<22}" + "".join(f"{cell:>11}" for cell in cells), flush=True)


def main():
    parser = argparse.ArgumentParser(description=__doc__.splitlines()[0])
    parser.add_argument("program", nargs="?", default=DEFAULT)
    parser.add_argument("--rounds", type=int, default=3)
    parser.add_argument("--real")
    make_modules.add_sizes(parser)
    words = parser.parse_args()
    titles = ["status", "wasm MB", "map MB", "out MB", "seconds", "wasm MB/s", "map MB/s", "peak MB", "times", "size", "bytes"]
    print_row("module", titles)
    with tempfile.TemporaryDirectory() as folder:
        before = {}
        runs = list(real_runs(words.real)) if words.real else []
        for name, kind, number, paths in [*made_runs(folder, words), *runs]:
            out_path = os.path.join(folder, "out")
            status, seconds, peak, sizes = measure(words.program, paths, out_path, words.rounds)
            cells = [str(status)] + [f"{size / MB:.2f}" for size in sizes] + [f"{seconds:.3f}"]
            cells += [f"{size / MB / seconds:.1f}" for size in sizes[:2]] + [f"{peak / MB:.1f}"]
            if kind in before:
                cells += [f"{it / other:.2f}" for it, other in zip((seconds, number, sum(sizes)), before[kind])]
            before[kind] = (seconds, number, sum(sizes))
            print_row(name, cells)


if __name__ == "__main__":
    main()
