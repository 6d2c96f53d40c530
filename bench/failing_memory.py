#!/usr/bin/env python3
"""Runs the proved program with each allocation failing in turn, and checks how it ends.

    failing_memory.py [MAP MODULE ...] [--realistic] [--minutes M] [--program PROGRAM]

It runs on the small example unless a map and modules are given, or with --realistic on the realistic module of the cases. PROGRAM is
crates/dwarfcarry/out/dwarfcarry unless it is given. A run in which an allocation fails must end with status 9, with nothing on standard output and one line on
standard error, or with status 0 and the text of a run in which none fails; where memory lacks already for the words of the command, there is no line. Where all of
them take longer than M minutes (10 unless it is given), it ends then; the numbers come in an order of which each front lies evenly among all.

A small library in C stands in front of the allocator of the C library and counts its calls, so the program runs as it was built. It asks for a C compiler, `cc`.
"""

import argparse
import os
import subprocess
import sys
import tempfile
import time
from concurrent.futures import ThreadPoolExecutor
from math import gcd

import realistic_cases
from run import DEFAULT

CRATE = os.path.join(os.path.dirname(os.path.abspath(__file__)), "..", "crates", "dwarfcarry")
SMALL = [os.path.join(CRATE, "data", name) for name in ("g.json", "g.wasm")]
LINE = b"dwarfcarry: out of memory\n"
NO_MEMORY = 9
AT_ONCE = os.cpu_count() or 1

# The allocation of the number FAIL_AT fails, and how many there were is written to the file FAIL_COUNT.
ALLOCATOR = r"""
#define _GNU_SOURCE
#include <dlfcn.h>
#include <stdio.h>
#include <stdlib.h>

static unsigned long made, failing;
static void *(*real_malloc)(size_t);
static void *(*real_realloc)(void *, size_t);

static int fails(void) {
    if (!real_malloc) {
        const char *at = getenv("FAIL_AT");
        failing = at ? strtoul(at, 0, 10) : 0;
        real_realloc = dlsym(RTLD_NEXT, "realloc");
        real_malloc = dlsym(RTLD_NEXT, "malloc");
    }
    return ++made == failing;
}

void *malloc(size_t size) { return fails() ? 0 : real_malloc(size); }
void *realloc(void *block, size_t size) { return fails() ? 0 : real_realloc(block, size); }

__attribute__((destructor)) static void told(void) {
    const char *path = getenv("FAIL_COUNT");
    unsigned long count = made;
    FILE *file = path ? fopen(path, "w") : 0;
    if (file) {
        fprintf(file, "%lu", count);
        fclose(file);
    }
}
"""


class Program:
    """The program over an allocator that can fail."""

    def __init__(self, path, folder):
        self.path, self.library, self.count_path = path, os.path.join(folder, "allocator.so"), os.path.join(folder, "count")
        source = os.path.join(folder, "allocator.c")
        with open(source, "w", encoding="ascii") as file:
            file.write(ALLOCATOR)
        subprocess.run(["cc", "-O1", "-shared", "-fPIC", "-o", self.library, source], check=True)

    def run(self, paths, **words):
        """The status of a run with some words for the allocator, and what it printed on both streams."""
        ended = subprocess.run([self.path, *paths], capture_output=True, check=False, env={"LD_PRELOAD": self.library, **words})
        return ended.returncode, ended.stdout, ended.stderr

    def whole(self, paths):
        """The text of a run in which nothing fails, and how many allocations it makes."""
        status, text, line = self.run(paths, FAIL_COUNT=self.count_path)
        if status != 0:
            sys.exit(f"status {status} where nothing fails: {line.decode()}")
        with open(self.count_path, encoding="ascii") as file:
            return text, int(file.read())

    def failing(self, paths, number):
        """How a run ends in which the allocation of a number fails."""
        return self.run(paths, FAIL_AT=str(number))


def spread(count):
    """The numbers from 1 to a count, in an order of which each front lies evenly among them."""
    stride = next(n for n in range(int(0.618 * count) or 1, 2 * count + 2) if gcd(n, count) == 1)
    return [k * stride % count + 1 for k in range(count)]


def ends_of(program, paths, count, seconds):
    """How runs end, by the number of the allocation that fails, as many as there is time for."""
    until, ends = time.monotonic() + seconds, {}
    numbers = [*spread(count), count + 1, count + 2, 2 * count]
    with ThreadPoolExecutor(AT_ONCE) as pool:
        for front in range(0, len(numbers), 16 * AT_ONCE):
            some = numbers[front : front + 16 * AT_ONCE]
            ends.update(zip(some, pool.map(lambda number: program.failing(paths, number), some)))
            if time.monotonic() > until:
                break
    return ends


def told(count, ends, text):
    """Says how the runs ended, and answers whether all did as they must."""
    wordless = [number for number, ended in ends.items() if ended == (NO_MEMORY, b"", b"")]
    first_line = min((number for number, ended in ends.items() if ended == (NO_MEMORY, b"", LINE)), default=count + 1)
    good = ((NO_MEMORY, b"", LINE), (0, text, b""))
    bad = {number: ended for number, ended in sorted(ends.items()) if ended not in good and not (number in wordless and number < first_line)}
    made = [number for number in ends if number <= count]
    print(f"{count} allocations; {len(made)} of them failed, each in a run of its own, and {len(ends) - len(made)} runs in which none did")
    print(f"status 9 with its line: {sum(ended == good[0] for ended in ends.values())} runs; without a line, for the words of the command: {len(wordless)}")
    print(f"failed, and the run went on: {sorted(number for number in made if ends[number][0] == 0)}")
    for number, (status, printed, line) in bad.items():
        print(f"not as wanted: number {number}: status {status}, {len(printed)} bytes printed, and the line {line[:200]}")
    return not bad


def made(folder):
    """The files of the realistic module."""
    module, map_text = realistic_cases.realistic_module()
    paths = [os.path.join(folder, name) for name in ("realistic.json", "realistic.wasm")]
    for path, contents in zip(paths, (map_text.encode(), module)):
        with open(path, "wb") as file:
            file.write(contents)
    return paths


def main():
    parser = argparse.ArgumentParser(description=__doc__.splitlines()[0])
    parser.add_argument("paths", nargs="*")
    parser.add_argument("--realistic", action="store_true")
    parser.add_argument("--minutes", type=float, default=10)
    parser.add_argument("--program", default=DEFAULT)
    words = parser.parse_args()
    with tempfile.TemporaryDirectory() as folder:
        program = Program(os.path.abspath(words.program), folder)
        paths = words.paths or (made(folder) if words.realistic else SMALL)
        text, count = program.whole(paths)
        good = told(count, ends_of(program, paths, count, 60 * words.minutes), text)
    sys.exit(0 if good else 1)


if __name__ == "__main__":
    main()
