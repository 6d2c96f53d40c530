#!/usr/bin/env python3
"""Prints the greatest heap of runs once the map's text is let go, beside the bytes of DWARF that are read and printed.

    heap.py FOLDER [--program PROGRAM] [--only NAME ...] [--blocks N]

It runs on the pairs NAME.json and NAME.wasm of a folder. PROGRAM is crates/dwarfcarry/out/dwarfcarry unless it is given. With --blocks it
prints where the end of the heap moved by N KiB or more: how much was in use then, and how much was free in front of it, in pieces of 4 KiB
and more, which tells whether less memory would mean fewer new pages.

A small library in C stands in front of the allocator of the C library and adds up its blocks, each with the eight bytes that it takes beside
what can be used of it. It asks for a C compiler, `cc`.
"""

import argparse
import os
import re
import struct
import subprocess
import tempfile

from race import dwarf_size
from run import DEFAULT, real_runs

# Each call is written to the file HEAP_CALLS: the block that ends, the one that begins, and what this takes.
ALLOCATOR = r"""
#define _GNU_SOURCE
#include <dlfcn.h>
#include <malloc.h>
#include <stdint.h>
#include <stdio.h>
#include <stdlib.h>

static FILE *calls;
static void *(*real_malloc)(size_t);
static void *(*real_realloc)(void *, size_t);
static void (*real_free)(void *);
static int is_inside;

static void begin(void) {
    if (!real_malloc) {
        real_realloc = dlsym(RTLD_NEXT, "realloc");
        real_free = dlsym(RTLD_NEXT, "free");
        real_malloc = dlsym(RTLD_NEXT, "malloc");
        is_inside = 1;
        calls = fopen(getenv("HEAP_CALLS"), "wb");
        is_inside = 0;
    }
}

static void *noted(void *old, void *now) {
    uint64_t call[3] = {(uintptr_t)old, (uintptr_t)now, now ? malloc_usable_size(now) + 8 : 0};
    if (!is_inside && (old || now)) {
        is_inside = 1;
        fwrite(call, sizeof call, 1, calls);
        is_inside = 0;
    }
    return now;
}

void *malloc(size_t size) { begin(); return noted(0, real_malloc(size)); }
void *realloc(void *block, size_t size) { begin(); return noted(block, real_realloc(block, size)); }
void free(void *block) { begin(); noted(block, 0); real_free(block); }
"""

CALL = struct.Struct("<3Q")
HEAP_END = 7 << 44  # blocks of pages of their own stand above it
KIB = 1024
PIECE = 4 * KIB


def library(folder):
    """The path of the allocator, compiled."""
    source, path = os.path.join(folder, "allocator.c"), os.path.join(folder, "allocator.so")
    with open(source, "w", encoding="ascii") as file:
        file.write(ALLOCATOR)
    subprocess.run(["cc", "-O1", "-shared", "-fPIC", "-o", path, source], check=True)
    return path


def calls_of(program, paths, allocator, folder):
    """The calls of a run, and how many bytes the printed sections have."""
    path = os.path.join(folder, "calls")
    words = {"LD_PRELOAD": allocator, "HEAP_CALLS": path}
    text = subprocess.run([program, *paths], capture_output=True, check=True, env=words).stdout
    with open(path, "rb") as file:
        return list(CALL.iter_unpack(file.read())), sum(int(size) for size in re.findall(rb"^section \S+ (\d+)", text, re.M))


def last_text(calls, map_size):
    """The number of the call that ends the last block as long as the map."""
    sizes, last = {}, 0
    for number, (old, now, size) in enumerate(calls):
        if map_size <= sizes.pop(old, 0) < map_size + 64:
            last = number
        if now:
            sizes[now] = size
    return last


def free_pieces(live):
    """The pieces of 4 KiB and more between blocks, the longest first."""
    found, end = [], 0
    for begin in sorted(live):
        if end and begin - end >= PIECE:
            found.append(begin - end)
        end = begin + live[begin]
    return sorted(found, reverse=True)


def peak_of(calls, begin, least):
    """The most bytes in use behind a call. Prints where the end of the heap moves by so many bytes at once."""
    live, used, peak, top = {}, 0, 0, 0
    for number, (old, now, size) in enumerate(calls):
        used -= live.pop(old, 0)
        if now:
            live[now] = size
            used += size
        if number > begin:
            peak = max(peak, used)
        if now and now < HEAP_END and now + size > top:
            if least and top and now + size - top >= least:
                pieces = [it // KIB for it in free_pieces({block: length for block, length in live.items() if block < HEAP_END})]
                moved = (now + size - top) // KIB
                print(f"  call {number}: {moved} KiB more for {size // KIB}, {used // KIB} in use, {sum(pieces)} free: {pieces[:8]}")
            top = now + size
    return peak


def main():
    parser = argparse.ArgumentParser(description=__doc__.splitlines()[0])
    parser.add_argument("folder")
    parser.add_argument("--program", default=DEFAULT)
    parser.add_argument("--only", nargs="*")
    parser.add_argument("--blocks", type=int, default=0)
    words = parser.parse_args()
    with tempfile.TemporaryDirectory() as folder:
        allocator = library(folder)
        for name, _, _, paths in real_runs(words.folder):
            if words.only and name not in words.only:
                continue
            calls, printed = calls_of(words.program, paths, allocator, folder)
            peak = peak_of(calls, last_text(calls, os.path.getsize(paths[0])), words.blocks * KIB)
            read = sum(dwarf_size(path) for path in paths[1:])
            print(f"{name}: {peak} bytes of heap, {read} of DWARF read, {printed} printed: {peak / (read + printed):.2f}")


if __name__ == "__main__":
    main()
