#!/usr/bin/env python3
"""Counts at how many places where a debugger stops the chain of inlined frames is that of the input.

    shown_frames.py PROGRAM MAP MODULE [--debugger] [--version N] [--rest N]

The places are the rows with `is_stmt` of what PROGRAM prints of a map and its module, each in the code of a function with a recorded source. What
llvm-symbolizer says there of the linked output is compared with what it says of the module at the source that is shown: the names of all frames, and
their lines. With --debugger and --version the map asks for these. --rest prints so many places that differ. It asks for LLVM, a GNU assembler and ld.
"""

import argparse
import bisect
import collections
import json
import os
import re
import subprocess
import sys
import tempfile

import plain_run

TOOLS = os.path.join(os.path.dirname(os.path.realpath(__file__)), "..", "tools")
START, ALIGNMENT = 0x400000, 16
ROW = re.compile(r"0x([0-9a-f]+)\s+\d+\s.*\bis_stmt\b")


def code_of(told):
    """Assembly of code that has the length of each function."""
    lines = ['.section .note.GNU-stack,"",@progbits', ".text", f".balign {ALIGNMENT}"]
    for number, function in enumerate(told["modules"][0]["functions"]):
        name = f"wasm_function_{number}"
        lines += [f".globl {name}", f"{name}:", f".fill {function['body_len']}, 1, 0x90", f".balign {ALIGNMENT}"]
    return "\n".join(lines) + "\n"


def link(printed, told, folder):
    """Links what was printed to code of the same lengths, and answers the path. Symbols go, so that names come from the debug information alone."""
    paths = {name: os.path.join(folder, name) for name in ("text", "debug.s", "code.s", "debug.o", "code.o", "linked")}
    with open(paths["text"], "w") as file:
        file.write(printed)
    with open(paths["debug.s"], "w") as file:
        subprocess.run([sys.executable, os.path.join(TOOLS, "to_assembly.py"), paths["text"]], stdout=file, check=True)
    with open(paths["code.s"], "w") as file:
        file.write(code_of(told))
    for name in ("debug", "code"):
        subprocess.run(["as", paths[f"{name}.s"], "-o", paths[f"{name}.o"]], check=True)
    subprocess.run(["ld", f"-Ttext={START:#x}", "-e", "0", paths["code.o"], paths["debug.o"], "-o", paths["linked"]], check=True)
    subprocess.run(["objcopy", "--wildcard", "--strip-symbol", "wasm_function_*", paths["linked"]], check=True)
    return paths["linked"]


def placed_functions(told, code):
    """Each function that has a symbol, with its address, where the linker puts it, its length, and its sources."""
    at = START
    for function in told["modules"][0]["functions"]:
        if function["symbol"] is not None and function["body_len"]:
            yield at, function["body_len"], [(native, place - code) for native, place in function["map"] if place is not None]
        at += -(-function["body_len"] // ALIGNMENT) * ALIGNMENT


def stops(linked):
    """The addresses of rows with `is_stmt`, but for those that end sequences."""
    listed = subprocess.run(["llvm-dwarfdump", "--debug-line", linked], capture_output=True, text=True, check=True).stdout
    return sorted({int(found[1], 16) for line in listed.splitlines() if (found := ROW.match(line)) and "end_sequence" not in line})


def shown_sources(addresses, functions):
    """Of the addresses in a function with a source each with the source that is shown there."""
    starts = [start for start, _, _ in functions]
    for address in addresses:
        i = bisect.bisect_right(starts, address) - 1
        if i >= 0 and functions[i][2] and address - functions[i][0] < functions[i][1]:
            start, _, sources = functions[i]
            j = bisect.bisect_right([native for native, _ in sources], address - start)
            yield address, sources[max(j - 1, 0)][1]


def frames(path, addresses):
    """What llvm-symbolizer says of each address: pairs of a name and a place."""
    words = ["llvm-symbolizer", "-e", path, "--inlines", "--functions=linkage", "--basenames"]
    told = subprocess.run(words, input="".join(f"{it:#x}\n" for it in addresses), capture_output=True, text=True, check=True).stdout
    for part in told.strip().split("\n\n"):
        lines = part.split("\n")
        yield list(zip(lines[::2], lines[1::2]))


def compare(wanted, found):
    if not wanted or wanted[0][0] == "??":
        return "without a frame in the input"
    if [name for name, _ in wanted] != [name for name, _ in found]:
        return "other frames"
    return "the same" if wanted == found else "the same frames, another line"


def main():
    parser = argparse.ArgumentParser(description=__doc__.splitlines()[0])
    parser.add_argument("program")
    parser.add_argument("map")
    parser.add_argument("module")
    parser.add_argument("--debugger", action="store_true")
    parser.add_argument("--version", type=int, choices=(4, 5), default=4)
    parser.add_argument("--rest", type=int, default=0)
    words = parser.parse_args()
    with open(words.map, "rb") as file, open(words.module, "rb") as module:
        told, (code, _) = json.load(file), plain_run.read_wasm(module.read())
    told["target"] |= {"debugger": words.debugger, "version": words.version}
    with tempfile.TemporaryDirectory() as folder:
        path = os.path.join(folder, "map.json")
        with open(path, "w") as file:
            json.dump(told, file)
        printed = subprocess.run([words.program, path, words.module], capture_output=True, text=True, check=True).stdout
        linked = link(printed, told, folder)
        places = list(shown_sources(stops(linked), list(placed_functions(told, code))))
        pairs = list(zip(places, frames(words.module, [source for _, source in places]), frames(linked, [address for address, _ in places])))
    kinds = [compare(wanted, found) for _, wanted, found in pairs]
    print(os.path.basename(words.module), len(places), "places:", ", ".join(f"{count} {kind}" for kind, count in collections.Counter(kinds).most_common()))
    others = [pair for pair, kind in zip(pairs, kinds) if kind.startswith("other")]
    for (address, source), wanted, found in others[: words.rest]:
        print(f"  {address:#x} of {source:#x}:", [name for name, _ in wanted], [name for name, _ in found])


if __name__ == "__main__":
    main()
