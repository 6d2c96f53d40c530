#!/usr/bin/env python3
"""Stops a program of build.py at random instructions, and counts where gdb's line is right: stops.py FOLDER [COUNT [SEED]]

At each stop gdb's file and line and its chain of inlined functions are compared with what LLVM reads in the WebAssembly file itself, at
the instruction that the stopped code comes from by gcc's table. gdb never sees that table, nor LLVM what dwarfcarry wrote. A stop
whose instruction has no line in the WebAssembly file is counted apart. A function without debugging information is right where gdb
shows the place of the instruction in that file.
"""

import argparse
import bisect
import json
import random
import re
import subprocess
import sys
from collections import Counter
from pathlib import Path

from wasm2c_map import read_bodies, read_module, read_rows, tool

BATCH = 400  # breakpoints at once
STOPPING = """
import gdb
import json

def told(frame):
    place = frame.find_sal()
    chain = [frame]
    while chain[-1].type() == gdb.INLINE_FRAME:
        chain.append(chain[-1].older())
    oldest = chain[-1]
    while oldest.older():
        oldest = oldest.older()
    file = place.symtab.filename if place.symtab else "?"
    return [hex(frame.pc()), file, place.line, [it.name() for it in chain], oldest.name()]

gdb.execute("set confirm off")
gdb.execute("set pagination off")
for address in {addresses!r}:
    gdb.execute("tbreak *" + hex(address), to_string=True)
gdb.execute("run > /dev/null", to_string=True)
while gdb.selected_inferior().pid:
    print("stop " + json.dumps(told(gdb.newest_frame())))
    gdb.execute("continue", to_string=True)
"""


def instructions(program: Path, names: set[str]) -> list[int]:
    """The addresses of the instructions of the functions that come from WebAssembly."""
    found, wanted = [], False
    for line in tool("objdump", "-d", "--no-show-raw-insn", str(program)).splitlines():
        head = re.match(r"[0-9a-f]+ <(\w+)>:", line)
        if head:
            wanted = head.group(1) in names
        elif wanted and line.startswith(" "):
            found.append(int(line.split(":")[0], 16))
    return found


def stops_at(folder: Path, addresses: list[int]) -> list:
    script = folder / "stopping.py"
    script.write_text(STOPPING.format(addresses=addresses))
    words = ["gdb", "-nx", "-batch", "-x", script.name, "program"]
    text = subprocess.run(words, cwd=folder, capture_output=True, text=True).stdout
    return [json.loads(line.removeprefix("stop ")) for line in text.splitlines() if line.startswith("stop ")]


def read_by_llvm(module: Path, places: list[int]) -> list[tuple[str, int, list[str]]]:
    """File, line and chain of functions at places of the module's code, counted from its contents."""
    words = ("llvm-symbolizer", "--output-style=JSON", "--functions=short", "-e", str(module))
    answers = tool(*words, given="\n".join(hex(place) for place in places) + "\n").splitlines()
    chains = [json.loads(answer).get("Symbol") or [{}] for answer in answers]
    return [(chain[0].get("FileName", ""), chain[0].get("Line", 0), [it.get("FunctionName", "") for it in chain]) for chain in chains]


def plain_name(name: str) -> str:
    """The name of a function without its class and its parameters."""
    return name.split("(")[0].split("::")[-1]


def judge(stop: list, source: int, llvm: tuple[str, int, list[str]]) -> str:
    _, file, line, chain, _ = stop
    if llvm[1] == 0:
        if not llvm[0] and file.endswith(".wasm"):
            return "right by offset" if line == source else "wrong offset"
        return "no line in the input"
    if (Path(file).name, line) != (Path(llvm[0]).name, llvm[1]):
        return "wrong line"
    same = [plain_name(name or "") for name in chain] == [plain_name(name) for name in llvm[2]]
    return "right line and chain" if same else "right line, other chain"


def some_stops(folder: Path, count: int, chance: random.Random) -> list:
    """As many stops as are wanted, or as the program makes."""
    names = set((folder / "names.txt").read_text().split())
    addresses = instructions(folder / "program", names)
    chance.shuffle(addresses)
    stops = []
    while len(stops) < count and addresses:
        batch, addresses = addresses[:BATCH], addresses[BATCH:]
        stops += stops_at(folder, batch)
    return stops[:count]


def sources_of(folder: Path, stops: list) -> list[int]:
    """The place in the WebAssembly file of the instruction that each stop is in, by gcc's table."""
    rows = read_rows(str(folder / "by-offsets"))
    starts = [address for address, _ in rows]
    sources = [rows[bisect.bisect_right(starts, int(stop[0], 16)) - 1][1] for stop in stops]
    first = {body.start: body.instructions[0].offset for body in read_bodies(str(folder / "program.wasm"))}
    return [first.get(source, source) for source in sources]


def judged(folder: Path, count: int, seed: int) -> None:
    module = folder / "program.wasm"
    stops = some_stops(folder, count, random.Random(seed))
    sources = sources_of(folder, stops)
    offset = read_module(str(module), module.read_bytes()).code_offset
    told = read_by_llvm(module, [source - offset for source in sources])
    verdicts = [judge(*it) for it in zip(stops, sources, told)]
    for verdict, number in Counter(verdicts).most_common():
        print(f"{number:5} {verdict}")
    print(f"{sum(stop[-1] == 'main' for stop in stops):5} of {len(stops)} with a backtrace that ends in main")
    for stop, source, llvm, verdict in zip(stops, sources, told, verdicts):
        if "wrong" in verdict or "other" in verdict:
            print(" ", verdict, stop, source, llvm)


def main() -> int:
    parser = argparse.ArgumentParser(description=__doc__.splitlines()[0])
    parser.add_argument("folder", type=Path)
    parser.add_argument("count", type=int, nargs="?", default=1000)
    parser.add_argument("seed", type=int, nargs="?", default=1)
    words = parser.parse_args()
    try:
        judged(words.folder, words.count, words.seed)
    except (OSError, subprocess.CalledProcessError) as error:
        print(f"stops.py: {error}", file=sys.stderr)
        return 1
    return 0


if __name__ == "__main__":
    sys.exit(main())
