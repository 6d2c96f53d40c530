#!/usr/bin/env python3
"""Says where and why dwarfcarry refuses a map, or why a map does not fit its modules: check_map.py MAP MODULE...

A line for each fault, with the field that it is in:

    malformed    the map is no JSON, or has no value as a map of these modules (status 6)
    bad          an address map breaks a rule (13), two functions have one symbol (21), a frame cannot be written (17, 18), or a
                 function is too long (20)
    in a label   a range begins above its end (14), or names a register without a number (16); refused where an expression needs it
    unfit        the bounds of a function are not those of its body in the module, so the map is of another file; not refused

The status is 0 without a fault, 1 with one, and 2 where a file cannot be read.
"""

import sys
from pathlib import Path

from map_reading import Fault, read_map
from map_rules import label_faults, map_faults, unfit_functions
from wasm_bodies import MalformedModule, Module, read_module

SHOWN = 20  # faults of each kind


def faults_of(map_bytes: bytes, modules: list[Module]) -> list[Fault]:
    """The faults of a map; where it is malformed, what makes it so alone."""
    value, malformed = read_map(map_bytes, [module.defined for module in modules])
    if malformed:
        return malformed
    return [*map_faults(value, modules), *label_faults(value), *unfit_functions(value, modules)]


def show(faults: list[Fault]) -> None:
    counts: dict[str, int] = {}
    for fault in faults:
        counts[fault.kind] = counts.get(fault.kind, 0) + 1
        if counts[fault.kind] <= SHOWN:
            print(f"{fault.kind}: {fault.where}: {fault.why}")
    for kind, count in counts.items():
        if count > SHOWN:
            print(f"{kind}: {count - SHOWN} more")


def main() -> int:
    if len(sys.argv) < 3:
        print("usage: check_map.py MAP MODULE...", file=sys.stderr)
        return 2
    map_path, *module_paths = sys.argv[1:]
    try:
        modules = [read_module(path, Path(path).read_bytes()) for path in module_paths]
        faults = faults_of(Path(map_path).read_bytes(), modules)
    except (OSError, MalformedModule) as error:
        print(f"check_map.py: {error}", file=sys.stderr)
        return 2
    show(faults)
    return 1 if faults else 0


if __name__ == "__main__":
    sys.exit(main())
