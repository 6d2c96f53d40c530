#!/usr/bin/env python3
"""Counts the location expressions of WebAssembly files by what is proved of them: count_expressions.py MODULE...

The kinds are those of docs/PROVED.md, section Expressions. Frame bases, call sites and members are left out. It reads what llvm-dwarfdump
prints.
"""

import collections
import re
import shutil
import subprocess
import sys

CONSTANTS = set("const1u const1s const2u const2s const4u const4s const8u const8s constu consts".split()) | {f"lit{n}" for n in range(32)}
LOW = set("plus plus_uconst minus mul neg and or xor not dup drop over pick swap rot nop WASM_location fbreg deref".split())
SHIFTS = {"shl", "shr", "shra"}
NO_MEANING = set("abs div mod eq ge gt le lt ne bra skip piece bit_piece deref_size xderef xderef_size".split())
KNOWN = CONSTANTS | LOW | SHIFTS | NO_MEANING | {"stack_value"}
PASSED = re.compile(r"DW_AT_(frame_base|GNU_call|call_|data_member)")
EXPRESSION = re.compile(r"(?:DW_AT_\w+\s+\(|\): )(DW_OP_.*?)\)*$")


def is_count(name: str, operand: int) -> bool:
    """Whether an operation pushes a count of a shift below 32."""
    return name in CONSTANTS and (name.startswith("lit") or 0 <= operand < 32)


def kind(operations: list[tuple[str, list[int]]]) -> str:
    names = [name for name, _ in operations]
    if any(name not in KNOWN or name == "WASM_location" and operands[0] != 0 for name, operands in operations):
        return "not supported"
    if names == ["WASM_location", "stack_value"]:
        return "the place of a local"
    marked = sorted(set(names) & NO_MEANING)
    if marked:
        return "keeps no meaning: " + " ".join(marked)
    counted = [i > 0 and is_count(names[i - 1], *operations[i - 1][1][:1] or [0]) for i, name in enumerate(names) if name in SHIFTS]
    if not all(counted) or "stack_value" in names[:-1]:
        return "keeps no meaning: shift or mark"
    return "keeps its meaning"


def operation(text: str) -> tuple[str, list[int]]:
    """An operation with its operands, as llvm-dwarfdump prints it."""
    name, *operands = text.removeprefix("DW_OP_").split()
    return name, [int(it, 0) for it in operands if re.fullmatch(r"[+-]?(0x)?[0-9a-f]+", it)]


def expressions(path: str):
    tool = next(filter(None, map(shutil.which, ("llvm-dwarfdump-19", "llvm-dwarfdump", "llvm-dwarfdump-14"))))
    printed = subprocess.run([tool, "--debug-info", path], capture_output=True, text=True, check=True).stdout
    for line in printed.splitlines():
        found = None if PASSED.search(line) else EXPRESSION.search(line)
        if found:
            yield [operation(text.strip()) for text in found[1].split(", ")]


def main() -> None:
    for path in sys.argv[1:]:
        counts = collections.Counter(map(kind, expressions(path)))
        print(path, sum(counts.values()))
        for name, count in counts.most_common():
            print(f"  {count:6} {name}")


if __name__ == "__main__":
    main()
