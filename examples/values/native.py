#!/usr/bin/env python3
"""Makes native code of values.wasm and the program of it, by the compiler of examples/list with three changes.

    native.py code MODULE.wasm CODE MAP
    native.py program PROGRAM MODULE.wasm CODE MAP PRINTED

- One local of each function lies in the register rbx: local 1, or local 0 where there is no other. A call may change rbx. So the local
  is stored in its slot of the frame before a call, and loaded again behind it. The map tells both places.
- Sums are made of 64 bits. So the upper half of a register or a slot is not always 0, and only the lower one is the local.
- The native stack lies at an address of its own, so that each run has the same frames.
"""

import json
import sys
from pathlib import Path

sys.path.append(str(Path(__file__).resolve().parent.parent / "list"))

import compile as baseline
import elf
import link
from wasm_module import Module, read_module

RBX = 3  # as DWARF numbers it
STACK_TOP, STACK_SIZE = 0x700000, 0x10000
SET_STACK = "BC 00007000"  # mov esp, STACK_TOP

IN_REGISTER = {
    "local.get": (1, "53"),  # push rbx
    "local.set": (-1, "5b"),  # pop rbx
    "local.tee": (0, "58 50 48 89 c3"),  # pop rax; push rax; mov rbx, rax
}
MOVE_ARGUMENT = ["48 89 f3", "48 89 d3", "48 89 cb", "4c 89 c3", "4c 89 cb"]  # mov rbx, rsi ..
CLEAR = "31 db"  # xor ebx, ebx
STORE = "48 89 9d {local}"  # mov [rbp + local], rbx
LOAD = "48 8b 9d {local}"  # mov rbx, [rbp + local]
baseline.TEMPLATES["i32.add"] = (-1, "59 58 48 01 c8 50")  # pop rcx; pop rax; add rax, rcx; push rax


class FunctionCompiler(baseline.FunctionCompiler):
    """Adds the code of one function, with a local in rbx."""

    def __init__(self, *words):
        super().__init__(*words)
        self.kept = min(1, self.function.local_count - 1)  # the local that lies in rbx
        self.in_slot: list[list[int]] = []  # the ranges of code over which it lies in its slot instead

    def add_prologue(self) -> None:
        super().add_prologue()
        is_parameter = self.kept < self.function.signature.parameters
        self.add(MOVE_ARGUMENT[self.kept] if is_parameter else CLEAR)

    def add_instruction(self, instruction) -> None:
        if instruction.name in IN_REGISTER and instruction.operand == self.kept:
            change, template = IN_REGISTER[instruction.name]
            self.add(template)
            self.height += change
        else:
            super().add_instruction(instruction)

    def add_call(self, index: int) -> None:
        self.add(STORE, self.kept)
        begin = self.length()
        super().add_call(index)
        self.add(LOAD, self.kept)
        self.in_slot.append([begin, self.length()])

    def told(self, body: int) -> dict:
        """The function's part of the map. Of ranges that overlap the last one counts."""
        told = super().told(body)
        ranges = next(ranges for label, ranges in told["labels"] if label == self.kept)
        [[begin, end, kind, offset]] = ranges
        ranges[:] = [[begin, end, "reg", RBX], *([first, last, kind, offset] for first, last in self.in_slot)]
        return told


def make_code(wasm: str, code: str, told: str) -> None:
    """Writes machine code and map."""
    baseline.FunctionCompiler = FunctionCompiler
    module = read_module(Path(wasm).read_bytes())
    body, functions = baseline.compile_module(module)
    whole = baseline.map_of(wasm, module, functions)
    whole["target"]["registers"] = [[RBX, RBX]]
    Path(code).write_bytes(body)
    Path(told).write_text(json.dumps(whole) + "\n")


def loaded_sections(code: link.Code, module: Module) -> list[elf.Section]:
    """Code, context, linear memory and native stack."""
    writable = elf.LOADED | elf.WRITABLE
    return [
        elf.Section(".text", code.body, flags=elf.LOADED | elf.EXECUTABLE, address=link.TEXT),
        elf.Section(".data", link.data_body(module), flags=writable, address=link.DATA),
        elf.Section(".memory", b"", elf.ZEROS, writable, link.MEMORY, module.memory_size),
        elf.Section(".stack", b"", elf.ZEROS, writable, STACK_TOP - STACK_SIZE, STACK_SIZE),
    ]


def make_program(path: str, wasm: str, code: str, told: str, printed: str) -> None:
    """Writes the executable, with the sections that dwarfcarry printed."""
    link.START = SET_STACK + link.START
    module = read_module(Path(wasm).read_bytes())
    map_ = json.loads(Path(told).read_text())["modules"][0]
    lengths = [function["body_len"] for function in map_["functions"]]
    compiled = link.Code(Path(code).read_bytes(), link.compiled_functions(module, lengths))
    addresses = [link.TEXT + begin for _, begin, _ in compiled.functions]
    whole = link.with_run_time(compiled, map_["memory"]["defined"])
    sections = loaded_sections(whole, module) + link.read_printed(Path(printed).read_text(), addresses)
    symbols = link.symbols_of(whole, module)
    entry = next(symbol.address for symbol in symbols if symbol.name == "_start")
    Path(path).write_bytes(elf.executable(entry, sections, symbols))
    Path(path).chmod(0o755)


def main() -> None:
    kind, *words = sys.argv[1:]
    {"code": make_code, "program": make_program}[kind](*words)


if __name__ == "__main__":
    main()
