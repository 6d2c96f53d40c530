#!/usr/bin/env python3
"""Makes an executable of compiled code and of what dwarfcarry prints: link.py EXECUTABLE WASM CODE MAP [PRINTED].

Behind the compiled functions it has a run time of three: `_start` calls the function `run` and exits with its result,
`set_mem` notes the context of which addresses are meant, and `resolve_mem` makes a native address of a wasm one.
"""

import json
import sys
from dataclasses import dataclass
from pathlib import Path

import elf
from assembler import Assembler, Place, number_bytes
from wasm_module import Module, read_module

WORD = 8
TEXT, DATA, MEMORY = 0x401000, 0x500000, 0x600000  # the addresses of code, context and linear memory
CURRENT = DATA  # the context that was noted last
CONTEXT = DATA + WORD

START = "BF {context}"  # mov edi, context
EXIT = "89 C7 B8 3C000000 0F 05"  # mov edi, eax; mov eax, 60; syscall
SET_MEM = "48 89 3C 25 {current} C3"  # mov [current], rdi; ret
RESOLVE_MEM = "8B 07 48 8B 0C 25 {current} 48 03 81 {memory} C3"  # mov eax, [rdi]; mov rcx, [current]; add rax, [rcx + memory]; ret


@dataclass
class Code:
    """Machine code, and where each function of it begins and ends."""

    body: bytes
    functions: list[tuple[str, int, int]]


def compiled_functions(module: Module, lengths: list[int]) -> list[tuple[str, int, int]]:
    functions, begin = [], 0
    for function, length in zip(module.functions, lengths):
        functions.append((function.name, begin, begin + length))
        begin += length
    return functions


def with_run_time(code: Code, memory_offset: int) -> Code:
    """The code with the functions of the run time behind it."""
    fields = {"context": CONTEXT, "current": CURRENT, "memory": memory_offset}
    fields = {name: number_bytes(field).hex() for name, field in fields.items()}
    assembler, functions = Assembler(), list(code.functions)
    assembler.code += code.body
    run = next(begin for name, begin, _ in functions if name == "run")
    begin = len(assembler.code)
    assembler.add(START.format_map(fields))
    assembler.jump("E8", Place(run))  # call run
    assembler.add(EXIT)
    functions.append(("_start", begin, len(assembler.code)))
    for name, template in (("set_mem", SET_MEM), ("resolve_mem", RESOLVE_MEM)):
        begin = len(assembler.code)
        assembler.add(template.format_map(fields))
        functions.append((name, begin, len(assembler.code)))
    return Code(assembler.finish(), functions)


def data_body(module: Module) -> bytes:
    """The pointer to the current context, which is none yet, and the context: the globals and the pointer to the memory."""
    words = [0, *module.global_values, MEMORY]
    return b"".join(word.to_bytes(WORD, "little") for word in words)


def read_printed(text: str, addresses: list[int]) -> list[elf.Section]:
    """The sections that dwarfcarry printed, with their relocations filled in."""
    sections, lines = [], iter(text.splitlines())
    for line in lines:
        words = line.split()
        if words[0] == "section":
            sections.append(elf.Section(words[1], bytes.fromhex(next(lines))))
        else:
            relocate(sections[-1], words, addresses)
    return sections


def relocate(section: elf.Section, words: list[str], addresses: list[int]) -> None:
    """Fills in one field: `reloc OFFSET SIZE func NUMBER ADDEND` or `reloc OFFSET SIZE section NAME ADDEND`."""
    _, offset, size, kind, target, addend = words
    base = addresses[int(target)] if kind == "func" else 0  # in the file, each section of DWARF has its own, so it begins at 0
    begin, end = int(offset), int(offset) + int(size)
    field = (base + int(addend)).to_bytes(int(size), "little")
    section.body = section.body[:begin] + field + section.body[end:]


def symbols_of(code: Code, module: Module) -> list[elf.Symbol]:
    functions = [elf.Symbol(name, elf.GLOBAL_FUNCTION, 1, TEXT + begin, end - begin) for name, begin, end in code.functions]
    context = elf.Symbol("context", elf.GLOBAL_OBJECT, 2, CONTEXT, WORD * (len(module.global_values) + 1))
    memory = elf.Symbol("memory", elf.GLOBAL_OBJECT, 3, MEMORY, module.memory_size)
    return [*functions, context, memory]


def main() -> None:
    path, wasm_path, code_path, map_path, *printed_paths = sys.argv[1:]
    module = read_module(Path(wasm_path).read_bytes())
    told = json.loads(Path(map_path).read_text())["modules"][0]
    lengths = [function["body_len"] for function in told["functions"]]
    code = Code(Path(code_path).read_bytes(), compiled_functions(module, lengths))
    addresses = [TEXT + begin for _, begin, _ in code.functions]
    code = with_run_time(code, told["memory"]["defined"])
    sections = [
        elf.Section(".text", code.body, flags=elf.LOADED | elf.EXECUTABLE, address=TEXT),
        elf.Section(".data", data_body(module), flags=elf.LOADED | elf.WRITABLE, address=DATA),
        elf.Section(".memory", b"", elf.ZEROS, elf.LOADED | elf.WRITABLE, MEMORY, module.memory_size),
    ]
    for printed_path in printed_paths:
        sections += read_printed(Path(printed_path).read_text(), addresses)
    symbols = symbols_of(code, module)
    entry = next(symbol.address for symbol in symbols if symbol.name == "_start")
    Path(path).write_bytes(elf.executable(entry, sections, symbols))
    Path(path).chmod(0o755)


if __name__ == "__main__":
    main()
