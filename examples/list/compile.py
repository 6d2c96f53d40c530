#!/usr/bin/env python3
"""Compiles a WebAssembly file to x86-64 without optimization: compile.py WASM CODE MAP writes machine code and dwarfcarry's map.

A function gets the context in rdi and its arguments in rsi, rdx, rcx, r8 and r9, and answers in rax. Its frame holds the
context and then its locals, 8 bytes each; the operand stack of WebAssembly is the native stack below them. The context
holds the globals, 8 bytes each, and behind them a pointer to the linear memory. No access to that is checked.
"""

import json
import sys
from dataclasses import dataclass
from pathlib import Path

from assembler import Assembler, Place, number_bytes
from wasm_module import Function, Instruction, Module, Unsupported, read_module

WORD = 8
CONTEXT_SLOT = -WORD  # from rbp on
CONTEXT_LABEL = 4294967294
RBP, RSP, RETURN_ADDRESS = 6, 7, 16  # as DWARF numbers them
CFA_ABOVE_RBP = 2 * WORD  # the return address and the caller's rbp lie between

STORE_ARGUMENT = ["48 89 b5", "48 89 95", "48 89 8d", "4c 89 85", "4c 89 8d"]  # mov [rbp + number], rsi ..
POP_ARGUMENT = ["5e", "5a", "59", "41 58", "41 59"]  # pop rsi ..
LOAD_CONTEXT = "48 8b bd {context}"  # mov rdi, [rbp + context]
LOAD_ADDRESS = "59 89 c9" + LOAD_CONTEXT + "48 03 8f {memory}"  # pop rcx; mov ecx, ecx; LOAD_CONTEXT; add rcx, [rdi + memory]

# Of each instruction but those of control, how much higher the operand stack is behind it, and its machine code.
TEMPLATES = {
    "local.get": (1, "ff b5 {local}"),  # push [rbp + local]
    "local.set": (-1, "8f 85 {local}"),  # pop [rbp + local]
    "local.tee": (0, "58 50 48 89 85 {local}"),  # pop rax; push rax; mov [rbp + local], rax
    "global.get": (1, LOAD_CONTEXT + "ff b7 {global}"),  # push [rdi + global]
    "global.set": (-1, LOAD_CONTEXT + "8f 87 {global}"),  # pop [rdi + global]
    "i32.load": (0, LOAD_ADDRESS + "8b 81 {number} 50"),  # mov eax, [rcx + number]; push rax
    "i32.store": (-2, "58" + LOAD_ADDRESS + "89 81 {number}"),  # pop rax; LOAD_ADDRESS; mov [rcx + number], eax
    "i64.load": (0, LOAD_ADDRESS + "48 8b 81 {number} 50"),  # mov rax, [rcx + number]; push rax
    "i64.store": (-2, "58" + LOAD_ADDRESS + "48 89 81 {number}"),  # pop rax; LOAD_ADDRESS; mov [rcx + number], rax
    "i32.const": (1, "68 {number}"),  # push number
    "i64.const": (1, "68 {number}"),
    "drop": (-1, "58"),  # pop rax
    "select": (-2, "59 5a 58 85 c9 48 0f 44 c2 50"),  # pop rcx; pop rdx; pop rax; test ecx, ecx; cmove rax, rdx; push rax
    "i32.eqz": (0, "58 85 c0 0f 94 c0 0f b6 c0 50"),  # pop rax; test eax, eax; sete al; movzx eax, al; push rax
    "i32.add": (-1, "59 58 01 c8 50"),  # pop rcx; pop rax; add eax, ecx; push rax
    "i32.sub": (-1, "59 58 29 c8 50"),  # the same with sub eax, ecx
    "i32.mul": (-1, "59 58 0f af c1 50"),  # .. imul eax, ecx
    "i32.and": (-1, "59 58 21 c8 50"),  # .. and eax, ecx
    "i32.or": (-1, "59 58 09 c8 50"),  # .. or eax, ecx
    "i32.xor": (-1, "59 58 31 c8 50"),  # .. xor eax, ecx
    "i32.shl": (-1, "59 58 d3 e0 50"),  # .. shl eax, cl
    "i32.shr_s": (-1, "59 58 d3 f8 50"),  # .. sar eax, cl
    "i32.shr_u": (-1, "59 58 d3 e8 50"),  # .. shr eax, cl
}
# Comparisons, by the code of x86-64's condition: pop rcx; pop rax; cmp eax, ecx; set.. al; movzx eax, al; push rax
CONDITIONS = {"eq": "94", "ne": "95", "lt_s": "9c", "lt_u": "92", "gt_s": "9f", "gt_u": "97"}
CONDITIONS |= {"le_s": "9e", "le_u": "96", "ge_s": "9d", "ge_u": "93"}
TEMPLATES |= {f"i32.{name}": (-1, f"59 58 39 c8 0f {code} c0 0f b6 c0 50") for name, code in CONDITIONS.items()}


def local_slot(index: int) -> int:
    """Where a local lies, from rbp on."""
    return CONTEXT_SLOT - WORD * (1 + index)


def memory_offset(module: Module) -> int:
    """Where the pointer to the linear memory lies in the context."""
    return WORD * len(module.global_values)


@dataclass
class Block:
    """A block, a loop or a function that is open, and where a jump to it goes."""

    target: Place
    height: int  # of the operand stack where it begins


class FunctionCompiler:
    """Adds the code of one function to that of its module."""

    def __init__(self, assembler: Assembler, module: Module, function: Function, places: list[Place]):
        self.assembler = assembler
        self.module = module
        self.function = function
        self.places = places
        self.begin = len(assembler.code)
        self.address_map = [[0, function.start]]  # the prologue comes from where the locals are told
        self.height = 0
        self.blocks = [Block(Place(), 0)]

    def length(self) -> int:
        """How much code of the function there is."""
        return len(self.assembler.code) - self.begin

    def compile(self) -> dict:
        """Adds all of the code, and answers what the map tells of it."""
        self.add_prologue()
        body = self.length()
        for instruction in self.function.instructions:
            begin = self.length()
            self.add_instruction(instruction)
            if self.length() > begin:
                self.address_map.append([begin, instruction.offset])
        return self.told(body)

    def told(self, body: int) -> dict:
        """The function's part of the map; its frame is there from `body`, behind the prologue, up to the last byte, a ret."""
        length = self.length()
        slots = {index: local_slot(index) for index in range(self.function.local_count)} | {CONTEXT_LABEL: CONTEXT_SLOT}
        labels = [[label, [[body, length - 1, "cfa", slot - CFA_ABOVE_RBP]]] for label, slot in slots.items()]
        pushed = [[1, ["cfa_offset", CFA_ABOVE_RBP]], [1, ["offset", RBP, -CFA_ABOVE_RBP]], [4, ["cfa_register", RBP]]]
        left = [[length - 1, ["cfa", RSP, WORD]], [length - 1, ["restore", RBP]]]
        return {
            "start": self.function.start,
            "end": self.function.end,
            "body_len": length,
            "map": self.address_map,
            "labels": labels,
            "frame": {"len": length, "ops": pushed + left},
        }

    def add(self, template: str, operand: int = 0) -> None:
        """Adds machine code, with what its template names filled in."""
        fields = {"number": operand, "local": local_slot(operand), "global": WORD * operand}
        fields |= {"context": CONTEXT_SLOT, "memory": memory_offset(self.module)}
        self.assembler.add(template.format_map({name: number_bytes(field).hex() for name, field in fields.items()}))

    def add_prologue(self) -> None:
        self.add("55 48 89 e5")  # push rbp; mov rbp, rsp
        self.add("48 81 ec {number}", -local_slot(self.function.local_count - 1))  # sub rsp, number
        self.add("48 89 bd {context}")  # mov [rbp + context], rdi
        for index in range(self.function.local_count):
            if index < self.function.signature.parameters:
                self.add(STORE_ARGUMENT[index] + "{local}", index)
            else:
                self.add("48 c7 85 {local} 00000000", index)  # mov qword [rbp + local], 0

    def add_instruction(self, instruction: Instruction) -> None:
        if instruction.name == "i64.const" and not -(2**31) <= instruction.operand < 2**31:
            raise Unsupported(f"the constant {instruction.operand} at {instruction.offset}")
        if instruction.name in TEMPLATES:
            change, template = TEMPLATES[instruction.name]
            self.add(template, instruction.operand)
            self.height += change
        else:
            getattr(self, "add_" + instruction.name)(instruction.operand)

    def add_call(self, index: int) -> None:
        called = self.module.functions[index].signature
        for pop in reversed(POP_ARGUMENT[: called.parameters]):
            self.add(pop)
        self.add(LOAD_CONTEXT)
        self.assembler.jump("e8", self.places[index])  # call
        self.add("50" * called.results)  # push rax
        self.height += called.results - called.parameters

    def add_block(self, _: int) -> None:
        self.blocks.append(Block(Place(), self.height))

    def add_loop(self, _: int) -> None:
        self.blocks.append(Block(Place(len(self.assembler.code)), self.height))

    def add_br(self, depth: int) -> None:
        self.add_jump("e9", depth)  # jmp

    def add_br_if(self, depth: int) -> None:
        self.add("58 85 c0")  # pop rax; test eax, eax
        self.height -= 1
        self.add_jump("0f 85", depth)  # jne

    def add_jump(self, jump: str, depth: int) -> None:
        block = self.blocks[-1 - depth]
        if block is self.blocks[0] or block.height != self.height:
            raise Unsupported("a jump that leaves the function, or values on the stack")
        self.assembler.jump(jump, block.target)

    def add_return(self, _: int) -> None:
        self.add("58" * self.function.signature.results)  # pop rax
        self.assembler.jump("e9", self.blocks[0].target)  # jmp

    def add_end(self, _: int) -> None:
        block = self.blocks.pop()
        self.height = block.height
        if not self.blocks:
            self.add("58" * self.function.signature.results)  # pop rax
        if block.target.position is None:
            self.assembler.put(block.target)
        if not self.blocks:
            self.add("c9 c3")  # leave; ret


def compile_module(module: Module) -> tuple[bytes, list[dict]]:
    """The code of all functions, one behind another, and what the map tells of each."""
    assembler, told = Assembler(), []
    places = [Place() for _ in module.functions]
    for index, function in enumerate(module.functions):
        assembler.put(places[index])
        told.append({"symbol": index} | FunctionCompiler(assembler, module, function, places).compile())
    return assembler.finish(), told


def map_of(path: str, module: Module, functions: list[dict]) -> dict:
    """The map file, as dwarfcarry reads it."""
    rules = [["cfa", RSP, WORD], ["offset", RETURN_ADDRESS, -WORD]]  # at the begin of each function
    cie = {"code_factor": 1, "data_factor": -WORD, "return_register": RETURN_ADDRESS, "ops": rules}
    told = {"path": path, "memory": {"defined": memory_offset(module)}, "functions": functions}
    return {"target": {"arch": "x86_64", "debugger": True, "cie": cie}, "names": ["set_mem", "resolve_mem"], "modules": [told]}


def main() -> None:
    wasm_path, code_path, map_path = sys.argv[1:]
    module = read_module(Path(wasm_path).read_bytes())
    code, functions = compile_module(module)
    Path(code_path).write_bytes(code)
    Path(map_path).write_text(json.dumps(map_of(wasm_path, module, functions)) + "\n")


if __name__ == "__main__":
    main()
