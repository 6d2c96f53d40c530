#!/usr/bin/env python3
"""Ties C that wasm2c makes to its WebAssembly file, and reads of gcc's tables what dwarfcarry's map wants.

    wasm2c_map.py lines MODULE.wasm GENERATED.c NAMES [--pin] > LINES.c
    wasm2c_map.py map MODULE.wasm NAMES PROGRAM > MAP.json

`lines` puts `#line OFFSET "wasm"` in front of each statement, OFFSET being the place of its instruction in MODULE.wasm, and makes
functions global and never inlined. It writes their symbols to NAMES. --pin keeps each local in memory, for gcc -O2. `map` reads the
tables of PROGRAM, which gcc made of LINES.c with -g, by llvm-dwarfdump and llvm-symbolizer.
"""

import bisect
import json
import re
import shutil
import subprocess
import sys
from dataclasses import dataclass
from pathlib import Path

sys.path.append(str(Path(__file__).resolve().parents[2] / "tools"))

from wasm_bodies import MalformedModule, Reader, read_module

SOURCE = "wasm"  # the name of the file in #line
CONTEXT_LABEL = 4294967294

BLOCKS, IF, ELSE, END = (0x02, 0x03), 0x04, 0x05, 0x0B
LEAVING = (0x00, 0x0C, 0x0E, 0x0F)  # unreachable, br, br_table and return: wasm2c leaves out what follows in the block
SILENT = (0x01, 0x1A)  # nop and drop have no statement
LOCAL_GET, LOCAL_SET, LOCAL_TEE = 0x20, 0x21, 0x22
# How many numbers in LEB128 stand behind each opcode; 0 for those that are not named. Fixed bytes are apart.
NUMBERS = {op: 1 for op in (*BLOCKS, IF, 0x0C, 0x0D, 0x10, *range(0x20, 0x27), 0x3F, 0x40, 0x41, 0x42, 0xD0, 0xD2)}
NUMBERS |= {0x11: 2} | {op: 2 for op in range(0x28, 0x3F)}
FIXED = {0x43: 4, 0x44: 8}  # f32.const and f64.const
KNOWN = {*range(6), *range(0x0B, 0x12), 0x1A, 0x1B, 0x1C, *range(0x20, 0x27), *range(0x28, 0xC5), 0xD0, 0xD1, 0xD2, 0xFC}
PREFIXED = {op: 0 for op in range(8)} | {8: 2, 10: 2, 11: 1, 12: 2, 14: 2, 15: 1, 16: 1, 17: 1}  # behind 0xFC


class Unsupported(Exception):
    """Something that this script does not know."""


@dataclass
class Instruction:
    offset: int  # in the file
    opcode: int
    operand: int


@dataclass
class Body:
    start: int  # in the file, behind the size
    end: int
    instructions: list[Instruction]


def read_instruction(reader: Reader) -> Instruction:
    offset, opcode = reader.position, reader.byte()
    operand = 0
    if opcode in (0x0E, 0x1C):  # br_table, and select with types
        count = reader.number() + (opcode == 0x0E)
    else:
        count = PREFIXED.get(reader.number()) if opcode == 0xFC else NUMBERS.get(opcode, 0)
    if count is None or opcode not in KNOWN:
        raise Unsupported(f"the instruction {opcode:#04x} at {offset}")
    for _ in range(count):
        operand = reader.number()
    reader.position += FIXED.get(opcode, 0)
    return Instruction(offset, opcode, operand)


def read_body(data: bytes, start: int, end: int) -> Body:
    reader, instructions = Reader(data, start), []
    for _ in range(reader.number()):
        reader.number(), reader.byte()  # locals of one type
    while reader.position < end:
        instructions.append(read_instruction(reader))
    return Body(start, end, instructions)


def read_bodies(path: str) -> list[Body]:
    """The functions that a file defines."""
    data = Path(path).read_bytes()
    return [read_body(data, start, end) for start, end in read_module(path, data).bodies]


def with_statement(body: Body) -> list[Instruction]:
    """The instructions of which wasm2c makes a statement, in order: those that control may come to."""
    live, open_blocks, found = True, [], []
    for it in body.instructions:
        if it.opcode in (*BLOCKS, IF):
            open_blocks.append(live)
            if live and it.opcode == IF:
                found.append(it)
        elif it.opcode == ELSE:
            live = open_blocks[-1]
        elif it.opcode == END:
            live = open_blocks.pop() if open_blocks else live
        elif live and it.opcode not in SILENT:
            found.append(it)
            live = it.opcode not in LEAVING
    return found


# ---- The C of wasm2c

HEAD = re.compile(r"static \w+(?: \w+)? (w2c_\w+)\(\w+\* ?(instance)?")
STRUCTURE = re.compile(r"\s*(w2c_\w+: ?;?|\}|\} else \{|)\s*$|\s*(case \d+|default): ")
DECLARATION = re.compile(r"  (u32|u64|f32|f64|wasm_rt_\w+) w2c_\w+[,;]")
PARAMETER = re.compile(r" (w2c_p\d+)[,)]")
ASSIGNED = re.compile(r"\s*(w2c_[pl]\d+) = ")
PIN = ' __asm__ volatile("" :: "m"({}));'


def is_statement_of(line: str, it: Instruction) -> bool:
    """Whether a statement can be that of an instruction; those of locals name them."""
    if it.opcode == LOCAL_GET:
        return re.search(rf"= w2c_[pl]{it.operand};$", line) is not None
    if it.opcode in (LOCAL_SET, LOCAL_TEE):
        return re.match(rf"\s*w2c_[pl]{it.operand} = ", line) is not None
    return ASSIGNED.match(line) is None


class Annotator:
    """Writes C again with lines in front, function by function."""

    def __init__(self, bodies: list[Body], pins: bool):
        self.bodies = iter(bodies)
        self.pins = pins
        self.names: list[str] = []
        self.out: list[str] = []

    def add(self, offset: int, line: str) -> None:
        self.out += [f'#line {offset} "{SOURCE}"', line]

    def function(self, name: str, lines) -> None:
        """A function, from its head on; `lines` goes on behind that."""
        body = next(self.bodies)
        self.names.append(name)
        head = self.head(body, lines)
        pinned = ["instance", *PARAMETER.findall(head)] if self.pins else []
        self.add(body.start, "".join(map(PIN.format, pinned)))
        self.statements(body, lines)

    def head(self, body: Body, lines) -> str:
        """Passes what declares parameters and locals, up to the prologue."""
        text = self.out.pop()
        self.add(body.start, text.replace("static ", "__attribute__((noipa)) ", 1))
        while (line := next(lines)) != "  FUNC_PROLOGUE;":
            self.add(body.start, line)
            text += "\n" + line
        return text.split("{")[0]

    def statements(self, body: Body, lines) -> None:
        wanted, offset, declares = iter(with_statement(body)), body.start, False
        while (line := next(lines)) != "  FUNC_EPILOGUE;":
            declares = declares or DECLARATION.match(line) is not None
            if not declares and not STRUCTURE.match(line):
                it = next(wanted, None)
                if it is None or not is_statement_of(line, it):
                    raise Unsupported(f"{self.names[-1]}: a statement that is not of its instruction: {line.strip()}")
                offset = it.offset
                assigned = ASSIGNED.match(line)
                line += PIN.format(assigned.group(1)) if assigned and self.pins else ""
            declares = declares and not line.endswith(";")
            self.add(offset, line)
        if next(wanted, None):
            raise Unsupported(f"{self.names[-1]}: fewer statements than instructions")
        while line != "}":
            self.add(body.end - 1, line)
            line = next(lines)
        self.add(body.end - 1, line)


def annotated(bodies: list[Body], text: str, pins: bool) -> Annotator:
    made = Annotator(bodies, pins)
    lines = iter(text.splitlines())
    for line in lines:
        line = line.replace("static inline ", "static inline __attribute__((always_inline)) ")
        found = HEAD.match(line)
        if found and line.endswith(";"):
            line = line.replace("static ", "__attribute__((noipa)) ", 1)
        made.out.append(line)
        if found and not line.endswith(";") and found.group(2):
            made.function(found.group(1), lines)
    if next(made.bodies, None):
        raise Unsupported("C with fewer functions than the module")
    return made


# ---- gcc's tables


@dataclass
class Told:
    """What gcc tells of a function."""

    low: int
    high: int
    places: dict[str, int]  # offsets of variables from the canonical frame address


def tool(name: str, *words: str, given: str | None = None) -> str:
    """What a tool prints; Debian's names of LLVM's tools end in the version."""
    path = next(filter(None, map(shutil.which, (name, f"{name}-19", f"{name}-14"))), name)
    return subprocess.run([path, *words], input=given, capture_output=True, text=True, check=True).stdout


ENTRY = re.compile(r"0x[0-9a-f]+:( +)DW_TAG_(\w+)|\s+DW_AT_(\w+)\t\((.*)\)$")


def entries_of(program: str):
    """The entries of the DWARF of a program: depth, tag, attributes as text."""
    depth, tag, attributes = 0, "", {}
    for line in tool("llvm-dwarfdump", "--debug-info", program).splitlines():
        found = ENTRY.match(line)
        if found and found.group(2):
            yield depth, tag, attributes
            depth, tag, attributes = len(found.group(1)), found.group(2), {}
        elif found:
            attributes[found.group(3)] = found.group(4)
    yield depth, tag, attributes


def read_told(program: str) -> tuple[dict[str, Told], int | None]:
    """The functions by their names, and where the memory lies in the instance."""
    functions, memory, places, level = {}, None, {}, 0
    for depth, tag, attributes in entries_of(program):
        name = attributes.get("name", "").strip('"')
        if tag == "subprogram" and "low_pc" in attributes:
            level, places = depth, {}
            functions[name] = Told(int(attributes["low_pc"], 16), int(attributes["high_pc"], 16), places)
        elif depth == level + 2 and (place := re.fullmatch(r"DW_OP_fbreg ([+-]\d+)", attributes.get("location", ""))):
            places[name] = int(place.group(1))
        elif tag == "member" and attributes.get("type", "").endswith('"wasm_rt_memory_t"'):
            memory = int(attributes["data_member_location"], 16)
    return functions, memory


def read_rows(program: str) -> list[tuple[int, int | None]]:
    """Addresses with the offset in the module of the code from there on; what was inlined belongs to the call."""
    rows = re.findall(r"^(0x[0-9a-f]{16}) ", tool("llvm-dwarfdump", "--debug-line", program), re.MULTILINE)
    addresses = sorted(set(rows))
    words = ("llvm-symbolizer", "--inlines", "--functions=none", "-e", program)
    answers = tool(*words, given="\n".join(addresses) + "\n").strip().split("\n\n")
    outermost = [re.fullmatch(rf"(?:.*/)?{SOURCE}:(\d+):\d+", answer.splitlines()[-1]) for answer in answers]
    return [(int(address, 16), int(found.group(1)) if found else None) for address, found in zip(addresses, outermost, strict=True)]


def labels_of(told: Told, begin: int) -> list:
    """Where locals and the context lie, behind the prologue."""
    numbers = {name: int(name[5:]) for name in told.places if re.fullmatch(r"w2c_[pl]\d+", name)} | {"instance": CONTEXT_LABEL}
    length = told.high - told.low
    return [[number, [[begin, length, "cfa", told.places[name]]]] for name, number in numbers.items() if name in told.places]


def map_function(symbol: int, body: Body, told: Told, rows: list[tuple[int, int | None]]) -> dict:
    low, high = (bisect.bisect_left(rows, address, key=lambda row: row[0]) for address in (told.low, told.high))
    own = [rows[i] for i in range(low, high) if i == low or rows[i][1] != rows[i - 1][1]]
    own = [(address - told.low, source) for address, source in own]
    first = body.instructions[0].offset
    begin = next((native for native, source in own if source is not None and source >= first), 0)
    entries = [[native, None if source is None else max(source, first)] for native, source in own]
    bounds = {"symbol": symbol, "start": body.start, "end": body.end, "body_len": told.high - told.low}
    return bounds | {"map": entries, "labels": labels_of(told, begin)}


def map_of(module: str, names: list[str], program: str) -> dict:
    functions, memory = read_told(program)
    rows = read_rows(program)
    bodies = read_bodies(module)
    made = [map_function(i, body, functions[name], rows) for i, (name, body) in enumerate(zip(names, bodies, strict=True))]
    told = {"path": str(Path(module).resolve()), "memory": None if memory is None else {"defined": memory}, "functions": made}
    return {"target": {"arch": "x86_64", "debugger": True}, "names": ["set_mem", "resolve_mem"], "modules": [told]}


def main() -> int:
    command, *words = sys.argv[1:] or [""]
    try:
        if command == "lines" and len(words) in (3, 4):
            module, generated, names = words[:3]
            made = annotated(read_bodies(module), Path(generated).read_text(), words[3:] == ["--pin"])
            Path(names).write_text("".join(name + "\n" for name in made.names))
            print("\n".join(made.out))
        elif command == "map" and len(words) == 3:
            module, names, program = words
            print(json.dumps(map_of(module, Path(names).read_text().split(), program)))
        else:
            print("usage: wasm2c_map.py lines MODULE GENERATED.c NAMES [--pin] | map MODULE NAMES PROGRAM", file=sys.stderr)
            return 2
    except (OSError, MalformedModule, Unsupported, subprocess.CalledProcessError) as error:
        print(f"wasm2c_map.py: {error}", file=sys.stderr)
        return 1
    return 0


if __name__ == "__main__":
    sys.exit(main())
