#!/usr/bin/env python3
"""Makes assembly of what dwarfcarry prints: to_assembly.py [--bases] PRINTED [NAMES] > debug.s

Any GNU assembler of an ELF target takes it: `cc -c debug.s` makes an object file with the sections and their relocations, to be
linked beside the code. PRINTED is `-` for standard input. NAMES holds the symbols of the map's functions, one a line, in the map's
order over all modules, functions without a symbol included; without NAMES they are wasm_function_0, wasm_function_1 and so on.
With --bases each list of .debug_ranges begins with an entry that selects the base 0. A list without one counts from its unit's
low_pc, which dwarfcarry's units have not unless the map asks for output for a debugger, and gdb 13 passes over such a list. Of
version 5 there are none, and nothing is put anywhere.
"""

import bisect
import sys
from dataclasses import dataclass, field

DIRECTIVES = {1: ".byte", 2: ".2byte", 4: ".4byte", 8: ".8byte"}
BYTES_OF_A_LINE = 32
RANGES = ".debug_ranges"


class Malformed(Exception):
    """Why a text is not what dwarfcarry prints, or does not fit the names."""


@dataclass
class Relocation:
    offset: int
    size: int
    target: str  # a symbol or a label
    addend: int


@dataclass
class Section:
    name: str
    body: bytes
    relocations: list[Relocation] = field(default_factory=list)


def label_of(section_name: str) -> str:
    """The local label at the begin of a section."""
    return ".Lbegin" + section_name


def symbol_of(number: int, names: list[str] | None) -> str:
    if names is None:
        return f"wasm_function_{number}"
    if number >= len(names):
        raise Malformed(f"function {number} has no name: there are {len(names)}")
    return names[number]


def relocation_of(words: list[str], names: list[str] | None) -> Relocation:
    _, offset, size, kind, target, addend = words
    if int(size) not in DIRECTIVES or kind not in ("func", "section"):
        raise ValueError(kind)
    target = label_of(target) if kind == "section" else symbol_of(int(target), names)
    return Relocation(int(offset), int(size), target, int(addend))


def section_of(words: list[str], body: str) -> Section:
    _, name, length = words
    section = Section(name, bytes.fromhex(body))
    if len(section.body) != int(length):
        raise ValueError(length)
    return section


def read_printed(text: str, names: list[str] | None) -> list[Section]:
    sections = []
    lines = enumerate(text.splitlines(), 1)
    for number, line in lines:
        try:
            if line.startswith("section "):
                sections.append(section_of(line.split(" "), next(lines)[1]))
            else:
                sections[-1].relocations.append(relocation_of(line.split(" "), names))
        except (ValueError, IndexError, StopIteration):
            raise Malformed(f"line {number} is none that dwarfcarry prints: {line[:60]}") from None
    return sections


def add_bases(sections: list[Section]) -> None:
    """Puts an entry that selects the base 0 in front of each list of ranges (DWARF 4, section 2.17.3)."""
    ranges = next((section for section in sections if section.name == RANGES), None)
    if ranges is None or not ranges.relocations:
        return
    size = ranges.relocations[0].size
    entry = b"\xff" * size + bytes(size)
    references = [it for section in sections for it in section.relocations if it.target == label_of(RANGES)]
    starts = sorted({it.addend for it in references})
    for it in references:
        it.addend += len(entry) * bisect.bisect_left(starts, it.addend)
    for it in ranges.relocations:
        it.offset += len(entry) * bisect.bisect_right(starts, it.offset)
    ends = [*starts[1:], len(ranges.body)]
    ranges.body = ranges.body[: starts[0]] + b"".join(entry + ranges.body[start:end] for start, end in zip(starts, ends))


def byte_lines(body: bytes) -> list[str]:
    starts = range(0, len(body), BYTES_OF_A_LINE)
    return ["\t.byte " + ",".join(map(str, body[start : start + BYTES_OF_A_LINE])) for start in starts]


def assembly_of(section: Section) -> list[str]:
    """The lines of a section; the assembler makes a relocation of each field that names a symbol or a label."""
    lines = [f'\t.section {section.name},"",%progbits', label_of(section.name) + ":"]
    written = 0
    for it in section.relocations:
        if it.offset < written or it.offset + it.size > len(section.body):
            raise Malformed(f"{section.name}: the relocation at {it.offset} is not in order, or past the end")
        lines += byte_lines(section.body[written : it.offset])
        lines.append(f"\t{DIRECTIVES[it.size]} {it.target}{it.addend:+d}")
        written = it.offset + it.size
    return lines + byte_lines(section.body[written:])


def read(path: str) -> str:
    if path == "-":
        return sys.stdin.read()
    with open(path, encoding="utf-8") as file:
        return file.read()


def main() -> int:
    words = [word for word in sys.argv[1:] if word != "--bases"]
    if len(words) not in (1, 2):
        print("usage: to_assembly.py [--bases] PRINTED [NAMES] > debug.s", file=sys.stderr)
        return 2
    try:
        names = read(words[1]).split() if words[1:] else None
        sections = read_printed(read(words[0]), names)
        if "--bases" in sys.argv:
            add_bases(sections)
        lines = [line for section in sections for line in assembly_of(section)]
    except (OSError, UnicodeDecodeError, Malformed) as error:
        print(f"to_assembly.py: {error}", file=sys.stderr)
        return 1
    print("\n".join([*lines, '\t.section .note.GNU-stack,"",%progbits']))
    return 0


if __name__ == "__main__":
    sys.exit(main())
