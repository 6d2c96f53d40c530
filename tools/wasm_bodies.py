"""Reads of a WebAssembly file what a map is compared with: how many functions it defines, and where their bodies are."""

from dataclasses import dataclass, field

PREAMBLE = b"\0asm\1\0\0\0"
FUNCTIONS, CODE = 3, 10  # sections


class MalformedModule(Exception):
    """A file that is no WebAssembly module."""


@dataclass
class Module:
    path: str
    defined: int = 0  # how many functions it defines
    code_offset: int = 0  # of the contents of the code section in the file
    bodies: list[tuple[int, int]] = field(default_factory=list)  # from behind the size to behind the `end`, in the file


class Reader:
    def __init__(self, data: bytes, position: int):
        self.data, self.position = data, position

    def byte(self) -> int:
        self.position += 1
        return self.data[self.position - 1]

    def number(self) -> int:
        """An unsigned number in LEB128."""
        value = shift = 0
        while True:
            byte = self.byte()
            value |= (byte & 0x7F) << shift
            shift += 7
            if byte < 0x80:
                return value

    def body(self) -> tuple[int, int]:
        size = self.number()
        start = self.position
        self.position += size
        return start, self.position


def read_module(path: str, data: bytes) -> Module:
    """The functions of a file. Of two sections of one kind the later counts."""
    if data[:8] != PREAMBLE:
        raise MalformedModule(f"{path} is no WebAssembly file of version 1")
    module, reader = Module(path), Reader(data, 8)
    try:
        while reader.position < len(data):
            read_section(module, reader)
    except IndexError:
        raise MalformedModule(f"{path} is cut: a section passes its end") from None
    return module


def read_section(module: Module, reader: Reader) -> None:
    section, size = reader.byte(), reader.number()
    begin, end = reader.position, reader.position + size
    if end > len(reader.data):
        raise IndexError(end)
    if section == FUNCTIONS:
        module.defined = reader.number()
    elif section == CODE:
        module.code_offset = begin
        module.bodies = [reader.body() for _ in range(reader.number())] if size else []
    reader.position = end
