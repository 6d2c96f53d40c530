"""Reads of a WebAssembly file what the baseline compiler needs: its functions with their instructions, globals and memory."""

from dataclasses import dataclass

TYPES, FUNCTIONS, MEMORIES, GLOBALS, CODE = 1, 3, 5, 6, 10
PASSED = {4, 7}  # tables and exports, which the example does not use
PAGE = 65536
EMPTY_BLOCK = 0x40

# The instructions of the example by their opcodes, apart by what follows these.
PLAIN = {0x0B: "end", 0x0F: "return", 0x1A: "drop", 0x1B: "select", 0x45: "i32.eqz", 0x46: "i32.eq", 0x47: "i32.ne"}
PLAIN |= {0x48: "i32.lt_s", 0x49: "i32.lt_u", 0x4A: "i32.gt_s", 0x4B: "i32.gt_u"}
PLAIN |= {0x4C: "i32.le_s", 0x4D: "i32.le_u", 0x4E: "i32.ge_s", 0x4F: "i32.ge_u"}
PLAIN |= {0x6A: "i32.add", 0x6B: "i32.sub", 0x6C: "i32.mul", 0x71: "i32.and", 0x72: "i32.or", 0x73: "i32.xor"}
PLAIN |= {0x74: "i32.shl", 0x75: "i32.shr_s", 0x76: "i32.shr_u"}
INDEXED = {0x0C: "br", 0x0D: "br_if", 0x10: "call", 0x20: "local.get", 0x21: "local.set", 0x22: "local.tee"}
INDEXED |= {0x23: "global.get", 0x24: "global.set"}
BLOCKS = {0x02: "block", 0x03: "loop"}
ACCESSES = {0x28: "i32.load", 0x29: "i64.load", 0x36: "i32.store", 0x37: "i64.store"}
NUMBERS = {0x41: "i32.const", 0x42: "i64.const"}
FUNCTION_NAMES = 1  # the subsection of the section of names


class Unsupported(Exception):
    """Something of WebAssembly that the example does not need."""


@dataclass
class Signature:
    parameters: int
    results: int


@dataclass
class Instruction:
    offset: int  # in the file
    name: str
    operand: int = 0


@dataclass
class Function:
    name: str
    signature: Signature
    start: int  # of its body in the file, behind the body's size
    end: int
    local_count: int  # with the parameters
    instructions: list[Instruction]


@dataclass
class Module:
    functions: list[Function]
    global_values: list[int]  # at the start
    memory_size: int


class Reader:
    """Reads the parts of a file from a position on."""

    def __init__(self, data: bytes, position: int):
        self.data = data
        self.position = position

    def byte(self) -> int:
        self.position += 1
        return self.data[self.position - 1]

    def unsigned(self) -> int:
        """A number in LEB128."""
        byte = self.byte()
        return byte if byte < 0x80 else byte - 0x80 + 0x80 * self.unsigned()

    def signed(self) -> int:
        """A number in signed LEB128."""
        begin = self.position
        number = self.unsigned()
        bits = 7 * (self.position - begin)
        return number - (1 << bits) if number >> (bits - 1) else number

    def vector(self, read) -> list:
        """As many things as the number in front says."""
        return [read() for _ in range(self.unsigned())]

    def text(self) -> str:
        return bytes(self.vector(self.byte)).decode()

    def signature(self) -> Signature:
        self.byte()
        return Signature(len(self.vector(self.byte)), len(self.vector(self.byte)))

    def global_value(self) -> int:
        """What a global begins with: the number of an i32.const, before an end."""
        self.position += 3  # the type, whether it changes, and the opcode
        value = self.signed()
        self.byte()
        return value

    def memory_size(self) -> int:
        self.byte()
        return self.unsigned() * PAGE

    def function_names(self) -> dict[int, str]:
        """The names of functions by their numbers, from the section of names; the name of the module may stand in front."""
        while self.byte() != FUNCTION_NAMES:
            size = self.unsigned()
            self.position += size
        self.unsigned()
        return dict(self.vector(lambda: (self.unsigned(), self.text())))

    def function(self, name: str, signature: Signature) -> Function:
        size = self.unsigned()
        start, end = self.position, self.position + size
        groups = self.vector(lambda: (self.unsigned(), self.byte()))  # of locals of one type
        local_count = signature.parameters + sum(count for count, _ in groups)
        instructions = []
        while self.position < end:
            instructions.append(self.instruction())
        return Function(name, signature, start, end, local_count, instructions)

    def instruction(self) -> Instruction:
        offset, opcode = self.position, self.byte()
        if opcode in PLAIN:
            return Instruction(offset, PLAIN[opcode])
        if opcode in INDEXED:
            return Instruction(offset, INDEXED[opcode], self.unsigned())
        if opcode in BLOCKS and self.byte() == EMPTY_BLOCK:
            return Instruction(offset, BLOCKS[opcode])
        if opcode in ACCESSES:
            self.unsigned()  # the alignment
            return Instruction(offset, ACCESSES[opcode], self.unsigned())
        if opcode in NUMBERS:
            return Instruction(offset, NUMBERS[opcode], self.signed())
        raise Unsupported(f"the instruction {opcode:#04x} at {offset}")


def find_sections(data: bytes) -> dict[int | str, Reader]:
    """The contents of each section, by its number, or by its name where it is a custom one."""
    reader, sections = Reader(data, 8), {}
    while reader.position < len(data):
        key, size = reader.byte(), reader.unsigned()
        end = reader.position + size
        if key == 0:
            key = reader.text()
        elif key not in {TYPES, FUNCTIONS, MEMORIES, GLOBALS, CODE} | PASSED:
            raise Unsupported(f"section {key}")
        sections[key] = Reader(data, reader.position)
        reader.position = end
    return sections


def read_module(data: bytes) -> Module:
    sections = find_sections(data)
    signatures = sections[TYPES].vector(sections[TYPES].signature)
    numbers = sections[FUNCTIONS].vector(sections[FUNCTIONS].unsigned)
    names = sections["name"].function_names()
    code = sections[CODE]
    code.unsigned()
    functions = [code.function(names[index], signatures[number]) for index, number in enumerate(numbers)]
    values = sections[GLOBALS].vector(sections[GLOBALS].global_value)
    sizes = sections[MEMORIES].vector(sections[MEMORIES].memory_size)
    return Module(functions, values, sizes[0])
