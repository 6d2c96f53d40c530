"""Expressions: the parts that they compile to, the places of values byte by byte, and the bytes that are built of these. (DWARF 4 and
5, sections 2.5 and 7.7.1; the parts and what is built of them are this project's own.)"""

from dataclasses import dataclass
from functools import cache
from itertools import groupby

from plain_entries import Reader, Refused, sleb, uleb

VMCTX = 0xFFFFFFFE  # the label of the context pointer; locals have the numbers below
PLUS_UCONST, BRA, SKIP, FBREG, STACK_VALUE, WASM_LOCATION = 0x23, 0x28, 0x2F, 0x91, 0x9F, 0xED
READS, SHIFTS = (0x06, 0x18, 0x94, 0x95), (0x25, 0x26)

# The operands of operations: a number of bytes, or a number of variable length; and the operations that have none.
OPERANDS = {0x08: [1], 0x09: [1], 0x0A: [2], 0x0B: [2], 0x0C: [4], 0x0D: [4], 0x0E: [8], 0x0F: [8], 0x10: ["uleb"], 0x11: ["sleb"], 0x15: [1]}
OPERANDS |= {0x23: ["uleb"], 0x28: [2], 0x2F: [2], 0x91: ["sleb"], 0x93: ["uleb"], 0x94: [1], 0x95: [1], 0x9D: ["uleb", "uleb"]}
ALONE = {0x06, 0x22, 0x24, 0x25, 0x26, 0x27, 0x96, 0x9F, *range(0x12, 0x15), *range(0x16, 0x22), *range(0x29, 0x2F), *range(0x30, 0x50)}

SHIFT_TO_TOP = bytes.fromhex("23 20 16 08 20 24 16")  # the value goes to the upper half, the count with it
READ_MEMORY = bytes.fromhex("06 16 0C FFFFFFFF 1A 22")  # the base plus the lower half of the address


# ---- parts


@dataclass(frozen=True)
class Code:
    data: bytes


@dataclass(frozen=True)
class Local:
    label: int
    trailing: bool


@dataclass(frozen=True)
class Deref:
    pass


@dataclass(frozen=True)
class Jump:
    conditionally: bool
    target: int


@dataclass(frozen=True)
class LandingPad:
    place: int


@dataclass(frozen=True)
class Compiled:
    parts: tuple
    need_deref: bool

    @property
    def has_jump(self):
        return any(isinstance(part, Jump) for part in self.parts)

    @property
    def code(self):
        """The bytes of an expression that is one piece of code; None of any other."""
        return self.parts[0].data if len(self.parts) == 1 and isinstance(self.parts[0], Code) else None

    @property
    def is_simple(self):
        return not self.parts or self.code is not None

    @property
    def placed_parts(self):
        """The parts that stand in built bytes, with the read of memory at the end."""
        return self.parts + (Deref(),) * self.need_deref

    @property
    def reads_memory(self):
        return any(isinstance(part, Deref) for part in self.placed_parts)

    @property
    def needed_labels(self):
        needs = [part.label if isinstance(part, Local) else VMCTX for part in self.placed_parts if isinstance(part, (Local, Deref))]
        return list(dict.fromkeys(needs))


# ---- operations


@dataclass
class Operation:
    place: int
    opcode: int
    operand: int  # the first operand, of a jump its target, of a location the local; without one 0
    data: bytes


def operand_of(reader, kind):
    number = reader.uleb() if kind == "uleb" else reader.sleb() if kind == "sleb" else reader.number(kind)
    least = -(1 << 63) if kind == "sleb" else 0
    if not least <= number < least + (1 << 64):
        raise ValueError("an operand that does not fit 64 bits")
    return number


def local_of(reader):
    """The local that a location in WebAssembly names; None where it is no local, or one without a label."""
    if reader.number(1) != 0:
        return None
    number = operand_of(reader, "uleb")
    return number if number < VMCTX else None


def target_of(reader, distance):
    """Where a jump goes; None where that is outside the expression."""
    target = reader.at + (distance - (1 << 16) if distance >= 1 << 15 else distance)
    return target if 0 <= target <= len(reader.data) else None


def operations_of(data, has_base):
    """The operations of an expression, up to the first that is not supported: then None."""
    reader, found = Reader(data), []
    while reader.at < len(data):
        place, opcode, operand = reader.at, reader.number(1), 0
        if opcode == WASM_LOCATION:
            operand = local_of(reader)
        elif opcode in OPERANDS and (has_base or opcode != FBREG):
            operand = [operand_of(reader, kind) for kind in OPERANDS[opcode]][0]
        elif opcode not in ALONE:
            operand = None
        if opcode in (BRA, SKIP):
            operand = target_of(reader, operand)
        if operand is None:
            return None
        found.append(Operation(place, opcode, operand, data[place : reader.at]))
    return found


# ---- compiling


def compiled(data, base):
    """What an expression compiles to on a frame base, of which there may be none; None where it is not supported."""
    if base is not None and base.has_jump:
        return None
    operations = operations_of(data, base is not None)
    if operations is None:
        return None
    targets = {op.operand for op in operations if op.opcode in (BRA, SKIP)}
    if not targets <= {op.place for op in operations} | {len(data)}:
        return None
    need_deref = bool(operations) and operations[-1].opcode != STACK_VALUE
    if [op.opcode for op in operations] == [WASM_LOCATION, STACK_VALUE]:
        return Compiled((Local(operations[0].operand, True),), need_deref)
    return Compiled(tuple(joined(parts_of(operations, targets, len(data), base))), need_deref)


def parts_of(operations, targets, end, base):
    """The parts of operations. In the old format the first operation adds to the frame base."""
    parts = based(base) if base is not None and operations and operations[0].opcode == PLUS_UCONST else []
    for op in operations:
        parts += [LandingPad(op.place)] if op.place in targets else []
        parts += parts_of_one(op, base)
    return parts + ([LandingPad(end)] if end in targets else [])


def based(base):
    return [Local(part.label, False) if isinstance(part, Local) else part for part in base.parts]


def parts_of_one(op, base):
    if op.opcode == WASM_LOCATION:
        return [Local(op.operand, False)]
    if op.opcode == FBREG:
        return [*based(base), Code(bytes([PLUS_UCONST]) + uleb(op.operand % (1 << 64)))]
    if op.opcode in (BRA, SKIP):
        return [Jump(op.opcode == BRA, op.operand)]
    if op.opcode in READS:
        return [Deref(), Code(op.data)]
    return [Code(SHIFT_TO_TOP + op.data if op.opcode in SHIFTS else op.data)]


def joined(parts):
    """Parts, of which the code that stands side by side is one."""
    for is_code, group in groupby(parts, key=lambda part: isinstance(part, Code)):
        yield from [Code(b"".join(part.data for part in group))] if is_code else group


# ---- places


def place_at(function, label, byte):
    """Where a label lies at a byte of a function: where the last of its ranges that has the byte says; None where none has it."""
    return next((place for start, end, place in reversed(function.labels.get(label, [])) if start <= byte < end), None)


@cache
def places_of(function, label):
    """Where a label lies at each byte of a function."""
    return [place_at(function, label, byte) for byte in range(function.length)]


def bytes_of_scope(ranges):
    """The bytes of native ranges, by functions in the order of their numbers."""
    held = {}
    for function, start, end in ranges:
        held.setdefault(function, set()).update(range(start, end))
    return [(function, sorted(held[function])) for function in sorted(held, key=lambda f: f.number)]


@dataclass
class Run:
    """Bytes of a function on which labels have one unchanged place each."""

    function: object
    start: int
    end: int
    places: tuple


def runs_of_labels(ranges, labels, frame):
    """The longest runs of the bytes of native ranges on which each label has one place, and whether all bytes are in one."""
    if labels and not (frame and all(frame.labels.get(label) for label in labels)):
        return [], not ranges
    runs, covers = [], True
    for function, held in bytes_of_scope(ranges):
        columns = [places_of(function, label) if function is frame else [None] * function.length for label in labels]
        for byte in held:
            places = tuple(column[byte] for column in columns)
            last = runs[-1] if runs else Run(None, 0, 0, ())
            if None in places:
                covers = False
            elif (last.function, last.end, last.places) == (function, byte, places):
                last.end += 1
            else:
                runs.append(Run(function, byte, byte + 1, places))
    return runs, covers


# ---- building


@dataclass
class Machine:
    """What the code of a module runs on: the DWARF numbers of registers, and where the context pointer says that the memory is; and whether
    the output is for a debugger."""

    module: int
    function_at: object
    registers: dict
    memory: dict | None
    for_debugger: bool = False

    def register(self, number):
        if number not in self.registers:
            raise Refused(f"UnmappedRegister {number}")
        return self.registers[number]


def built(compiled, ranges, frame, machine):
    """What an expression becomes over native ranges, where values lie as a frame says: functions with a start, an end and bytes, and
    whether these are for all bytes. What is one piece of code stays, range by range."""
    if compiled.code is not None:
        return [(*native, compiled.code) for native in ranges], False
    labels = compiled.needed_labels
    for label in labels:
        if frame and any(start > end for start, end, _ in frame.labels.get(label, [])):
            raise Refused(f"BadLabelRange {label}")
    runs, covers = runs_of_labels(ranges, labels, frame)
    for run in runs:
        if compiled.reads_memory and machine.memory is None:
            raise Refused(f"InvalidAttributeValue {machine.module}")
        for kind, number in run.places:
            if kind == "reg":
                machine.register(number)
    return [(run.function, run.start, run.end, bytes_at(compiled, dict(zip(labels, run.places)), machine)) for run in runs], covers


def bytes_at(compiled, places, machine):
    """The bytes of an expression where its labels lie at places."""
    data, pads, jumps = b"", {}, []
    for part in compiled.placed_parts:
        if isinstance(part, LandingPad):
            pads[part.place] = len(data)
        elif isinstance(part, Jump):
            data += bytes([BRA if part.conditionally else SKIP, 0, 0])
            jumps.append((len(data), part.target))
        elif isinstance(part, Local):
            data += trailing_bytes(places[part.label], machine) if part.trailing else value_bytes(places[part.label], machine)
        else:
            data += part.data if isinstance(part, Code) else memory_bytes(places[VMCTX], machine) + READ_MEMORY
    for at, target in jumps:
        distance = pads[target] - at
        if not -(1 << 15) <= distance < 1 << 15:
            raise Refused("TooLarge Jump")
        data = data[: at - 2] + distance.to_bytes(2, "little", signed=True) + data[at:]
    return data


def trailing_bytes(place, machine):
    kind, number = place
    if kind == "cfa":
        return bytes([FBREG]) + sleb(number)
    register = machine.register(number)
    return bytes([0x50 + register]) if register < 32 else b"\x90" + uleb(register)


def based_on_register(register, offset):
    return (bytes([0x70 + register]) if register < 32 else b"\x92" + uleb(register)) + sleb(offset)


def value_bytes(place, machine):
    """The value at a place."""
    kind, number = place
    if kind == "cfa":
        return bytes([FBREG]) + sleb(number) + b"\x06"
    return based_on_register(machine.register(number), 0)


def plus(offset):
    return b"\x11" + sleb(offset) + b"\x22"


def memory_bytes(vmctx, machine):
    """Where the base of the memory stands: beside the context pointer, or beside what a pointer there goes to."""
    is_defined = "defined" in machine.memory
    offset, to_base = (machine.memory["defined"], 0) if is_defined else machine.memory["imported"]
    kind, number = vmctx
    if kind == "reg":
        beside = based_on_register(machine.register(number), offset)
    else:
        beside = value_bytes(vmctx, machine) + (plus(offset) if is_defined or offset else b"")
    return beside + (b"" if is_defined else b"\x06" + (plus(to_base) if to_base else b""))
