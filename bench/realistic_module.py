"""The functions of a module as a compiler of C makes it, and its map: 40 functions, which have a frame in linear memory each, and two of which no unit of the
module tells of; one of these two has no symbol. What the units tell of the others stands in `realistic_units.py`."""

import json
from dataclasses import dataclass, field
from functools import cached_property

from frame_cases import USUAL
from last_unit_cases import F32, F64, I32, I64, VMCTX, cfa, named, names, reg, vector
from make_modules import section, sleb, uleb
from small_module import PREAMBLE

PATH = "/src/words/words.wasm"
CONSTRUCTORS, FILL = 0, 23  # the numbers of the functions that no unit tells of: the first has no symbol
IMPORTED = 1
FIRST_UNIT, SECOND_UNIT = range(1, 20), [number for number in range(20, 40) if number != FILL]

# ---- functions


# The parameters of functions, by their kinds, and whether they answer a number.
SIGNATURES = [([I32], True), ([I32, I32], True), ([I32, I64], False), ([], True), ([I32, F32, F64], False)]
KIND_OF_FILL, KIND_OF_CONSTRUCTORS = 5, 6
TYPES = [*SIGNATURES, ([I32, I32, I32], True), ([], False)]


@dataclass
class Function:
    """A function by its number: the instructions of its body, by statements, and where each begins in the body."""

    number: int
    name: str
    body: bytes = b""
    statements: list = field(default_factory=list)  # the places of its instructions, statement by statement
    start: int = 0  # its place in the code section's contents

    @cached_property
    def kind(self):
        return {CONSTRUCTORS: KIND_OF_CONSTRUCTORS, FILL: KIND_OF_FILL}.get(self.number, self.number % len(SIGNATURES))

    @property
    def parameters(self):
        return TYPES[self.kind][0]

    @property
    def frame(self):
        """The local that holds the place of its frame: the first behind the parameters."""
        return len(self.parameters)

    @property
    def end(self):
        return self.start + len(self.body)

    def begin_of(self, statement):
        return self.start + self.statements[statement][0]


def instruction(text, *numbers):
    """An instruction by its code, with numbers of variable length behind it."""
    return bytes.fromhex(text) + b"".join(map(sleb, numbers))


def get(local):
    return instruction("20") + uleb(local)


def statement(function, k):
    """A statement of a body: a store, a sum in memory, a load, a sum of 64 bits, or a call of what is imported."""
    frame, offset = function.frame, uleb(4 + 4 * (k % 6))
    load, store = instruction("28 02") + offset, instruction("36 02") + offset
    return [
        [get(frame), instruction("41", 37 * k - 90), store],
        [get(frame), get(frame), load, instruction("41", k), instruction("6A"), store],
        [get(frame), load, instruction("21") + uleb(frame + 1)],
        [get(frame + 2), instruction("42", 3 - k), instruction("7C"), instruction("21") + uleb(frame + 2)],
        [get(frame + 1), instruction("10") + uleb(0)],
    ][(function.number + k) % 5]


def statements_of(function):
    """The statements of a body, of which the first makes a frame of 32 bytes and the last ends it."""
    if function.kind == KIND_OF_CONSTRUCTORS:
        return [[b"\x0B"]]
    frame, answers = function.frame, TYPES[function.kind][1]
    first = [instruction("23 00"), instruction("41", 32), instruction("6B"), instruction("22") + uleb(frame), instruction("24 00")]
    parameters = [[get(frame), get(0), instruction("36 02 04")]] if function.parameters else []
    middle = [statement(function, k) for k in range(5 + function.number % 3)]
    last = [get(frame), instruction("41", 32), instruction("6A"), instruction("24 00"), *([get(frame + 1)] if answers else []), b"\x0B"]
    return [first, *parameters, *middle, last]


def add_body(function):
    groups = [] if function.kind == KIND_OF_CONSTRUCTORS else [(2, I32), (1, I64)]
    function.body = vector([uleb(count) + bytes([t]) for count, t in groups])
    for instructions in statements_of(function):
        function.statements.append([])
        for code in instructions:
            function.statements[-1].append(len(function.body))
            function.body += code


def functions_of():
    """All functions, with their places in the code section's contents, and these contents."""
    special = {CONSTRUCTORS: "__wasm_call_ctors", FILL: "fill_bytes"}
    functions = [Function(number, special.get(number) or f"{'word' if number in FIRST_UNIT else 'point'}_{number}") for number in range(40)]
    contents = uleb(len(functions))
    for function in functions:
        add_body(function)
        contents += uleb(len(function.body))
        function.start = len(contents)
        contents += function.body
    return functions, contents


def front_of(functions, contents):
    """The sections of the module in front of those of names and of DWARF, and where the contents of the code section stand."""
    types = [b"\x60" + vector([bytes([t]) for t in parameters]) + (b"\x01\x7F" if answers else b"\0") for parameters, answers in TYPES]
    front = PREAMBLE + section(1, vector([*types, b"\x60\x01\x7F\0"]))
    front += section(2, vector([named("env") + named("show") + b"\0" + uleb(len(types))]))
    front += section(3, vector([uleb(function.kind) for function in functions]))
    front += section(5, vector([bytes.fromhex("00 02")])) + section(6, vector([bytes.fromhex("7F 01 41 8080 04 0B")]))
    front += section(7, vector([named("memory") + b"\x02\0", named(functions[1].name) + b"\0" + uleb(IMPORTED + 1)]))
    code = section(10, contents)
    return front + code, len(front) + len(code) - len(contents)


def names_of(functions):
    """The section of names: of each function, and of some of their locals."""
    locals_of = lambda function: [(0, "text")] if function.kind < 2 else []
    told = [(IMPORTED + FILL, [(0, "to"), (1, "byte"), (2, "count"), (3, "frame")])]
    told += [(IMPORTED + function.number, found) for function in functions if (found := locals_of(function))]
    return names("words", [(0, "show"), *((IMPORTED + function.number, function.name) for function in functions)], sorted(told))


# ---- the map


def native_map(function):
    """The native offset of each source in the function's body, or of code without one, and the length of the native code. Of some functions a statement was moved behind all others."""
    order = list(function.statements)
    if function.number % 9 == 4:
        order.append(order.pop(2))
    entries, native = [[0, None]], 4
    for k, place in enumerate(place for places in order for place in places):
        if k % 11 == 7:
            entries.append([native, None])
            native += 2
        entries.append([native, place])
        native += 1 + (function.number + 5 * k) % 6
    return entries, native


def labels_of(function, length):
    """Where its locals and the context lie: in registers and in slots of the native frame, with holes in some."""
    frame, cut = function.frame, length // 2
    places = {local: [reg(local, 0, cut), cfa(-24 - 8 * local, cut + local, length)] for local in range(frame)}
    places[frame] = [reg(3, 6, length)] if function.number % 4 else [reg(3, 6, cut), cfa(-16, cut, length)]
    places[frame + 1] = [cfa(-64, 4, length)] if function.number % 3 else []
    places[frame + 2] = [reg(9, cut, length)]
    places[VMCTX] = [reg(7, 0, length)] if function.number % 5 else [reg(7, 0, cut), cfa(-8, cut + 5, length)]
    return [[label, ranges] for label, ranges in places.items()]


def told(function, code):
    """What the map tells of a function, by the place of the code section's contents in the file."""
    entries, length = native_map(function)
    place = lambda at: None if at is None else code + function.start + at
    frame = {"len": length, "ops": [[1, ["cfa_offset", 16]], [1, ["offset", 6, -16]], [4, ["cfa_register", 6]]]}
    return {
        "symbol": None if function.number == CONSTRUCTORS else 100 + function.number,
        "start": code + function.start,
        "end": code + function.end,
        "body_len": length,
        "map": [[native, place(at)] for native, at in entries],
        "labels": [] if function.kind == KIND_OF_CONSTRUCTORS else labels_of(function, length),
        "frame": frame,
    }


def map_text(functions, code):
    registers = [[0, 0], [1, 2], [2, 1], [3, 3], [7, 14], [9, 40]]
    target = {"arch": "x86_64", "registers": registers, "cie": USUAL}
    modules = [{"path": PATH, "memory": {"defined": 80}, "functions": [told(function, code) for function in functions]}]
    return json.dumps({"target": target, "names": ["set_mem", "resolve_mem"], "modules": modules}, separators=(",", ":"))
