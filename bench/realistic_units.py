"""The DWARF of the realistic module: three units of version 4 with a line table each. The linker kept no function of the third, whose addresses all are such
as it leaves there: 0xFFFFFFFF or 0, and 0xFFFFFFFE in lists."""

from entry_cases import ADDR, BASE_TYPE, BLOCK, COMPILE_UNIT, DATA1, DATA2, DATA4, HIGH_PC, LOW_PC, MEMBER, NAME, PARAMETER, RANGES, SEC_OFFSET, STMT_LIST
from entry_cases import STRP, STRUCTURE, SUBPROGRAM, TYPE, VARIABLE, Entry, Info, to
from make_modules import sleb, u32, uleb
from realistic_module import FIRST_UNIT, SECOND_UNIT, TYPES
from small_module import line_table

FRAME_BASE, LOCATION, BYTE_SIZE, ENCODING, COMP_DIR, LANGUAGE, PRODUCER, PLACE = 0x40, 0x02, 0x0B, 0x3E, 0x1B, 0x13, 0x25, 0x38
DECL_FILE, DECL_LINE, PROTOTYPED, EXTERNAL, INLINE, CALL_FILE, CALL_LINE, COUNT, ORIGIN = 0x3A, 0x3B, 0x27, 0x3F, 0x20, 0x58, 0x59, 0x37, 0x31
ARRAY, SUBRANGE, TYPEDEF, INLINED, CONST, POINTER = 0x01, 0x21, 0x16, 0x1D, 0x26, 0x0F
FLAG_PRESENT, EXPRLOC, C99 = 0x19, 0x18, 0x0C
UNLINKED, UNLINKED_PAIR = 0xFFFFFFFF, u32(0xFFFFFFFE) * 2
STACK_VALUE = b"\x9F"


def local(number):
    """A local of WebAssembly, as the first operation of an expression."""
    return b"\xED\x00" + uleb(number)


def on_frame(offset):
    return b"\x91" + sleb(offset)


def data1(name, number):
    return (name, DATA1, bytes([number]))


def data2(name, number):
    return (name, DATA2, number.to_bytes(2, "little"))


def expression(name, data):
    return (name, EXPRLOC, uleb(len(data)) + data)


class Sections:
    """What units share: `.debug_str`, of which each text stands there once, `.debug_ranges`, `.debug_loc`, and the line tables."""

    def __init__(self):
        self.texts, self.ranges, self.locations, self.lines = {}, b"", b"", b""
        self.text_bytes = b""

    def text(self, name, text):
        if text not in self.texts:
            self.texts[text] = len(self.text_bytes)
            self.text_bytes += text.encode() + b"\0"
        return (name, STRP, u32(self.texts[text]))

    def listed(self, *pairs):
        """A range list of pairs of numbers, or of their bytes."""
        at = len(self.ranges)
        self.ranges += b"".join(pair if isinstance(pair, bytes) else u32(pair[0]) + u32(pair[1]) for pair in pairs) + bytes(8)
        return (RANGES, SEC_OFFSET, u32(at))

    def located(self, *entries):
        """A location list of bounds and an expression each; of bounds that are bytes these, and of an address alone a base."""
        at = len(self.locations)
        for bounds, *found in entries:
            self.locations += bounds if isinstance(bounds, bytes) else u32(bounds[0]) + u32(bounds[1])
            self.locations += b"".join(len(data).to_bytes(2, "little") + data for data in found)
        self.locations += bytes(8)
        return (LOCATION, SEC_OFFSET, u32(at))

    def line_table(self, directories, files, program):
        at = len(self.lines)
        names = b"".join(name.encode() + b"\0" for name in directories) + b"\0"
        names += b"".join(name.encode() + b"\0" + uleb(directory) + b"\0\0" for directory, name in files) + b"\0"
        self.lines += line_table(program, names=names)
        return (STMT_LIST, SEC_OFFSET, u32(at))


# ---- lines


def row(advance, line, column):
    """A step of so many bytes and lines, and the row that it shows."""
    special = 13 + line + 5 + 14 * advance
    step = bytes([special]) if -5 <= line < 9 and special < 256 else b"\x03" + sleb(line) + b"\x02" + uleb(advance) + b"\x01"
    return b"\x05" + uleb(column) + step


def sequence(function, line, start=None):
    """A sequence of a function: a row at its begin, and one for each statement, of which the second ends the prologue; one goes back, one begins no statement."""
    program = bytes([0, 5, 2]) + u32(function.start if start is None else start) + b"\x03" + sleb(line - 1) + b"\x01"
    at, end = 0, len(function.body)
    for k, places in enumerate(function.statements):
        program += b"\x0A" if k == 1 else b"\x06" if k in (3, 4) else b""
        program += row(places[0] - at, -4 if k == 3 else 2 + k % 3, 5 + 4 * (k % 2))
        at = places[0]
    return program + b"\x02" + uleb(end - at) + bytes([0, 1, 1])


# ---- entries


class UnitMaker:
    """Makes the entries of a unit of functions in a file, with the lines from a number on. An entry has a key in its unit."""

    def __init__(self, sections, file, functions, first_line):
        self.sections, self.file, self.functions, self.first_line = sections, file, functions, first_line

    def entry(self, tag, *attributes, key=None, children=()):
        return Entry(tag, *attributes, key=key and (self.file, key), children=children)

    def to(self, key, name=TYPE):
        return to((self.file, key), name)

    def named(self, name):
        return self.sections.text(NAME, name)

    def line_of(self, function):
        return self.first_line + 24 * self.functions.index(function)

    def declared(self, name, line):
        return self.named(name), data1(DECL_FILE, 1), data2(DECL_LINE, line)

    def base_type(self, name, size, encoding, key):
        return self.entry(BASE_TYPE, self.named(name), data1(ENCODING, encoding), data1(BYTE_SIZE, size), key=key)

    def pointer(self, target, key):
        return self.entry(POINTER, self.to(target), key=key)

    def structure(self, name, size, members, key):
        inner = [self.entry(MEMBER, *self.declared(member, 4 + k), self.to(kind), data1(PLACE, place)) for k, (member, kind, place) in enumerate(members)]
        return self.entry(STRUCTURE, self.named(name), data1(BYTE_SIZE, size), data1(DECL_FILE, 2), data1(DECL_LINE, 3), children=inner, key=key)

    def on_frame(self, tag, name, line, offset, kind):
        return self.entry(tag, *self.declared(name, line), self.to(kind), expression(LOCATION, on_frame(offset)))

    def in_list(self, name, line, kind, *entries):
        return self.entry(VARIABLE, *self.declared(name, line), self.to(kind), self.sections.located(*entries))

    def bounds(self, begin, end):
        return (LOW_PC, ADDR, u32(begin)), (HIGH_PC, DATA4, u32(end - begin))

    def subprogram(self, function, types, *children, start=None):
        """A function that is named in the file, with a parameter for each of its parameters, by the keys of their types."""
        line, start = self.line_of(function), function.start if start is None else start
        parameters = [self.on_frame(PARAMETER, f"{'abc'[k]}_{kind}", line, 4 + 8 * k, kind) for k, kind in enumerate(types)]
        attributes = [*self.bounds(start, start + len(function.body)), expression(FRAME_BASE, local(function.frame) + STACK_VALUE)]
        attributes += [*self.declared(function.name, line), (PROTOTYPED, FLAG_PRESENT, b"")]
        attributes += [self.to("int")] if TYPES[function.kind][1] else []
        return self.entry(SUBPROGRAM, *attributes, (EXTERNAL, FLAG_PRESENT, b""), children=[*parameters, *children])

    def unit(self, lines, code, *children):
        text = self.sections.text
        attributes = [text(PRODUCER, "compiler of C, version 1"), (LANGUAGE, DATA2, bytes([C99, 0])), text(NAME, self.file), lines, text(COMP_DIR, "/src/words")]
        return self.entry(COMPILE_UNIT, *attributes, *code, children=children)


# ---- the unit whose functions stand one behind another


def first_unit(sections, functions):
    """A unit that has one interval: its root has bounds, from the begin of which the lists count. Its functions have blocks in blocks."""
    made = UnitMaker(sections, "words.c", functions, 12)
    begin, end = functions[0].start, functions[-1].end
    program = b"".join(sequence(function, made.line_of(function)) for function in functions)
    lines = sections.line_table(["include"], [(0, made.file), (1, "words.h")], program)
    subprograms = [made.subprogram(f, of_words(f), *blocks_of(made, f, begin)) for f in functions]
    types = [
        made.base_type("int", 4, 5, "int"),
        made.base_type("char", 1, 6, "char"),
        made.base_type("long long", 8, 5, "long"),
        made.base_type("float", 4, 4, "float"),
        made.base_type("double", 8, 4, "double"),
        made.entry(CONST, made.to("char"), key="constant"),
        made.pointer("constant", "text"),
        made.structure("word", 12, [("text", "text", 0), ("count", "int", 4), ("next", "link", 8)], "word"),
        made.pointer("word", "link"),
        made.entry(TYPEDEF, *made.declared("list", 9), made.to("link"), key="list"),
        made.entry(ARRAY, made.to("char"), children=[made.entry(SUBRANGE, made.to("int"), data1(COUNT, 16))], key="buffer"),
    ]
    return made.unit(lines, made.bounds(begin, end), *subprograms, *types)


def of_words(function):
    return [["text"], ["text", "int"], ["list", "long"], [], ["int", "float", "double"]][function.kind]


def blocks_of(made, function, base):
    """Variables of a function: one on its frame, one by a list, and a block in a block, of which the inner one has ranges in some functions."""
    line, begin_of = made.line_of(function), function.begin_of
    last = len(function.statements) - 1
    spread = made.sections.listed(*[(begin_of(k) - base, begin_of(k + 1) - base) for k in (3, 5)]) if function.number % 3 == 0 else None
    inner = made.entry(BLOCK, *([spread] if spread else made.bounds(begin_of(3), begin_of(4))), children=[made.on_frame(VARIABLE, "inner", line + 6, 20, "buffer")])
    held = [((begin_of(1) - base, begin_of(3) - base), local(function.frame + 1) + STACK_VALUE), ((begin_of(3) - base, begin_of(last) - base), on_frame(12))]
    held += [((begin_of(last) - base, function.end - base), b"\xED\x02\x00" + STACK_VALUE)]  # on the stack of WebAssembly, which has no place
    outer = [made.in_list("found", line + 3, "int", *held), made.on_frame(VARIABLE, "next", line + 4, 16, "list"), inner]
    return [made.on_frame(VARIABLE, "sum", line + 1, 8, "int"), made.entry(BLOCK, *made.bounds(begin_of(2), begin_of(last)), children=outer)]


# ---- the unit around a function that it does not tell of


def second_unit(sections, functions):
    """A unit that has a range for each function. Into some of its functions another one is inlined."""
    made = UnitMaker(sections, "points.c", functions, 30)
    program = b"".join(sequence(function, made.line_of(function)) for function in functions)
    lines = sections.line_table(["include"], [(0, made.file), (1, "points.h")], program)
    code = [(LOW_PC, ADDR, u32(0)), sections.listed(*[(function.start, function.end) for function in functions])]
    taken = made.entry(PARAMETER, *made.declared("value", 20), made.to("int"), key="value")
    inlined = made.entry(SUBPROGRAM, *made.declared("clamp", 20), made.to("int"), data1(INLINE, 3), children=[taken], key="clamp")
    subprograms = [made.subprogram(f, of_points(f), *inner_of(made, f)) for f in functions]
    types = [
        made.base_type("int", 4, 5, "int"),
        made.base_type("long long", 8, 5, "long"),
        made.base_type("float", 4, 4, "float"),
        made.base_type("double", 8, 4, "double"),
        made.structure("point", 8, [("x", "int", 0), ("y", "float", 4)], "point"),
        made.pointer("point", "to_point"),
        made.pointer("int", "to_int"),
    ]
    return made.unit(lines, code, inlined, *subprograms, *types)


def of_points(function):
    return [["to_point"], ["to_point", "int"], ["to_int", "long"], [], ["int", "float", "double"]][function.kind]


def inner_of(made, function):
    """A variable whose list selects a base of its own, and a function that is inlined, by bounds or by ranges."""
    line, begin_of = made.line_of(function), function.begin_of
    base = u32(0xFFFFFFFF) + u32(function.start)
    held = [((begin_of(1) - function.start, begin_of(4) - function.start), local(function.frame) + b"\x23\x18")]
    held += [((begin_of(4) - function.start, len(function.body)), b"\x31" + STACK_VALUE)]
    code = [made.sections.listed((begin_of(2), begin_of(3)), (begin_of(4), begin_of(5)))] if function.number % 2 else made.bounds(begin_of(2), begin_of(4))
    value = made.entry(PARAMETER, made.to("value", ORIGIN), expression(LOCATION, local(function.frame + 1) + STACK_VALUE))
    call = made.entry(INLINED, made.to("clamp", ORIGIN), *code, data1(CALL_FILE, 1), data2(CALL_LINE, line + 5), children=[value])
    return [made.in_list("corner", line + 2, "point", (base,), *held), made.on_frame(VARIABLE, "total", line + 3, 24, "long"), call]


# ---- the unit that was dropped


def dropped_unit(sections, functions):
    """A unit of functions that are not in the module. The linker leaves 0xFFFFFFFF in place of their addresses, and an older one 0."""
    made = UnitMaker(sections, "unused.c", functions, 7)
    starts = [UNLINKED if k % 2 == 0 else 0 for k in range(len(functions))]
    program = b"".join(sequence(function, made.line_of(function), start) for function, start in zip(functions, starts))
    lines = sections.line_table([], [(0, made.file)], program)
    code = [(LOW_PC, ADDR, u32(0)), sections.listed(*[UNLINKED_PAIR for _ in functions])]
    held = lambda function: made.in_list("kept", made.line_of(function) + 1, "text", (UNLINKED_PAIR, local(1) + STACK_VALUE))
    block = lambda function, start: made.entry(BLOCK, (LOW_PC, ADDR, u32(start)), (HIGH_PC, DATA4, u32(9)), children=[held(function)])
    subprograms = [made.subprogram(f, ["text"] * len(f.parameters), block(f, start), start=start) for f, start in zip(functions, starts)]
    types = [made.base_type("int", 4, 5, "int"), made.base_type("char", 1, 6, "char"), made.entry(CONST, made.to("char"), key="constant"), made.pointer("constant", "text")]
    return made.unit(lines, code, *subprograms, *types)


def debug_sections(functions):
    """The sections of DWARF, by the functions of the module."""
    sections = Sections()
    of = lambda numbers: [functions[number] for number in numbers]
    units = [first_unit(sections, of(FIRST_UNIT)), second_unit(sections, of(SECOND_UNIT)), dropped_unit(sections, of(range(1, 7)))]
    made = Info(*units)
    others = [(".debug_str", sections.text_bytes), (".debug_ranges", sections.ranges), (".debug_loc", sections.locations)]
    return made.abbrev, made.info, sections.lines, others
