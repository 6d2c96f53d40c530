#!/usr/bin/env python3
"""Makes WebAssembly modules with DWARF, and the map files of code compiled from them.

    make_modules.py FOLDER [--KIND N ...] ...

Of each kind, for each N, the files are FOLDER/KIND_N.json with FOLDER/KIND_N.0.wasm, and so on. Plain ones:

- functions: N functions, each with a subprogram, a line sequence of 20 rows and an address map of 20 entries.
- modules: three modules of N functions each under one map; there are three wasm files.
- frames: N functions with a call frame of 20 instructions each.
- segments: one function of N sources, and a DW_LNE_set_address before each of its N rows, as wasm-opt writes them.

Hostile ones:

- units: N units without line tables, of a subprogram each, that share one abbreviation table of N declarations.
- shapes: one unit of N subprograms, each of a shape of its own among N.
- attributes: one entry of N attributes.
- subprograms: one unit of N subprograms, all at the begin of one function.
- one_function: N segments of one row each, all at the begin of one function of N sources.
- shared_table: 1,000 units of a subprogram each, which name one line table of N rows.
- two_tables: the same where the units name two line tables of N rows in turn.

Entries of any kind:

- entries: N units of 500 kept entries, with names in `.debug_str` and references within and between units, forward and back.
- named_by_all: N entries that all refer to one.
- chain: N entries, each of which is kept by the one before it alone.
- long_text: N entries whose names are one text of N bytes.
- nested: N blocks, one in another.
- blocks: one function of N sources, with a block for each of them.
- long_list: the same with one block, whose range list has an interval for every second source.
- many_ranges: one block of N attributes and N range lists behind them, all of which are one.

Pointers:

- pointers: N pointers that go to one chain of 1,000 constants and pointers, in turn, and a base type behind them.
- named_pointers: N pointers with names of their own that go to one chain of 1,000 constants.
- one_long_chain: N pointers with names of their own that go to one chain of N constants.
- pointer_chain: N pointers, each of which goes to the next, and a base type behind them; their names have N bytes and fewer.
- pointer_cycle: the same with the last going to the first; their names have N bytes.

Where values lie:

- variables: N variables on a frame base in a register, in one function of 20 sources.
- long_locations: one function of N sources, with a variable whose location list has an interval for every second source.
- placed: one variable whose value has N places, one behind another.
- expressions: one entry of N attributes, each of which is an expression.
"""

import argparse
import json
import os

ROWS = 20  # of a function's line sequence, and entries of its address map
BODY = 42  # bytes of a function: no locals, 40 instructions, the end
CODE = 110  # bytes of its native code


def uleb(n):
    out = bytearray()
    while n >= 0x80:
        out.append(n & 0x7F | 0x80)
        n >>= 7
    out.append(n)
    return bytes(out)


def sleb(n):
    out = bytearray()
    while not -64 <= n < 64:
        out.append(n & 0x7F | 0x80)
        n >>= 7
    out.append(n & 0x7F)
    return bytes(out)


def u32(n):
    return n.to_bytes(4, "little")


def section(number, content):
    return bytes([number]) + uleb(len(content)) + content


def custom(name, content):
    return section(0, uleb(len(name)) + name.encode() + content)


# A compile unit with a line table, and subprograms with a low_pc and a data4 high_pc.
ABBREVIATIONS = bytes.fromhex("011101 1017 0000 022E00 1101 1206 0000 00")

# Version 4; from the minimum instruction length on: the opcodes, no directories, the file a.c.
LINE_PARAMETERS = bytes.fromhex("01 01 01 FB 0E 0D 000101010100000001000001 00 612E6300000000 00")


def debug_info(ranges, table=0):
    """A unit of subprograms, which names the line table at an offset."""
    entries = bytearray(bytes([1]) + u32(table))
    for start, length in ranges:
        entries += bytes([2]) + u32(start) + u32(length)
    entries.append(0)
    unit = bytes.fromhex("0400") + u32(0) + bytes([4]) + entries
    return u32(len(unit)) + unit


def debug_line(program):
    header = LINE_PARAMETERS
    table = bytes.fromhex("0400") + u32(len(header)) + header + program
    return u32(len(table)) + table


def set_address(address):
    return bytes([0, 5, 2]) + u32(address)


COPY = bytes([1])
END_SEQUENCE = bytes([0, 1, 1])


def advance_pc(n):
    return bytes([2]) + uleb(n)


def advance_line(n):
    return bytes([3]) + sleb(n)


def function_sequence(start, line):
    """Rows at each second instruction, a line further each."""
    special = 13 + (1 + 5) + 14 * 2
    rows = COPY + bytes([special]) * (ROWS - 1)
    rest = BODY - 2 * (ROWS - 1)
    return set_address(start) + advance_line(line - 1) + rows + advance_pc(rest) + END_SEQUENCE


def segment_sequence(start, rows, size):
    program = bytearray()
    for row in range(rows):
        program += set_address(start + 2 * row) + advance_line(1) + COPY
    program += advance_pc(size - 2 * (rows - 1)) + END_SEQUENCE
    return bytes(program)


# A compile unit without a line table, and a subprogram's declaration behind its code.
BARE_ROOT = bytes.fromhex("01 1101 0000")
SUBPROGRAM = bytes.fromhex("2E00 1101 1206 0000")


def shared_table(count):
    """So many declarations, at least two."""
    return BARE_ROOT + b"".join(uleb(code) + SUBPROGRAM for code in range(2, count + 1)) + bytes([0])


def unit_of_subprogram(start, length):
    entries = bytes([1, 2]) + u32(start) + u32(length) + bytes([0])
    unit = bytes.fromhex("0400") + u32(0) + bytes([4]) + entries
    return u32(len(unit)) + unit


def module(bodies, info, line, abbreviations=ABBREVIATIONS):
    """The file, and the offset of the code section's contents in it."""
    count = uleb(len(bodies))
    code = bytearray(count)
    for body in bodies:
        code += uleb(len(body)) + body
    front = b"\0asm" + u32(1)
    front += section(1, bytes.fromhex("01 60 00 00"))
    front += section(3, count + bytes(len(bodies)))
    offset = len(front) + 1 + len(uleb(len(code)))
    back = custom(".debug_abbrev", abbreviations) + custom(".debug_info", info) + custom(".debug_line", line)
    return front + section(10, bytes(code)) + back, offset


def places(bodies):
    """The offset of each body in the code section's contents."""
    at = len(uleb(len(bodies)))
    for body in bodies:
        at += len(uleb(len(body)))
        yield at
        at += len(body)


def body_of(size):
    return bytes([0]) + bytes([1]) * (size - 2) + bytes([0x0B])


def map_of(modules, asked={}):
    """The map of some modules by their functions, whose target has what is asked for. Where they have labels, it tells registers and memories too;
    where frames, what these share."""
    has_labels = any("labels" in function for functions in modules for function in functions)
    registers, memory = ({"registers": [[1, 3], [2, 14]]}, {"memory": {"defined": 80}}) if has_labels else ({}, {})
    has_frames = any("frame" in function for functions in modules for function in functions)
    common = {"cie": {"code_factor": 1, "data_factor": -8, "return_register": 16, "ops": [["cfa", 7, 8]]}} if has_frames else {}
    return {
        "target": {"arch": "x86_64", **asked, **registers, **common},
        "names": ["set_mem", "resolve_mem"],
        "modules": [{"path": f"/bench/module{i}.wasm", **memory, "functions": fs} for i, fs in enumerate(modules)],
    }


def functions_module(count, first_symbol=0):
    """A module of so many functions, and what the map tells of them; the first has a symbol of its own."""
    bodies = [body_of(BODY)] * count
    starts = list(places(bodies))
    info = debug_info((start, BODY) for start in starts)
    line = debug_line(b"".join(function_sequence(s, ROWS * i + 1) for i, s in enumerate(starts)))
    wasm, offset = module(bodies, info, line)
    functions = []
    for symbol, start in enumerate(starts, first_symbol):
        entries = [[5 * k, start + offset + 2 * k] for k in range(ROWS - 1)]
        entries.append([5 * (ROWS - 1), None])
        functions.append(
            {
                "symbol": symbol,
                "start": start + offset,
                "end": start + offset + BODY,
                "body_len": CODE,
                "map": entries,
            }
        )
    return wasm, functions


def text(name):
    """A name with its length."""
    return uleb(len(name)) + name


def names_of(count):
    """The section of names: of so many functions, the last first, and of two locals of each."""
    def locals_of(i):
        return uleb(i) + b"\2" + uleb(1) + text(b"size") + uleb(0) + text(b"at")

    functions = uleb(count) + b"".join(uleb(i) + text(b"function_%d" % i) for i in reversed(range(count)))
    locals_named = uleb(count) + b"".join(locals_of(i) for i in range(count))
    return custom("name", section(1, functions) + section(2, locals_named))


def names_module(count):
    """A module of so many functions, with names of these and of their locals."""
    wasm, functions = functions_module(count)
    return wasm + names_of(count), functions


def frames_module(count):
    """A module of so many functions, each with a call frame of 20 instructions."""
    wasm, functions = functions_module(count)
    steps = [[5 * k, ["cfa_offset", 8 * k + 16] if k % 2 else ["offset", k % 16, -8 * k]] for k in range(ROWS)]
    return wasm, [{**function, "frame": {"len": CODE, "ops": steps}} for function in functions]


def segments_module(rows):
    size = 2 * rows + 2
    bodies = [body_of(size)]
    [start] = places(bodies)
    wasm, offset = module(bodies, debug_info([(start, size)]), debug_line(segment_sequence(start, rows, size)))
    entries = [[3 * k, start + offset + 2 * k] for k in range(rows)]
    function = {
        "symbol": 0,
        "start": start + offset,
        "end": start + offset + size,
        "body_len": 3 * rows,
        "map": entries,
    }
    return wasm, [function]


def units_module(count):
    bodies = [body_of(BODY)]
    [start] = places(bodies)
    info = unit_of_subprogram(start, BODY) * count
    wasm, offset = module(bodies, info, b"", shared_table(count))
    function = {
        "symbol": 0,
        "start": start + offset,
        "end": start + offset + BODY,
        "body_len": CODE,
        "map": [[0, start + offset]],
    }
    return wasm, [function]


def one_function(size, info, line, abbreviations, entries, length=CODE):
    """A module of one function at its only place, with sections of DWARF that are made for that place."""
    bodies = [body_of(size)]
    [start] = places(bodies)
    wasm, offset = module(bodies, info(start), line(start), abbreviations)
    function = {
        "symbol": 0,
        "start": start + offset,
        "end": start + offset + size,
        "body_len": length,
        "map": [[native, start + offset + wasm_offset] for native, wasm_offset in entries],
    }
    return wasm, [function]


def no_lines(start):
    return b""


def unit_of(entries):
    unit = bytes.fromhex("0400") + u32(0) + bytes([4]) + entries + bytes([0])
    return u32(len(unit)) + unit


def shapes_module(count):
    def info(start):
        values = u32(start) + u32(BODY)
        return unit_of(bytes([1]) + b"".join(uleb(code) + values for code in range(2, count + 2)))

    return one_function(BODY, info, no_lines, shared_table(count + 1), [[0, 0]])


def attributes_module(count):
    names = b"".join(uleb(0x2000 + i % 0x1000) + bytes([0x0B]) for i in range(count))
    table = BARE_ROOT + bytes.fromhex("02 2E00 1101 1206") + names + bytes(3)

    def info(start):
        return unit_of(bytes([1, 2]) + u32(start) + u32(BODY) + bytes(count))

    return one_function(BODY, info, no_lines, table, [[0, 0]])


def subprograms_module(count):
    def info(start):
        return unit_of(bytes([1]) + (bytes([2]) + u32(start) + u32(BODY)) * count)

    return one_function(BODY, info, no_lines, shared_table(2), [[0, 0]])


def one_function_module(count):
    size = 2 * count + 2

    def line(start):
        return debug_line((set_address(start) + COPY) * count + advance_pc(size) + END_SEQUENCE)

    entries = [[3 * k, 2 * k] for k in range(count)]
    return one_function(size, lambda start: debug_info([(start, size)]), line, ABBREVIATIONS, entries, 3 * count)


UNITS_OF_A_TABLE = 1000


def table_of_rows(rows, start):
    """One sequence of so many rows at one place, a line further each."""
    special = 13 + 5 + 1
    return debug_line(set_address(start) + COPY + bytes([special]) * (rows - 1) + advance_pc(BODY) + END_SEQUENCE)


def shared_table_module(rows):
    def info(start):
        return debug_info([(start, BODY)]) * UNITS_OF_A_TABLE

    return one_function(BODY, info, lambda start: table_of_rows(rows, start), ABBREVIATIONS, [[0, 0], [5, 8]])


def two_tables_module(rows):
    def line(start):
        return table_of_rows(rows, start) * 2

    def info(start):
        second = len(table_of_rows(rows, start))
        pair = debug_info([(start, BODY)]) + debug_info([(start, BODY)], second)
        return pair * (UNITS_OF_A_TABLE // 2)

    return one_function(BODY, info, line, ABBREVIATIONS, [[0, 0], [5, 8]])


# ---- entries of any kind

# Declarations by their numbers: a root, a subprogram, and behind them entries that have children or none, a name by strp or none, and a
# type within the unit (ref4) or in another (ref_addr).
ENTRY_TABLE = bytes.fromhex(
    "01 1101 0000  02 2E01 1101 1206 0000  03 0500 030E 4913 0000  04 1300 030E 4913 0000  05 1300 030E 4910 0000  06 0B01 0000  00"
)
PARAMETER, STRUCTURE, STRUCTURE_ELSEWHERE, NESTED_BLOCK = 3, 4, 5, 6
FIRST_ENTRY = 11 + 1  # behind the header of version 4 and the root
SUBPROGRAM_SIZE = 1 + 4 + 4
NAMED_SIZE = 1 + 4 + 4  # of a parameter, and of a structure


def named(number, name, target):
    return bytes([number]) + u32(name) + u32(target)


def unit_around(start, parameters, entries):
    """A unit of a subprogram with parameters, and entries behind it."""
    return unit_of(bytes([1, 2]) + u32(start) + u32(BODY) + parameters + b"\0" + entries)


def one_function_with_texts(info, texts):
    wasm, functions = one_function(BODY, info, no_lines, ENTRY_TABLE, [[0, 0]])
    return wasm + custom(".debug_str", texts), functions


ENTRIES_OF_A_UNIT = 500


def entries_module(units):
    count = ENTRIES_OF_A_UNIT - 3
    texts = b"".join(b"name_of_entry_%04d\0" % i for i in range(ENTRIES_OF_A_UNIT))
    text_size = len(texts) // ENTRIES_OF_A_UNIT
    first = FIRST_ENTRY + SUBPROGRAM_SIZE + NAMED_SIZE + 1
    size = first + count * NAMED_SIZE + 1

    def entry(unit, i):
        name, place = i * text_size, first + (i + 1) % count * NAMED_SIZE
        if i % 10:
            return named(STRUCTURE, name, place)
        other = (unit + (1 if i % 20 else -1)) % units
        return named(STRUCTURE_ELSEWHERE, name, other * size + place)

    def info(start):
        parameter = named(PARAMETER, 0, first)
        return b"".join(unit_around(start, parameter, b"".join(entry(u, i) for i in range(count))) for u in range(units))

    return one_function_with_texts(info, texts)


def named_by_all_module(count):
    first = FIRST_ENTRY + SUBPROGRAM_SIZE + count * NAMED_SIZE + 1

    def info(start):
        return unit_around(start, named(PARAMETER, 0, first) * count, named(STRUCTURE, 0, first))

    return one_function_with_texts(info, b"x\0")


def chain_module(count):
    first = FIRST_ENTRY + SUBPROGRAM_SIZE + NAMED_SIZE + 1

    def info(start):
        links = b"".join(named(STRUCTURE, 0, first + (i + 1) % count * NAMED_SIZE) for i in range(count))
        return unit_around(start, named(PARAMETER, 0, first), links)

    return one_function_with_texts(info, b"x\0")


def long_text_module(count):
    def info(start):
        return unit_around(start, named(PARAMETER, 0, 0) * count, b"")

    return one_function_with_texts(info, b"x" * count + b"\0")


def nested_module(count):
    def info(start):
        return unit_around(start, bytes([NESTED_BLOCK]) * count + b"\0" * count, b"")

    return one_function_with_texts(info, b"x\0")


# A compile unit, a subprogram with children, and blocks with bounds and with a range list.
BLOCKS = bytes.fromhex("011101 1017 0000 022E01 1101 1206 0000 030B00 1101 1206 0000 040B00 5517 0000 00")


def blocks_module(count):
    """A function of so many recorded sources, with a block for each of them."""
    size = 2 * count + 2

    def info(start):
        blocks = b"".join(bytes([3]) + u32(start + 2 * i) + u32(2) for i in range(count))
        return unit_of(bytes([1]) + u32(0) + bytes([2]) + u32(start) + u32(size) + blocks + bytes([0]))

    def line(start):
        return debug_line(segment_sequence(start, 1, size))

    return one_function(size, info, line, BLOCKS, [[3 * i, 2 * i] for i in range(count)], 3 * count)


def apart_module(count):
    """A function of so many recorded sources, which lie at its begin and at its end in turn, with as many blocks of the code between."""
    size = count + 8

    def info(start):
        blocks = b"".join(bytes([3]) + u32(start + 4 + i) + u32(1) for i in range(count))
        return unit_of(bytes([1]) + u32(0) + bytes([2]) + u32(start) + u32(size) + blocks + bytes([0]))

    def line(start):
        return debug_line(segment_sequence(start, 1, size))

    return one_function(size, info, line, BLOCKS, [[3 * i, 1 + i % 2 * (size - 2)] for i in range(count)], 3 * count)


def long_list_module(count):
    """The same, with one block whose range list has an interval for every second source."""
    size = 2 * count + 2

    def info(start):
        return unit_of(bytes([1]) + u32(0) + bytes([2]) + u32(start) + u32(size) + bytes([4]) + u32(0) + bytes([0]))

    def line(start):
        return debug_line(segment_sequence(start, 1, size))

    wasm, functions = one_function(size, info, line, BLOCKS, [[3 * i, 2 * i] for i in range(count)], 3 * count)
    [start] = places([body_of(size)])
    pairs = b"".join(u32(start + 4 * i) + u32(start + 4 * i + 2) for i in range(count // 2))
    return wasm + custom(".debug_ranges", pairs + bytes(8)), functions


def many_ranges_module(count):
    """A block of so many attributes of one byte and of so many range lists behind them, all of which are one."""
    attributes = b"".join(uleb(0x2000 + i % 0x1000) + bytes([0x0B]) for i in range(count))
    table = bytes.fromhex("01 1101 1101 0000 02 2E01 1101 1206 0000 03 0B00") + attributes + bytes.fromhex("5517") * count + bytes(3)

    def info(start):
        block = bytes([3]) + bytes(count) + u32(0) * count
        return unit_of(bytes([1]) + u32(0) + bytes([2]) + u32(start) + u32(BODY) + block + bytes([0]))

    wasm, functions = one_function(BODY, info, no_lines, table, [[0, 0]])
    [start] = places([body_of(BODY)])
    return wasm + custom(".debug_ranges", u32(start) + u32(start + BODY) + bytes(8)), functions


# ---- pointers

# A compile unit, a subprogram with children, and of entries with a type: parameters, constants and pointers; a base type with a name; and
# pointers with a name.
POINTERS = bytes.fromhex("011101 0000 022E01 1101 1206 0000 030500 4913 0000 042600 4913 0000 050F00 4913 0000 062400 030E 0000 070F00 030E 4913 0000 00")
CONSTANT, POINTER, BASE_TYPE, NAMED_POINTER = 4, 5, 6, 7
TYPED_SIZE = 1 + 4
NAMED_SIZE = 1 + 4 + 4
STEPS_OF_A_CHAIN = 1000


def typed(number, target):
    return bytes([number]) + u32(target)


def typed_module(count, made):
    """Parameters of one function, and the types behind it, by the offset of the first type: those of the parameters, and all."""
    targets, types = made(FIRST_ENTRY + SUBPROGRAM_SIZE + count * TYPED_SIZE + 1)

    def info(start):
        parameters = b"".join(typed(PARAMETER, target) for target in targets)
        return unit_of(bytes([1, 2]) + u32(start) + u32(BODY) + parameters + b"\0" + types)

    wasm, functions = one_function(BODY, info, no_lines, POINTERS, [[0, 0]])
    return wasm + custom(".debug_str", b"t\0"), functions


def chain_to_base(chain, tags, steps_count=STEPS_OF_A_CHAIN):
    """Types at an offset, each derived from the next, and a base type behind them."""
    steps = b"".join(typed(tags[i % len(tags)], chain + (i + 1) * TYPED_SIZE) for i in range(steps_count))
    return steps + bytes([BASE_TYPE]) + u32(0)


def pointers_module(count):
    """Parameters, of which each has a pointer of its own, and the chain of types that all these pointers go to."""

    def made(first):
        chain = first + count * TYPED_SIZE
        targets = range(first, chain, TYPED_SIZE)
        return targets, typed(POINTER, chain) * count + chain_to_base(chain, [CONSTANT, POINTER])

    return typed_module(count, made)


def named_pointers_module(count, steps_count=STEPS_OF_A_CHAIN):
    """The same with a name for each pointer, and a chain of so many constants."""

    def made(first):
        chain = first + count * NAMED_SIZE
        targets = range(first, chain, NAMED_SIZE)
        return targets, (bytes([NAMED_POINTER]) + u32(0) + u32(chain)) * count + chain_to_base(chain, [CONSTANT], steps_count)

    return typed_module(count, made)


def pointer_chain_module(count):
    """A parameter, and the chain of pointers that it goes to, with a base type behind them."""

    def made(first):
        pointers = b"".join(typed(POINTER, first + (i + 1) * TYPED_SIZE) for i in range(count))
        return [first], pointers + bytes([BASE_TYPE]) + u32(0)

    return typed_module(1, made)


def pointer_cycle_module(count):
    """A parameter, and pointers of which each goes to the next, and the last to the first."""

    def made(first):
        return [first], b"".join(typed(POINTER, first + (i + 1) % count * TYPED_SIZE) for i in range(count))

    return typed_module(1, made)


# ---- where values lie

# A compile unit, a subprogram with a frame base, and variables with an expression or a location list.
VALUES = bytes.fromhex("011101 0000 022E01 1101 1206 4018 0000 033400 0218 0000 043400 0217 0000 00")
FRAME_BASE = bytes.fromhex("04 ED00009F")  # the value of local 0
ON_FRAME_BASE = bytes.fromhex("02 9110")
IN_REGISTER = "reg"


def values_module(variables, size, entries, length, ranges, abbreviations=VALUES):
    """A module of one function with some variables, whose local 0 has some ranges of places, beside the module's context in a register."""

    def info(start):
        return unit_of(bytes([1, 2]) + u32(start) + u32(size) + FRAME_BASE + variables(start) + bytes([0]))

    wasm, [function] = one_function(size, info, no_lines, abbreviations, entries, length)
    function["labels"] = [[0, ranges], [4294967294, [[0, length, IN_REGISTER, 2]]]]
    return wasm, [function]


def variables_module(count):
    entries = [[5 * i, 2 * i] for i in range(20)]
    return values_module(lambda start: (bytes([3]) + ON_FRAME_BASE) * count, BODY, entries, CODE, [[0, CODE // 2, IN_REGISTER, 1]])


def location_pairs(start, count):
    """A location list of half as many entries, each over two bytes of four from an address on."""
    return b"".join(u32(start + 4 * i) + u32(start + 4 * i + 2) + bytes.fromhex("0400 ED00009F") for i in range(count // 2)) + bytes(8)


def long_locations_module(count):
    size, entries = 2 * count + 2, [[3 * i, 2 * i] for i in range(count)]
    ranges = [[0, 3 * count, IN_REGISTER, 1]]
    wasm, functions = values_module(lambda start: bytes([4]) + u32(0), size, entries, 3 * count, ranges)
    [start] = places([body_of(size)])
    return wasm + custom(".debug_loc", location_pairs(start, count)), functions


def placed_module(count):
    ranges = [[2 * i, 2 * i + 2, IN_REGISTER, 1 + i % 2] for i in range(count)]
    return values_module(lambda start: bytes([3]) + ON_FRAME_BASE, BODY, [[0, 0]], 2 * count, ranges)


def placed_locations_module(count, step=1):
    """As long_locations, and the local moves with each second instruction; its ranges are told from the first to the last, or by another step."""
    size, entries = 2 * count + 2, [[3 * i, 2 * i] for i in range(count)]
    ranges = [[6 * i, 6 * i + 6, IN_REGISTER, 1 + i % 2] for i in range(count // 2)][::step]
    wasm, functions = values_module(lambda start: bytes([4]) + u32(0), size, entries, 3 * count, ranges)
    [start] = places([body_of(size)])
    return wasm + custom(".debug_loc", location_pairs(start, count)), functions


def run_locations_module(count):
    """As long_locations, and the sources fall from instruction to instruction, so that each is a run of its own."""
    size, entries = 2 * count + 2, [[3 * i, 2 * (count - 1 - i)] for i in range(count)]
    ranges = [[0, 3 * count, IN_REGISTER, 1]]
    wasm, functions = values_module(lambda start: bytes([4]) + u32(0), size, entries, 3 * count, ranges)
    [start] = places([body_of(size)])
    return wasm + custom(".debug_loc", location_pairs(start, count)), functions


def expressions_module(count):
    names = b"".join(uleb(0x2100 + i) + bytes([0x18]) for i in range(count))
    abbreviations = VALUES[:-1] + bytes.fromhex("05 3400") + names + bytes(3)
    ranges = [[0, CODE, IN_REGISTER, 1]]
    return values_module(lambda start: bytes([5]) + ON_FRAME_BASE * count, BODY, [[0, 0]], CODE, ranges, abbreviations)


# The kinds of modules, each with what makes the modules of a size.
KINDS = {
    "functions": lambda n: [functions_module(n)],
    "modules": lambda n: [functions_module(n, i * n) for i in range(3)],
    "names": lambda n: [names_module(n)],
    "frames": lambda n: [frames_module(n)],
    "segments": lambda n: [segments_module(n)],
    "units": lambda n: [units_module(n)],
    "shapes": lambda n: [shapes_module(n)],
    "attributes": lambda n: [attributes_module(n)],
    "subprograms": lambda n: [subprograms_module(n)],
    "one_function": lambda n: [one_function_module(n)],
    "shared_table": lambda n: [shared_table_module(n)],
    "two_tables": lambda n: [two_tables_module(n)],
    "entries": lambda n: [entries_module(n)],
    "named_by_all": lambda n: [named_by_all_module(n)],
    "chain": lambda n: [chain_module(n)],
    "long_text": lambda n: [long_text_module(n)],
    "nested": lambda n: [nested_module(n)],
    "blocks": lambda n: [blocks_module(n)],
    "apart": lambda n: [apart_module(n)],
    "long_list": lambda n: [long_list_module(n)],
    "many_ranges": lambda n: [many_ranges_module(n)],
    "pointers": lambda n: [pointers_module(n)],
    "named_pointers": lambda n: [named_pointers_module(n)],
    "one_long_chain": lambda n: [named_pointers_module(n, n)],
    "pointer_chain": lambda n: [pointer_chain_module(n)],
    "pointer_cycle": lambda n: [pointer_cycle_module(n)],
    "variables": lambda n: [variables_module(n)],
    "long_locations": lambda n: [long_locations_module(n)],
    "placed": lambda n: [placed_module(n)],
    "placed_locations": lambda n: [placed_locations_module(n)],
    "unordered_locations": lambda n: [placed_locations_module(n, -1)],
    "run_locations": lambda n: [run_locations_module(n)],
    "expressions": lambda n: [expressions_module(n)],
}

# The sizes of each kind, unless they are given.
SIZES = {
    "functions": [1000, 25000, 50000],
    "modules": [5000, 10000],
    "names": [25000, 50000],
    "frames": [25000, 50000],
    "segments": [5000, 10000],
    "units": [5000, 10000],
    "shapes": [30000, 60000],
    "attributes": [30000, 60000],
    "subprograms": [50000, 100000],
    "one_function": [50000, 100000],
    "shared_table": [500000, 1000000],
    "two_tables": [5000, 10000],
    "entries": [400, 4000],
    "named_by_all": [50000, 100000],
    "chain": [50000, 100000],
    "long_text": [50000, 100000],
    "nested": [50000, 100000],
    "blocks": [50000, 100000],
    "apart": [20000, 40000],
    "long_list": [100000, 200000],
    "many_ranges": [20000, 40000],
    "pointers": [50000, 100000],
    "named_pointers": [50000, 100000],
    "one_long_chain": [20000, 40000],
    "pointer_chain": [4000, 8000],
    "pointer_cycle": [4000, 8000],
    "variables": [50000, 100000],
    "long_locations": [50000, 100000],
    "placed": [100000, 200000],
    "placed_locations": [20000, 40000],
    "unordered_locations": [20000, 40000],
    "run_locations": [10000, 20000],
    "expressions": [25000, 50000],
}


def write(folder, name, modules, asked={}):
    """Writes modules with their map, and answers the paths of the map and of the modules."""
    map_path = os.path.join(folder, name + ".json")
    with open(map_path, "w") as file:
        json.dump(map_of([functions for _, functions in modules], asked), file, separators=(",", ":"))
    paths = [map_path]
    for i, (wasm, _) in enumerate(modules):
        paths.append(os.path.join(folder, f"{name}.{i}.wasm"))
        with open(paths[-1], "wb") as file:
            file.write(wasm)
    return paths


def make(folder, sizes, asked={}):
    """Kind, size and the paths of the map and of the modules of all that is made, by the sizes of each kind and by what maps ask for."""
    os.makedirs(folder, exist_ok=True)
    for kind, numbers in sizes.items():
        for number in numbers:
            yield kind, number, write(folder, f"{kind}_{number}", KINDS[kind](number), asked)


def add_sizes(parser):
    """The words of a command line for the sizes of each kind; `--only KIND ..` leaves the others out."""
    for kind, sizes in SIZES.items():
        parser.add_argument(f"--{kind}", type=int, nargs="*", default=sizes)
    parser.add_argument("--only", nargs="*", choices=list(KINDS), default=list(KINDS))
    parser.add_argument("--debugger", action="store_true", help="maps ask for output for a debugger")


def asked_of(words):
    return {"debugger": True} if words.debugger else {}


def sizes_of(words):
    return {kind: getattr(words, kind) for kind in words.only}


def main():
    parser = argparse.ArgumentParser(description=__doc__.splitlines()[0])
    parser.add_argument("folder")
    add_sizes(parser)
    words = parser.parse_args()
    for _, _, paths in make(words.folder, sizes_of(words), asked_of(words)):
        print(*paths)


if __name__ == "__main__":
    main()
