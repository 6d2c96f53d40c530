"""Cases of where values are: what expressions and location lists become, and what is in force where they stand."""

import os

import plain_run
import range_cases
from entry_cases import BASE_TYPE, BLOCK, DATA1, DATA4, GREATEST, HIGH_PC, LENGTH, LINES, LOW_PC, NAME, PARAMETER, RANGES, SEC_OFFSET, STRING
from entry_cases import SUBPROGRAM, VARIABLE, Entry, kinds, pairs, root, subprogram, to
from make_modules import sleb, u32, uleb
from plain_entries import Refused
from range_cases import EXPRLOC, INLINED, LOCATION, LOCLISTX, MOST, PLACES, SECOND, SMALL, TEN, TEN_MOVED
from range_cases import RNGLISTX, bodies, for_bytes, listed, low, low_8, program_of, told_of, u64, until, within
from worked_texts import PART_TEXT, WHOLE_TEXT

FRAME_BASE, BYTE_SIZE, STRING_LENGTH, MEMBER_PLACE, LOCLISTS_BASE = 0x40, 0x0B, 0x19, 0x38, 0x8C
VMCTX = 0xFFFFFFFE

# ---- what the map says


def reg(start, end, number):
    return [start, end, "reg", number]


def cfa(start, end, offset):
    return [start, end, "cfa", offset]


# The value 3 is in a register over part of the small function, the context pointer over all of it.
PART = {3: [reg(0, 20, 1)], VMCTX: [reg(0, 30, 2)]}
WHOLE = {3: [reg(0, 30, 1)], VMCTX: [reg(0, 30, 2)]}
REGISTERS = [[1, 12], [2, 14], [3, 3], [4, 33], [5, 12]]
DEFINED = {"defined": 80}


class Cases(range_cases.Cases):
    """Cases of modules that are made of functions with labels, units and further sections."""

    def told(self, functions, labels, memory):
        """What the map says of a module: labels of each function, and where its memory is."""
        for function, ranges in zip(functions, labels):
            function["labels"] = [[label, places] for label, places in ranges.items()]
        return {"memory": memory, "functions": functions}

    def carried(self, name, *units, sections=(), functions=(SMALL,), labels=(PART,), memory=DEFINED, target=None, **wanted):
        made, told = self.made(units, sections, functions)
        text = self.map_of(self.told(told, labels, memory), **{"registers": REGISTERS, **(target or {})})
        self.cases.carried(name, text, made, **wanted)

    def refused(self, name, status, line, *units, sections=(), functions=(SMALL,), labels=(PART,), memory=DEFINED, registers=REGISTERS):
        made, told = self.made(units, sections, functions)
        self.refused_modules(name, status, line, self.map_of(self.told(told, labels, memory), registers=registers), made)

    def refused_modules(self, name, status, line, map_text, *modules):
        """A run that must be refused; the plain program must not carry it either, nor tell another line."""
        try:
            printed = plain_run.printed_text(map_text.encode(), list(modules))
        except Refused as found:
            assert str(found) == line, f"{name}: {found}"
        except (ValueError, KeyError):
            pass
        else:
            raise AssertionError(f"{name}: {printed}")
        self.cases.refused_module(name, status, line, *modules, map_text=map_text)


# ---- entries


def at(expression, name=LOCATION):
    """An attribute that is an expression."""
    data = bytes.fromhex(expression)
    return (name, EXPRLOC, uleb(len(data)) + data)


def variable(expression):
    return Entry(VARIABLE, at(expression))


def framed(*children, base="ED 00 03 9F", attributes=()):
    """A unit of a subprogram with a frame base, which begins in a function, with children."""
    return root(Entry(SUBPROGRAM, low(2), LENGTH, at(base, FRAME_BASE), *attributes, children=children))


def plain(*expressions):
    """A unit of a subprogram without a frame base, with a variable for each expression."""
    return within(*map(variable, expressions))


def block(*children, begin=5, end=9):
    return Entry(BLOCK, low(begin), until(end), children=children)


def in_list(offset=0, name=LOCATION):
    return (name, SEC_OFFSET, u32(offset))


def listed_variable(offset=0):
    return Entry(VARIABLE, in_list(offset))


def loc(*entries, size=4):
    """`.debug_loc` of one list: of a begin, an end and an expression each, or of the greatest address and a base."""
    number = lambda n: n.to_bytes(size, "little")
    data = b""
    for begin, end, *expression in entries:
        data += number(begin) + number(end)
        for code in map(bytes.fromhex, expression):
            data += len(code).to_bytes(2, "little") + code
    return (".debug_loc", data + bytes(2 * size))


def loclists(*entries):
    """`.debug_loclists` of one list: of the bytes of an entry, and its expression if it has one."""
    data = b""
    for entry, *expression in entries:
        data += entry + b"".join(uleb(len(code)) + code for code in map(bytes.fromhex, expression))
    return (".debug_loclists", data + b"\0")


# What stands in built expressions: the value 3; the end of a read of memory; one whose base is 80 bytes behind the context pointer.
VALUE, READ = "7c00", "06160cffffffff1a22"
MEMORY = "7ed000" + READ
ON_BASE = VALUE + "2312"  # 18 bytes behind the value 3
SHIFT = "23201608202416"


def location_cases(cases, module, map_of):
    """`module` makes a module of abbreviations, units, a front and further sections; `map_of` makes a map of modules."""
    made = Cases(cases, module, map_of)
    worked_cases(made)
    operation_cases(made)
    jump_cases(made)
    base_cases(made)
    scope_cases(made)
    label_cases(made)
    memory_cases(made)
    name_cases(made)
    list_cases(made)
    new_list_cases(made)
    output_cases(made)
    compiled_cases(made)
    return made


# ---- worked examples


def worked_cases(made):
    """Worked examples, whose outcome stands here by hand."""
    on_base = framed(variable("91 12"))
    made.carried("a variable on a frame base that is in a register over part of its scope", on_base, places=["9c", f"[0-20 {ON_BASE}{MEMORY}]"], front=PART_TEXT)
    made.carried("a variable on a frame base that is in a register over all of its scope", on_base, labels=[WHOLE], places=["9c", ON_BASE + MEMORY], front=WHOLE_TEXT)
    three = [{0: [reg(0, 25, 1)], 1: [reg(5, 30, 2)], 2: [reg(0, 10, 3), reg(20, 30, 3)]}]
    sum_of_three = "7c007e00227300229f"
    inner = block(variable("ED 00 00 ED 00 01 22 ED 00 02 22 9F"), begin=11, end=17)
    made.carried("a sum of three values, each over a part of the scope", within(inner, begin=10), functions=[TEN], labels=three, places=[f"[5-10 {sum_of_three} 20-23 {sum_of_three}]"])
    made.carried("a sum of two values over a whole function", within(variable("ED 00 00 ED 00 01 22 9F"), begin=10), functions=[TEN], labels=three, places=["[5-25 7c007e00229f]"])
    made.carried("an expression of no value over a whole function", within(variable("31 28 00 00 9F"), begin=10), functions=[TEN], labels=three, places=["312800009f"])
    alone = {20: [reg(0, 30, 1)], 21: [cfa(0, 30, -16)], 22: [reg(0, 30, 4)], 23: [cfa(0, 30, 300)], VMCTX: [reg(0, 30, 2)]}
    values = [f"ED 00 {label} 9F" for label in ("14", "15", "16", "17")]
    made.carried("values alone are where they lie", plain(*values), labels=[alone], places=["5c", "9170", "9021", "91ac02"])
    made.carried("values behind a constant are read", plain(*("31" + value for value in values)), labels=[alone], places=["317c009f", "319170069f", "319221009f", "3191ac02069f"])
    made.carried("values as addresses in memory", plain("ED 00 14", "ED 00 15"), labels=[alone], places=[VALUE + MEMORY, "917006" + MEMORY])
    made.carried("a value alone is that with its end alone", plain("ED 00 14 9F 9F", "ED 00 14 96 9F", "96 ED 00 14 9F"), labels=[alone], places=["7c009f9f", "7c00969f", "967c009f"])
    shifts = ["ED 00 14 40 26 9F", "31 32 24 33 25 9F"]
    made.carried("shifts to the right are of the upper half", plain(*shifts), labels=[alone], places=[f"7c0040{SHIFT}269f", f"31322433{SHIFT}259f"])
    made.carried("a loop", plain("31 12 49 2A 28 05 00 23 01 2F F5 FF 9F"), places=["3112492a28050023012ff5ff9f"])
    made.carried("a jump over a read of memory", plain("31 12 28 02 00 06 30 9F"), places=[f"3112280e00{MEMORY}06309f"])
    frame = {VMCTX: [cfa(0, 30, -16)]}
    imported = {"imported": [0, 0]}
    made.carried("a read of an imported memory by a context pointer in the frame", plain("31 06 9F"), labels=[frame], memory=imported, places=[f"3191700606{READ}069f"])
    made.carried("an expression that needs nothing stays", plain("31 9F", "31"), places=["319f", "31"])
    made.carried("a jump into an operation", plain("28 01 00 10 23 9F"), places=[])
    made.carried("an offset from no frame base", plain("91 12", "91 12 9F"), places=[])


# ---- operations

STAYING = "08FF 09FF 0A3412 0B3412 0C78563412 0D78563412 0E7856341278563412 0FFFFFFFFFFFFFFFFF 10FFFFFFFFFFFFFFFFFF01 11808080808080808080"
STAYING += "7F 108100 12 13 14 1505 16 17 19 1A 1B 1C 1D 1E 1F 20 21 22 2305 24 27 29 2A 2B 2C 2D 2E 30 31 4E 4F 9304 9D0405 96 9F"
KNOWN = {0x06, *range(0x08, 0x2F), 0x2F, *range(0x30, 0x50), 0x91, 0x93, 0x94, 0x95, 0x96, 0x9D, 0x9F, 0xED}


def operation_cases(made):
    """What single operations become, and which are not supported."""
    everything = STAYING.replace(" ", "").lower()
    made.carried("operations that stay", plain(STAYING, "9F" + STAYING, STAYING + "31"), places=[everything, "9f" + everything, everything + "31"])
    reads = ["06", "9404", "18", "9504"]
    made.carried("reads of memory", plain(*("31" + read + "9F" for read in reads)), places=[f"31{MEMORY}{read}9f" for read in reads])
    made.carried("reads of memory whose result is an address", plain(*("31" + read for read in reads)), places=[f"31{MEMORY}{read}{MEMORY}" for read in reads])
    others = [code for code in range(256) if code not in KNOWN]
    made.carried("operations that are not supported, with what cannot be read behind", plain(*(f"31 {code:02X} 10" for code in others)), places=[])
    globals_and_others = ["ED 01 14", "ED 01", "ED 02 14", "ED 02 80", "ED 03 14000000", "ED 03 00", "ED 04", "ED FF 10"]
    made.carried("locations in WebAssembly that are no locals", plain(*(code + " 9F" for code in globals_and_others), *globals_and_others), places=[])
    greatest = {VMCTX - 1: [reg(0, 30, 1)], VMCTX: [reg(0, 30, 2)], VMCTX + 1: [reg(0, 30, 3)]}
    numbers = [VMCTX - 1, VMCTX, VMCTX + 1, 1 << 32, (1 << 32) + 20, (1 << 64) - 1]
    made.carried("locals of the greatest numbers", plain(*(f"ED 00 {uleb(n).hex()} 9F" for n in numbers)), labels=[{**greatest, 0: greatest[VMCTX], 20: greatest[VMCTX]}], places=["5c"])
    made.carried("numbers with more bytes than they need", framed(variable("ED 00 83 80 00 9F"), variable("91 92 80 00 9F")), labels=[WHOLE], places=["9c", "5c", ON_BASE + "9f"])
    offsets = {-1: "23ffffffffffffffffff01", -(1 << 63): "2380808080808080808001", (1 << 63) - 1: "23ffffffffffffffff7f", 0: "2300", 300: "23ac02"}
    made.carried("offsets from a frame base", framed(*(variable("91" + sleb(n).hex() + "9F") for n in offsets)), labels=[WHOLE], places=["9c", *(VALUE + add + "9f" for add in offsets.values())])
    made.carried("an expression without operations", framed(variable("")), places=["9c"])
    made.carried("an offset from no frame base of which the operand is cut", plain("91", "91 80", "31 91"), places=[])


def jump_cases(made):
    """Where jumps go, in what is read and in what is built."""
    value = {20: [reg(0, 30, 1)], VMCTX: [reg(0, 30, 2)]}
    jumps = {
        "31 28 00 00": "31280000" + MEMORY,  # to the end, in front of the read of memory
        "2F FD FF": "2ffdff" + MEMORY,
        "2F FD FF 9F": "2ffdff9f",
        "28 04 00 ED 00 14 12 9F": "2803007c00129f",
        "28 05 00 ED 00 14 22 12 9F": "2804007c0022129f",
        "ED 00 14 30 26 2F F8 FF 9F": f"7c0030{SHIFT}262ff2ff9f",
        "28 03 00 2F 00 00 06 28 F6 FF 9F": f"2803002f0000{MEMORY}0628eaff9f",
        "2F 01 00 12 2F FC FF 9F": "2f0100122ffcff9f",
    }
    made.carried("jumps forward and back", plain(*jumps), labels=[value], places=list(jumps.values()))
    made.carried("jumps to no operation", plain("2F FC FF", "28 01 00", "2F FF 7F", "2F 00 80", "2F FE FF", "31 2F FB FF 9F"), places=[])
    made.carried("a jump to nowhere in front of what cannot be read", plain("28 7F 00 10", "31 28 00 80 08"), places=[])
    made.carried("an operation that is not supported behind a jump into another", plain("28 01 00 10 23 50"), places=[])
    two = within(Entry(BLOCK, listed(), children=[variable("31 28 00 00 9F")]))
    made.carried("a jump over a scope of two functions", two, functions=[SMALL, SECOND], sections=[pairs((5, 6), (5, 8), (14, 20), (10, 11))], places=["312800009f"])


# ---- what is in force


def base_cases(made):
    """Frame bases: what they become, what stands on them, and which is in force."""
    on = lambda base, *expressions, **more: framed(*map(variable, expressions), base=base, **more)
    for name, base, said in [
        ("that is an address", "ED 00 03", VALUE + "23129f"),
        ("of several operations", "31 ED 00 03 22 9F", f"31{VALUE}229f23129f"),
        ("that is read from memory", "ED 00 03 06 9F", f"{VALUE}{MEMORY}069f23129f"),
        ("of operations that stay", "31 9F", "319f23129f"),
        ("without operations", "", "23129f"),
        ("of an offset that is not its own", "23 04", "230423129f"),
    ]:
        made.carried(f"a variable on a frame base {name}", on(base, "91 12 9F"), labels=[WHOLE], places=["9c", said])
    for name, base in [("a register", "50"), ("the canonical frame address", "9C"), ("on no frame base", "91 12"), ("a global", "ED 01 03 9F"), ("an address", "03 00000000")]:
        made.carried(f"a variable on a frame base that is {name}", on(base, "91 12", "31 9F"), places=["9c", "319f"])
    made.carried("expressions on a frame base with a jump", on("31 28 00 00 9F", "91 12", "31 9F", "ED 00 03 9F", "10", ""), places=["9c"])
    old = {"23 12": ON_BASE + MEMORY, "23 12 9F": ON_BASE + "9f", "23 12 12 28 FA FF 9F": ON_BASE + "1228faff9f", "31 23 12 9F": "3123129f"}
    made.carried("the old format, which adds to the frame base", on("ED 00 03 9F", *old), labels=[WHOLE], places=["9c", *old.values()])
    made.carried("an addition without a frame base", plain("23 12", "31 23 12"), places=["2312", "312312"])
    as_list = root(Entry(SUBPROGRAM, low(2), LENGTH, in_list(name=FRAME_BASE), children=[variable("91 12 9F"), variable("23 12 9F")]))
    made.carried("a frame base that is a list", as_list, sections=[loc((2, 10, "ED 00 03 9F"), (10, 13, "31"))], places=["[0-20 5c 15-30 31]", "23129f"])
    number = root(Entry(SUBPROGRAM, low(2), LENGTH, (FRAME_BASE, DATA1, b"\x03"), children=[variable("91 12 9F")]))
    made.carried("a frame base that is a number", number, places=[])
    own = root(Entry(SUBPROGRAM, low(2), at("91 12 9F"), LENGTH, at("ED 00 03 9F", FRAME_BASE)))
    made.carried("a frame base behind what stands on it", own, labels=[WHOLE], places=[ON_BASE + "9f", "9c"])
    twice = framed(variable("91 12 9F"), attributes=[at("ED 00 04 9F", FRAME_BASE)])
    made.carried("of two frame bases the first is in force", twice, labels=[{**WHOLE, 4: [reg(0, 30, 3)]}], places=["9c", ON_BASE + "9f"])
    made.carried("of two frame bases the first is in force, though it is none", framed(variable("91 12 9F"), base="50", attributes=[at("ED 00 04 9F", FRAME_BASE)]), places=["9c"])
    of_root = root(subprogram(children=[variable("91 12 9F")]), attributes=(LINES, at("ED 00 03 9F", FRAME_BASE)))
    made.carried("a root's frame base is of the root alone", of_root, places=["9c"])
    nested_bases(made)


def nested_bases(made):
    """Frame bases of entries in one another."""
    labels = {3: [reg(0, 30, 1)], 4: [reg(0, 30, 3)], VMCTX: [reg(0, 30, 2)]}
    second = {3: [cfa(0, 50, 8)], 4: [cfa(0, 50, 16)]}
    on_base = variable("91 12 9F")
    with_base = lambda base, *children: Entry(BLOCK, at(base, FRAME_BASE), children=children)
    inner = Entry(SUBPROGRAM, low(14), LENGTH, children=[on_base])
    unit = framed(with_base("ED 00 04 9F", on_base, with_base("50", on_base)), on_base, with_base("9C", on_base), inner)
    third, fourth = VALUE + "23129f", "730023129f"
    places = ["9c", "9c", fourth, "9c", fourth, third, "9c", third, "91080623129f"]
    made.carried("the nearest frame base is in force, also in another function", unit, functions=[SMALL, SECOND], labels=[labels, second], places=places)
    beside = root(Entry(SUBPROGRAM, low(2), LENGTH, at("ED 00 03 9F", FRAME_BASE)), Entry(SUBPROGRAM, low(14), LENGTH, children=[on_base]))
    made.carried("a frame base of the subprogram beside", beside, functions=[SMALL, SECOND], labels=[labels, second], places=["9c"])


def scope_cases(made):
    """Scopes: of which code an expression must say where the value is."""
    value, functions = variable("ED 00 03 9F"), [SMALL, SECOND]
    both = [PART, {3: [cfa(0, 50, 8)]}]
    carried = lambda name, *children, places, **more: made.carried(name, within(*children), functions=functions, labels=both, places=places, **more)
    carried("a scope in which the value is in one place", block(value), places=["5c"])
    carried("a scope of which the value leaves a part", block(value, begin=10, end=13), places=["[15-20 5c]"])
    carried("a scope in which the value is nowhere", block(value, begin=13, end=14), places=[])
    carried("the nearest scope counts", block(block(value, begin=10, end=13)), places=["[15-20 5c]"])
    carried("a scope with an end alone is empty", Entry(BLOCK, until(13), children=[value]), places=[])
    carried("a scope of no bytes", block(value, begin=5, end=5), places=[])
    carried("a scope of no code", block(value, begin=1, end=2), places=[])
    carried("a scope of ranges that are a number is empty", Entry(BLOCK, (RANGES, DATA1, b"\0"), children=[value]), places=[])
    carried("an entry with a begin alone has no scope of its own", Entry(BLOCK, low(5), children=[value]), places=["[0-20 5c]"])
    listed_block = Entry(BLOCK, listed(), children=[value])
    carried("a scope of ranges out of order that overlap", listed_block, sections=[pairs((10, 11), (5, 6), (5, 8), (9, 13))], places=["[5-20 5c]"])
    carried("a scope of an empty list", listed_block, sections=[pairs()], places=[])
    five = Entry(BLOCK, (RANGES, RNGLISTX, b"\0"), children=[value])
    ranges = kinds(bytes(12) + u32(4) + b"\x06" + u32(5) + u32(6) + b"\0")
    made.carried("a scope of ranges by an index", in_five(five), sections=[ranges], places=["5c"])
    carried("a scope of a length", Entry(BLOCK, low(5), for_bytes(4), children=[value]), places=["5c"])
    carried("a call in place", Entry(INLINED, low(5), until(9), at("ED 00 03 9F"), children=[Entry(PARAMETER, at("ED 00 03 9F"))]), places=["5c", "5c"])
    carried("a scope that goes over into a function in which nothing has a place", Entry(BLOCK, listed(), children=[value]), sections=[pairs((5, 6), (14, 20))], places=["[5-15 5c]"])
    carried("a scope of another function", block(value, begin=14, end=20), places=[])
    subprogram_scopes(made, value, carried)


def subprogram_scopes(made, value, carried):
    """Scopes of subprograms, and of what is in none."""
    nested = Entry(SUBPROGRAM, low(14), for_bytes(2), children=[value, block(value)])
    carried("a subprogram in another has its own function", nested, value, places=["9108", "[0-20 5c]"])
    without = Entry(SUBPROGRAM, children=[value], key="g"), Entry(SUBPROGRAM, low(1), LENGTH, to("g", 0x31), children=[value], key="h")
    carried("subprograms without code in another have the scope of that", *without, Entry(BLOCK, to("h", 0x31)), places=["[0-20 5c]", "[0-20 5c]"])
    nowhere = Entry(SUBPROGRAM, low(1), LENGTH, children=[value, variable("31"), block(value)], key="g")
    made.carried("values in a subprogram that begins in no function", root(subprogram(to("g")), nowhere), places=["31"])
    inner = Entry(SUBPROGRAM, listed(), children=[value])
    carried("a subprogram in another whose list begins in no function has the scope of that", inner, sections=[pairs((0, 1), (5, 6))], places=["[0-20 5c]"])
    by_list = root(inner)
    made.carried("values in a subprogram that its list requires", by_list, sections=[pairs((5, 6))], places=["[0-20 5c]"])
    made.carried("values in a subprogram whose list begins in no function", by_list, sections=[pairs((0, 1), (5, 6))], places=[])
    sizes = root(subprogram(to("b")), Entry(BASE_TYPE, at("ED 00 03 9F", BYTE_SIZE), at("31", 0x50), key="b"))
    made.carried("expressions of a type, which has no scope", sizes, places=["31"])
    of_root = root(subprogram(), attributes=(LINES, low(2), for_bytes(11), at("ED 00 03 9F"), at("31", STRING_LENGTH)))
    made.carried("expressions of a root, which has no scope", of_root, places=["31"])
    moved = within(block(value, begin=12, end=13), block(value, begin=12, end=20), begin=10)
    made.carried("scopes of code in two runs", moved, functions=[TEN_MOVED], labels=[{3: [reg(0, 24, 1), cfa(24, 29, 8)]}], places=["[5-15 5c 23-24 5c 24-29 9108]", "[5-24 5c 24-29 9108]"])


def label_cases(made):
    """Where values lie, byte by byte."""
    value, sum_of_two = "ED 00 03 9F", "ED 00 03 ED 00 04 22 9F"

    def carried(name, places, third, fourth=(), expression=value):
        made.carried(name, plain(expression), labels=[{3: third, 4: list(fourth), VMCTX: [reg(0, 30, 2)]}], places=places)

    carried("a value of which the map says nothing", [], [])
    carried("ranges that touch, of one place", ["5c"], [reg(0, 10, 1), reg(10, 30, 1)])
    carried("ranges that touch, of two places", ["[0-10 5c 10-30 9108]"], [reg(0, 10, 1), cfa(10, 30, 8)])
    carried("ranges of two registers of one number", ["5c"], [reg(0, 10, 1), reg(10, 30, 5)])
    carried("ranges of two registers of one number, over part of a scope", ["[0-10 5c 10-20 5c]"], [reg(0, 10, 1), reg(10, 20, 5)])
    carried("ranges with a hole", ["[0-10 5c 11-30 5c]"], [reg(0, 10, 1), reg(11, 30, 1)])
    carried("ranges out of order", ["[0-10 5c 10-20 9108 20-30 5c]"], [reg(20, 30, 1), reg(0, 10, 1), cfa(10, 20, 8)])
    carried("of ranges that overlap the last listed", ["[0-5 5c 5-15 9108 15-20 53 20-25 5c 25-30 53]"], [reg(0, 30, 1), cfa(5, 20, 8), reg(15, 30, 3), reg(20, 25, 1)])
    carried("a range that is covered by a later one", ["53"], [reg(5, 10, 1), reg(0, 30, 3)])
    carried("empty ranges", ["5c"], [reg(0, 30, 1), cfa(5, 5, 8), cfa(30, 30, 8), cfa(0, 0, 8)])
    carried("ranges past the function", ["[20-30 5c]"], [reg(20, GREATEST, 1), cfa(30, 40, 8)])
    carried("the greatest offsets", [f"[0-10 91{'ff' * 9}00 10-30 91{'80' * 9}7f]"], [cfa(0, 10, MOST >> 1), cfa(10, 30, -(1 << 63))])
    carried("two values, of which each moves", ["[5-10 7c007300229f 10-15 9108067300229f 15-20 910806912006229f 20-25 7c00912006229f]"], [reg(0, 10, 1), cfa(10, 20, 8), reg(20, 30, 1)], [reg(5, 15, 3), cfa(15, 25, 32)], sum_of_two)
    carried("two values that are nowhere at once", [], [reg(0, 10, 1)], [reg(10, 30, 3)], sum_of_two)
    carried("one value twice", ["[0-10 7c007c00229f]"], [reg(0, 10, 1)], [], "ED 00 03 ED 00 03 22 9F")
    carried("one of two values stays while the other is not needed", ["5c"], [reg(0, 30, 1)], [reg(0, 10, 3), cfa(10, 30, 8)])
    memory = {3: [reg(0, 30, 1)], VMCTX: [reg(0, 10, 2), cfa(15, 30, -16)]}
    made.carried("an address where the context pointer moves", plain("ED 00 03"), labels=[memory], places=[f"[0-10 {VALUE}{MEMORY} 15-30 {VALUE}91700611d00022{READ}]"])


def memory_cases(made):
    """Where the base of the memory is, beside the context pointer in a register, in one of a great number, and in the frame."""
    reads = within(*(block(variable("31 06 9F"), begin=begin, end=end) for begin, end in ((2, 3), (5, 9), (10, 13))))
    labels = {VMCTX: [reg(0, 5, 2), reg(5, 15, 4), cfa(15, 30, 300)]}
    for name, memory, in_register, in_great, in_frame in [
        ("at 0", {"defined": 0}, "7e00", "922100", "91ac0206110022"),
        ("at 80", DEFINED, "7ed000", "9221d000", "91ac020611d00022"),
        ("at a great offset", {"defined": (1 << 32) - 9}, "7ef7ffffff0f", "9221f7ffffff0f", "91ac020611f7ffffff0f22"),
        ("that is imported at 0 and 0", {"imported": [0, 0]}, "7e0006", "92210006", "91ac020606"),
        ("that is imported at 0 and 64", {"imported": [0, 64]}, "7e000611c00022", "9221000611c00022", "91ac02060611c00022"),
        ("that is imported at 8 and 0", {"imported": [8, 0]}, "7e0806", "92210806", "91ac020611082206"),
        ("that is imported at 64 and the greatest offset", {"imported": [64, GREATEST]}, "7ec0000611ffffffff0f22", "9221c0000611ffffffff0f22", "91ac020611c000220611ffffffff0f22"),
    ]:
        made.carried(f"a memory {name}", reads, labels=[labels], memory=memory, places=[f"31{base}{READ}069f" for base in (in_register, in_great, in_frame)])
    nothing = plain("ED 00 03 9F", "ED 00 03 31 22 9F", "31", "31 28 00 00 9F")
    made.carried("no memory, and no read of it", nothing, labels=[WHOLE], memory=None, places=["5c", "7c0031229f", "31", "312800009f"])
    unread = framed(variable("91 12"), block(variable("91 12"), begin=12, end=13))
    made.carried("no memory, where the value to read it at is nowhere", unread, labels=[{VMCTX: [reg(0, 30, 2)]}], memory=None, places=["9c"])
    made.carried("no memory, where the context pointer is nowhere", unread, labels=[{3: [reg(0, 30, 1)]}], memory=None, places=["9c"])
    made.carried("no memory, where the value and the context pointer are nowhere at once", unread, labels=[{3: [reg(0, 9, 1)], VMCTX: [reg(9, 30, 2)]}], memory=None, places=["9c"])
    unmapped = {3: [reg(0, 10, 9), reg(10, 20, 1)], 4: [reg(10, 30, 3)], VMCTX: [reg(0, 30, 2)]}
    made.carried("a register without a number where another value is nowhere", plain("ED 00 03 ED 00 04 22 9F"), labels=[unmapped], places=["[10-20 7c007300229f]"])
    made.carried("a register without a number that is not needed", plain("ED 00 04 9F", "31"), labels=[unmapped], places=["[10-30 53]", "31"])


def name_cases(made):
    """Names of attributes: which may have lists, which blocks are expressions, and names that are set again."""
    value, stays = "ED 00 03 9F", "31 9F"
    locations, others = (0x02, 0x19, 0x2A, 0x38, 0x46, 0x48, 0x4A, 0x4D), (0x0B, 0x0D, 0x22, 0x2E, 0x2F, 0x37, 0x4E, 0x4F, 0x50, 0x51, 0x03, 0x3A, 0x49, 0x2100)
    for names, name in ((locations, "that may have a list"), (others, "that may have none")):
        entries = [Entry(VARIABLE, at(value, n)) for n in names]
        part = ["[0-20 5c]"] * len(names) if names is locations else []
        made.carried(f"expressions under names {name}, over part of their scope", within(*entries), places=part)
        made.carried(f"expressions under names {name}, over all of it", within(*entries), labels=[WHOLE], places=["5c"] * len(names))
        made.carried(f"expressions under names {name} that stay", within(*(Entry(VARIABLE, at(stays, n)) for n in names)), places=["319f"] * len(names))
    as_block = lambda name, form, size: Entry(VARIABLE, (name, form, size + bytes.fromhex(value)))
    forms = [(0x0A, b"\x04"), (0x03, b"\x04\0"), (0x04, u32(4)), (0x09, b"\x84\0")]
    blocks = [as_block(LOCATION, *form) for form in forms] + [as_block(name, 0x0A, b"\x04") for name in (BYTE_SIZE, 0x51, FRAME_BASE, 0x2100, 0x1C)]
    made.carried("blocks that are expressions, and others", within(*blocks), labels=[WHOLE], places=["5c"] * 6 + ["9c"])
    dropped = [(name, EXPRLOC, b"\x01\x10") for name in (0x01, 0x43, 0x10, 0x73, 0x76, 0x79, LOCLISTS_BASE, 0x2137)]
    made.carried("expressions that cannot be read under names that go", within(Entry(VARIABLE, *dropped)), places=[])
    twice = lambda *expressions: within(Entry(VARIABLE, *map(at, expressions), (NAME, STRING, b"v\0")))
    made.carried("a location twice, of which the second counts", twice("31", "32"), places=["32"])
    made.carried("a location twice, of which the second goes", twice(value, "50"), places=["[0-20 5c]"])
    made.carried("a location three times, as a list, an expression and a list", twice(value, "31", value), labels=[PART], places=["[0-20 5c]"])
    bounds = [Entry(BLOCK, low(5), at("31", HIGH_PC), children=[variable(value)]), Entry(BLOCK, at(value, LOW_PC), for_bytes(5)), Entry(BLOCK, at("50", RANGES), children=[variable(value)])]
    made.carried("expressions in the place of bounds go", within(*bounds), places=[])
    as_type = root(subprogram(to("a")), Entry(0x01, at("97 22", 0x4F), at("ED 00 03 9F", 0x50), at("12 06 22", MEMBER_PLACE), key="a"))
    made.carried("expressions of a type, of which none is built", as_type, places=[])


# ---- location lists

IN_LIST = "ED 00 03 9F"


def list_cases(made):
    """The lists of the versions up to 4."""
    carried = lambda name, said, *entries, **more: made.carried(name, within(listed_variable()), sections=[loc(*entries)], places=said, **more)
    for version in (2, 3, 4):
        unit = within(Entry(VARIABLE, (LOCATION, DATA4 if version < 4 else SEC_OFFSET, u32(0))))
        made.carried(f"a list in version {version}", (unit, version, 4), sections=[loc((2, 3, IN_LIST), (5, 6, "31"), (10, 13, "ED 00 03"))], places=[f"[0-5 5c 5-15 31 15-20 {VALUE}{MEMORY}]"])
    made.carried("a list by data4 in version 4 is a number", within(Entry(VARIABLE, (LOCATION, DATA4, u32(0)))), sections=[loc((5, 6, "31"))], places=[])
    for name, said, *entries in [
        ("with empty intervals, whose expressions are not read", ["[5-15 31]"], (5, 5, "10"), (6, 5, "10"), (5, 6, "31")),
        ("behind a base", ["[5-15 31]"], (GREATEST, 4), (1, 2, "31")),
        ("before and behind a base", ["[5-15 31 15-30 32]"], (5, 6, "31"), (GREATEST, 9), (1, 2, "32")),
        ("that passes 2^64 from a base", ["[5-15 31]"], (5, 6, "31"), (GREATEST, GREATEST), (6, 7, "32")),
        ("out of order, of intervals that overlap", ["[15-30 31 5-23 32 5-15 33]"], (10, 11, "31"), (5, 10, "32"), (5, 8, "33")),
        ("of which one expression is not supported", ["[5-15 31]"], (2, 3, "50"), (5, 6, "31"), (10, 11, "ED 01 03 9F")),
        ("of which no expression is supported", [], (2, 3, "50"), (5, 6, "91 12")),
        ("without entries", []),
        ("of empty intervals alone", [], (5, 5, "31")),
        ("of a base alone", [], (GREATEST, 5)),
        ("in no function", ["[]"], (0, 4, "31"), (1, 2, IN_LIST)),
        ("of a value that is nowhere", ["[]"], (10, 13, "ED 00 05 9F")),
        ("of a value that is nowhere, and one that is not supported", ["[]"], (10, 13, "ED 00 05 9F"), (5, 6, "50")),
        ("of a value in part of an interval", ["[15-20 5c]"], (10, 13, IN_LIST)),
        ("of expressions without operations", ["[5-15 15-30 31]"], (5, 6, ""), (10, 11, "31")),
        ("of values and of what is not known of them", ["[0-5 5c 5-15 15-20 5c]"], (2, 3, IN_LIST), (5, 6, ""), (10, 13, IN_LIST)),
    ]:
        carried(f"a list {name}", said, *entries)
    lists_in_force(made)
    names = [Entry(VARIABLE, in_list(name=name)) for name in (0x02, 0x19, 0x2A, 0x38, 0x40, 0x46, 0x48, 0x4A, 0x4D)]
    made.carried("lists under each name that may have one", within(*names), sections=[loc((5, 6, "31"))], places=["[5-15 31]"] * 9)
    made.carried("offsets under names that have no lists", within(*(Entry(VARIABLE, in_list(90, name)) for name in (BYTE_SIZE, 0x22, 0x50, 0x2100))), places=[])
    based = within(listed_variable(), attributes=(LINES, low(4)))
    made.carried("a list from the begin of the root", based, sections=[loc((1, 2, "31"))], places=["[5-15 31]"])
    eight = root(Entry(SUBPROGRAM, low_8(2), LENGTH, children=[listed_variable()]), attributes=())
    wide = [loc((GREATEST, GREATEST + 5, "32"), (5, 6, "31"), (MOST, 4), (1, 2, "33"), size=8)]
    made.carried("a list of addresses of eight bytes", (eight, 4, 8), sections=wide, places=["[5-15 31 5-15 33]"])
    twice = within(Entry(VARIABLE, in_list(), at("32"), in_list(16)))
    two = (".debug_loc", loc((5, 6, "31"))[1][:-8] + loc((10, 11, "33"))[1])
    made.carried("a list, an expression and a list of one name", twice, sections=[(".debug_loc", loc()[1] * 2 + loc((10, 11, "33"))[1])], places=["[15-30 33]"])
    made.carried("a list from the middle of another", within(listed_variable(11)), sections=[two], places=["[15-30 33]"])


def lists_in_force(made):
    """What is in force where a list stands: its interval as the scope, the frame and the frame base."""
    runs = [loc((12, 20, "31"), (12, 20, ""), (12, 20, "31 28 00 00 9F"), (12, 20, IN_LIST))]
    moved = within(listed_variable(), begin=10)
    made.carried("a list over two runs: what stays is for each, all else is joined", moved, functions=[TEN_MOVED], labels=[WHOLE], sections=runs, places=["[5-23 31 23-30 31 5-30 5-30 312800009f 5-30 5c]"])
    both = [SMALL, SECOND]
    other = [loc((14, 20, "31"), (14, 20, IN_LIST), (14, 20, "31 28 00 00 9F"))]
    made.carried("a list of another function, in which nothing has a place", within(listed_variable()), functions=both, labels=[WHOLE, WHOLE], sections=other, places=["[0-40 31 0-40 312800009f]"])
    on_base = framed(listed_variable(), Entry(BLOCK, at("ED 00 04 9F", FRAME_BASE), children=[listed_variable()]))
    labels = {**WHOLE, 4: [reg(0, 30, 3)]}
    made.carried("lists on frame bases", on_base, labels=[labels], sections=[loc((2, 3, "91 12 9F"), (5, 6, "23 12 9F"))], places=["9c", f"[0-5 {ON_BASE}9f 5-15 {ON_BASE}9f]", "9c", "[0-5 730023129f 5-15 730023129f]"])
    with_jump = framed(listed_variable(), base="31 28 00 00 9F")
    made.carried("a list on a frame base with a jump", with_jump, sections=[loc((2, 3, "10"), (5, 6, "31"))], places=["9c"])
    made.carried("a list has its intervals, not the scope", within(block(listed_variable())), sections=[loc((10, 13, IN_LIST))], places=["[15-20 5c]"])
    made.carried("a list of two variables stands twice", within(listed_variable(), listed_variable()), sections=[loc((5, 6, "31"))], places=["[5-15 31]"] * 2)
    at_root = loc((2, 3, "31"), (5, 6, IN_LIST))
    of_root = root(subprogram(), attributes=(LINES, in_list(name=STRING_LENGTH)))
    made.carried("a list of a root, in which nothing has a place", of_root, sections=[at_root], places=["[0-5 31]"])
    of_type = root(subprogram(to("b")), Entry(BASE_TYPE, in_list(name=STRING_LENGTH), key="b"))
    made.carried("a list of a type, in which nothing has a place", of_type, sections=[at_root], places=["[0-5 31]"])


def in_five(*children, **more):
    return within(*children, **more), 5, 4


OFFSETS, DEFAULT, BASE, ENDS, START_LENGTH = b"\x04", b"\x05", b"\x06", b"\x07", b"\x08"  # the first bytes of entries
INDEX_BASE, INDEX_ENDS, INDEX_LENGTH = b"\x01", b"\x02", b"\x03"


def by_index(index, name=LOCATION):
    return Entry(VARIABLE, (name, LOCLISTX, uleb(index)))


def new_list_cases(made):
    """The lists of version 5, of entries of each kind, by an offset and by an index."""
    for name, said, *entries in [
        ("of two offsets", ["[5-15 31]"], (OFFSETS + b"\x05\x06", "31")),
        ("of a base by an index and two offsets", ["[15-30 31]"], (INDEX_BASE + b"\x02",), (OFFSETS + b"\x00\x01", "31")),
        ("of two indexes", ["[5-23 31]"], (INDEX_ENDS + b"\x01\x02", "31")),
        ("of an index and a length", ["[5-15 31]"], (INDEX_LENGTH + b"\x01\x01", "31")),
        ("of a base and two offsets", ["[15-20 5c]"], (BASE + u32(10),), (OFFSETS + b"\x00\x01", IN_LIST)),
        ("of two addresses", ["[5-15 31]"], (ENDS + u32(5) + u32(6), "31")),
        ("of an address and a length", [f"[5-15 {VALUE}{MEMORY}]"], (START_LENGTH + u32(5) + b"\x01", "ED 00 03")),
        ("of an address and a long length", ["[5-30 31]"], (START_LENGTH + u32(5) + uleb(MOST - 5), "31")),
        ("of addresses behind a base", ["[5-15 31 5-15 32]"], (BASE + u32(10),), (ENDS + u32(5) + u32(6), "31"), (INDEX_LENGTH + b"\x01\x01", "32")),
        ("of a default location alone, which goes", [], (DEFAULT, "31")),
        ("with default locations that cannot be read", ["[5-15 31]"], (DEFAULT, "10"), (OFFSETS + b"\x05\x06", "31"), (DEFAULT, "")),
        ("with empty intervals, whose expressions are not read", ["[5-15 31]"], (OFFSETS + b"\x05\x05", "10"), (OFFSETS + b"\x05\x06", "31"), (INDEX_ENDS + b"\x02\x01", "10"), (START_LENGTH + u32(5) + b"\0", "10")),
        ("of offsets that pass 2^64", ["[5-15 31]"], (BASE + u32(8),), (OFFSETS + uleb(MOST - 2) + uleb(MOST - 1), "31")),
        ("in no function", ["[]"], (START_LENGTH + u32(GREATEST) + b"\x01", "31"), (OFFSETS + b"\0\x20", "31")),
        ("of expressions without operations", ["[5-15]"], (OFFSETS + b"\x05\x06", "")),
        ("of nothing but its end", []),
    ]:
        made.carried(f"a list of version 5 {name}", in_five(listed_variable()), sections=[PLACES, loclists(*entries)], places=said)
    first, second = loclists((OFFSETS + b"\x05\x06", "31"))[1], loclists((INDEX_LENGTH + b"\x02\x01", "32"))[1]
    several = (".debug_loclists", bytes(12) + u32(8) + u32(8 + len(first)) + first + second)
    made.carried("lists by an index", in_five(by_index(0), by_index(1)), sections=[PLACES, several], places=["[5-15 31]", "[15-30 32]"])
    made.carried("a list by an index in version 4", within(by_index(1)), sections=[PLACES, several], places=["[15-30 32]"])
    based = in_five(by_index(0), attributes=(LINES, (LOCLISTS_BASE, SEC_OFFSET, u32(16))))
    moved = (".debug_loclists", bytes(12) + u32(90) + u32(4) + first)
    made.carried("a list by an index, from a base", based, sections=[moved], places=["[5-15 31]"])
    made.carried("lists by an index under names that have none", in_five(by_index(90, BYTE_SIZE), by_index(90, 0x2100)), places=[])
    of_base = root(Entry(SUBPROGRAM, low(2), LENGTH, (FRAME_BASE, LOCLISTX, b"\0"), children=[variable("91 12")]))
    made.carried("a frame base that is a list by an index", (of_base, 5, 4), sections=[PLACES, several], places=["[5-15 31]"])
    from_root = in_five(listed_variable(), attributes=(LINES, (LOW_PC, 0x1B, b"\x01")))
    made.carried("a list of version 5 from the begin of the root", from_root, sections=[PLACES, loclists((OFFSETS + b"\0\x01", "31"))], places=["[5-15 31]"])
    eight = root(Entry(SUBPROGRAM, low_8(2), LENGTH, children=[listed_variable()]), attributes=())
    wide = loclists((BASE + u64(MOST),), (OFFSETS + b"\x06\x07", "31"), (ENDS + u64(10) + u64(11), "32"), (START_LENGTH + u64(5) + b"\x01", "33"))
    made.carried("a list of version 5 of addresses of eight bytes", (eight, 5, 8), sections=[wide], places=["[5-15 31 15-30 32 5-15 33]"])


# ---- outputs


def output_cases(made):
    """Targets, several units and several modules."""
    labels = {3: [reg(0, 10, 1), cfa(10, 20, -300)], VMCTX: [cfa(0, 30, -16)]}
    inner = Entry(BLOCK, listed(), (NAME, STRING, b"b\0"), children=[variable("91 12"), listed_variable()])
    several = framed(inner, variable("0A 34 12 ED 00 03 22 26 28 01 00 12 9F"), variable("ED 00 03 9F"), variable("0C 78 56 34 12"))
    sections = [pairs((5, 6), (10, 11)), loc((2, 5, IN_LIST), (5, 9, "0A 34 12"))]
    for big in (False, True):
        for size in (4, 8):
            target = {"pointer_bytes": size, "big_endian": big}
            name = f"{'big' if big else 'little'} endian, addresses of {size} bytes"
            made.carried(f"expressions and lists, {name}", several, sections=sections, labels=[labels], target=target)
    two = within(variable("ED 00 03 9F"), listed_variable()), within(variable("ED 00 03 9F"), listed_variable(), begin=14)
    other = {3: [cfa(10, 20, 8)]}
    places = ["[0-20 5c]", "[5-15 31]", "[10-20 9108]", "[5-15 31]"]
    made.carried("lists of two units", *two, functions=[SMALL, SECOND], labels=[PART, other], sections=[loc((5, 6, "31"))], places=places)
    mixed = within(listed_variable()), in_five(listed_variable())
    made.carried("lists of units of two versions", *mixed, sections=[loc((5, 6, "31")), loclists((OFFSETS + b"\x0A\x0B", "32"))], places=["[5-15 31]", "[15-30 32]"])
    modules = [made.made([framed(variable("91 12"))], [], [SMALL])[0] for _ in range(2)]
    places = [f"[0-20 {ON_BASE}{MEMORY}]", f"[5-10 {ON_BASE}7e080611c00022{READ}]"]
    made.cases.carried("values of two modules", two_modules(made, {"imported": [8, 64]}), *modules, places=["9c", places[0], "9c", places[1]])


def two_modules(made, memory, **target):
    """A map of two modules of the small function, of which the second has its values and its memory elsewhere."""
    told = [program_of([SMALL])[1] for _ in range(2)]
    told[1][0]["symbol"] = 1
    second = {3: [reg(5, 10, 5)], VMCTX: [reg(0, 30, 2)]}
    return made.map_of(made.told(told[0], [PART], DEFINED), made.told(told[1], [second], memory), **{"registers": REGISTERS, **target})


def compiled_cases(made):
    """A compiler's modules: values in the frame (clang -O0 -gdwarf-4), and lists by an index, of locals, constants, pieces and what is
    on the stack (clang -O2 -gdwarf-5)."""
    for version in (4, 5):
        with open(os.path.join(os.path.dirname(__file__), "compiled", f"values_{version}.hex")) as file:
            compiled = bytes.fromhex(file.read())
        for name, moved in (("in order", 0), ("of which a third was moved to the front", 1)):
            functions = [with_values(told_of(symbol, start, end, moved)) for symbol, (start, end) in enumerate(bodies(compiled))]
            text = made.map_of({"memory": {"imported": [16, 8]}, "functions": functions}, registers=[[number, number] for number in range(40)])
            made.cases.carried(f"values of a compiler's module of version {version}, with code {name}", text, compiled)


def with_values(function):
    """A function whose values are now in registers, now in the frame: of the odd numbers over all of it, of the even ones in part."""
    length = function["body_len"]
    middle = length // 2
    odd = [[label, [reg(0, middle, 30 + label), cfa(middle, length, -8 * label)]] for label in (1, 3, 5, 7)]
    even = [[label, [reg(label, middle + label, label), cfa(middle + 2 * label, length - label, 8 * label)]] for label in (0, 2, 4, 6)]
    return {**function, "labels": [*odd, *even, [VMCTX, [reg(0, length, 14)]]]}
