"""Cases of the code that entries have: what their bounds, range lists and addresses become, and what is refused of these."""

import os

import plain_run
from entry_cases import ADDR, BASE_TYPE, BLOCK, COMPILE_UNIT, DATA1, DATA2, DATA4, DATA8, GREATEST, HIGH_PC, LENGTH, LINES, LISTED, LOW_PC, NAME, PARAMETER
from entry_cases import RANGES, SEC_OFFSET, STRING, STRP, SUBPROGRAM, TYPE, Entry, Info, kinds, pairs, root, subprogram, to
from make_modules import section, sleb, u32, uleb
from worked_texts import BOUNDS_TEXT, LIST_TEXT

LABEL, INLINED, START_SCOPE, ENTRY_PC, RETURN_PC, LOCATION = 0x0A, 0x1D, 0x2C, 0x52, 0x7D, 0x02
SDATA, UDATA, FLAG, EXPRLOC, ADDRX, RNGLISTX, LOCLISTX = 0x0D, 0x0F, 0x19, 0x18, 0x1B, 0x23, 0x22
ADDR_BASE, RNGLISTS_BASE = 0x73, 0x74
PUSH, CUT_PUSH = bytes.fromhex("01 30"), bytes.fromhex("01 08")  # an expression of one operation, and one that is cut, with their lengths
IMPLICIT = b"\x21"


def u64(n):
    return n.to_bytes(8, "little")


# ---- programs

BODY = bytes.fromhex("0B 00 010101010101010101 0B")
TYPES = b"\0asm\x01\0\0\0" + bytes.fromhex("010401600000")

# Functions: the symbol, the begin and the end in the wasm code, the length of the native code, and the native offset of each
# source, or of code without one. The small module's; one whose first byte is at 10, and the same with code that was moved.
SMALL = (0, 2, 13, 30, [(5, 5), (8, None), (15, 10), (23, None)])
TEN = (0, 10, 20, 30, [(5, 12), (8, None), (15, 17), (23, None)])
TEN_MOVED = (0, 10, 20, 30, [(5, 12), (8, None), (15, 17), (23, 12), (26, None)])
SECOND = (7, 14, 25, 50, [(0, 14), (20, 20), (40, None)])
UNNAMED = (None, 26, 37, 60, [(0, 26), (30, 30)])

# Functions of six bytes of wasm code, of which all addresses and intervals are asked for.
SHAPES = {
    "in one run": [(0, 2), (4, 4), (9, 7)],
    "without sources": [(0, None), (7, None)],
    "without entries": [],
    "with code without a source between": [(3, 3), (5, None), (9, 5), (12, None)],
    "in two runs": [(0, 2), (4, 6), (8, 3), (12, 7)],
    "in runs of one source each": [(2, 7), (6, 5), (10, 3)],
    "of which code was moved to the front": [(0, 6), (5, 2), (9, 4), (14, None)],
    "that goes to and fro": [(0, 3), (3, 5), (6, 3), (9, 5), (12, 3), (15, 5)],
    "with one source several times": [(1, 4), (4, 4), (7, None), (9, 4), (12, 4)],
    "with sources at its ends alone": [(0, 2), (20, 8)],
    "with two sources at one native offset": [(4, 3), (4, 5), (9, None)],
    "with sources that fall at one native offset": [(4, 5), (4, 3), (9, 6)],
    "with three sources at one native offset, and code without one": [(6, 3), (6, None), (6, 4), (6, 6), (8, None), (11, 7)],
    "with all code at its end": [(20, 3), (20, 5)],
}


def program_of(functions):
    """The front of a module of functions of eleven bytes each, and what the map says of them."""
    count = len(functions)
    front = TYPES + section(3, uleb(count) + bytes(count)) + section(10, uleb(count) + BODY * count)
    code = len(front) - len(uleb(count) + BODY * count)
    place = lambda wasm: None if wasm is None else code + wasm
    told = []
    for symbol, start, end, length, entries in functions:
        sources = [[native, place(wasm)] for native, wasm in entries]
        told.append({"symbol": symbol, "start": place(start), "end": place(end), "body_len": length, "map": sources})
    return front, told


class Cases:
    """Cases of modules that are made of functions, units and further sections."""

    def __init__(self, cases, module, map_of):
        self.cases, self.module, self.map_of = cases, module, map_of

    def made(self, units, sections, functions):
        info, (front, told) = Info(*units), program_of(functions)
        return self.module(info.abbrev, info.info, others=list(sections), front=front), told

    def carried(self, name, *units, sections=(), functions=(SMALL,), code=None, front=None, target=None):
        made, told = self.made(units, sections, functions)
        self.cases.carried(name, self.map_of(told, **(target or {})), made, front=front, code=code)

    def refused(self, name, status, line, *units, sections=(), functions=(SMALL,)):
        made, told = self.made(units, sections, functions)
        self.cases.refused_module(name, status, line, made, map_text=self.map_of(told))


# ---- entries


def low(address):
    return (LOW_PC, ADDR, u32(address))


def low_8(address):
    return (LOW_PC, ADDR, u64(address))


def for_bytes(count):
    return (HIGH_PC, DATA4, u32(count)) if count < 1 << 32 else (HIGH_PC, DATA8, u64(count))


def until(address):
    return (HIGH_PC, ADDR, u32(address))


def listed(offset=0, name=RANGES):
    return (name, SEC_OFFSET, u32(offset))


def block(*attributes, **more):
    return Entry(BLOCK, *attributes, **more)


def label(address):
    return Entry(LABEL, low(address))


def within(*children, attributes=(LINES,), begin=2):
    """A unit of a subprogram that begins in a function, with children."""
    return root(Entry(SUBPROGRAM, low(begin), LENGTH, children=children), attributes=attributes)


def lists(*lists):
    """`.debug_ranges` of some lists of pairs, one behind another."""
    return (".debug_ranges", b"".join(pairs(*list_of_pairs)[1] for list_of_pairs in lists))


def range_cases(cases, module, map_of):
    """`module` makes a module of abbreviations, units, a front and further sections; `map_of` makes a map of functions."""
    made = Cases(cases, module, map_of)
    worked_cases(made)
    shape_cases(made)
    bound_cases(made)
    form_cases(made)
    pair_cases(made)
    kind_cases(made)
    base_cases(made)
    root_cases(made)
    function_cases(made)
    subprogram_cases(made)
    address_cases(made)
    output_cases(made)
    compiled_cases(made)
    refused_lists(made)
    refused_bounds(made)
    refusal_order(made)
    length_cases(made)
    return cases


def worked_cases(made):
    """Worked examples, whose outcome stands here by hand."""
    made.carried("a block of five bytes", within(block(low(5), for_bytes(5))), code=["0+30", "5+18"], front=BOUNDS_TEXT)
    made.carried("a block up to an address", within(block(low(6), until(9))), code=["0+30", "8+7"])
    two = [pairs((5, 6), (10, 11))]
    made.carried("a block of two intervals", within(block(LISTED)), sections=two, code=["0+30", "[5-15 15-30]"], front=LIST_TEXT)
    made.carried("a block of an empty interval", within(block(LISTED)), sections=[pairs((7, 7))], code=["0+30"])
    labels = [label(address) for address in (10, 20, 0, 12, 18, 25, GREATEST)]
    made.carried("labels at addresses", within(*labels, begin=10), functions=[TEN], code=["0+30", "0", "30", "0", "5", "23", "30", "0"])
    four = [[(12, 17)], [(13, 16)], [(16, 16)], [(17, 12)]]
    blocks = [block(listed(16 * i)) for i in range(4)]
    made.carried("intervals of one run", within(*blocks, begin=10), functions=[TEN], sections=[lists(*four)], code=["0+30", "5+18", "8+7"])
    made.carried("an interval of two runs", within(block(LISTED), begin=10), functions=[TEN_MOVED], sections=[pairs((12, 20))], code=["0+30", "[5-23 23-30]"])


def shape_cases(made):
    """Functions of several shapes: each address and each interval of one."""
    for name, entries in SHAPES.items():
        shape = (0, 2, 8, 20, entries)
        labels = [label(address) for address in range(1, 10)]
        every = [(begin, end) for begin in range(2, 9) for end in range(begin + 1, 9)]
        made.carried(f"a function {name}", within(*labels, block(LISTED)), functions=[shape], sections=[pairs(*every)])
        blocks = [block(low(begin), until(end)) for begin, end in [(2, 8), (1, 9), (3, 5), (4, 5), (5, 7), (8, 9), (9, 12), (5, 3)]]
        made.carried(f"blocks in a function {name}", within(*blocks), functions=[shape])


# ---- bounds

MOST = (1 << 64) - 1


def bound_cases(made):
    """What `low_pc` and `high_pc` say, and what stands beside them."""
    for name, code, *attributes in [
        ("of no bytes", [], low(5), for_bytes(0)),
        ("that ends where it begins", [], low(5), until(5)),
        ("that ends before it begins", [], low(5), until(4)),
        ("at an address alone", ["5"], low(5)),
        ("at an address between two sources", ["8"], low(7)),
        ("at the end of its function", ["30"], low(13)),
        ("at an address in no function", ["0"], low(1)),
        ("at 0", ["0"], low(0)),
        ("at an address without a place", ["0"], low(GREATEST)),
        ("from 0 on", ["[]"], low(0), for_bytes(11)),
        ("from an address in no function on", ["[]"], low(1), for_bytes(11)),
        ("from an address without a place on", ["[]"], low(GREATEST), for_bytes(1)),
        ("up to an address without a place", ["5+25"], low(5), until(GREATEST)),
        ("of a length without a place", ["5+25"], low(5), for_bytes(GREATEST)),
        ("of 2^31 bytes", ["5+25"], low(5), for_bytes(1 << 31)),
        ("of 2^32 bytes", ["5+25"], low(5), for_bytes(1 << 32)),
        ("of 2^63 bytes", ["5+25"], low(5), for_bytes(1 << 63)),
        ("up to the greatest address", ["5+25"], low(5), for_bytes(MOST - 5)),
        ("behind its function", ["[]"], low(14), for_bytes(3)),
        ("of the end of its function", ["23+7"], low(13), for_bytes(1)),
        ("that begins in front of its function", ["[]"], low(1), until(10)),
        ("with an end alone", [], until(9)),
        ("with a length alone", [], for_bytes(9)),
        ("with a flag as its end", ["5"], low(5), (HIGH_PC, FLAG, b"")),
        ("with a text as its end", ["5"], low(5), (HIGH_PC, STRING, b"a\0")),
        ("with a begin that is a number", [], (LOW_PC, DATA4, u32(5)), for_bytes(5)),
        ("of which the end is in front", ["5+18"], for_bytes(5), low(5)),
        ("of two begins", ["5+18"], low(5), for_bytes(5), low(2)),
        ("of two ends", ["5+18"], low(5), for_bytes(5), until(GREATEST)),
        ("with a name in front", ["5+18"], (NAME, STRING, b"b\0"), low(5), (0x3B, DATA1, b"\x09"), for_bytes(5)),
        ("with ranges that are a number", ["5+18"], low(5), for_bytes(5), (RANGES, DATA1, b"\0")),
        ("of nothing", []),
    ]:
        made.carried(f"a block {name}", within(block(*attributes)), code=["0+30", *code])
    low_and_list = [("and bounds", low(5), for_bytes(5)), ("and a begin alone", low(2)), ("and bounds that are too long", low(5), for_bytes(MOST))]
    for name, *attributes in low_and_list:
        made.carried(f"a block with a list {name}", within(block(*attributes, LISTED)), sections=[pairs((10, 11))], code=["0+30", "15+15"])
    made.carried("a block with an empty list and bounds", within(block(LISTED, low(5), for_bytes(5))), sections=[pairs()], code=["0+30"])


def form_cases(made):
    """Bounds by each form, and of both sizes of addresses."""
    forms = [(DATA1, b"\x05"), (DATA2, b"\x05\0"), (DATA4, u32(5)), (DATA8, u64(5)), (UDATA, uleb(5)), (SDATA, sleb(5)), (IMPLICIT + sleb(5), b""), (0x16, bytes([DATA1, 5]))]
    for form, value in forms:
        made.carried(f"a length by {form!r}", (within(block(low(5), (HIGH_PC, form, value))), 5, 4), code=["0+30", "5+18"])
    for form in (0x1B, 0x29, 0x2A, 0x2B, 0x2C):
        index = lambda i: i.to_bytes({0x1B: 1, 0x29: 1, 0x2A: 2, 0x2B: 3, 0x2C: 4}[form], "little")
        both = block((LOW_PC, form, index(1)), (HIGH_PC, form, index(2)))
        made.carried(f"bounds by indexes of form {form:#x}", (within(both, block((LOW_PC, form, index(2)))), 5, 4), sections=[PLACES], code=["0+30", "5+18", "15"])
    for version in (2, 3, 4, 5):
        wide = Entry(SUBPROGRAM, low_8(2), LENGTH, children=[block(low_8(5), for_bytes(5)), block(low_8(5), (HIGH_PC, ADDR, u64(MOST))), block(low_8(MOST)), block(low_8(1 << 32))])
        code = ["0+30", "5+18", "5+25", "30", "30"]
        made.carried(f"bounds of eight bytes in version {version}", (root(wide, attributes=()), version, 8), code=code)


# Four addresses behind a header.
PLACES = (".debug_addr", bytes(8) + u32(2) + u32(5) + u32(10) + u32(13))

# ---- lists


def pair_cases(made):
    """The lists of pairs of the versions up to 4."""
    for name, code, *list_of_pairs in [
        ("that is whole", "0+30", (2, 13)),
        ("of which the second is empty", "5+10", (5, 6), (8, 8)),
        ("of which the first is reversed", "15+15", (11, 10), (10, 11)),
        ("out of order", "[15-30 5-15]", (10, 11), (5, 6)),
        ("that overlap", "[5-23 5-15 8-23]", (5, 10), (5, 8), (6, 10)),
        ("twice the same", "[5-15 5-15]", (5, 6), (5, 6)),
        ("of which one is in no function", "5+10", (0, 4), (5, 6)),
        ("in no function", "[]", (0, 4), (1, 3)),
        ("behind a base", "5+10", (GREATEST, 4), (1, 2)),
        ("before and behind a base", "[5-15 15-30]", (5, 6), (GREATEST, 9), (1, 2)),
        ("behind two bases", "15+15", (GREATEST, 4), (GREATEST, 9), (1, 2)),
        ("between two bases", "[5-15 15-30]", (GREATEST, 4), (1, 2), (GREATEST, 8), (2, 3)),
        ("before a base", "5+10", (5, 6), (GREATEST, 9)),
        ("behind a base of 0", "[5-15 5-15]", (GREATEST, 5), (0, 1), (GREATEST, 0), (5, 6)),
        ("behind the greatest base", "[]", (GREATEST, GREATEST), (6, 7)),
        ("up to the greatest address", "5+25", (5, GREATEST)),
        ("without a place", "5+10", (GREATEST - 1, GREATEST - 1), (5, 6)),
        ("from 0 on behind a base", "5+10", (GREATEST, 5), (0, 1)),
    ]:
        made.carried(f"pairs {name}", within(block(LISTED)), sections=[pairs(*list_of_pairs)], code=["0+30", code])
    made.carried("a base alone", within(block(LISTED)), sections=[pairs((GREATEST, 5))], code=["0+30"])
    for version in (2, 3, 4):
        old = block((RANGES, DATA4 if version < 4 else SEC_OFFSET, u32(0)))
        made.carried(f"a list in version {version}", (within(old), version, 4), sections=[pairs((5, 6), (10, 11))], code=["0+30", "[5-15 15-30]"])
    made.carried("a list by data4 in version 4 is a number", within(block((RANGES, DATA4, u32(0)))), sections=[pairs((5, 6))], code=["0+30"])
    made.carried("a list from the middle of another", within(block(listed(8))), sections=[pairs((5, 6), (10, 11))], code=["0+30", "15+15"])
    both = within(block(LISTED), block(LISTED))
    made.carried("two entries of one list", both, sections=[pairs((5, 6), (10, 11))], code=["0+30", "[5-15 15-30]", "[5-15 15-30]"])
    made.carried("of two lists of an entry the first counts", within(block(listed(16), LISTED)), sections=[lists([(5, 6)], [(10, 11)])], code=["0+30", "15+15"])
    made.carried("what stands behind the end of a list is not read", within(block(LISTED)), sections=[(".debug_ranges", pairs((5, 6))[1] + b"\x05")], code=["0+30", "5+10"])
    wide = b"".join(u64(n) for n in (GREATEST, GREATEST + 5, 5, 6, MOST, 1 << 63, (1 << 63) + 10, (1 << 63) + 11, MOST, 4, 1, 2, 0, 0))
    eight = root(Entry(SUBPROGRAM, low_8(2), LENGTH, children=[block(LISTED)]), attributes=())
    made.carried("a list of pairs of eight bytes", (eight, 4, 8), sections=[(".debug_ranges", wide)], code=["0+30", "[5-15 15-30 5-15]"])


def in_five(*children, attributes=(LINES,)):
    return within(*children, attributes=attributes), 5, 4


INDEX_BASE = b"\x01"  # the first byte of each kind of entry
INDEX_ENDS, INDEX_LENGTH, OFFSETS, BASE, ENDS, START_LENGTH = b"\x02", b"\x03", b"\x04", b"\x05", b"\x06", b"\x07"


def kind_cases(made):
    """The lists of version 5, of entries of each kind, by an offset and by an index."""
    for name, code, contents in [
        ("of two offsets", "5+10", OFFSETS + b"\x05\x06"),
        ("of a base by an index and two offsets", "15+15", INDEX_BASE + b"\x02" + OFFSETS + b"\x00\x01"),
        ("of two indexes", "5+18", INDEX_ENDS + b"\x01\x02"),
        ("of an index and a length", "5+10", INDEX_LENGTH + b"\x01\x01"),
        ("of a base and two offsets", "15+15", BASE + u32(10) + OFFSETS + b"\x00\x01"),
        ("of two addresses", "5+10", ENDS + u32(5) + u32(6)),
        ("of an address and a length", "5+10", START_LENGTH + u32(5) + b"\x01"),
        ("of an address and a long length", "5+25", START_LENGTH + u32(5) + uleb(MOST - 5)),
        ("of two indexes that are reversed", None, INDEX_ENDS + b"\x02\x01"),
        ("of two indexes of one address", None, INDEX_ENDS + b"\x01\x01"),
        ("of lengths of 0", None, INDEX_LENGTH + b"\x01\x00" + START_LENGTH + u32(5) + b"\x00"),
        ("of offsets that are reversed", None, OFFSETS + b"\x06\x05"),
        ("of offsets that pass 2^64", "5+10", BASE + u32(8) + OFFSETS + uleb(MOST - 2) + uleb(MOST - 1)),
        ("of offsets of which the second passes 2^64", None, BASE + u32(8) + OFFSETS + uleb(MOST - 8) + uleb(MOST - 2)),
        ("of addresses behind a base", "[5-15 5-15 5-15]", BASE + u32(10) + ENDS + u32(5) + u32(6) + START_LENGTH + u32(5) + b"\x01" + INDEX_LENGTH + b"\x01\x01"),
        ("of bases between", "[5-15 15-30 5-15]", OFFSETS + b"\x05\x06" + INDEX_BASE + b"\x02" + OFFSETS + b"\x00\x01" + BASE + u32(4) + OFFSETS + b"\x01\x02"),
        ("of a base behind", "5+10", OFFSETS + b"\x05\x06" + INDEX_BASE + b"\x02"),
        ("of the base 0", "5+10", BASE + u32(9) + BASE + u32(0) + OFFSETS + b"\x05\x06"),
        ("of the base without a place", "[]", BASE + u32(GREATEST) + OFFSETS + b"\x06\x07"),
        ("from an address without a place on", "[]", START_LENGTH + u32(GREATEST) + b"\x01"),
        ("from 0 on", "[]", START_LENGTH + u32(0) + b"\x20"),
        ("of entries of each kind", "[0-8 5-23 5-15 15-30 15-30 5-15]", OFFSETS + b"\x02\x05" + INDEX_ENDS + b"\x01\x02" + INDEX_LENGTH + b"\x01\x01" + BASE + u32(10) + OFFSETS + b"\x00\x01" + ENDS + u32(10) + u32(11) + START_LENGTH + u32(5) + b"\x01"),
        ("of nothing but its end", None, b""),
    ]:
        made.carried(f"a block's list {name}", in_five(block(LISTED)), sections=[PLACES, kinds(contents + b"\0")], code=["0+30"] + [code] * (code is not None))
    index = lambda i: (RANGES, RNGLISTX, bytes([i]))
    several = kinds(bytes(12) + u32(8) + u32(12) + OFFSETS + b"\x05\x06\0" + INDEX_LENGTH + b"\x02\x01\0")
    made.carried("blocks of lists by an index", in_five(block(index(0)), block(index(1))), sections=[PLACES, several], code=["0+30", "5+10", "15+15"])
    made.carried("a block of a list by an index in version 4", (within(block(index(1))), 4, 4), sections=[PLACES, several], code=["0+30", "15+15"])
    eight = root(Entry(SUBPROGRAM, low_8(2), LENGTH, children=[block(LISTED)]), attributes=())
    contents = BASE + u64(MOST) + OFFSETS + b"\x06\x07" + ENDS + u64(10) + u64(11) + START_LENGTH + u64(5) + b"\x01\0"
    made.carried("a block's list of addresses of eight bytes", (eight, 5, 8), sections=[kinds(contents)], code=["0+30", "[5-15 15-30 5-15]"])


def base_cases(made):
    """Bases: of lists that begin with the root's begin, and of indexes, which stand before and behind what they are for."""
    offsets, one_pair = kinds(OFFSETS + b"\x01\x02\0"), pairs((1, 2))
    for name, attribute, code in [
        ("an address", low(4), "5+10"),
        ("0", low(0), "[]"),
        ("an address without a place", low(GREATEST), "[]"),
        ("an index", (LOW_PC, ADDRX, b"\x01"), "5+10"),
        ("a number", (LOW_PC, DATA4, u32(4)), "[]"),
    ]:
        said = [] if attribute[1] == DATA4 else ["0"]
        for version, sections in ((4, [one_pair]), (5, [offsets])):
            places = (".debug_addr", bytes(8) + u32(2) + u32(4))
            made.carried(f"a root's begin is {name}, as the base of a list in version {version}", (within(block(LISTED), attributes=(LINES, attribute)), version, 4), sections=[*sections, places], code=[*said, "0+30", code])
    both = within(block(LISTED), attributes=(low(4), low(9)))
    made.carried("of two begins of a root the first is the base", both, sections=[one_pair], code=["0", "0+30", "5+10"])
    again = pairs((1, 2), (GREATEST, 9), (1, 2))
    made.carried("a base behind that of the root", within(block(LISTED), attributes=(low(4),)), sections=[again], code=["0", "0+30", "[5-15 15-30]"])
    of_root = (LISTED, low(4))
    made.carried("the base of a root's own list", within(attributes=of_root), sections=[one_pair], code=["[5-15]", "0+30"])
    addresses = (".debug_addr", bytes(8) + u32(1) + u32(5) + u32(10))
    for name, attributes in [("before", ((ADDR_BASE, SEC_OFFSET, u32(12)), (LOW_PC, ADDRX, b"\0"))), ("behind", ((LOW_PC, ADDRX, b"\0"), (ADDR_BASE, SEC_OFFSET, u32(12))))]:
        indexed = in_five(block((LOW_PC, ADDRX, b"\x01")), block(LISTED), attributes=(LINES, *attributes))
        made.carried(f"a base of addresses {name} a root's begin by an index", indexed, sections=[addresses, kinds(OFFSETS + b"\0\x01\0")], code=["0", "0+30", "15", "5+10"])
    for base, code in ((12, "5+10"), (16, "15+15")):
        contents = kinds(bytes(12) + u32(8) + u32(8) + OFFSETS + b"\x05\x06\0" + OFFSETS + b"\x0A\x0B\0")
        attribute = (RNGLISTS_BASE, SEC_OFFSET, u32(base))
        indexed = in_five(block((RANGES, RNGLISTX, b"\0")), attributes=(LINES, attribute))
        made.carried(f"a base of lists at {base}", indexed, sections=[contents], code=["0+30", code])


def root_cases(made):
    """Roots, which have a list where they have code, and 0 in the place of an address alone."""
    two, both = (SMALL, SECOND), pairs((2, 13), (14, 25))
    beside = lambda *attributes: root(subprogram(), attributes=(LINES, *attributes))
    made.carried("a root with a list of two functions", beside(LISTED), functions=two, sections=[both], code=["[0-30 0-50]", "0+30"])
    made.carried("a root with a begin of 0 and a list", beside(low(0), LISTED), functions=two, sections=[both], code=["[0-30 0-50]", "0+30"])
    made.carried("a root with a list of one interval", beside(LISTED), sections=[pairs((2, 13))], code=["[0-30]", "0+30"])
    made.carried("a root with an empty list", beside(LISTED), sections=[pairs()], code=["0+30"])
    made.carried("a root with a list in no function", beside(LISTED), sections=[pairs((0, 2))], code=["[]", "0+30"])
    made.carried("a root with bounds", beside(low(2), for_bytes(11)), code=["[0-30]", "0+30"])
    made.carried("a root with bounds over two functions", beside(low(2), until(25)), functions=two, code=["[0-30]", "0+30"])
    made.carried("a root with empty bounds", beside(low(2), for_bytes(0)), code=["0+30"])
    made.carried("a root with bounds from 0 on", beside(low(0), for_bytes(20)), code=["[]", "0+30"])
    for begin in (0, 2, 5, GREATEST):
        made.carried(f"a root with the begin {begin} alone", beside(low(begin)), code=["0", "0+30"])
    made.carried("a root with an end alone", beside(until(13)), code=["0+30"])
    inner = Entry(COMPILE_UNIT, low(2), for_bytes(3), key="c")
    made.carried("a compile unit below the root has a list", root(subprogram(to("c")), inner), code=["0+30", "[0-8]"])
    inner = Entry(COMPILE_UNIT, low(5), key="c")
    made.carried("a compile unit below the root at an address alone", root(subprogram(to("c")), inner), code=["0+30", "0"])
    five = (root(subprogram(), attributes=(LINES, (LOW_PC, ADDRX, b"\0"), (RANGES, RNGLISTX, b"\0"))), 5, 4)
    contents = kinds(bytes(12) + u32(4) + INDEX_LENGTH + b"\0\x0B" + OFFSETS + b"\x0C\x17\0")
    made.carried("a root with a list by an index", five, functions=two, sections=[PLACES, contents], code=["[0-30 0-50]", "0+30"])
    for version in (2, 3):
        attributes = (RANGES, DATA4, u32(0)), low(0)
        made.carried(f"a root with a list in version {version}", (beside(*attributes), version, 4), functions=two, sections=[both], code=["[0-30 0-50]", "0+30"])


# ---- several functions


def function_cases(made):
    """Intervals that begin in one function and end elsewhere, and functions without a symbol."""
    three = (SMALL, SECOND, UNNAMED)
    for name, code, *list_of_pairs in [
        ("that goes over into the next function", "5+25", (5, 20)),
        ("of two functions", "[5-30 0-40]", (5, 14), (14, 20)),
        ("that begins in the function behind", "20+30", (20, 40)),
        ("of a function without a symbol", "[]", (26, 30)),
        ("of a function without a symbol and one that has one", "0+40", (26, 30), (14, 20)),
        ("behind all functions", "[]", (40, 50)),
        ("between two functions", "23+7", (13, 14)),
    ]:
        made.carried(f"an interval {name}", within(block(LISTED)), functions=three, sections=[pairs(*list_of_pairs)], code=["0+30", code])
    labels = [label(address) for address in (2, 13, 14, 19, 20, 25, 26, 30, 40)]
    made.carried("labels in three functions", within(*labels), functions=three, code=["0+30", "0", "30", "0", "20", "20", "50", "0", "0", "0"])
    same = (SMALL, (3, 2, 13, 40, [(0, 2), (9, 7)]))
    made.carried("two functions of one begin, of which the last counts", within(block(low(5), for_bytes(2)), label(7)), functions=same, code=["0+40", "9+31", "9"])
    reverse = (SECOND, SMALL)
    made.carried("functions that are not in the order of their begins", within(block(low(5), until(16)), block(low(14), until(21)), label(20)), functions=reverse, code=["0+30", "5+25", "0+50", "20"])
    nothing = (0, 2, 2, 0, [])
    made.carried("a function of no code", within(block(low(2), for_bytes(4)), label(2)), functions=[nothing], code=["0+0", "[]", "0"])


def subprogram_cases(made):
    """Subprograms: those that begin in a function have it whole, by their begin or by their list."""
    two = (SMALL, SECOND)
    required = lambda name, code, *attributes, **more: made.carried(name, root(Entry(SUBPROGRAM, *attributes)), code=code, **more)
    required("a subprogram that its list requires has its function whole", ["0+30"], LISTED, sections=[pairs((5, 6))])
    required("a subprogram whose list begins in the second function", ["0+50"], LISTED, functions=two, sections=[pairs((15, 16), (5, 6))])
    required("a subprogram whose list begins with an empty interval", ["0+50"], LISTED, functions=two, sections=[pairs((5, 5), (15, 16), (5, 6))])
    required("a subprogram whose list begins in no function", ["5+10"], LISTED, sections=[pairs((0, 1), (5, 6))])
    required("a subprogram whose list begins in no function, of two intervals", ["[5-15 15-30]"], LISTED, sections=[pairs((0, 1), (5, 6), (10, 11))])
    required("a subprogram that begins in no function beside its list", ["5+10"], low(1), LISTED, sections=[pairs((GREATEST, 5), (0, 1))])
    required("a subprogram that begins in a function beside its list", ["0+30"], low(2), LISTED, functions=two, sections=[pairs((15, 16))])
    required("a subprogram with a number as its begin beside its list", ["0+50"], (LOW_PC, DATA4, u32(5)), LISTED, functions=two, sections=[pairs((15, 16))])
    required("a subprogram with a begin alone", ["0+30"], low(7))
    required("a subprogram behind the end of its function", ["0+30"], low(500), for_bytes(1))
    required("a subprogram with an end that is too long", ["0+30"], low(5), for_bytes(MOST))
    required("a subprogram with an end that is no number", ["0+30"], low(5), (HIGH_PC, FLAG, b""))
    in_version_5 = (root(Entry(SUBPROGRAM, LISTED)), 5, 4)
    made.carried("a subprogram that its list of version 5 requires has its function whole", in_version_5, sections=[PLACES, kinds(INDEX_LENGTH + b"\x01\x01\0")], code=["0+30"])
    offsets = (root(Entry(SUBPROGRAM, LISTED), attributes=(LINES, low(4))), 5, 4)
    made.carried("a subprogram whose list begins from the root's base", offsets, sections=[kinds(OFFSETS + b"\x01\x02" + ENDS + u32(5) + u32(6) + b"\0")], code=["0", "0+30"])
    named = lambda *attributes: root(subprogram(to("g")), Entry(SUBPROGRAM, *attributes, key="g"))
    for name, code, *attributes in [
        ("at 0", ["0"], low(0)),
        ("from 0 on", ["[]"], low(0), for_bytes(11)),
        ("without a place", ["[]"], low(GREATEST), for_bytes(11)),
        ("of no bytes", [], low(0), for_bytes(0)),
        ("without bounds", []),
        ("with a list of an empty interval and one in no function", ["[]"], LISTED),
        ("with a list in no function", ["[]"], listed(8)),
        ("with an empty list", [], listed(16)),
    ]:
        made.carried(f"a subprogram that is named, {name}", named(*attributes), sections=[pairs((5, 5), (0, 1))], code=["0+30", *code])
    inner = Entry(SUBPROGRAM, low(14), for_bytes(2), children=[block(low(15), for_bytes(2))])
    made.carried("a subprogram in another", within(block(low(5), for_bytes(1)), inner), functions=two, code=["0+30", "5+10", "0+50", "[]"])
    call = Entry(INLINED, LISTED, (ENTRY_PC, ADDR, u32(6)), (0x31, 0x13, u32(11)), children=[Entry(PARAMETER), block(low(5), for_bytes(1))])
    made.carried("a call in place, of two intervals", within(block(low(3), until(12), children=[call])), sections=[pairs((5, 6), (10, 11))], code=["0+30", "0+30", "[5-15 15-30]", "5+10"])


def address_cases(made):
    """Addresses and range lists under other names."""
    for name, value in [("in a function", 5), ("between two sources", 7), ("in no function", 1), ("0", 0), ("without a place", GREATEST), ("behind its function", 40)]:
        made.carried(f"an address {name} under another name", within(block((ENTRY_PC, ADDR, u32(value)), (RETURN_PC, ADDR, u32(value)))))
    for form in (0x1B, 0x29, 0x2A, 0x2B, 0x2C):
        index = (2).to_bytes({0x1B: 1, 0x29: 1, 0x2A: 2, 0x2B: 3, 0x2C: 4}[form], "little")
        made.carried(f"an address by an index of form {form:#x} under another name", in_five(block((ENTRY_PC, form, index))), sections=[PLACES])
    made.carried("an entry that is a number", within(block(low(5), for_bytes(5), (ENTRY_PC, DATA1, b"\x01"))), code=["0+30", "5+18"])
    made.carried("an address of a subprogram and of a root", root(subprogram((ENTRY_PC, ADDR, u32(5))), attributes=(LINES, (ENTRY_PC, ADDR, u32(10)))))
    made.carried("an address of a type", root(subprogram(to("b")), Entry(BASE_TYPE, (0x2100, ADDR, u32(10)), key="b")))
    for name, *list_of_pairs in [("of one interval", (5, 6)), ("of two intervals", (5, 6), (10, 11)), ("in no function", (0, 1)), ("that is empty",)]:
        made.carried(f"a scope's start {name}", within(block(listed(name=START_SCOPE))), sections=[pairs(*list_of_pairs)])
    both = block(listed(16), listed(name=START_SCOPE))
    made.carried("a list and a scope's start", within(both), sections=[lists([(5, 6)], [(10, 11), (5, 6)])], code=["0+30", "[15-30 5-15]"])
    made.carried("a scope's start before a list", within(block(listed(name=START_SCOPE), listed(16))), sections=[lists([(5, 6)], [(10, 11), (5, 6)])])
    made.carried("a scope's start that is a number", within(block((START_SCOPE, DATA1, b"\x05"))))
    made.carried("a scope's start by data4 in version 3", (within(block((START_SCOPE, DATA4, u32(0)))), 3, 4), sections=[pairs((5, 6))])
    made.carried("a scope's start by data4 in version 4", within(block((START_SCOPE, DATA4, u32(0)))), sections=[pairs((5, 6))])
    made.carried("a scope's start twice", within(block(listed(name=START_SCOPE), (NAME, STRING, b"b\0"), listed(16, START_SCOPE))), sections=[lists([(5, 6)], [(10, 11)])])
    indexed = kinds(bytes(12) + u32(4) + OFFSETS + b"\x05\x06\0")
    made.carried("a scope's start by an index", in_five(block((START_SCOPE, RNGLISTX, b"\0"))), sections=[indexed])
    made.carried("a list by an index under a name that has none", in_five(block((0x2101, RNGLISTX, b"\0"), (0x2102, SEC_OFFSET, u32(90)))))


def output_cases(made):
    """Lists of several units and modules, and targets."""
    several = within(block(LISTED), block(low(5), until(10)), block(listed(24)), block((ENTRY_PC, ADDR, u32(6)), low(10)), attributes=(LINES, LISTED))
    sections = [lists([(5, 6), (10, 11)], [(10, 11), (5, 6)])]
    for big in (False, True):
        for size in (4, 8):
            target = {"pointer_bytes": size, "big_endian": big}
            name = f"{'big' if big else 'little'} endian, addresses of {size} bytes"
            made.carried(f"bounds and lists, {name}", several, sections=sections, target=target)
            longer = (0, 2, 13, 0x12345678, [(5, 5), (0x01020304, 10), (0x01020305, None)])
            made.carried(f"long native code, {name}", several, sections=sections, target=target, functions=[longer])
    made.carried("lists of two units", several, within(block(listed(24)), begin=5), sections=sections)
    five, old = in_five(block(listed(0))), (several, 4, 4)
    made.carried("lists of units of two versions", old, five, sections=[*sections, kinds(OFFSETS + b"\x05\x0A\0")])
    info, (front, told) = Info(several), program_of([SMALL])
    modules = [made.module(info.abbrev, info.info, others=sections, front=front) for _ in range(2)]
    others = [{**told[0], "symbol": 1, "map": [[0, 22], [10, 25], [20, 30]]}]
    made.cases.carried("lists of two modules", made.map_of(told, others), *modules)
    texts = within(block(LISTED, (NAME, STRING, b"b\0")), block((NAME, STRING, b"c\0"), low(5)))
    made.carried("texts behind lists", texts, sections=sections)


def compiled_cases(made):
    """A compiler's modules: calls in place, of which one has a list, functions that the linker dropped, and lists with what it leaves
    of these. (clang -O1 -gdwarf-4 and -gdwarf-5 -gmlt -ffunction-sections, wasm-ld --gc-sections.)"""
    for version in (4, 5):
        with open(os.path.join(os.path.dirname(__file__), "compiled", f"ranges_{version}.hex")) as file:
            compiled = bytes.fromhex(file.read())
        for name, moved in (("in order", 0), ("of which a third was moved to the front", 1)):
            told = [told_of(symbol, start, end, moved) for symbol, (start, end) in enumerate(bodies(compiled))]
            made.cases.carried(f"a compiler's module of version {version}, with code {name}", made.map_of(told), compiled)


def bodies(module):
    """Where the functions of a module begin and end in the file."""
    reader = plain_run.Reader(module, 8)
    while reader.number(1) != 10:
        reader.take(reader.uleb())
    reader.uleb()
    for _ in range(reader.uleb()):
        size = reader.uleb()
        reader.take(size)
        yield reader.at - size, reader.at


def told_of(symbol, start, end, moved):
    """A function with a source at each third byte, each of four bytes of native code, of which the last has none. If it was moved,
    the code of the last third of them stands in front."""
    sources = list(range(start, end, 3))
    middle = 2 * len(sources) // 3
    sources = sources[middle:] + sources[:middle] if moved else sources
    entries = [pair for i, source in enumerate(sources) for pair in ([4 * i, source], [4 * i + 3, None])]
    return {"symbol": symbol, "start": start, "end": end, "body_len": 4 * len(sources) + 2, "map": entries}


# ---- what is refused

AT_BLOCK, AT_BLOCK_5 = 25, 26  # the first entry below the subprogram
CUT = (".debug_ranges", u32(5) + u32(6))
AT_LIST, AT_KINDS = "Read RangeList .debug_ranges 0", "Read RangeList .debug_rnglists 0"
TOO_LONG = "TooLarge Range"


def refused_lists(made):
    """What cannot be read of the lists of entries that are not subprograms, and sums in lists that are no addresses."""
    refused = made.refused
    for name, line, attribute, sections in [
        ("of a section that is not there", AT_LIST, LISTED, []),
        ("without its end", AT_LIST, LISTED, [CUT]),
        ("that is cut in an address", AT_LIST, LISTED, [(".debug_ranges", bytes(7))]),
        ("past its section", "Read RangeList .debug_ranges 40", listed(40), [pairs((5, 6))]),
        ("without its end, of a scope's start", AT_LIST, listed(name=START_SCOPE), [CUT]),
    ]:
        refused(f"a block's list {name}", 10, line, within(block(attribute)), sections=sections)
    refused("a second list of a block that cannot be read", 10, "Read RangeList .debug_ranges 16", within(block(LISTED, listed(16))), sections=[pairs((5, 6))])
    refused("a root's list that cannot be read", 10, AT_LIST, within(attributes=(LINES, LISTED)), sections=[CUT])
    for name, contents in [
        ("a kind that is none", b"\x08\0"),
        ("a base by an index that cannot be read", INDEX_BASE + b"\x04\0"),
        ("a start by an index that cannot be read", INDEX_ENDS + b"\x04\x00\0"),
        ("an end by an index that cannot be read", INDEX_ENDS + b"\x00\x04\0"),
        ("a start and a length by an index that cannot be read", INDEX_LENGTH + b"\x04\x01\0"),
        ("no end", OFFSETS + b"\x05\x06"),
        ("an address that is cut", BASE + b"\x05\0\0"),
    ]:
        refused(f"a block's list with {name}", 10, AT_KINDS, in_five(block(LISTED)), sections=[PLACES, kinds(contents)])
    index = block((RANGES, RNGLISTX, b"\x01"))
    refused("a block's list by an index past the section", 10, f"Read RangeList .debug_info {AT_BLOCK_5}", in_five(index), sections=[kinds(bytes(12) + u32(4) + b"\0\0\0")])
    refused("a block's list by an index, past its section", 10, "Read RangeList .debug_rnglists 112", in_five(index), sections=[kinds(bytes(16) + u32(100) + bytes(4))])
    long_start, long_index = START_LENGTH + u32(5) + uleb(MOST - 4), INDEX_LENGTH + b"\x01" + uleb(MOST)
    for name, contents in [("a length", long_start), ("a length behind an index", long_index), ("a length behind an interval", OFFSETS + b"\x05\x06" + long_start)]:
        refused(f"a block's list with {name} that is too long", 20, TOO_LONG, in_five(block(LISTED)), sections=[PLACES, kinds(contents + b"\0")])
    refused("a scope's start that is too long", 20, TOO_LONG, in_five(block(listed(name=START_SCOPE))), sections=[kinds(long_start + b"\0")])
    refused("a length that is too long before the end that is missing", 20, TOO_LONG, in_five(block(LISTED)), sections=[kinds(long_start)])
    refused("an index that cannot be read before a length that is too long", 10, AT_KINDS, in_five(block(LISTED)), sections=[PLACES, kinds(INDEX_BASE + b"\x04" + long_start + b"\0")])
    by_list = lambda *attributes: (root(Entry(SUBPROGRAM, *attributes, LISTED)), 5, 4)
    shown = ENDS + u32(5) + u32(6)
    refused("a subprogram's list with a length that is too long", 20, TOO_LONG, by_list(), sections=[kinds(shown + long_start + b"\0")])
    refused("a subprogram's list that begins with a length that is too long", 20, TOO_LONG, by_list(), sections=[kinds(long_start + b"\0")])
    refused("a subprogram's list with a length that is too long, and without its end", 10, AT_KINDS, by_list(), sections=[kinds(shown + long_start)])
    refused("a list with a length that is too long beside a begin in no function", 20, TOO_LONG, by_list(low(1)), sections=[kinds(shown + long_start + b"\0")])
    made.carried("a list with a length that is too long beside a begin in a function", by_list(low(2)), sections=[kinds(shown + long_start + b"\0")], code=["0+30"])
    named = (root(subprogram(to("g")), Entry(SUBPROGRAM, LISTED, key="g")), 5, 4)
    refused("a list with a length that is too long of a subprogram that is named", 20, TOO_LONG, named, sections=[kinds(START_LENGTH + u32(1) + uleb(MOST) + b"\0")])
    made.carried("a list that cannot be read of a type that is not kept", root(subprogram(), Entry(BASE_TYPE, LISTED)), sections=[CUT], code=["0+30"])
    other = root(Entry(SUBPROGRAM, low(2), children=[block(LISTED)]), attributes=(), tag=0x3C)
    made.carried("a list that cannot be read of a block of a unit that is not carried", within(), other, sections=[CUT], code=["0+30"])


def refused_bounds(made):
    """Bounds that cannot be read, and lengths that are too long."""
    refused, at = made.refused, f"Read AddressValue .debug_info {AT_BLOCK_5}"
    for name, attributes in [
        ("a begin", ((LOW_PC, ADDRX, b"\x04"),)),
        ("an end", (low(5), (HIGH_PC, ADDRX, b"\x04"))),
        ("an end without a begin", ((HIGH_PC, ADDRX, b"\x04"),)),
        ("a second begin", (low(5), (LOW_PC, ADDRX, b"\x04"))),
        ("a begin beside a list", (LISTED, (LOW_PC, ADDRX, b"\x04"))),
        ("an address", ((ENTRY_PC, ADDRX, b"\x04"),)),
        ("ranges", ((RANGES, ADDRX, b"\x04"),)),
    ]:
        refused(f"{name} of a block by an index that cannot be read", 10, at, in_five(block(*attributes)), sections=[PLACES, kinds(b"\0")])
    ends = (root(Entry(SUBPROGRAM, low(2), (HIGH_PC, ADDRX, b"\x04"))), 5, 4)
    refused("an end by an index that cannot be read of a subprogram that begins in a function", 10, "Read AddressValue .debug_info 17", ends, sections=[PLACES])
    indexed_root = in_five(block(LISTED), attributes=(LINES, (LOW_PC, ADDRX, b"\x04")))
    refused("a root's begin by an index that cannot be read", 10, "Read AddressValue .debug_info 12", indexed_root, sections=[PLACES, kinds(OFFSETS + b"\x05\x06\0")])
    for name, *attributes in [
        ("a length of 2^64 less its begin", low(5), for_bytes(MOST - 4)),
        ("a negative length", low(5), (HIGH_PC, SDATA, sleb(-1))),
        ("a length in front of its begin", for_bytes(MOST), low(5)),
        ("a length of a begin in no function", low(1), for_bytes(MOST)),
        ("a length beside ranges that are a number", (RANGES, DATA1, b"\0"), low(5), for_bytes(MOST)),
    ]:
        refused(f"{name} that is too long", 20, TOO_LONG, within(block(*attributes)))
    made.carried("a length of a begin of 0, up to the greatest address", within(block(low(0), for_bytes(MOST))), code=["0+30", "[]"])
    made.carried("a length that is too long of a begin that is a number", within(block((LOW_PC, DATA1, b"\x05"), for_bytes(MOST))), code=["0+30"])
    made.carried("a second length that is too long", within(block(low(5), for_bytes(5), (HIGH_PC, DATA8, u64(MOST)))), code=["0+30", "5+18"])
    refused("a root's length that is too long", 20, TOO_LONG, within(attributes=(LINES, low(2), for_bytes(MOST))))
    named = root(subprogram(to("g")), Entry(SUBPROGRAM, low(1), for_bytes(MOST), key="g"))
    refused("a length that is too long of a subprogram that is named", 20, TOO_LONG, named)
    wide = root(Entry(SUBPROGRAM, low_8(2), LENGTH, children=[block(low_8(MOST), for_bytes(1))]), attributes=())
    refused("a length behind the greatest address", 20, TOO_LONG, (wide, 4, 8))


def refusal_order(made):
    """Of several things that are refused, the first in the order of reading."""
    refused, text, at = made.refused, (NAME, STRP, u32(9)), f"Read Text .debug_info {AT_BLOCK}"
    expression, unread = (LOCATION, EXPRLOC, CUT_PUSH), f"Read Expression .debug_info {AT_BLOCK + 2}"
    long = for_bytes(MOST)
    for name, status, line, *attributes in [
        ("a text before a length that is too long", 10, at, text, low(5), long),
        ("a text between the bounds that are too long", 10, at, low(5), text, long),
        ("a text between bounds of which the end is in front", 10, at, long, text, low(5)),
        ("a length that is too long before a text", 20, TOO_LONG, low(5), long, text),
        ("a length in front of its begin before a text", 20, TOO_LONG, long, low(5), text),
        ("a text before a list that cannot be read", 10, at, text, LISTED),
        ("a list that cannot be read before a text", 10, AT_LIST, LISTED, text),
        ("an expression before a length that is too long", 10, unread, expression, low(5), long),
        ("a length that is too long before an expression", 20, TOO_LONG, low(5), long, expression),
        ("a list that cannot be read before an expression", 10, AT_LIST, LISTED, expression),
        ("an expression before a list that cannot be read", 10, unread, expression, LISTED),
        ("a list that cannot be read before bounds that are too long", 10, AT_LIST, LISTED, low(5), long),
        ("a list that cannot be read behind bounds that are too long", 10, AT_LIST, low(5), long, LISTED),
        ("a list of another name that cannot be read before a length that is too long", 10, AT_LIST, low(5), listed(name=START_SCOPE), long),
        ("an expression that cannot be read as an end", 10, f"Read Expression .debug_info {AT_BLOCK + 6}", low(5), (HIGH_PC, EXPRLOC, CUT_PUSH)),
        ("an expression that cannot be read as a begin", 10, unread, (LOW_PC, EXPRLOC, CUT_PUSH)),
        ("an expression that cannot be read as ranges", 10, unread, (RANGES, EXPRLOC, CUT_PUSH)),
        ("a location list beside bounds", 10, "Read LocationList .debug_loc 0", low(5), for_bytes(5), (LOCATION, SEC_OFFSET, bytes(4))),
        ("a text as a begin that cannot be read", 10, at, (LOW_PC, STRP, u32(9))),
    ]:
        refused(name, status, line, within(block(*attributes)), sections=[CUT])
    refused("a location list by an index beside bounds", 10, f"Read LocationList .debug_info {AT_BLOCK_5}", in_five(block(low(5), for_bytes(5), (LOCATION, LOCLISTX, b"\0"))))
    made.carried("an expression as an end", within(block(low(5), (HIGH_PC, EXPRLOC, PUSH))), code=["0+30", "5"])
    made.carried("an expression as ranges", within(block(low(5), for_bytes(1), (RANGES, EXPRLOC, PUSH))), code=["0+30", "5+10"])
    made.carried("an expression as a begin", within(block((LOW_PC, EXPRLOC, PUSH), for_bytes(5))), code=["0+30"])
    made.carried("an expression as the end of a subprogram", root(Entry(SUBPROGRAM, low(2), (HIGH_PC, EXPRLOC, PUSH))), code=["0+30"])
    refused("an expression that cannot be read as the end of a subprogram", 10, "Read Expression .debug_info 22", root(Entry(SUBPROGRAM, low(2), (HIGH_PC, EXPRLOC, CUT_PUSH))))
    refused("entries in file order: a list before a length", 10, AT_LIST, within(block(LISTED), block(low(5), long)), sections=[CUT])
    refused("entries in file order: a length before a list", 20, TOO_LONG, within(block(low(5), long), block(LISTED)), sections=[CUT])
    refused("a subprogram's list before a block's length", 10, AT_LIST, within(block(low(5), long)), root(Entry(SUBPROGRAM, LISTED)), sections=[CUT])
    refused("the lists of the first unit before the line table of the second", 10, AT_LIST, within(block(LISTED)), within(attributes=((0x10, SEC_OFFSET, u32(90)),)), sections=[CUT])
    refused("the line table of a unit before its lists", 10, "Read LineTable .debug_line 90", within(block(LISTED), attributes=((0x10, SEC_OFFSET, u32(90)),)), sections=[CUT])
    refused("the line table of a unit before its lengths", 10, "Read LineTable .debug_line 90", within(block(low(5), long), attributes=((0x10, SEC_OFFSET, u32(90)),)))
    refused("a root's bounds before a block's list", 20, TOO_LONG, within(block(LISTED), attributes=(LINES, low(2), long)), sections=[CUT])


def length_cases(made):
    """Functions that are longer than an addend reaches, which is told behind all bad address maps and before all else."""
    longest = lambda count, symbol=0: (symbol, 2, 13, count, SMALL[4])
    made.carried("a function of 2^31 - 1 bytes", within(block(low(10), until(13))), functions=[longest((1 << 31) - 1)], code=[f"0+{(1 << 31) - 1}", f"15+{(1 << 31) - 16}"])
    line = "TooLarge Addend"
    for name, count in (("2^31", 1 << 31), ("2^32 - 1", GREATEST)):
        made.refused(f"a function of {name} bytes", 20, line, within(), functions=[longest(count)])
    unnamed = (None, 14, 25, GREATEST, [])
    made.carried("a long function without a symbol", within(), functions=[SMALL, unnamed], code=["0+30"])
    made.refused("a long function that no entry is of", 20, line, within(), functions=[SMALL, (7, 14, 25, 1 << 31, [])])
    made.refused("a long function before a list that cannot be read", 20, line, within(block(LISTED)), functions=[longest(1 << 31)])
    made.refused("a bad address map behind a long function", 13, "BadAddressMap 0 1 CodeFalls", within(), functions=[longest(1 << 31), (7, 14, 25, 30, [(8, 14), (5, 15)])])
    made.refused("a shared symbol before a long function", 21, "SharedSymbol 0 1", within(), functions=[longest(1 << 31), (0, 14, 25, 30, [])])
    info, (front, told) = Info(within()), program_of([SMALL])
    good = made.module(info.abbrev, info.info, front=front)
    far = [{**told[0], "body_len": 1 << 31}]
    compressed = good + section(0, uleb(11) + b".zdebug_str")
    cut = made.module(info.abbrev, info.info[:-1], front=front)
    named = lambda functions, **changes: [{**functions[0], **changes}]
    for name, status, words, modules, functions in [
        ("a long function before a compressed section", 20, line, [compressed], [far]),
        ("a long function before a unit that is cut", 20, line, [cut], [far]),
        ("a long function of the second module before a unit of the first that is cut", 20, line, [cut, good], [told, named(far, symbol=1)]),
        ("a bad address map of the second module before a long function of the first", 13, "BadAddressMap 1 0 CodeFalls", [good, good], [far, named(told, symbol=1, map=[[8, 25], [5, 26]])]),
    ]:
        made.cases.refused_module(name, status, words, *modules, map_text=made.map_of(*functions))
