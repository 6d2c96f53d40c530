"""Cases of what is refused of expressions and location lists, in which order, and of what the map says of values."""

from entry_cases import BASE_TYPE, DATA8, GREATEST, HIGH_PC, LENGTH, LINES, LOW_PC, NAME, RANGES, SEC_OFFSET, STRP, SUBPROGRAM, VARIABLE, Entry, root, subprogram, to
from location_cases import BASE, BYTE_SIZE, DEFAULT, DEFINED, ENDS, FRAME_BASE, IN_LIST, INDEX_BASE, INDEX_ENDS, INDEX_LENGTH, OFFSETS, PART, REGISTERS, SHIFT
from location_cases import START_LENGTH, VMCTX, WHOLE, at, block, by_index, cfa, framed, in_five, in_list, listed_variable, loc, loclists, plain, reg, two_modules, variable
from make_modules import u32, uleb
from range_cases import EXPRLOC, LOCATION, MOST, PLACES, SECOND, SMALL, low, within
from range_cases import listed as listed_ranges
from worked_texts import MEMORY_AT_0_TEXT, MEMORY_TEXT, OWN_TEXT

AT, ON_BASE, IN_BLOCK, AT_5 = 27, 32, 36, 28  # the expression of the first variable below a subprogram, or below a block in it
AT_LIST, AT_LIST_5 = "Read LocationList .debug_loc 0", "Read LocationList .debug_loclists 0"
TOO_LONG = "TooLarge Range"
CUT = (".debug_loc", u32(5) + u32(6))


def unread(place, section=".debug_info"):
    return f"Read Expression {section} {place}"


def refusal_cases(made, front):
    """`made` makes the cases of locations, `front` is a module without sections of DWARF."""
    cut_operands(made)
    cut_expressions(made)
    bad_labels(made)
    no_memory(made)
    long_jumps(made)
    long_expressions(made)
    cut_lists(made)
    order_in_an_expression(made)
    order_of_attributes(made)
    map_cases(made, front)
    return made.cases


# ---- what cannot be read of expressions

CUT_OPERANDS = {
    "a number of one byte": "08",
    "a signed number of one byte": "09",
    "a number of two bytes": "0A 01",
    "a number of four bytes": "0C 01 02 03",
    "a number of eight bytes": "0F 01 02 03 04 05 06 07",
    "a number of any length": "10 80",
    "a number of more than 64 bits": "10 80 80 80 80 80 80 80 80 80 02",
    "a signed number of any length": "11",
    "a signed number of more than 64 bits": "11 80 80 80 80 80 80 80 80 80 01",
    "a negative number of more than 64 bits": "11 FF FF FF FF FF FF FF FF FF 7E",
    "a place in the stack": "15",
    "an offset": "23 80",
    "a size": "93",
    "a second size": "9D 08",
    "a size of a read": "94",
    "a size of a read of another space": "95",
    "a distance": "28 00",
    "a distance of which nothing is there": "2F",
    "a kind of a location": "ED",
    "a local": "ED 00 80",
    "a local of more than 64 bits": "ED 00 80 80 80 80 80 80 80 80 80 02",
}


def cut_operands(made):
    """Operands that are cut, or do not fit 64 bits. All that stand in one unit are told at the first."""
    refused = made.refused
    for name, expression in CUT_OPERANDS.items():
        refused(f"an expression with {name} that cannot be read", 10, unread(AT), plain("31 " + expression))
    refused("an offset from a frame base that is cut", 10, unread(ON_BASE), framed(variable("91 80")))
    refused("an offset from a frame base of more than 64 bits", 10, unread(ON_BASE), framed(variable("91" + "80" * 9 + "01")))
    refused("an operand that is cut in front of an operation that is not supported", 10, unread(AT), plain("08"))
    refused("an operand that is cut behind a jump into an operation", 10, unread(AT), plain("28 01 00 10 23 10"))
    refused("the second of two expressions that cannot be read", 10, unread(AT + 4), plain("31 9F", "31 08"))


def cut_expressions(made):
    """Where expressions that cannot be read stand."""
    refused = made.refused
    for name, place, entry in [
        ("in a block of one byte's length", AT, Entry(VARIABLE, (LOCATION, 0x0A, b"\x01\x10"))),
        ("in a block of four bytes' length", AT + 3, Entry(VARIABLE, (LOCATION, 0x04, u32(1) + b"\x10"))),
        ("with a long length", AT + 2, Entry(VARIABLE, (LOCATION, EXPRLOC, b"\x81\x80\x00\x10"))),
        ("behind a name", AT + 4, Entry(VARIABLE, (NAME, 0x06, u32(0)), at("10"))),
        ("under a name that has no list", AT, Entry(VARIABLE, at("10", BYTE_SIZE))),
        ("under a name of its own", AT, Entry(VARIABLE, at("10", 0x2100))),
        ("in the place of a begin", AT, Entry(VARIABLE, at("10", LOW_PC))),
        ("in the place of an end", AT, Entry(VARIABLE, at("10", HIGH_PC))),
        ("in the place of ranges", AT, Entry(VARIABLE, at("10", RANGES))),
        ("as a frame base", AT, Entry(VARIABLE, at("10", FRAME_BASE))),
        ("behind a location that cannot be carried", AT + 2, Entry(VARIABLE, at("50"), at("10"))),
        ("in a block without code", IN_BLOCK, block(variable("10"), begin=5, end=5)),
    ]:
        refused(f"an expression that cannot be read {name}", 10, unread(place), within(entry))
    refused("an expression that cannot be read of a subprogram", 10, unread(26), root(subprogram(at("10"))))
    refused("a frame base that cannot be read of a subprogram", 10, unread(26), framed(variable("91 12"), base="10"))
    refused("an expression that cannot be read of a root", 10, unread(17), root(subprogram(), attributes=(LINES, at("10"))))
    kept = root(subprogram(to("b")), Entry(BASE_TYPE, at("10", BYTE_SIZE), key="b"))
    refused("an expression that cannot be read of a type", 10, unread(31), kept)
    unkept = root(subprogram(), Entry(BASE_TYPE, at("10", BYTE_SIZE)))
    made.carried("an expression that cannot be read of a type that is not kept", unkept, places=[])
    partial = root(Entry(SUBPROGRAM, low(2), LENGTH, children=[variable("10")]), attributes=(), tag=0x3C)
    made.carried("an expression that cannot be read of a unit that is not carried", within(variable("31")), partial, places=["31"])
    refused("an expression that cannot be read in version 5", 10, unread(AT_5), in_five(variable("10")))
    refused("an expression that cannot be read in a second unit", 10, unread(57), plain("31"), plain("10"))


# ---- what cannot be built

BAD = {3: [reg(0, 30, 1)], 4: [reg(0, 10, 3), reg(9, 4, 3)], 5: [cfa(5, 4, 8)], VMCTX: [reg(0, 30, 2)]}
BAD_VMCTX = {**WHOLE, VMCTX: [reg(0, 30, 2), reg(1, 0, 2)]}


def bad_labels(made):
    """Ranges of values that end before they begin."""
    refused = lambda name, label, *units, labels=(BAD,), **more: made.refused(name, 14, f"BadLabelRange {label}", *units, labels=labels, **more)
    refused("a range that ends before it begins", 4, plain("ED 00 04 9F"))
    refused("of two values with such a range the first in the expression", 5, plain("ED 00 03 ED 00 05 22 ED 00 04 22 9F"))
    refused("such a range of the value of a frame base", 4, framed(variable("91 12 9F"), base="ED 00 04 9F"))
    refused("such a range of the context pointer", VMCTX, plain("ED 00 03"), labels=[BAD_VMCTX])
    refused("such a range of the context pointer before a later value's", VMCTX, plain("31 06 ED 00 04 22 9F"), labels=[{**BAD, **BAD_VMCTX}])
    refused("such a range of the context pointer before that of a value", VMCTX, plain("ED 00 04"), labels=[{**BAD, **BAD_VMCTX, 4: BAD[4]}])
    refused("such a range of the context pointer, which no expression needs", VMCTX, plain("31", "31 9F"), labels=[BAD_VMCTX])
    refused("such a range where the scope has no code", 4, within(block(variable("ED 00 04 9F"), begin=1, end=2)))
    refused("such a range under a name that may have no list", 4, within(Entry(VARIABLE, at("ED 00 04 9F", BYTE_SIZE))))
    refused("such a range in a list", 4, within(listed_variable()), sections=[loc((5, 6, "31"), (10, 11, "ED 00 04 9F"))])
    refused("such a range in a list of no code", 4, within(listed_variable()), sections=[loc((1, 2, "ED 00 04 9F"))])
    carried = lambda name, *units, labels=(BAD,), **more: made.carried(name, *units, labels=labels, **more)
    carried("such a range of a value that is not needed", plain("ED 00 03 9F"), places=["5c"])
    carried("such a range where the scope is empty", within(block(variable("ED 00 04 9F"), begin=5, end=5)), places=[])
    carried("such a range where no scope is in force", root(subprogram(), attributes=(LINES, at("ED 00 04 9F"))), places=[])
    carried("such a range of an expression that is not supported", plain("ED 00 04 50", "ED 00 04 91 12"), places=[])
    carried("such a range in a list of an empty interval", within(listed_variable()), sections=[loc((5, 5, "ED 00 04 9F"), (5, 6, "31"))], places=["[5-15 31]"])
    of_type = root(subprogram(to("b")), Entry(BASE_TYPE, in_list(name=0x19), key="b"))
    carried("such a range in a list where no frame is in force", of_type, sections=[loc((5, 6, "ED 00 04 9F"))], places=["[]"])
    carried("such a range of another function", within(variable("ED 00 04 9F"), begin=14), functions=[SMALL, SECOND], labels=[BAD, {4: [reg(0, 50, 3)]}], places=["53"])


def no_memory(made):
    """Memory that is not there, and registers without a number."""
    missing, on_base = "InvalidAttributeValue 0", framed(variable("91 12"))
    refused = lambda name, status, line, *units, memory=None, **more: made.refused(name, status, line, *units, memory=memory, **more)
    refused("a value in memory, of a module that has none", 15, missing, on_base)
    refused("a read of memory, of a module that has none", 15, missing, plain("31 06 9F"))
    refused("a value in memory in a list, of a module that has none", 15, missing, within(listed_variable()), sections=[loc((5, 6, "ED 00 03"))])
    refused("no memory on a single byte", 15, missing, on_base, labels=[{3: [reg(0, 10, 1)], VMCTX: [reg(9, 30, 2)]}])
    unmapped = lambda name, register, *units, memory=DEFINED, **more: refused(name, 16, f"UnmappedRegister {register}", *units, memory=memory, **more)
    unmapped("a value in a register without a number", 1, on_base, registers=[[2, 14]])
    unmapped("the context pointer in a register without a number", 2, on_base, registers=[[1, 12]])
    unmapped("the context pointer in a register without a number before a value in one", 2, on_base, registers=[])
    unmapped("of two registers without a number that of the first part", 1, plain("ED 00 03 ED 00 04 22 9F"), labels=[{**PART, 4: [reg(0, 30, 9)]}], registers=[[2, 14]])
    unmapped("a value alone in a register without a number", 1, plain("ED 00 03 9F"), registers=[[2, 14]], memory=None)
    unmapped("a register without a number on a later byte", 9, plain("ED 00 03 9F"), labels=[{3: [reg(0, 10, 1), cfa(10, 20, 8), reg(20, 21, 9)]}])
    later = {3: [reg(0, 10, 1), reg(10, 20, 8)], 4: [reg(0, 10, 9), reg(10, 20, 1)]}
    unmapped("of two registers without a number that of the first byte", 9, plain("ED 00 03 ED 00 04 22 9F"), labels=[later])
    unmapped("the greatest register", GREATEST, plain("ED 00 03 9F"), labels=[{3: [reg(0, 30, GREATEST)]}])
    unmapped("a register without a number in a list", 9, within(listed_variable()), labels=[{3: [reg(0, 30, 9)]}], sections=[loc((2, 5, "31"), (5, 6, IN_LIST))])
    unmapped("a register without a number under a name that may have no list", 9, within(Entry(VARIABLE, at("ED 00 03 9F", BYTE_SIZE))), labels=[{3: [reg(0, 5, 9)]}])
    modules = [made.made([framed(variable("91 12"))], [], [SMALL])[0] for _ in range(2)]
    made.refused_modules("no memory of the second module", 15, "InvalidAttributeValue 1", two_modules(made, None), *modules)
    made.refused_modules("a register without a number in the second module", 16, "UnmappedRegister 5", two_modules(made, DEFINED, registers=REGISTERS[:4]), *modules)


# ---- lengths


def behind_shifts(count, others, jump, forward):
    """A jump over as many shifts to the right, each of which becomes eight bytes, and operations of one byte, forward or back."""
    between = "26" * count + "96" * others
    if forward:
        return jump + (count + others).to_bytes(2, "little").hex() + between + "ED 00 03 9F"
    return between + jump + (-3 - count - others).to_bytes(2, "little", signed=True).hex() + "ED 00 03 9F"


def long_jumps(made):
    """Jumps that become too long; what is of no more than part of a scope goes under a name that may have no list."""
    sized = lambda *arguments: within(Entry(VARIABLE, at(behind_shifts(*arguments), BYTE_SIZE)))
    made.carried("jumps that become as long as they may", sized(4095, 7, "28", True), sized(4095, 5, "2F", False), places=[])
    made.refused("a jump forward that becomes too long", 20, "TooLarge Jump", sized(4095, 8, "2F", True))
    made.refused("a jump back that becomes too long", 20, "TooLarge Jump", sized(4095, 6, "28", False))
    made.carried("a jump that would become too long where its value is nowhere", sized(4095, 8, "2F", True), labels=[{}], places=[])
    made.refused("a jump that becomes too long at its second place alone", 20, "TooLarge Jump", within(Entry(VARIABLE, at("2F" + (4095 + 6).to_bytes(2, "little").hex() + "26" * 4095 + "96" * 3 + "ED 00 03 9F", BYTE_SIZE))), labels=[{3: [reg(0, 10, 1), cfa(10, 20, 1 << 20)]}])


def long_expressions(made):
    """Expressions of a list have a length of two bytes, others of any."""
    of_list, alone = (lambda others: "ED 00 03" + "26" * 8190 + "96" * others + "9F"), "26" * 8192
    longest = "7c00" + (SHIFT + "26") * 8190 + "96" * 12 + "9f"
    made.carried("the longest expression of a list, and a longer one alone", plain(of_list(12), alone), places=[f"[0-20 {longest}]", (SHIFT + "26") * 8192])
    made.refused("an expression of a list that is too long", 20, "TooLarge Expression", plain(of_list(13)))
    as_it_stands = loclists((OFFSETS + b"\x05\x06", alone))
    made.refused("an expression of a list that is too long and needs no value", 20, "TooLarge Expression", in_five(listed_variable()), sections=[as_it_stands])
    made.refused("what cannot be read of a second unit before an expression that is too long", 10, unread(8264), plain(of_list(13)), plain("10"))


# ---- what is refused of lists


def cut_lists(made):
    """Lists that cannot be read, and sums in them that are no addresses."""
    refused, one = made.refused, within(listed_variable())
    for name, contents in [
        ("of a section that is not there", None),
        ("without its end", loc((5, 6, "31"))[1][:-1]),
        ("that is cut in an address", u32(5) + b"\0\0"),
        ("without the length of an expression", u32(5) + u32(6) + b"\1"),
        ("with a length past its section", u32(5) + u32(6) + b"\x09\0" + bytes(8)),
        ("with an end alone", u32(0)),
    ]:
        refused(f"a location list {name}", 10, AT_LIST, one, sections=[] if contents is None else [(".debug_loc", contents)])
    refused("a location list past its section", 10, "Read LocationList .debug_loc 40", within(listed_variable(40)), sections=[loc((5, 6, "31"))])
    refused("a location list of a frame base that cannot be read", 10, AT_LIST, root(Entry(SUBPROGRAM, low(2), LENGTH, in_list(name=FRAME_BASE))), sections=[CUT])
    refused("a location list of a root that cannot be read", 10, AT_LIST, root(subprogram(), attributes=(LINES, in_list())), sections=[CUT])
    unkept = root(subprogram(), Entry(BASE_TYPE, in_list()))
    made.carried("a location list that cannot be read of a type that is not kept", unkept, sections=[CUT], places=[])
    for name, *entries in [
        ("a kind that is none", (b"\x09", "31")),
        ("a base by an index that cannot be read", (INDEX_BASE + b"\x04",)),
        ("a begin by an index that cannot be read", (INDEX_ENDS + b"\x04\x00", "31")),
        ("an end by an index that cannot be read", (INDEX_ENDS + b"\x00\x04", "31")),
        ("a begin and a length by an index that cannot be read", (INDEX_LENGTH + b"\x04\x01", "31")),
        ("a length past its section", (OFFSETS + b"\x05\x06\x40",)),
        ("a default location past its section", (DEFAULT + b"\x40",)),
        ("an address that is cut", (ENDS + u32(5) + b"\x06\0",)),
    ]:
        refused(f"a location list of version 5 with {name}", 10, AT_LIST_5, in_five(listed_variable()), sections=[PLACES, loclists(*entries)])
    refused("a location list of version 5 without its end", 10, AT_LIST_5, in_five(listed_variable()), sections=[(".debug_loclists", loclists((OFFSETS + b"\x05\x06", "31"))[1][:-1])])
    index = in_five(by_index(1))
    refused("a location list by an index past the section", 10, "Read LocationList .debug_info 26", index, sections=[(".debug_loclists", bytes(12) + u32(4) + b"\0\0\0")])
    refused("a location list by an index, past its section", 10, "Read LocationList .debug_loclists 112", index, sections=[(".debug_loclists", bytes(16) + u32(100) + bytes(4))])
    refused("a location list by an index that cannot be read", 10, "Read LocationList .debug_loclists 20", index, sections=[(".debug_loclists", bytes(16) + u32(8) + b"\x09")])
    long = START_LENGTH + u32(5) + uleb(MOST - 4), INDEX_LENGTH + b"\x01" + uleb(MOST)
    for name, *entries in [("a length", (long[0], "31")), ("a length behind an index", (long[1], "31")), ("a length behind an interval", (OFFSETS + b"\x05\x06", "31"), (long[0], "31"))]:
        refused(f"a location list with {name} that is too long", 20, TOO_LONG, in_five(listed_variable()), sections=[PLACES, loclists(*entries)])
    refused("a location list with a length that is too long before an end that is missing", 20, TOO_LONG, in_five(listed_variable()), sections=[(".debug_loclists", loclists((long[0], "31"))[1][:-1])])
    refused("a location list with an index that cannot be read before a length that is too long", 10, AT_LIST_5, in_five(listed_variable()), sections=[PLACES, loclists((INDEX_BASE + b"\x04",), (long[0], "31"))])
    expressions_of_lists(made)


def expressions_of_lists(made):
    """What is refused of the expressions of lists, behind the whole list."""
    refused = made.refused
    old = lambda *entries, **more: dict(sections=[loc(*entries)], **more)
    refused("a first expression of a list that cannot be read", 10, unread(10, ".debug_loc"), within(listed_variable()), **old((5, 6, "10")))
    refused("a third expression of a list that cannot be read", 10, unread(40, ".debug_loc"), within(listed_variable()), **old((GREATEST, 0), (5, 6, "31"), (7, 7, "10"), (9, 10, "31 10")))
    refused("an expression that cannot be read of no code", 10, unread(10, ".debug_loc"), within(listed_variable()), **old((1, 2, "10")))
    refused("an expression of a list that cannot be read on a frame base", 10, unread(10, ".debug_loc"), framed(listed_variable()), **old((5, 6, "91 80")))
    at_six = loclists((BASE + u32(5),), (OFFSETS + b"\0\1", "10"))
    refused("an expression of a list of version 5 that cannot be read", 10, unread(9, ".debug_loclists"), in_five(listed_variable()), sections=[at_six])
    refused("a list that cannot be read before its expressions that cannot be either", 10, AT_LIST, within(listed_variable()), sections=[(".debug_loc", loc((5, 6, "10"))[1][:-8])])
    long = loclists((OFFSETS + b"\x05\x06", "10"), (START_LENGTH + u32(5) + uleb(MOST), "31"))
    refused("a list with a length that is too long before its expressions", 20, TOO_LONG, in_five(listed_variable()), sections=[long])
    refused("of a list the first expression that is refused, as it is built", 14, "BadLabelRange 4", within(listed_variable()), **old((5, 6, "ED 00 04 9F"), (5, 6, "10"), labels=[BAD]))
    refused("of a list the first expression that is refused, as it is read", 10, unread(10, ".debug_loc"), within(listed_variable()), **old((5, 6, "10"), (5, 6, "ED 00 04 9F"), labels=[BAD]))
    refused("of a list the first expression that is refused, in its order", 16, "UnmappedRegister 1", within(listed_variable()), **old((10, 11, IN_LIST), (5, 6, "ED 00 04 9F"), labels=[BAD], registers=[[2, 14]]))


# ---- orders


def order_in_an_expression(made):
    """Of one expression: ranges that end before they begin, then memory and registers byte by byte, then jumps."""
    refused = made.refused
    every = {**BAD, 6: [reg(0, 30, 9)]}
    refused("a range that ends before it begins before memory that is not there", 14, "BadLabelRange 4", plain("ED 00 06 ED 00 04"), labels=[every], memory=None)
    refused("such a range of the context pointer before memory that is not there", 14, f"BadLabelRange {VMCTX}", plain("ED 00 03"), labels=[BAD_VMCTX], memory=None)
    refused("such a range before a register without a number", 14, "BadLabelRange 4", plain("ED 00 06 ED 00 04 22 9F"), labels=[every])
    refused("memory that is not there before a register without a number", 15, "InvalidAttributeValue 0", plain("ED 00 06"), labels=[every], memory=None)
    jump = behind_shifts(4095, 8, "2F", True)
    refused("such a range before a jump that is too long", 14, "BadLabelRange 5", plain(jump[:-2] + "ED 00 05 9F"), labels=[every])
    refused("memory that is not there before a jump that is too long", 15, "InvalidAttributeValue 0", plain(jump[:-2]), memory=None)
    refused("a register without a number on a later byte before a jump that is too long", 16, "UnmappedRegister 9", plain(jump), labels=[{3: [reg(0, 5, 1), reg(20, 21, 9)]}])
    refused("a jump that is too long behind a register without a number where another value is nowhere", 20, "TooLarge Jump", plain(jump[:-2] + "ED 00 07 9F"), labels=[{3: [reg(0, 5, 1), reg(20, 21, 9)], 7: [cfa(0, 5, 8)]}])


def order_of_attributes(made):
    """Of several things that are refused, the first in the order of reading."""
    text, place = (NAME, STRP, u32(9)), f"Read Text .debug_info {AT - 2}"
    bad, long = at("ED 00 04 9F"), (HIGH_PC, DATA8, MOST.to_bytes(8, "little"))
    label = "BadLabelRange 4"
    for name, status, line, *attributes in [
        ("a text before an expression", 10, place, text, at("10")),
        ("an expression before a text", 10, unread(AT), at("10"), text),
        ("a text before a range that ends before it begins", 10, place, text, bad),
        ("a range that ends before it begins before a text", 14, label, bad, text),
        ("a location list before an expression", 10, AT_LIST, in_list(), at("10")),
        ("an expression before a location list", 10, unread(AT), at("10"), in_list()),
        ("a range list before an expression", 10, "Read RangeList .debug_ranges 0", listed_ranges(), at("10")),
        ("an expression before a range list", 10, unread(AT), at("10"), listed_ranges()),
        ("a length that is too long before an expression", 20, TOO_LONG, low(5), long, at("10")),
        ("an expression before a length that is too long", 10, unread(AT + 4), low(5), at("10"), long),
        ("an expression as a begin before one as an end", 10, unread(AT), at("10", LOW_PC), at("10", HIGH_PC)),
        ("a location before a frame base", 14, label, bad, at("10", FRAME_BASE)),
        ("a frame base before a location", 10, unread(AT), at("10", FRAME_BASE), bad),
        ("a location list before a frame base", 10, AT_LIST, in_list(), at("10", FRAME_BASE)),
    ]:
        made.refused(f"of one entry {name}", status, line, within(Entry(VARIABLE, *attributes)), sections=[CUT, (".debug_ranges", u32(5))], labels=[BAD])
    two = within(variable("ED 00 04 9F"), variable("10")), within(variable("10"), variable("ED 00 04 9F"))
    made.refused("entries in file order: a range that ends before it begins", 14, label, two[0], labels=[BAD])
    made.refused("entries in file order: an expression that cannot be read", 10, unread(AT), two[1], labels=[BAD])
    made.refused("a location of the first unit before one of the second", 14, label, *two, labels=[BAD])
    made.refused("a line table before a location", 10, "Read LineTable .debug_line 90", within(variable("10"), attributes=((0x10, SEC_OFFSET, u32(90)),)))
    made.refused("a location of the first unit before the line table of the second", 10, unread(AT), within(variable("10")), within(attributes=((0x10, SEC_OFFSET, u32(90)),)))
    made.refused("a range list of a subprogram before a location", 10, "Read RangeList .debug_ranges 0", within(variable("10")), root(Entry(SUBPROGRAM, listed_ranges())))
    made.refused("an entry that cannot be read before a location", 10, "Read Entry .debug_info 28", within(variable("10"), Entry(VARIABLE, (NAME, 0x7F, b""))))
    modules = [made.made([plain("10")], [], [SMALL])[0], made.made([plain("31")], [], [SMALL])[0][:-9]]
    made.refused_modules("a location of the first module before a second that is cut", 5, f"Malformed {len(modules[1]) + 9 - 73}", two_modules(made, DEFINED), *modules)


# ---- the map

LABELS = '[[3,[[0,20,"reg",1]]],[4294967294,[[0,30,"cfa",-16]]]]'
TARGET = '"registers":[[1,12],[2,14]]'
MEMORY = '"memory":{"defined":80}'
NO_REGISTERS = ["null", "{}", "[1]", "[null]", "[[1]]", "[[1,12,3]]", "[[null,12]]", '[["1",12]]', "[[1,65536]]", "[[1,-1]]", "[[1,12.0]]", "[[4294967296,12]]"]
NO_REGISTERS += ["[[-1,12]]", "[[1,12],[1,14]]", "[[1,12],[2,14],[1,12]]"]
NO_MEMORY = ["[]", "80", "true", '"defined"', "{}", '{"other":80}', '{"defined":null}', '{"defined":-1}', '{"defined":4294967296}', '{"defined":[80]}', '{"imported":80}']
NO_MEMORY += ['{"imported":[8]}', '{"imported":[8,64,0]}', '{"imported":[8,null]}', '{"imported":[4294967296,0]}', '{"imported":[0,4294967296]}', '{"defined":80,"imported":[8,64]}']
NO_LABELS = ["null", "{}", "[3]", "[[3]]", "[[3,[],0]]", "[[3,null]]", "[[-1,[]]]", "[[4294967296,[]]]", '[["3",[]]]', "[[3,[]],[4,[]],[3,[]]]"]
NO_RANGES = ["null", '{"0":20}', '0,20,"reg"', '0,20,"reg",1,0', '0,20,"Reg",1', '0,20,"stack",1', '0,20,1,"reg"', "0,20,null,1", '-1,20,"reg",1', '0,-1,"reg",1', '0,4294967296,"reg",1']
NO_RANGES += ['4294967296,20,"reg",1', '0.0,20,"reg",1', '0,20,"reg",-1', '0,20,"reg",4294967296', '0,20,"reg",null', '0,20,"cfa",9223372036854775808', '0,20,"cfa",-9223372036854775809']
NO_RANGES += ['0,20,"cfa",1.0', '0,20,"cfa",-0', '0,20,"cfa","8"']
HAVE_VALUES = [
    (TARGET, '"registers":[]', MEMORY_TEXT),
    (TARGET, '"registers":[[4294967295,65535],[0,0],[1,0]]', MEMORY_TEXT),
    (MEMORY, '"memory":null', OWN_TEXT),
    (MEMORY, '"memory":{"imported":[0,4294967295]}', OWN_TEXT),
    (MEMORY, '"memory":{"defined":-1,"defined":0}', MEMORY_AT_0_TEXT),
    (LABELS, "[]", MEMORY_TEXT),
    (LABELS, "[[4294967295,[]],[0,[]]]", MEMORY_TEXT),
    (LABELS, '[[3,[[9,4,"reg",4294967295],[4294967295,0,"cfa",9223372036854775807],[0,0,"cfa",-9223372036854775808]]]]', MEMORY_TEXT),
]


def map_cases(made, front):
    """Values of the map's fields, and what has none; a module without sections of DWARF then prints its own unit."""
    told = made.told(made.made([within()], [], [SMALL])[1], [{3: [reg(0, 20, 1)], VMCTX: [cfa(0, 30, -16)]}], DEFINED)
    text = made.map_of(told, registers=[[1, 12], [2, 14]])
    assert all(text.count(piece) == 1 for piece in (TARGET, MEMORY, LABELS))
    ranges = [f"[[3,[[{piece}]]]]" if piece[0] in "-0123456789" else f"[[3,[{piece}]]]" for piece in NO_RANGES]
    fields = [("registers", TARGET, [f'"registers":{value}' for value in NO_REGISTERS]), ("memory", MEMORY, [f'"memory":{value}' for value in NO_MEMORY])]
    for field, old, values in [*fields, ("labels", LABELS, NO_LABELS), ("ranges", LABELS, ranges)]:
        for number, value in enumerate(values):
            made.cases.refused_module(f"{field} {number} of a map that has no value", 6, "malformed map", front, map_text=text.replace(old, value))
    for number, (old, new, wanted) in enumerate(HAVE_VALUES):
        made.cases.carried(f"values {number} of a map that has one", text.replace(old, new), front, front=wanted)
    on_base = made.made([framed(variable("91 12"))], [], [SMALL])[0]
    without = lambda piece: text.replace(piece, "").replace(",,", ",").replace("{,", "{").replace(",}", "}")
    made.refused_modules("a map without registers", 16, "UnmappedRegister 1", without(TARGET), on_base)
    made.refused_modules("a map without a memory", 15, "InvalidAttributeValue 0", without(MEMORY), on_base)
    made.cases.carried("a map without labels", without(f'"labels":{LABELS}'), on_base, places=["9c"])
    made.cases.carried("a map with all of these", text, on_base, places=["9c", "[0-20 7c00231291700611d0002206160cffffffff1a22]"])
