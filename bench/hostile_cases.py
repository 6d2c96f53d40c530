"""Cases of hostile DWARF: the small module cut at each byte, its sections cut at each byte, and entries that ask for what cannot be given."""

import sys

from entry_cases import BLOCK, RANGES, SEC_OFFSET, VARIABLE, Entry, Info, Label, pairs, root, subprogram, to
from listed_trees import context, wanted_tree
from make_modules import u32
from small_module import ABBREVIATIONS, MAP, SMALL, line_table, module, unit

EXPRLOC, INDIRECT, REF4 = 0x18, 0x16, 0x13
LOCATION, BYTE_SIZE, SPECIFICATION = 0x02, 0x0B, 0x47
POINTER, CONST = 0x0F, 0x26

# Where the parts of the small module end: the preamble, three sections of code, and three of DWARF.
PARTS = [8, 14, 18, 33, 66, 106, 180]
NO_FUNCTION, NO_UNIT = (8, 14), (18, 33, 66)


def hostile_cases(cases):
    cut_modules(cases)
    cut_sections(cases)
    entries(cases)
    return cases


def cut_modules(cases):
    """The small module, cut at each byte. Where a part is whole, what stands behind it is not there; else the first field is told that cannot be
    read: the number of a section is whole where its first byte is, and its size reaches past the file."""
    for length in range(len(SMALL)):
        cut, name = SMALL[:length], f"the small module cut to {length} bytes"
        if length in NO_FUNCTION:
            cases.refused_module(name, 6, "malformed map", cut)
        elif length in NO_UNIT:
            cases.carried(name, MAP, cut, tree=[])
        elif length == 106:
            cases.refused_module(name, 10, "Read LineTable .debug_line 0", cut)
        else:
            begin = max([end for end in PARTS if end < length], default=None)
            cases.refused_module(name, 5, f"Malformed {begin + 1 if begin else 0}", cut)


def cut_sections(cases):
    """The contents of a section, cut at each byte."""
    info, lines = unit(), line_table()
    for length in range(1, len(info)):
        cases.refused_module(f"units cut to {length} bytes", 10, "Read UnitHeader .debug_info 0", module(info=info[:length]))
    for length in range(len(ABBREVIATIONS)):
        cases.refused_module(f"abbreviations cut to {length} bytes", 10, "Read Abbreviation .debug_abbrev 0", module(ABBREVIATIONS[:length]))
    for length in range(len(lines)):
        cases.refused_module(f"a line table cut to {length} bytes", 10, "Read LineTable .debug_line 0", module(line=lines[:length]))


def made_of(top, *sections):
    info = Info(top)
    return module(info.abbrev, info.info, others=list(sections))


def variable(expression):
    code = bytes.fromhex(expression)
    return Entry(VARIABLE, (LOCATION, EXPRLOC, bytes([len(code)]) + code))


def entries(cases):
    def carried(name, top, *sections, **wanted):
        cases.carried(name, MAP, made_of(top, *sections), **wanted)

    def tree(name, top, lines, *sections):
        carried(name, top, *sections, tree=wanted_tree([None, lines]))

    within = lambda *children: root(subprogram(children=children))
    whole = ["0 11", "1 2e", context(2)]
    tree("a location with a branch into an operation", within(variable("28 01 00 10 23 9F")), whole + ["2 34"])
    cases.refused_module("a location that is cut", 10, "Read Expression .debug_info 27", made_of(within(variable("10"))))
    of_itself = root(subprogram((SPECIFICATION, REF4, Label("f")), key="f"))
    tree("a subprogram whose specification is itself", of_itself, ["0 11", "1 2e =f 47>f", context(2)])
    indirect = lambda value: root(subprogram((BYTE_SIZE, INDIRECT, bytes.fromhex(value))))
    tree("a constant whose form is told twice before it", indirect("16 16 0B 05"), ["0 11", "1 2e 0b:5", context(2)])
    cases.refused_module("a form told before its value, which is one without a value", 10, "Read Entry .debug_info 16", made_of(indirect("16 21")))
    no_code = within(Entry(BLOCK, (RANGES, SEC_OFFSET, u32(0))))
    carried("a block whose ranges begin above their ends", no_code, pairs((9, 5), (7, 6)), tree=wanted_tree([None, whole + ["2 0b"]]), code=None)
    pointer = lambda target: root(subprogram(to("p")), Entry(POINTER, to(target), key="p"), Entry(CONST, to("c"), key="c"))
    cases.carried("a pointer to itself", MAP, made_of(pointer("p")), wrappers=["Ptr ??"])
    cases.carried("a pointer to a constant of itself", MAP, made_of(pointer("c")), wrappers=["Ptr const ??"])
    sys.setrecursionlimit(10_000)  # of this script, which nests what it makes
    nested = []
    for _ in range(1000):
        nested = [Entry(BLOCK, children=nested)]
    tree("a thousand nested blocks", within(*nested), whole + [f"{2 + i} 0b" for i in range(1000)])
