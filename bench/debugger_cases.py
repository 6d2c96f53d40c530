"""Cases of output for debuggers: scopes that are exact at each byte, the base of a root's list, what goes, what is wrapped, and twins of other cases that
ask for it."""

import json

from entry_cases import BLOCK, DATA1, LISTED, NAME, PARAMETER, STRING, STRUCTURE, TYPE, VARIABLE, Entry, base_type, pairs, root, subprogram, to
from listed_trees import context, wanted_tree, wrapped
from location_cases import DEFINED, VMCTX, at, in_list, loc, reg, variable
from location_cases import Cases as LocationCases
from make_modules import u32
from own_unit_cases import CARRIED_WITHOUT
from range_cases import SMALL as SMALL_FUNCTION
from range_cases import TEN, TEN_MOVED, Cases as RangeCases
from range_cases import block, for_bytes, low, within
from small_module import SMALL, function, map_of, module
from wrapper_cases import CHAR, CHAR_LINE, Cases as WrapperCases
from wrapper_cases import CONST, lines_of, naming, reference

CONTAINING_TYPE, VTABLE_LOCATION, RVALUE_REFERENCE, POINTER_TO_MEMBER = 0x1D, 0x4D, 0x42, 0x1F
ASKED = {"debugger": True}

# Functions of ten bytes of wasm code: of which several sources stand at one native offset; of which the last source stands at the end; and
# one without a source.
SHARED = (0, 10, 20, 30, [(5, 12), (5, None), (5, 14), (9, 16), (9, 11), (9, None)])
AT_END = (0, 10, 20, 8, [(0, 10), (6, 20)])
NO_SOURCE = (0, 10, 20, 4, [(0, None)])


def debugger_cases(cases, others):
    """`others` are the cases that stand, of which some get a twin."""
    made = RangeCases(cases, module, map_of)
    same_cases(cases)
    scope_cases(made)
    base_cases(made)
    place_cases(LocationCases(cases, module, map_of))
    gone_cases(WrapperCases(cases, module, map_of))
    wrapper_cases(WrapperCases(cases, module, map_of))
    twins(cases, {name: run for other in others for name, run in other.runs.items()})
    return cases


def same_cases(cases):
    """What is printed where it is not asked for is what is printed where nothing is said of it."""
    told = lambda **target: map_of({"path": "/m/g.wasm", "functions": [function()]}, **target)
    cases.carried("the small module, of whose readers nothing is said", told(), SMALL)
    _, _, printed = cases.outputs[-1]
    cases.carried("the small module, not for a debugger", told(debugger=False), SMALL, text=printed)


# ---- scopes


def scope_cases(made):
    """A block of an interval: the native bytes whose last recorded source, before any the first, lies in it; its end is left out."""

    def carried(name, code, *intervals, function=TEN):
        if len(intervals) == 1:
            (begin, end), sections = intervals[0], []
            inner = block(low(begin), for_bytes(end - begin))
        else:
            inner, sections = block(LISTED), [pairs(*intervals)]
        made.carried(f"{name}, for a debugger", within(inner, begin=10), sections=sections, functions=[function], code=[f"0+{function[3]}", *code], target=ASKED)

    carried("a block up to the next source", ["0+15"], (12, 17))
    carried("a block to behind the next source", ["0+30"], (12, 18))
    carried("a block between two sources", ["[]"], (13, 17))
    carried("a block of the last source", ["15+15"], (17, 20))
    carried("a block from the begin of its function", ["0+15"], (10, 13))
    carried("a block in two runs", ["[0-15 23-30]"], (12, 13), function=TEN_MOVED)
    carried("a block of the code between two runs", ["15+8"], (17, 18), function=TEN_MOVED)
    carried("a block of all runs", ["0+30"], (12, 20), function=TEN_MOVED)
    carried("a block of the last of several sources at a place", ["5+4"], (13, 15), function=SHARED)
    carried("a block of the first of several sources at a place", ["0+5"], (12, 13), function=SHARED)
    carried("a block of a source that no byte has", ["[]"], (16, 17), function=SHARED)
    carried("a block up to a source at the end", ["0+6"], (10, 20), function=AT_END)
    carried("a block to behind a source at the end", ["0+8"], (10, 21), function=AT_END)
    carried("a block at the begin of a function without a source", ["0+4"], (10, 11), function=NO_SOURCE)
    carried("a block behind the begin of a function without a source", ["[]"], (11, 20), function=NO_SOURCE)
    carried("a block of two intervals", ["[0-15 15-30]"], (12, 13), (17, 18))
    carried("a block of two intervals that touch", ["[0-15 15-30]"], (12, 17), (17, 20))


def base_cases(made):
    """A root with a list has low_pc 0 in front of it; one without a list has none, and no other entry has."""
    inner = block(LISTED)
    whole = [pairs((5, 6), (10, 11))]
    for version in (4, 5):
        target = {"version": version, **ASKED}
        of_root = root(Entry(0x2E, low(2), for_bytes(11), children=[inner]), attributes=(LISTED,))
        made.carried(f"a root with a list, in version {version} for a debugger", of_root, sections=whole, functions=[SMALL_FUNCTION], code=["[0-15 15-30]", "0+30", "[0-15 15-30]"], target=target)
        of_bounds = root(Entry(0x2E, low(2), for_bytes(11)), attributes=(low(2), for_bytes(11)))
        made.carried(f"a root with bounds, in version {version} for a debugger", of_bounds, functions=[SMALL_FUNCTION], code=["[0-30]", "0+30"], target=target)
        made.carried(f"a root with a begin alone, in version {version} for a debugger", root(subprogram(), attributes=(low(2),)), functions=[SMALL_FUNCTION], code=["0", "0+30"], target=target)


# ---- places


def place_cases(made):
    """Expressions and lists over exact scopes, and where the context is over a function whole."""
    whole = {3: [reg(0, 30, 1)], VMCTX: [reg(0, 30, 2)]}
    inner = lambda *children: within(block(low(5), for_bytes(5), children=children))
    made.carried("a variable over a block, for a debugger", inner(variable("ED 00 03 9F")), labels=[{**whole, 3: [reg(0, 10, 1)]}], places=["[0-10 5c]"], target=ASKED)
    made.carried("a variable over all of a block, for a debugger", inner(variable("ED 00 03 9F")), labels=[whole], places=["5c"], target=ASKED)
    listed = within(Entry(VARIABLE, in_list()))
    made.carried("a list of two intervals, for a debugger", listed, labels=[whole], sections=[loc((5, 10, "ED 00 03 9F"), (10, 11, "31"))], places=["[0-15 5c 15-30 31]"], target=ASKED)
    made.carried("a context over a function, for a debugger", within(), labels=[whole], contexts=["[0-30 5e]"], target=ASKED)


# ---- what goes


def gone_cases(made):
    """Names that lead a debugger to take a wrapper for a pointer: they are read, keep what they name, and go."""
    place = at("10 02", VTABLE_LOCATION)
    holder = Entry(STRUCTURE, to("h", CONTAINING_TYPE), (NAME, STRING, b"h\0"), key="h")
    member = Entry(POINTER_TO_MEMBER, to("h", CONTAINING_TYPE), to("char"), key="m")
    const = Entry(CONST, to("m"), to("h", CONTAINING_TYPE), key="c")
    units = [root(subprogram(to("h"), place, children=[Entry(VARIABLE, to("c"))]), holder, const, member, CHAR)]
    behind = ["1 1f =m 1d>h 49>char", CHAR_LINE]
    stay = ["0 11", "1 2e 49>h 4d[1002]", context(2), "2 34 49>c", "1 13 =h 1d>h 03:h", "1 26 =c 49>m 1d>h", *behind]
    go = ["0 11", "1 2e 49>h", context(2), "2 34 49>c", "1 13 =h 03:h", "1 26 =c 49>m", *behind]
    made.tree("a class with a virtual function, and a pointer to a member", units, [stay])
    made.tree("a class with a virtual function, and a pointer to a member, for a debugger", units, [go], target=ASKED)
    kept = [root(subprogram(to("h", CONTAINING_TYPE)), Entry(STRUCTURE, (NAME, STRING, b"h\0"), key="h"))]
    made.tree("a class that is kept for a name that goes, for a debugger", kept, [["0 11", "1 2e", context(2), "1 13 03:h"]], target=ASKED)


def wrapper_cases(made):
    """Rvalue references are wrapped as references are."""
    rvalue = lambda target, key, **more: Entry(RVALUE_REFERENCE, to(target), key=key, **more)
    itself = [naming("r", rvalue("char", "r"), CHAR)]
    made.tree("an rvalue reference to a character", itself, [lines_of("r", "1 42 =r 49>char", CHAR_LINE)])
    made.tree("an rvalue reference to a character, for a debugger", itself, [lines_of("r", *wrapped(1, "r", "char", "char", kind="Ref"), CHAR_LINE)], target=ASKED)
    inner = [naming("r", rvalue("char", "r", children=[Entry(PARAMETER, to("char"))]), CHAR)]
    lines = lines_of("r", *wrapped(1, "r", "char", "char", ["2 05 49>char"], kind="Ref"), CHAR_LINE)
    made.tree("an rvalue reference with a child, for a debugger", inner, [lines], target=ASKED)
    through = [naming("q", reference("r", "q"), rvalue("char", "r"), CHAR)]
    lines = [*wrapped(1, "q", "??", "r", kind="Ref"), *wrapped(1, "r", "char", "char", kind="Ref"), CHAR_LINE]
    made.tree("a reference to an rvalue reference, for a debugger", through, [lines_of("q", *lines)], target=ASKED)


# ---- twins

TARGETS = [f"{order} endian, addresses of {size} bytes" for size in (4, 8) for order in ("little", "big")]
TWINS = [
    *(front + target for target in TARGETS for front in ("", "two functions, ", "two modules, ", "bounds and lists, ", "expressions and lists, ", "contexts, ")),
    *(front + target for target in TARGETS for front in ("a memory in front of a unit, ", "a frame, ", "a `this`, ", "pointers, ")),
    *(f"a listed function with the {order}est byte first and addresses of {size} bytes" for order in ("low", "high") for size in (4, 8)),
    "three modules of several units",
    "a hundred functions",
    "a root without a line table",
    "blocks in a function in two runs",
    "blocks in a function of which code was moved to the front",
    "a block of an empty interval",
    "a sum of three values, each over a part of the scope",
    "a loop",
    "contexts of two functions",
    "functions that are listed: both of two",
    "a source at each byte, between rows too",
    *(f"pointers of a compiler's module of version {version}, with code {name}" for version in (4, 5) for name in ("in order", "of which a third was moved to the front")),
    "a realistic module",
]
READ_ALIKE = ("wrappers", "tables", "rows")  # readings that are the same for a debugger, where none of the entries is an rvalue reference


def twins(cases, runs):
    """Runs that stand, of which the map asks for it, in both versions of some."""
    for name in TWINS:
        map_text, modules, wanted = runs[name]
        told = json.loads(map_text)
        told["target"]["debugger"] = True
        same = {what: value for what, value in wanted.items() if what in READ_ALIKE}
        cases.carried(f"{name}: for a debugger", json.dumps(told, separators=(",", ":")), *modules, **same)
    told = json.loads(runs["a realistic module"][0])
    told["target"] |= {"debugger": True, "version": 5}
    cases.carried("a realistic module: for a debugger, in version 5", json.dumps(told, separators=(",", ":")), *runs["a realistic module"][1])
