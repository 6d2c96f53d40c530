"""Cases of the version of DWARF that is written: worked outputs of version 5, what is written otherwise in it, and twins of other cases that ask for it."""

import json

from entry_cases import CALL_FILE, DATA1, DECL_FILE, LINES, LISTED, NAME, SEC_OFFSET, STMT_LIST, STRING, pairs, root, subprogram
from listed_trees import context, wanted_tree
from location_cases import MEMORY, OFFSETS, ON_BASE, SHIFT, framed, in_five, listed_variable, loclists, plain, variable
from location_cases import Cases as LocationCases
from make_modules import u32, uleb
from range_cases import SMALL as SMALL_FUNCTION
from range_cases import Cases as RangeCases
from range_cases import block, within
from small_module import FRONT, ONE_FILE, PROGRAM, SMALL, function, line_table, map_of, module
from worked_texts import G_TEXT_5, LIST_TEXT_5, OWN_TEXT_5, PART_TEXT_5

COMP_DIR = 0x1B
FIVE = {"version": 5}


def version_cases(cases, others):
    """`others` are the cases that stand, of which some get a twin."""
    worked_cases(cases)
    same_cases(cases)
    made = RangeCases(cases, module, map_of)
    file_cases(made)
    directory_cases(made)
    list_cases(made, LocationCases(cases, module, map_of))
    twins(cases, {name: run for other in others for name, run in other.runs.items()})
    return cases


def of_path(**target):
    """The map of the small module with a path."""
    return map_of({"path": "/m/g.wasm", "functions": [function()]}, **target)


def worked_cases(cases):
    cases.carried("the small module with a path, in version 5", of_path(version=5), SMALL, text=G_TEXT_5)
    cases.carried("no sections of DWARF, in version 5", map_of([function()], **FIVE), FRONT, front=OWN_TEXT_5)


def same_cases(cases):
    """Version 4, asked for, is what stands where nothing is asked for."""
    for name, text, *modules in [
        ("the small module with a path", of_path, SMALL),
        ("two modules", lambda **target: map_of([function()], [function(symbol=1)], **target), SMALL, SMALL),
    ]:
        cases.carried(f"{name}, where no version is asked for", text(), *modules)
        _, _, printed = cases.outputs[-1]
        cases.carried(f"{name}, where version 4 is asked for", text(version=4), *modules, text=printed)


# ---- numbers of files


def file_cases(made):
    """Number 0 names no file up to version 4, and file 1 in version 5: an attribute that names none stays in an output of version 4 alone. An input of
    version 5 counts from 0, and both outputs from 1."""
    new_table = (".debug_line", line_table(PROGRAM, 5, bytes.fromhex("010108 01 2F7700 020108020B 02 612E6300 00 622E6300 00")))
    for name in (DECL_FILE, CALL_FILE):
        for number in (0, 1):
            attribute = (name, DATA1, bytes([number]))
            for version, wanted in ((4, f" {name:02x}:{number}"), (5, f" {name:02x}:1" if number else "")):
                tree_of(made, f"file {number} under {name:#x} of version 4, in version {version}", version, attribute, wanted)
        for number, wanted in ((0, f" {name:02x}:1"), (1, f" {name:02x}:2"), (2, "")):
            for version in (4, 5):
                attribute = (name, DATA1, bytes([number]))
                tree_of(made, f"file {number} of two under {name:#x} of version 5, in version {version}", version, attribute, wanted, 5, [new_table])
    for version, wanted in ((4, " 3a:0"), (5, "")):
        attribute = (DECL_FILE, DATA1, b"\0")
        tree_of(made, f"file 0 without a line table, in version {version}", version, attribute, wanted, attributes=())


def tree_of(made, name, version, attribute, wanted, of=4, sections=(), attributes=(LINES,)):
    """A subprogram with an attribute, of a unit of a version: what becomes of it in an output of a version."""
    units = [(root(subprogram(attribute), attributes=attributes), of, 4)]
    file, told = made.made(units, sections, [SMALL_FUNCTION])
    made.cases.carried(name, made.map_of(told, version=version), file, tree=wanted_tree([None, ["0 11", "1 2e" + wanted, context(2)]]))


# ---- names in line tables

# Those of the table of the last unit, which stand behind all others; and that table.
LAST_NAMES = ["/<wasm-module>", "<gen-0>.wasm"]
LAST_TABLE = (["/<wasm-module>"], [(0, "<gen-0>.wasm")] * 2)


def text(name, value):
    return (name, STRING, value.encode() + b"\0")


def names(directories=(), files=(("a.c", 0),)):
    """The names of a line table up to version 4."""
    found = b"".join(name.encode() + b"\0" for name in directories) + b"\0"
    return found + b"".join(name.encode() + b"\0" + uleb(directory) + b"\0\0" for name, directory in files) + b"\0"


def directory_cases(made):
    """Directory 0 is the compilation directory that the root names, and file 0 is file 1 once more. Each name stands once in `.debug_line_str`."""

    def carried(name, own, tables, wanted, line_names, version=4):
        lines, units = b"", []
        for attributes, table in zip(own, tables):
            units.append((root(subprogram(), attributes=(*attributes, (STMT_LIST, SEC_OFFSET, u32(len(lines))))), version, 4))
            lines += table
        file, told = made.made(units, [(".debug_line", lines)], [SMALL_FUNCTION])
        made.cases.carried(name, made.map_of(told, **FIVE), file, tables=[*wanted, LAST_TABLE], paths=[*line_names, *LAST_NAMES])

    w = text(COMP_DIR, "/w")
    two = line_table(names=names(["d"], [("a.c", 0), ("b.c", 1)]))
    of_two = lambda own: ([own, "d"], [(0, "a.c"), (0, "a.c"), (1, "b.c")])
    carried("a compilation directory, a directory and two files", [[w]], [two], [of_two("/w")], ["/w", "d", "a.c", "b.c"])
    carried("no compilation directory", [[]], [two], [of_two("")], ["", "d", "a.c", "b.c"])
    carried("a compilation directory behind the name", [[text(NAME, "a.c"), w]], [two], [of_two("/w")], ["/w", "d", "a.c", "b.c"])
    carried("a compilation directory that is empty", [[text(COMP_DIR, "")]], [two], [of_two("")], ["", "d", "a.c", "b.c"])
    carried("a compilation directory that is a number", [[(COMP_DIR, DATA1, b"\7")]], [two], [of_two("")], ["", "d", "a.c", "b.c"])
    carried("two compilation directories", [[w, text(COMP_DIR, "/v")]], [two], [of_two("/v")], ["/v", "d", "a.c", "b.c"])
    empty = line_table(b"", names=names(files=()))
    carried("a table without files", [[w]], [empty], [(["/w"], [])], ["/w"])
    one_name = line_table(names=names(["n", "n"], [("n", 0), ("n", 2)]))
    carried("one name for all", [[text(COMP_DIR, "n")]], [one_name], [(["n"] * 3, [(0, "n"), (0, "n"), (2, "n")])], ["n"])
    many = [(f"{i}.c", 0) for i in range(127)]
    wanted = ["/w"], [(0, "0.c"), *((0, name) for name, _ in many)]
    carried("files whose count takes two bytes", [[w]], [line_table(names=names(files=many))], [wanted], ["/w", *(name for name, _ in many)])
    units = [[w], [text(COMP_DIR, "d")]]
    tables = [of_two("/w"), (["d"], [(0, "a.c"), (0, "a.c")])]
    carried("two units with names of one another", units, [two, line_table(names=ONE_FILE)], tables, ["/w", "d", "a.c", "b.c"])
    new = line_table(PROGRAM, 5, bytes.fromhex("010108 02 2F7600 6400 020108020B 02 612E6300 00 622E6300 01"), (4, 0))
    carried("an input of version 5 with another directory 0", [[w]], [new], [of_two("/w")], ["/w", "d", "a.c", "b.c"], 5)


# ---- lists


def list_cases(ranges, places):
    """An entry of a list is a start and a length, and an expression in it may have any length."""
    two = [pairs((5, 6), (10, 11))]
    ranges.carried("a block of two intervals, in version 5", within(block(LISTED)), sections=two, code=["0+30", "[5-15 15-30]"], front=LIST_TEXT_5, target=FIVE)
    on_base, lies = framed(variable("91 12")), ["9c", f"[0-20 {ON_BASE}{MEMORY}]"]
    places.carried("a variable over part of its scope, in version 5", on_base, places=lies, front=PART_TEXT_5, target=FIVE)
    of_list = "ED 00 03" + "26" * 8190 + "96" * 13 + "9F"
    longer = ["[0-20 7c00" + (SHIFT + "26") * 8190 + "96" * 13 + "9f]"]
    places.carried("an expression of a list of 65,536 bytes, in version 5", plain(of_list), places=longer, target=FIVE)
    alone = loclists((OFFSETS + b"\x05\x06", "26" * 8192))
    name = "an expression of a list of 65,536 bytes that needs no value, in version 5"
    places.carried(name, in_five(listed_variable()), sections=[alone], places=["[5-15 " + (SHIFT + "26") * 8192 + "]"], target=FIVE)


# ---- twins

TARGETS = [f"{order} endian, addresses of {size} bytes" for size in (4, 8) for order in ("little", "big")]
VERSIONS = [f"a unit of version {version}, addresses of {size} bytes, a line table of version {table}" for version in (4, 5) for size in (4, 8) for table in (4, 5)]
TWINS = [
    *VERSIONS,
    *(front + target for target in TARGETS for front in ("", "two functions, ", "two modules, ", "bounds and lists, ", "expressions and lists, ", "contexts, ")),
    *(front + target for target in TARGETS for front in ("a memory in front of a unit, ", "a frame, ", "a `this`, ")),
    *(f"a listed function with the {order}est byte first and addresses of {size} bytes" for order in ("low", "high") for size in (4, 8)),
    "three modules of several units",
    "a hundred functions",
    "two units of one line table",
    "a root without a line table",
    "a line table by data4 in version 4 is a constant",
    "blocks in a function in two runs",
    "blocks in a function of which code was moved to the front",
    "a block of an empty interval",
    "a sum of three values, each over a part of the scope",
    "a variable on a frame base that is in a register over all of its scope",
    "a loop",
    "the context nowhere, by an empty list",
    "contexts of two functions",
    "a frame of the small module",
    "two units that name one another",
    "a reference of the section within its unit",
    "a pointer to itself, of which the whole text is known",
    "pointers of two units to one another",
    "functions that are listed: both of two",
    "a source at each byte, between rows too",
    "negative lines and wide steps",
    "flags, column, instruction set and discriminator",
    "opcodes: set_file",
    "opcodes: define_file",
    "version 5: files count from 1 in the output",
    "version 5: fields of each kind",
    "version 5: no directory",
    "a realistic module",
]
SPELLED = ("text", "front")  # readings of what the version changes; the others are of what is said


def twins(cases, runs):
    """Runs that stand, of which the map asks for version 5. What is read of their outputs is the same."""
    for name in TWINS:
        map_text, modules, wanted = runs[name]
        told = json.loads(map_text)
        told["target"]["version"] = 5
        same = {what: value for what, value in wanted.items() if what not in SPELLED}
        cases.carried(f"{name}: in version 5", json.dumps(told, separators=(",", ":")), *modules, **same)
