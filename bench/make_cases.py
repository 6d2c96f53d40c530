#!/usr/bin/env python3
"""Makes the files of crates/dwc_cases: the cases in data/, and in stdout what they must print.

    make_cases.py [--check]

What a run prints is worked out by plain_run.py, which has nothing of the program; where a status other than 0 is wanted, it and
the line stand here by hand, and so do the printed texts of worked examples, and of many outputs the rows, the places or the entries.
With --check nothing is written, but llvm-dwarfdump, readelf and eu-readelf are asked what they read in the outputs.
"""

import json
import os
import sys

import check_cases
import context_cases
import debugger_cases
import entry_cases
import frame_cases
import hostile_cases
import last_unit_cases
import listed_trees
import location_cases
import location_refusals
import object_pointer_cases
import own_unit_cases
import plain_run
import range_cases
import realistic_cases
import type_name_cases
import version_cases
import wrapper_cases
import wrapper_refusals
from form_cases import FORMS, REFUSED_FORMS
from make_modules import custom, functions_module, map_of as map_of_modules, sleb, u32, uleb
from small_module import ABBREVIATIONS, ENTRIES, FRONT, MAP, ONE_FILE, PREAMBLE, PROGRAM, ROOT, SMALL, SOURCES, function, line_table, map_of, module, sized, unit
from worked_texts import BIG_TEXT, FOUR_TEXT, OWN_TEXT, OWN_TEXT_5, SMALL_TEXT, TWO_TEXT

BENCH = os.path.dirname(__file__)
CRATE = os.path.join(BENCH, "..", "crates", "dwc_cases")

# ---- files of cases

READINGS = {"text": str, "front": check_cases.front_of, "rows": check_cases.rows_of, "code": check_cases.code_of, "places": check_cases.places_of}
READINGS |= {"contexts": check_cases.contexts_of, "frames": check_cases.frames_of, "texts": check_cases.texts_of, "tree": listed_trees.tree_of, "wrappers": listed_trees.wrappers_of}
READINGS |= {"last": listed_trees.last_of, "lines": check_cases.last_lines, "tables": check_cases.tables_of, "paths": check_cases.paths_of}


class Cases:
    """A file of cases, and what they must print."""

    def __init__(self, name):
        self.name, self.lines, self.wanted, self.outputs, self.runs = name, [], [], [], {}

    def add(self, kind, name, parts, wanted):
        self.lines += [f"{kind} {name}", *parts]
        self.wanted.append(f"case {name}\n{wanted}\n")

    def files(self, files):
        for path, contents in files:
            yield f"text {path} {contents}" if isinstance(contents, str) else f"hex {path} {contents.hex()}"

    def refused(self, name, status, line, words, files):
        """A run that must end with a status and a line."""
        self.add("run", name, [*(f"word {word}" for word in words), *self.files(files)], f"status {status}\ndwarfcarry: {line}\n")

    def carried(self, name, map_text, *modules, **wanted):
        """A run that must end well. What it prints, or what one of the readings reads of this, may be given by hand."""
        printed = plain_run.printed_text(map_text.encode(), list(modules))
        for check in (plain_run.check_bytes, plain_run.check_listed, plain_run.check_scopes, plain_run.check_locations):
            check(map_text.encode(), list(modules))
        for what, value in wanted.items():
            read = READINGS[what](printed) if value is not None else None
            if read is not None and value != read and not check_cases.is_front(what, value, read):
                sys.exit(f"{name}: {read}")
        paths = [f"{i}.wasm" for i in range(len(modules))]
        files = [("map.json", map_text), *zip(paths, modules)]
        parts = [f"word {word}" for word in ["map.json", *paths]]
        self.add("run", name, [*parts, *self.files(files)], f"status 0\n{printed}")
        self.outputs.append((name, map_text, printed))
        self.runs[name] = (map_text, modules, wanted)

    def refused_module(self, name, status, line, *modules, map_text=MAP):
        paths = [f"{i}.wasm" for i in range(len(modules))]
        self.refused(name, status, line, ["map.json", *paths], [("map.json", map_text), *zip(paths, modules)])


def changed(data, place, by):
    return data[:place] + by + data[place + len(by) :]


# ---- words, files and maps


def words_cases():
    cases = Cases("words.txt")
    usage = "usage: dwarfcarry [--package P] [--text] MAP MODULE... | --generate N"
    wrong = [[], ["m"], ["", "w"], ["m", ""], ["m", "w", ""], ["-m", "w"], ["m", "-"], ["m", "w", "-x", "y"]]
    wrong += [["--generate", "0"], ["--text", "m", "w"], ["--package", "p", "m", "w"]]
    for words in wrong:
        cases.refused(f"words {words}", 2, usage, words, [])
    for words in (["m", "w"], ["w", "m", "x"], ["m", "m", "m", "m"], ["m-", "./-w"]):
        cases.refused(f"no files {words}", 3, f"read fault {words[0]}", words, [])
    files = [("g.json", MAP), ("g.wasm", FRONT), ("cut.wasm", FRONT[:9]), ("old.wasm", changed(FRONT, 4, b"\x0D"))]
    small = [("g.json", MAP), ("g.wasm", FRONT)]
    cases.refused("no map", 3, "read fault g.txt", ["g.txt", "g.wasm"], small)
    cases.refused("the second module is missing", 3, "read fault x", ["g.json", "g.wasm", "x", "y"], small)
    for paths, status, line in [
        (["g.wasm", "cut.wasm"], 5, "Malformed 9"),
        (["cut.wasm", "old.wasm"], 5, "Malformed 9"),
        (["g.wasm", "old.wasm"], 5, "Malformed 0"),
        (["g.json"], 5, "Malformed 0"),
        (["g.wasm", "g.wasm"], 6, "malformed map"),
    ]:
        cases.refused(f"files {paths}", status, line, ["g.json", *paths], files)
    cases.refused("a module as the map", 6, "malformed map", ["g.wasm", "g.wasm"], small)
    module_files(cases)
    return cases


# What stands behind the magic number and the version, and the place of the first field that breaks the grammar.
BROKEN_FILES = [
    ("no size of a section", "01", 9),
    ("a section past the file", "01 02 00", 9),
    ("a section of 2^32 bytes", "01 8080808010", 9),
    ("a name past its section", "00 01 05", 10),
    ("a name that is no text", "00 02 01 FF", 10),
    ("a function too few", "03 02 02 00", 12),
    ("a function too many", "03 03 01 00 07", 12),
    ("an import of no kind", "02 07 01 0161 0162 05 07", 15),
    ("a table of no type", "02 09 01 0161 0162 01 6E 00 00", 16),
    ("limits with no such flag", "02 08 01 0161 0162 02 08 00", 16),
    ("a byte behind the imports", "02 02 00 00", 11),
]

# Six imports of each kind, two of them of functions.
IMPORTS = bytes.fromhex(
    "02 32 06 0161 0162 00 07  0161 0162 01 70 01 02 03  0161 0162 02 00 02  0161 0162 03 7F 00  0161 0162 04 00 05"
    "0161 07 6C6F6E67657221 00 8001"
)


def module_files(cases):
    """What stands around the sections of DWARF, and where it is broken."""
    for name, behind, place in BROKEN_FILES:
        cases.refused_module(f"a file with {name}", 5, f"Malformed {place}", PREAMBLE + bytes.fromhex(behind))
    cases.refused_module("a file of another version", 5, "Malformed 0", b"\0asm\x02\0\0\0")
    cases.refused_module("a file that ends in its version", 5, "Malformed 0", PREAMBLE[:5])
    rest = SMALL[len(FRONT) :]
    cases.carried("the later of two sections", MAP, FRONT + custom(".debug_line", b"") + rest, front=SMALL_TEXT)
    imports, moved = FRONT[:14] + IMPORTS + FRONT[14:], len(IMPORTS)
    entries = [[native, source and source + moved] for native, source in SOURCES]
    text = map_of([function(start=22 + moved, end=33 + moved, entries=entries)])
    cases.carried("imports before the functions", text, imports + rest, front=SMALL_TEXT)
    compressed = FRONT + custom(".zdebug_a", b"") + custom(".zdebug_b", b"") + rest
    cases.refused_module("two compressed sections", 11, f"Unsupported Compressed {len(FRONT)}", compressed)


# Pieces of the small map that are left out or changed, so that it has no value.
NO_VALUE = [
    ('"target":{"arch":"x86_64"},', ""),
    ('"arch":"x86_64"', ""),
    ('"names":["set_mem","resolve_mem"],', ""),
    (',"resolve_mem"', ""),
    ('"modules"', '"others"'),
    ('"functions"', '"others"'),
    ('"symbol":0,', ""),
    ('"start":22,', ""),
    ('"end":33,', ""),
    ('"body_len":30,', ""),
    ('"map"', '"others"'),
    ("[5,25]", "[5]"),
    ("}]}]}", "}]}]"),
    ('{"arch":"x86_64"}', '"x86_64"'),
    ('"x86_64"', '"X86_64"'),
    ('"x86_64"', "null"),
    ('"x86_64"', '"x86_64","big_endian":null'),
    ('"x86_64"', '"x86_64","big_endian":0'),
    *(('"x86_64"', f'"x86_64","debugger":{value}') for value in ("null", "0", "1", '"true"', "[true]", "{}")),
    ('"x86_64"', '"x86_64","debugger":true,"debugger":null'),
    ('"x86_64"', '"x86_64","pointer_bytes":null'),
    ('"x86_64"', '"x86_64","pointer_bytes":"8"'),
    ('"set_mem"', "null"),
    ('"set_mem"', '"set\\u0000mem"'),
    ('"set_mem"', '"a","b"'),
    ('[{"functions"', '[null,{"functions"'),
    ('"symbol":0', '"symbol":"0"'),
    ('"symbol":0', '"symbol":true'),
    ('"start":22', '"start":[22]'),
    ('"end":33', '"end":{}'),
    ('30,"map"', '30,"body_offset":null,"map"'),
    ('"body_len":30', '"body_len":null'),
    ('"map":[', '"map":null,"_":['),
    ("[5,25]", "null"),
    ("[5,25]", "[null,25]"),
    ("[5,25]", "[5,25,0]"),
    ("[5,25]", '{"5":25}'),
    ('"x86_64"', '"x86_64","pointer_bytes":5'),
    ('"x86_64"', '"x86_64","pointer_bytes":8.0'),
    ('"symbol":0', '"symbol":4294967296'),
    ('"symbol":0', '"symbol":-1'),
    ('"symbol":0', '"symbol":-0'),
    ('"symbol":0', '"symbol":1.0'),
    ('"symbol":0', '"symbol":0,"symbol":-1'),
    ('"start":22', '"start":4294967295'),
    ('"end":33', '"end":4294967295'),
    ('30,"map"', '30,"body_offset":4294967296,"map"'),
    ('"body_len":30', '"body_len":18446744073709551616'),
    ("[5,25]", "[4294967296,25]"),
    ("[5,25]", "[5,4294967295]"),
    *(('"x86_64"', f'"x86_64","version":{version}') for version in ("3", "null", '"5"', "6", "4.0", "5.0", "0", "-5", "true", "[5]", "4294967300")),
    ('"x86_64"', '"x86_64","version":5,"version":3'),
]

# Pieces with which it still has one; without sections of DWARF a run then prints the module's own unit, unless something is refused.
ALLOWED = [
    ('"x86_64"', '"x86_64","pointer_bytes":4', FOUR_TEXT),
    ('"x86_64"', '"x86_64","pointer_bytes":8', OWN_TEXT),
    ('"x86_64"', '"pulley","big_endian":true', BIG_TEXT),
    ('"symbol":0', '"symbol":4294967295', OWN_TEXT),
    ('"symbol":0', '"symbol":null', OWN_TEXT),
    ('"symbol":0', '"symbol":-1,"symbol":0', OWN_TEXT),
    ('"start":22', '"start":4294967294', "BadAddressMap 0 0 Reversed"),
    ('"start":22', '"start":null', "BadAddressMap 0 0 NoStart"),
    ('"end":33', '"end":null', "BadAddressMap 0 0 NoStart"),
    ('30,"map"', '30,"body_offset":4294967295,"map"', "BadAddressMap 0 0 BodyOffset"),
    ('"body_len":30', '"body_len":4294967295', "TooLarge Addend"),
    ("[5,25]", "[4294967295,4294967294]", "BadAddressMap 0 0 CodePastBody"),
    ("[[5,25],[8,null],[15,30],[23,null]]", "[]", OWN_TEXT),
    ('"target"', '"unknown":[1.5,{"a":null}],"target"', OWN_TEXT),
    ('"x86_64"', '"x86_64","debugger":false', OWN_TEXT),
    ('"x86_64"', '"x86_64","debugger":1,"debugger":false', OWN_TEXT),
    ('"target"', '"debugger":true,"target"', OWN_TEXT),
    ('"x86_64"', '"x86_64","version":4', OWN_TEXT),
    ('"x86_64"', '"x86_64","version":5', OWN_TEXT_5),
    ('"x86_64"', '"x86_64","version":3,"version":5', OWN_TEXT_5),
    ('"target"', '"version":5,"target"', OWN_TEXT),
]


def map_cases():
    cases = Cases("maps.txt")
    for number, (old, new) in enumerate(NO_VALUE):
        assert MAP.count(old) == 1, old
        cases.refused_module(f"map {number} without a value", 6, "malformed map", FRONT, map_text=MAP.replace(old, new))
    for number, text in enumerate(["", "{", "[]", "null", "{}", '{"target":"\\ud800"}']):
        cases.refused_module(f"text {number} that is no map", 6, "malformed map", FRONT, map_text=text)
    words, files = ["m", "w"], [("m", b'{"target":"\xff"}'), ("w", FRONT)]
    cases.refused("bytes that are no text", 6, "malformed map", words, files)
    no_function = PREAMBLE
    two_functions = PREAMBLE + bytes.fromhex("010401600000 0303020000 0A07 02 02000B 02000B")
    for name, modules in [
        ("a module without functions", [no_function]),
        ("a module of two functions", [two_functions]),
        ("two modules", [FRONT, FRONT]),
    ]:
        cases.refused_module(f"a map of one function, {name}", 6, "malformed map", *modules)
    two = map_of([function()], [function(symbol=1)])
    for count in (1, 3):
        cases.refused_module(f"a map of two modules, {count} modules", 6, "malformed map", *[FRONT] * count, map_text=two)
    cases.refused_module("a map that lacks a function", 6, "malformed map", FRONT, FRONT, map_text=map_of([function()], []))
    for number, (old, new, wanted) in enumerate(ALLOWED):
        text = MAP.replace(old, new)
        assert text != MAP
        if wanted.startswith("section"):
            cases.carried(f"map {number} with a value", text, FRONT, front=wanted)
        else:
            status = 20 if wanted == "TooLarge Addend" else 13
            cases.refused_module(f"map {number} with a value", status, wanted, FRONT, map_text=text)
    bad_maps(cases)
    return cases


def bad_maps(cases):
    """Each rule of address maps, and the first of several that break one."""
    for name, bad, fault in [
        ("code falls", function(entries=[[8, 25], [5, 26]]), "CodeFalls"),
        ("code past the body", function(entries=[[31, 25]]), "CodePastBody"),
        ("a source before the function", function(entries=[[5, 21]]), "SourceOutside"),
        ("a source behind the function", function(entries=[[5, 34]]), "SourceOutside"),
        ("the function before the code", function(start=19), "BeforeCodeSection"),
        ("the end before the start", function(start=30, end=29), "Reversed"),
    ]:
        cases.refused_module(f"bad map: {name}", 13, f"BadAddressMap 0 0 {fault}", SMALL, map_text=map_of([bad]))
    cases.carried("code and source at their ends", map_of([function(entries=[[30, 33]])]), SMALL)
    good, falls = function(), function(symbol=1, entries=[[8, 25], [5, 26]])
    two = map_of([good], [falls])
    cases.refused_module("bad map of the second module", 13, "BadAddressMap 1 0 CodeFalls", SMALL, SMALL, map_text=two)
    shared = map_of([function(symbol=7)], [function(symbol=7)])
    cases.refused_module("one symbol in two modules", 21, "SharedSymbol 0 1", SMALL, SMALL, map_text=shared)
    cases.refused_module("a second module that is cut", 5, "Malformed 9", SMALL, SMALL[:9], map_text=shared)


# ---- units


def unit_run_cases():
    cases = Cases("units.txt")
    cases.carried("the small module", MAP, SMALL, front=SMALL_TEXT, rows=[[(0, 2), (15, 3)]])
    cases.carried("no sections of DWARF", MAP, FRONT, front=OWN_TEXT)
    cases.carried("two modules", map_of([function()], [function(symbol=1)]), SMALL, SMALL, front=TWO_TEXT)
    for place, by, status, line in [
        (0, "FFFFFFFF", 11, "Unsupported Format64 0"),
        (0, "17", 10, "Read UnitHeader .debug_info 0"),
        (4, "06", 11, "Unsupported Version 0"),
        (4, "05", 10, "Read UnitHeader .debug_info 0"),
        (6, "20", 10, "Read Abbreviation .debug_abbrev 32"),
        (10, "02", 11, "Unsupported AddressSize 0"),
        (11, "05", 10, "Read Entry .debug_info 11"),
        (16, "03", 10, "Read Entry .debug_info 16"),
        (12, "60", 10, "Read LineTable .debug_line 96"),
    ]:
        changed_unit = changed(unit(), place, bytes.fromhex(by))
        cases.refused_module(f"the unit with {by} at {place}", status, line, module(info=changed_unit))
    cases.refused_module("a table that is cut", 10, "Read Abbreviation .debug_abbrev 0", module(abbreviations=ABBREVIATIONS[:5]))
    compressed = SMALL + custom(".zdebug_str", b"")
    cases.refused_module("a compressed section", 11, f"Unsupported Compressed {len(SMALL)}", compressed)
    for kind in (2, 6):
        cases.refused_module(f"a type unit of type {kind}", 11, "Unsupported TypeUnit 0", module(info=unit(version=5, kind=kind)))
    for name, info in [
        ("a length that is none", bytes.fromhex("F0FFFFFF04000000000004")),
        ("a unit past its section", bytes.fromhex("0800000004000000000004")),
        ("a unit too short for its fields", bytes.fromhex("0600000004000000000004")),
    ]:
        cases.refused_module(name, 10, "Read UnitHeader .debug_info 0", module(info=info))
    second_cut = unit() + bytes.fromhex("0800000005000104000000")
    cases.refused_module("a second unit that is cut", 10, "Read UnitHeader .debug_info 26", module(info=second_cut))
    many, functions = functions_module(100)
    cases.carried("a hundred functions", json.dumps(map_of_modules([functions])), many)
    versions(cases)
    shapes(cases)
    targets(cases)
    return cases


def entries(size, begin=2):
    return bytes.fromhex("01 00000000 02") + begin.to_bytes(size, "little") + bytes.fromhex("0B000000 00")


def program(size, begin=2):
    return bytes([0, size + 1, 2]) + begin.to_bytes(size, "little") + PROGRAM[7:]


NAMES_5 = bytes.fromhex("010108 01 2F6300 010108 02 612E6300 622E6300")


def versions(cases):
    """Each version of units with each of line tables, and both sizes of addresses."""
    for version in (2, 3, 4, 5):
        for size in (4, 8):
            for table in (2, 3, 4, 5):
                names = NAMES_5 if table == 5 else ONE_FILE
                line = line_table(program(size), table, names, (size, 0))
                info = unit(entries(size), version, size)
                lines = [[(0, 2), (15, 3)]]
                name = f"a unit of version {version}, addresses of {size} bytes, a line table of version {table}"
                cases.carried(name, MAP, module(info=info, line=line), rows=lines)
    data4 = ABBREVIATIONS.replace(b"\x10\x17", b"\x10\x06")
    for version in (2, 3):
        cases.carried(f"a line table by data4 in version {version}", MAP, module(data4, unit(version=version)))
    cases.carried("a line table by data4 in version 4 is a constant", MAP, module(data4), rows=[])
    skeleton = sized(bytes.fromhex("0500 04 04 00000000 0100000000000000") + ENTRIES)
    cases.carried("a skeleton unit", MAP, module(info=skeleton))
    cases.carried("a partial unit", MAP, module(info=unit(version=5, kind=3)))


def shapes(cases):
    """Roots and subprograms of other shapes, several units, and entries that are not kept."""
    bare = ABBREVIATIONS.replace(b"\x10\x17", b"")
    bare_entries = bytes.fromhex("01 02 02000000 0B000000 00")
    cases.carried("a root without a line table", MAP, module(bare, unit(bare_entries)))
    partial = changed(ABBREVIATIONS, 1, b"\x3C")
    cases.carried("a root that is no compile unit", MAP, module(partial), front=OWN_TEXT)
    for begin, name in [(0, "0"), (0xFFFFFFFF, "FFFFFFFF"), (1, "1")]:
        cases.carried(f"a subprogram at {name}", MAP, module(info=unit(entries(4, begin))), front=OWN_TEXT)
    cases.carried("a function without a symbol", map_of([function(symbol=None)]), SMALL, front=OWN_TEXT)
    cases.carried("a unit of nothing but its root", MAP, module(info=unit(bytes.fromhex("01 00000000 00"))), front=OWN_TEXT)
    three = unit() + unit(entries(4, 0)) + unit(version=3)
    cases.carried("three units, the second dropped", MAP, module(info=three))
    cases.carried("two units of one line table", MAP, module(info=unit() + unit()))
    later = module(ABBREVIATIONS * 2, unit(table=17))
    cases.carried("a later abbreviation table", MAP, later)
    two = bytes.fromhex("01 00000000 02 02000000 0B000000 02 05000000 01000000 00")
    cases.carried("two subprograms in one function", MAP, module(info=unit(two)))
    named = ROOT + bytes.fromhex("02 2E 00 0308 1101 1206 0000 00")
    cases.carried("a name that no entry has", MAP, module(named, unit(bytes.fromhex("01 00000000 00"))), front=OWN_TEXT)
    leaf = changed(ABBREVIATIONS, 2, b"\0")
    cases.carried("a root without children", MAP, module(leaf), front=OWN_TEXT)
    twice = module(info=unit(bytes.fromhex("01 00000000 01 00000000 00")))
    cases.carried("a compile unit below the root", MAP, twice, front=OWN_TEXT)


BODY = bytes.fromhex("00 010101010101010101 0B")
TWO_FRONT = PREAMBLE + bytes.fromhex("010401600000 0303020000 0A19 02") + (b"\x0B" + BODY) * 2


def targets(cases):
    """Targets of both byte orders and both sizes of addresses; the input stays as it is."""
    code = len(TWO_FRONT) - 25
    first = function(start=code + 2, end=code + 13, entries=[[5, code + 5], [15, code + 10]])
    second = function(9, code + 14, code + 25, 200, [[0, code + 14], [130, code + 22]])
    info = unit(bytes.fromhex("01 00000000 02 02000000 0B000000 02 0E000000 0B000000 00"))
    two = module(info=info, line=line_table(PROGRAM + program(4, 14)), front=TWO_FRONT)
    for big in (False, True):
        for size in (4, 8):
            name = f"{'big' if big else 'little'} endian, addresses of {size} bytes"
            told = {"arch": "s390x" if big else "riscv64", "pointer_bytes": size, "big_endian": big}
            cases.carried(name, map_of([function()], **told), SMALL, rows=[[(0, 2), (15, 3)]])
            rows_of_two = [[(0, 2), (15, 3)], [(0, 1), (130, 3)]]
            cases.carried(f"two functions, {name}", map_of([first, second], **told), two, rows=rows_of_two)
            modules = map_of([function()], [function(symbol=1)], **told)
            cases.carried(f"two modules, {name}", modules, SMALL, module(info=unit(version=5)))


def entry_run_cases():
    cases = Cases("entries.txt")
    entry_cases.entry_cases(cases, module, lambda **target: map_of([function()], **target))
    return cases


# ---- line tables


def set_address(address):
    return bytes([0, 5, 2]) + u32(address)


END = bytes([0, 1, 1])


def line_cases():
    cases = Cases("lines.txt")

    def carried(name, program_bytes, wanted, map_text=MAP, **table):
        cases.carried(name, map_text, module(line=line_table(program_bytes, **table)), rows=wanted)

    carried("a source below the start is passed over", set_address(6) + bytes.fromhex("0308 01 0207") + END, [[(0, 9)]])
    last = set_address(2) + bytes.fromhex("01 0203 0301 01 0303 01 0205 037E 01 0203") + END
    carried("of several rows at one offset the last", last, [[(0, 5), (15, 3)]])
    dropped = b"".join(set_address(a) + bytes.fromhex("01 020B") + END for a in (0, 0xFFFFFFFF))
    carried("unlinked starts alone give no image", dropped, [])
    one = set_address(0) + bytes.fromhex("0304 01 020B") + END + set_address(2) + bytes.fromhex("01 020B") + END
    carried("an unlinked start beside a linked one", one, [[(0, 1)]])
    pieces = set_address(2) + b"\x01" + set_address(7) + bytes.fromhex("0303 01 0206") + END
    carried("two addresses set in one sequence", pieces, [[(0, 1)], [(0, 4)]])
    carried("no recorded source at or behind the start", set_address(12) + bytes.fromhex("01 0201") + END, [])
    moved = map_of([function(entries=[[5, 30], [8, 25], [15, 28]])])
    carried("code that was moved", PROGRAM, [[(0, 3), (8, 2)]], map_text=moved)
    each = b"".join(set_address(a) + b"\x03" + sleb(l) + b"\x01" for a, l in ((2, 0), (5, 1), (10, 1))) + b"\x02\x03" + END
    carried("an address set before every row", each, [[(0, 1)], [(0, 2)], [(0, 3)]])
    carried("an end that is left out", PROGRAM[:-3], [])
    carried("an empty program", b"", [])
    carried("rows before any address", b"\x01\x02\x05" + END + PROGRAM, [[(0, 2), (15, 3)]])
    carried("a sequence without rows", set_address(2) + END + PROGRAM, [[(0, 2), (15, 3)]])
    flags = set_address(2) + bytes.fromhex("07 0A 0B 06 0587 01 0C05 0002 0409 01 0203 0301 06 01 0208") + END
    carried("flags, column, instruction set and discriminator", flags, None)
    sources = [[k, 22 + k] for k in range(12)]
    dense = map_of([function(entries=sources)])
    carried("a source at each byte, between rows too", PROGRAM, [[(0, 1), (3, 2), (8, 3)]], map_text=dense)
    wide = set_address(2) + bytes.fromhex("03AC02 01 0203 03B87E 01 0205 03C600 01 0203") + END
    carried("negative lines and wide steps", wide, [[(0, 101), (15, 171)]])
    opcodes(cases)
    refused_tables(cases)
    tables_of_5(cases)
    return cases


# Minimum length 2, base -3, range 12, opcode base 14 whose last opcode has two operands; a directory `d`, and the files `a.c` and
# `b.c`, the second in `d`.
RICH = bytes.fromhex("02 01 01 FD 0C 0E 000101010100000001000001 02")
RICH_NAMES = bytes.fromhex("6400 00 612E6300000000 622E6300010000 00")


def rich(program_bytes):
    return line_table(program_bytes, parameters=RICH, names=RICH_NAMES)


OPCODES = {
    "nothing": "",
    "a special opcode": "37",
    "advance_pc": "02 01",
    "advance_line": "03 09",
    "advance_line back": "03 09 03 7E",
    "set_file": "04 02",
    "set_column": "05 8101",
    "negate_stmt": "06",
    "set_basic_block": "07",
    "const_add_pc": "08",
    "fixed_advance_pc": "09 0300",
    "set_prologue_end": "0A",
    "set_epilogue_begin": "0B",
    "set_isa": "0C 05",
    "an unknown standard opcode": "0D 8101 03",
    "an unknown extended opcode": "00 03 80 05 09",
    "a longer set_address": "00 07 02 02000000 0105",
    "define_file": "00 06 03 6300 01 00 00 04 03",
    "set_discriminator": "00 02 04 09",
    "what a row clears": "07 0A 0B 00 02 04 09 01",
}


def opcodes(cases):
    for name, code in OPCODES.items():
        full = map_of([function(entries=[[k, 22 + k] for k in range(12)])])
        program_bytes = set_address(2) + bytes.fromhex(code) + b"\x01" + END
        cases.carried(f"opcodes: {name}", full, module(line=rich(program_bytes)))


REFUSED_PROGRAMS = {
    "a line below 0": ("03 7E 01", 10),
    "a line above 32 bits": ("03 FFFFFFFF0F 01", 10),
    "an offset above 32 bits": ("02 8080808010 01", 10),
    "an extended opcode past the end": ("00 09 02", 10),
    "an extended opcode of no length": ("00 00", 10),
    "an address that is cut": ("00 02 02 00", 10),
    "an operand that is cut": ("05", 10),
    "a file that is not there": ("04 03 01", 12),
    "file 0": ("04 00 01", 12),
    "a file in no directory": ("00 06 03 6300 02 00 00", 12),
    "a file without a name": ("00 05 03 00 01 00 00", 12),
}

MALFORMED_TABLE, MISSING_FILE = "Read LineTable .debug_line 0", "InvalidFileIndex 0"


def refused_tables(cases):
    lines = {10: MALFORMED_TABLE, 12: MISSING_FILE}
    for name, (code, status) in REFUSED_PROGRAMS.items():
        refused = module(line=rich(bytes.fromhex(code)))
        cases.refused_module(f"a program with {name}", status, lines[status], refused)
        unlinked = module(info=unit(entries(4, 0)), line=rich(bytes.fromhex(code)))
        cases.carried(f"{name}, of a unit that is not carried", MAP, unlinked, front=OWN_TEXT)
    for name, line, refusal in [
        ("of version 1", bytes.fromhex("06000000 0100 00000000"), "Unsupported Version 0"),
        ("of two operations", bytes.fromhex("0E000000 0400 08000000 010201000101 0000"), "Unsupported Operations 0"),
        ("of 64 bits", bytes.fromhex("FFFFFFFF"), "Unsupported Format64 0"),
    ]:
        cases.refused_module(f"a line table {name}", 11, refusal, module(line=line))
    cases.refused_module("a line table that is cut", 10, MALFORMED_TABLE, module(line=line_table()[:20]))
    cases.refused_module("no line table", 10, MALFORMED_TABLE, module(line=b""))


# Directories and files of version 5, the program, and how they are refused.
REFUSED_5 = [
    ("addresses of 2 bytes", (2, 0), "0000 010108 01 6100", "", 11, "Unsupported AddressSize 0"),
    ("a segment selector", (4, 1), "0000 010108 01 6100", "", 11, "Unsupported SegmentSelector 0"),
    ("a supplementary path", (4, 0), "0000 01011D 01 00000000", "", 11, "Unsupported Supplementary 0"),
    ("a path by an index past the offsets", (4, 0), "0000 010125 01 04", "", 10, MALFORMED_TABLE),
    ("a path by the index of a text past its section", (4, 0), "0000 010125 01 03", "", 10, MALFORMED_TABLE),
    ("a path by an index that is cut", (4, 0), "0000 010128 01 0000", "", 10, MALFORMED_TABLE),
    ("a path by the index of an empty text", (4, 0), "0000 010125 01 02", "", 12, MISSING_FILE),
    ("a count of files that is too large", (4, 0), "0000 00 FFFFFFFFFFFFFFFFFF01", "", 10, MALFORMED_TABLE),
    ("two paths of a file", (4, 0), "0000 0201080108 01 6100 6200", "", 10, MALFORMED_TABLE),
    ("a path that is no text", (4, 0), "0000 01010B 01 01", "", 10, MALFORMED_TABLE),
    ("a path of an implicit constant", (4, 0), "0000 02 0108 0221 00", "", 10, MALFORMED_TABLE),
    ("a path past its section", (4, 0), "0000 01010E 01 09000000", "", 10, MALFORMED_TABLE),
    ("a row of a file that is not there", (4, 0), "0000 010108 01 6100", "00 05 02 02000000 01", 12, MISSING_FILE),
    ("a file in a directory that is not there", (4, 0), "0000 020108020B 01 6100 01", "", 12, MISSING_FILE),
    ("a file without a name", (4, 0), "0000 010108 01 00", "", 12, MISSING_FILE),
    ("a directory without a name", (4, 0), "010108 02 2F00 00 0000", "", 12, MISSING_FILE),
]

STRINGS, LINE_STRINGS = b"\0a.c\0b\0", b"/w\0e\0"
# Behind a header of eight bytes the offsets in `.debug_str` of `a.c`, `b`, an empty text and one past the section.
TEXT_OFFSETS = bytes.fromhex("1400000005000000 01000000 05000000 00000000 C8000000")
TEXTS = [(".debug_str", STRINGS), (".debug_line_str", LINE_STRINGS), (".debug_str_offsets", TEXT_OFFSETS)]


def paths_by_index(form):
    """The directories, of which number 1 is `b`, and two files `a.c` and `b`, by indexes of a form."""
    first, second = [uleb(i) if form == 0x1A else i.to_bytes(form - 0x24, "little") for i in (0, 1)]
    directories = bytes([1, 1, form, 2]) + first + second
    return directories + bytes([2, 1, form, 2, 0x0B, 2]) + first + b"\0" + second + b"\1"


def tables_of_5(cases):
    def table(names, program_bytes, sizes=(4, 0)):
        line = line_table(program_bytes, 5, names, sizes)
        return module(info=unit(version=5), line=line, others=TEXTS)

    for name, sizes, names, code, status, line in REFUSED_5:
        refused = table(bytes.fromhex(names), bytes.fromhex(code), sizes)
        cases.refused_module(f"version 5: {name}", status, line, refused)
    two = bytes.fromhex("010108 02 2F6300 73756200 020108020B 02 612E6300 00 622E6300 01")
    code = set_address(2) + bytes.fromhex("0400 01 0203 0401 0301 01 0205 0301 01 0203") + END
    cases.carried("version 5: files count from 1 in the output", MAP, table(two, code), rows=[[(0, 2), (15, 3)]])
    code = set_address(2) + b"\x04\x00\x01\x02\x0B" + END
    fields = "01 011F 02 00000000 03000000 04 010E 051E 020B 030F 02 01000000" + "41" * 16 + "01 8101 05000000" + "42" * 16 + "00 00"
    cases.carried("version 5: fields of each kind", MAP, table(bytes.fromhex(fields), code))
    plain = bytes.fromhex("0000 010108 02 6100 6200")
    cases.carried("version 5: no directory", MAP, table(plain, code))
    for form in (0x1A, 0x25, 0x26, 0x27, 0x28):
        cases.carried(f"version 5: paths by an index of form {form:02X}", MAP, table(paths_by_index(form), code))


# ---- listings of units and of line tables


def compiled(name):
    """Bytes of a compiler, or what outside tools print of them."""
    with open(os.path.join(os.path.dirname(__file__), "compiled", name)) as file:
        return bytes.fromhex(file.read()) if name.endswith(".hex") else file.read()


def sections_module(*sections):
    return PREAMBLE + b"".join(custom(name, contents) for name, contents in sections)


def form_module(version, name, form, value):
    """A unit whose root has a value, and a flag behind it."""
    table = bytes([1, 0x34, 0, name]) + form + bytes.fromhex("3F0C 0000 00")
    info = unit(b"\x01" + value + b"\x01", version)
    return sections_module((".debug_abbrev", table), (".debug_info", info))


def listing_cases():
    cases = Cases("listings.txt")

    def listed(kind, name, bytes_of_module, wanted):
        cases.add(kind, name, [f"hex m {bytes_of_module.hex()}"], wanted)

    for version, attribute, form, value, wanted in FORMS:
        made = form_module(version, attribute, bytes.fromhex(form), bytes.fromhex(value))
        size = len(bytes.fromhex(value)) + (14 if version == 5 else 13)
        first = 12 if version == 5 else 11
        text = f"unit 0 {size} {version} 4 1\n{first:#x} 0 0x34\n  {attribute:#x} {wanted}\n  0x3f Flag(true)\n"
        listed("units", f"attribute {attribute:02X} of form {form} in version {version}", made, text)
    for form, value, fault in REFUSED_FORMS:
        made = form_module(5, 3, bytes.fromhex(form), bytes.fromhex(value))
        listed("units", f"form {form}", made, f"unit 0 {len(bytes.fromhex(value)) + 14} 5 4 1\n{fault}\n")
    for version in (4, 5):
        made, entries = compiled(f"units_{version}.hex"), compiled(f"units_{version}.txt")
        end = len(plain_run.read_wasm(made)[1][".debug_info"])
        listed("units", f"a compiler's unit of version {version}", made, f"unit 0 {end} {version} 8 1\n{entries}")
    for version in (2, 3):
        table, info = compiled("old_abbreviations.hex"), changed(compiled("old_info.hex"), 4, bytes([version]))
        made = sections_module((".debug_abbrev", table), (".debug_info", info))
        text = plain_run.listed_unit(made, {"location": (0x02, 0x40), "line_table": 0x10})
        assert [line.split()[::2] for line in text.splitlines() if line[:2] == "0x"] == OLD_ENTRIES
        listed("units", f"a compiler's unit of version {version}", made, text)
    unit_headers(listed)
    line_listings(listed)
    return cases


def unit_headers(listed):
    """Units that follow one another, and the first that is refused."""
    malformed = "Read UnitHeader .debug_info"
    two = "0700000002000100000008 0800000005000104000000 00"
    for name, info, wanted in [
        ("no unit", "", ""),
        ("a unit of version 2 and one of version 5", two, "unit 0 11 2 8 1\nRead Abbreviation .debug_abbrev 1\n"),
        ("a unit of version 1", "0700000001000000000004", "Unsupported Version 0\n"),
        ("a unit of addresses of 3 bytes", "0700000004000000000003", "Unsupported AddressSize 0\n"),
        ("a unit of an unknown type", "0800000005000004 00000000", f"{malformed} 0\n"),
    ]:
        made = sections_module((".debug_abbrev", b"\0"), (".debug_info", bytes.fromhex(info)))
        listed("units", name, made, wanted)


# Offset and tag of each entry of the compiler's unit, as llvm-dwarfdump prints them; and of its line table offset, line and column
# of each row, and whether it begins a statement.
OLD_ENTRIES = [["0xb", "0x11"], ["0x2e", "0x2e"], ["0x4d", "0x5"], ["0x5b", "0x34"], ["0x6a", "0x24"]]
OLD_ROWS = [(0, 1, 0, True), (7, 2, 11, True), (10, 2, 13, False), (13, 2, 7, False), (16, 3, 9, True), (20, 3, 7, False)]
OLD_ROWS += [(26, 4, 5, True), (38, 5, 10, True), (41, 5, 3, False), (44, 6, 1, True)]


def line_module(line, version=4, size=4, texts=()):
    return sections_module((".debug_info", unit(b"", version, size)), (".debug_line", line), *texts)


def line_listings(listed):
    for name, code in {**OPCODES, "a wide advance_pc": "02 AC02", "a wide fixed_advance_pc": "09 3412", **MORE_OPCODES}.items():
        made = line_module(rich(bytes.fromhex(code) + b"\x01" + END))
        listed("lines", f"steps: {name}", made, plain_run.listed_lines(made))
    for name, code in {"of two sequences": PROGRAM + PROGRAM, "without an end": PROGRAM[:-3]}.items():
        made = line_module(line_table(code))
        listed("lines", f"steps {name}", made, plain_run.listed_lines(made))
    wide = bytes.fromhex("01 028080808010 02FFFFFFFFFFFFFFFFFF01 000101 01")
    made = line_module(line_table(wide))
    listed("lines", "an end above 32 bits", made, plain_run.listed_lines(made))
    paths_of_units(listed)
    for version in (2, 3):
        made = line_module(changed(compiled("old_line.hex"), 4, bytes([version])), size=8)
        wanted = plain_run.listed_lines(made)
        rows = [line.split() for line in wanted.splitlines() if line.startswith("row")]
        assert [(int(r[1]), int(r[3]), int(r[4]), "is_stmt" in r) for r in rows] == OLD_ROWS and wanted.endswith("end 49\n")
        listed("lines", f"a compiler's table of version {version}", made, wanted)
    texts = {5: [(".debug_line_str", b"/w\0inc\0sample.c\0mix.h\0")]}
    for version in (4, 5):
        made = line_module(compiled(f"lines_{version}.hex"), size=8, texts=texts.get(version, ()))
        wanted = compiled(f"lines_{version}.txt")
        assert wanted == plain_run.listed_lines(made)
        listed("lines", f"a compiler's table of version {version}", made, wanted)


def paths_of_units(listed):
    """Paths by the index of a text, from the usual base, and from the base that a unit's root says."""
    table, line = bytes.fromhex("01 11 00 7217 0000 00"), line_table(PROGRAM, 5, paths_by_index(0x25), (4, 0))
    made = line_module(line, 5, texts=TEXTS)
    wanted = "table 5\ndirectory 1 b\nfile 0 0 a.c\nfile 1 1 b\n"
    assert plain_run.listed_lines(made).startswith(wanted)
    listed("lines", "paths by an index from the usual base", made, plain_run.listed_lines(made))
    behind = TEXT_OFFSETS + u32(12) + TEXT_OFFSETS[4:8] + u32(5) + u32(1)
    for base in (8, 32, 36, 40):
        info = unit(b"\x01" + u32(base), 5)
        sections = [(".debug_abbrev", table), (".debug_info", info), (".debug_line", line)]
        made = sections_module(*sections, *TEXTS[:2], (".debug_str_offsets", behind))
        wanted = f"{MALFORMED_TABLE}\n" if base > 32 else plain_run.listed_lines(made)
        assert base != 32 or wanted.startswith("table 5\ndirectory 1 a.c\nfile 0 0 b\nfile 1 1 a.c\n")
        listed("lines", f"paths by an index from base {base}", made, wanted)


MORE_OPCODES = {
    "an end before the row": "00 01 01",
    "what an end resets": "02 08 05 07 06 00 03 01 05 09",
    "what an address leaves": "02 08 05 07 00 05 02 10000000",
}


# ---- what they print


def write(folder, name, lines):
    path = os.path.join(folder, name)
    os.makedirs(os.path.dirname(path), exist_ok=True)
    with open(path, "w") as file:
        file.write("".join(lines))


def write_all(folder, made):
    """Writes the files of a crate of cases."""
    for cases in made:
        write(folder, os.path.join("data", cases.name), [line + "\n" for line in cases.lines])
    write(folder, "args", [cases.name + "\n" for cases in made])
    write(folder, "stdout", [text for cases in made for text in cases.wanted])


def main():
    made = [
        words_cases(),
        map_cases(),
        unit_run_cases(),
        entry_run_cases(),
        range_cases.range_cases(Cases("ranges.txt"), module, map_of),
        location_refusals.refusal_cases(location_cases.location_cases(Cases("locations.txt"), module, map_of), FRONT),
        own_unit_cases.own_unit_cases(Cases("own_units.txt"), module, map_of),
        wrapper_refusals.wrapper_refusals(wrapper_cases.wrapper_cases(Cases("wrappers.txt"), module, map_of)),
        type_name_cases.type_name_cases(Cases("type_names.txt"), module, map_of),
        object_pointer_cases.object_pointer_cases(Cases("object_pointers.txt"), module, map_of),
        context_cases.context_cases(Cases("contexts.txt"), module, map_of),
        frame_cases.frame_cases(Cases("frames.txt")),
        last_unit_cases.last_unit_cases(Cases("last_unit.txt")),
        realistic_cases.realistic_cases(Cases("realistic.txt")),
        hostile_cases.hostile_cases(Cases("hostile.txt")),
        line_cases(),
        listing_cases(),
    ]
    standing = list(made)
    made.append(version_cases.version_cases(Cases("versions.txt"), standing))
    made.append(debugger_cases.debugger_cases(Cases("debugger.txt"), standing))
    if "--check" in sys.argv[1:]:
        check_cases.check([output for cases in made for output in cases.outputs])
    else:
        write_all(CRATE, made)


if __name__ == "__main__":
    main()
