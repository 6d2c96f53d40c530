"""Cases of the unit for functions without debugging information: which functions it lists, their names, types and places, its path and its lines,
and what is refused of it, in which order."""

import json

from make_modules import custom, section, u32, uleb
from small_module import ABBREVIATIONS, FRONT, MAP, PREAMBLE, SMALL, function, map_of, module, unit

VMCTX = 0xFFFFFFFE
I32, I64, F32, F64, V128, FUNCREF = 0x7F, 0x7E, 0x7D, 0x7C, 0x7B, 0x70
TARGETS = [{"pointer_bytes": size, "big_endian": big} for size in (4, 8) for big in (False, True)]
REGISTERS = [[1, 1], [2, 14], [40, 40]]
TYPES = ["1 24 03:i32 0b:4 3e:5", "1 24 03:i64 0b:8 3e:5", "1 24 03:f32 0b:4 3e:4", "1 24 03:f64 0b:8 3e:4"]
BAD_PATH, MALFORMED = (19, "Path"), (6, "malformed map")
UNLINKED = module(info=unit(bytes.fromhex("01 00000000 02 00000000 0B000000 00")))  # a subprogram at 0 begins in no function


# ---- modules


def vector(items):
    return uleb(len(items)) + b"".join(items)


def named(text):
    name = text.encode() if isinstance(text, str) else text
    return uleb(len(name)) + name


def by_number(names):
    return vector([uleb(number) + named(text) for number, text in names])


def name_section(*subsections):
    return custom("name", b"".join(bytes([number]) + uleb(len(said)) + said for number, said in subsections))


def names(module_name=None, functions=(), local_names=()):
    """A section of names, of what is given."""
    subsections = [(0, named(module_name))] if module_name is not None else []
    subsections += [(1, by_number(functions))] if functions else []
    subsections += [(2, vector([uleb(number) + by_number(found) for number, found in local_names]))] if local_names else []
    return name_section(*subsections)


class Program:
    """A module of functions, each with the types of its parameters and the groups of its locals, and of so many imported functions."""

    def __init__(self, *functions, imported=0):
        types = vector([b"\x60" + vector([bytes([t]) for t in parameters]) + b"\0" for parameters, _ in functions])
        bodies = [self.body(groups) for _, groups in functions]
        imports = vector([named("m") + named("f") + b"\0\0"] * imported)
        front = PREAMBLE + section(1, types) + (section(2, imports) if imported else b"")
        front += section(3, vector([uleb(i) for i in range(len(functions))]))
        contents = uleb(len(bodies)) + b"".join(bodies)
        self.data = front + section(10, contents)
        self.code = len(self.data) - len(contents)
        self.places, at = [], self.code + len(uleb(len(bodies)))
        for body in bodies:
            self.places.append((at + 1, at + len(body)))
            at += len(body)

    @staticmethod
    def body(groups):
        contents = vector([uleb(count) + bytes([t]) for count, t in groups]) + b"\x01" * 8 + b"\x0B"
        return uleb(len(contents)) + contents

    def told(self, symbols=None, lengths=None, labels=(), maps=None):
        """What a map tells of its functions: a symbol each, the numbers from 0 on where none are given."""
        told = []
        for i, (start, end) in enumerate(self.places):
            entries = maps[i] if maps else [[2, start], [6, start + 3]]
            more = {"labels": list(labels[i].items())} if i < len(labels) else {}
            one = function(i if symbols is None else symbols[i], start, end, lengths[i] if lengths else 10, entries)
            told.append({**one, **more})
        return told


def reg(number, start=0, end=10):
    return [start, end, "reg", number]


def cfa(offset, start=0, end=10):
    return [start, end, "cfa", offset]


class Cases:
    """Cases of modules, each with its functions and its path."""

    def __init__(self, cases):
        self.cases = cases

    def map_text(self, *modules, paths=("/m/g.wasm",), next_id=None, **target):
        text = json.loads(map_of(*modules, **{"registers": REGISTERS, **target}))
        for told, path in zip(text["modules"], paths):
            told |= {} if path is None else {"path": path}
        return json.dumps(text if next_id is None else {**text, "next_id": next_id}, separators=(",", ":"))

    def carried(self, name, modules, *files, last=None, lines=None, **told):
        self.cases.carried(name, self.map_text(*modules, **told), *files, last=last, lines=lines)

    def refused(self, name, refusal, modules, *files, **told):
        self.cases.refused_module(name, *refusal, *files, map_text=self.map_text(*modules, **told))


def last_unit_cases(cases):
    made = Cases(cases)
    worked_cases(made)
    listing_cases(made)
    type_cases(made)
    name_cases(made)
    place_cases(made)
    line_cases(made)
    module_cases(made)
    path_cases(made)
    map_cases(made)
    refusals(made)
    return cases


def root(name="g.wasm", directory="/m", code="[]"):
    return f"0 11 25:wasmtime 13:29 03:{name} 1b:{directory} {code}"


def listed(name, line, number_of_bytes=10, code=0):
    return f"1 2e 03:{name} 3a:1 3b:{line} {code}+{number_of_bytes}"


# ---- which functions are listed


def worked_cases(made):
    """The small module alone, and with its function listed."""
    made.carried("the small module with its path", [[function()]], SMALL, last=[root(), *TYPES], lines=[])
    made.carried("the small module, whose function no subprogram begins in", [[function()]], UNLINKED, last=[root(code="[0-30]"), *TYPES, listed("wasm-function[0]", 25, 30)],
                 lines=[(30, [(0, 0, ""), (5, 25, "prologue_end"), (15, 30, "")])])
    made.carried("a module without sections of DWARF", [[function()]], FRONT, last=[root(code="[0-30]"), *TYPES, listed("wasm-function[0]", 25, 30)])
    for target in TARGETS:
        name = f"with {'the highest' if target['big_endian'] else 'the lowest'} byte first and addresses of {target['pointer_bytes']} bytes"
        made.carried(f"a listed function {name}", [[function()]], UNLINKED, **target)


def listing_cases(made):
    """Functions with a symbol in which no kept subprogram begins."""
    two = Program(([], []), ([], []))
    begins = lambda *lows: module(info=unit(bytes.fromhex("01 00000000") + b"".join(b"\x02" + u32(low) + u32(2) for low in lows) + b"\0"), front=two.data)
    first, second = (start - two.code for start, _ in two.places)
    a, b = listed("wasm-function[0]", two.places[0][0]), listed("wasm-function[1]", two.places[1][0])
    for name, lows, last in [
        ("both of two", [0], [root(code="[0-10 0-10]"), *TYPES, a, b]),
        ("the second of two", [first], [root(code="[0-10]"), *TYPES, b]),
        ("the first of two", [second + 1], [root(code="[0-10]"), *TYPES, a]),
        ("none of two", [second, first + 2], [root(), *TYPES]),
    ]:
        made.carried(f"functions that are listed: {name}", [two.told()], begins(*lows), last=last)
    made.carried("the second of two functions without a symbol", [two.told([7, None])], begins(0), last=[root(code="[0-10]"), *TYPES, a])
    made.carried("no function with a symbol", [two.told([None, None])], begins(0), last=[root(), *TYPES])
    made.carried("a function without code", [two.told(lengths=[0, 10], maps=[[], [[2, None]]])], two.data,
                 last=[root(code="[0-10]"), *TYPES, listed("wasm-function[0]", two.places[0][0], 0), b], lines=[(0, [(0, 0, "")]), (10, [(0, 0, "")])])
    ranges = bytes.fromhex("01 11 01 10 17 0000 02 2E 00 55 17 0000 00")
    by_list = module(ranges, unit(bytes.fromhex("01 00000000 02 00000000 00")), front=two.data, others=[(".debug_ranges", u32(1000) + u32(1001) + u32(first) + u32(first + 1) + bytes(8))])
    made.carried("a subprogram whose list begins in the last function, and shows code of the first", [two.told()], by_list, last=[root(code="[0-10]"), *TYPES, a])
    partial = module(ABBREVIATIONS.replace(b"\x01\x11", b"\x01\x3C", 1), unit(bytes.fromhex("01 00000000 02") + u32(first) + u32(2) + b"\0"), front=two.data)
    made.carried("a subprogram of a unit that is not carried", [two.told()], partial, last=[root(code="[0-10 0-10]"), *TYPES, a, b])


# ---- what is said of them


def type_cases(made):
    """Parameters and locals of each type, and labels that name none."""
    every = Program(([I32, I64, F32, F64, V128], [(1, F64), (0, I32), (2, I64), (1, FUNCREF), (1, F32)]))
    said = [("05", 0, 1), ("05", 1, 2), ("05", 2, 3), ("05", 3, 4), ("34", 5, 4), ("34", 6, 2), ("34", 7, 2), ("34", 9, 3)]
    last = [root(code="[0-10]"), *TYPES, listed("wasm-function[0]", every.places[0][0])]
    last += [f"2 {tag} 03:var{n} 49>1.{place} 02[]" for tag, n, place in said]
    made.carried("labels of each local, and behind them", [every.told(labels=[{n: [] for n in range(12)}])], every.data, last=last)
    made.carried("labels in falling order", [every.told(labels=[{n: [] for n in reversed(range(12))}])], every.data, last=last)
    made.carried("a label above all numbers of locals", [every.told(labels=[{VMCTX - 1: [], VMCTX + 1: [reg(1)]}])], every.data, last=last[:6])
    for name, number in [("no types", 1), ("no bodies", 10)]:
        made.carried(f"labels of a module with {name}", [every.told(labels=[{0: [], 5: []}])], without(every.data, number), last=last[:6])


def without(data, number):
    """A module whose section of a number says that it holds nothing: its count is 0."""
    at = 8
    while at < len(data):
        size = data[at + 1]
        if data[at] == number:
            return data[: at + 2] + b"\0" + data[at + 3 : at + 2 + size] + data[at + 2 + size :]
        at += 2 + size
    return data


def name_cases(made):
    """Names of functions and of locals, by the file or by their numbers."""
    one, imported = Program(([I32], [(1, I32)])), Program(([I32], [(1, I32)]), imported=2)
    labels = [{0: [], 1: []}]
    for program, index, kind in ((one, 0, ""), (imported, 2, ", behind two imported ones")):
        for name, section_of, said in [
            ("no names", b"", (f"wasm-function[{index}]", "var0", "var1")),
            ("names", names(functions=[(index, "f")], local_names=[(index, [(0, "p"), (1, "l")])]), ("f", "p", "l")),
            ("names of others", names(functions=[(index + 1, "f")], local_names=[(index + 1, [(0, "p")]), (index, [(2, "l")])]), (f"wasm-function[{index}]", "var0", "var1")),
            ("names that are empty", names(functions=[(index, "")], local_names=[(index, [(0, ""), (1, "")])]), ("", "", "")),
            ("names with a zero byte", names(functions=[(index, "f\0")], local_names=[(index, [(0, "\0"), (1, "l")])]), (f"wasm-function[{index}]", "var0", "l")),
            ("names of which the later counts", names(functions=[(index, "f"), (index, "g")]) , ("g", "var0", "var1")),
            ("names in two subsections", name_section((1, by_number([(index, "f")])), (2, vector([uleb(index) + by_number([(0, "p")])])), (1, by_number([(index, "g")]))), ("g", "p", "var1")),
            ("names in two sections", names(functions=[(index, "f")]) + names(local_names=[(index, [(1, "l")])]), (f"wasm-function[{index}]", "var0", "l")),
            ("names of which a subsection is cut", name_section((1, by_number([(index, "f")])[:-1]), (2, vector([uleb(index) + by_number([(0, "p")])]))), (f"wasm-function[{index}]", "p", "var1")),
            ("names with a byte behind them", name_section((1, by_number([(index, "f")]) + b"\0")), (f"wasm-function[{index}]", "var0", "var1")),
            ("names that are no text", name_section((1, by_number([(index, b"\xFF")]))), (f"wasm-function[{index}]", "var0", "var1")),
        ]:
            last = [root(code="[0-10]"), *TYPES, listed(said[0], program.places[0][0]), f"2 05 03:{said[1]} 49>1.1 02[]", f"2 34 03:{said[2]} 49>1.1 02[]"]
            made.carried(f"a function with {name}{kind}", [program.told(labels=labels)], program.data + section_of, last=last)


def place_cases(made):
    """Where values lie over the source of a function, and the context."""
    one = Program(([I32], []))
    start, end = one.places[0]
    behind_start = [[[2, start + 1], [6, start + 3]]]  # what stands before the first source is covered, where that is not the start
    front = [root(code="[0-10]"), *TYPES, listed("wasm-function[0]", start + 1)]
    for name, ranges, said in [
        ("no place", [], ""),
        ("in a register", [reg(2)], "0-10 5e"),
        ("in a register above 31", [reg(40)], "0-10 9028"),
        ("in memory", [cfa(-8)], "0-10 9178"),
        ("in two places", [reg(2, 0, 4), cfa(16, 4, 10)], "0-4 5e 4-10 9110"),
        ("in a place of which the later counts", [reg(2), reg(1, 3, 5)], "0-3 5e 3-5 51 5-10 5e"),
        ("in a place that goes past the code", [reg(2, 8, 99)], "8-10 5e"),
        ("nowhere, with an empty range", [reg(2, 3, 3)], ""),
    ]:
        made.carried(f"a parameter {name}", [one.told(labels=[{0: ranges}], maps=behind_start)], one.data, last=[*front, f"2 05 03:var0 49>1.1 02[{said}]"])
        context = f"2 34 03:__vmctx 49>>0:WasmtimeVMContext* 02[{said}]"
        made.carried(f"a context {name}", [one.told(labels=[{VMCTX: ranges}], maps=behind_start)], one.data, last=[*front, context])
    both = [*front, "2 05 03:var0 49>1.1 02[0-10 51]", "2 34 03:__vmctx 49>>0:WasmtimeVMContext* 02[0-10 5e]"]
    made.carried("a parameter and the context", [one.told(labels=[{VMCTX: [reg(2)], 0: [reg(1)]}], maps=behind_start)], one.data, last=both)
    from_start = [root(code="[0-10]"), *TYPES, listed("wasm-function[0]", start), "2 05 03:var0 49>1.1 02[2-10 51]"]
    made.carried("a parameter before the first source, which is the start", [one.told(labels=[{0: [reg(1)]}])], one.data, last=from_start)
    two_runs = [root(code="[0-10]"), *TYPES, listed("wasm-function[0]", start + 4), "2 05 03:var0 49>1.1 02[0-10 51]"]
    made.carried("a parameter in a function of two runs", [one.told(labels=[{0: [reg(1)]}], maps=[[[0, start + 4], [3, start], [7, end]]])], one.data, last=two_runs)


def line_cases(made):
    """Rows of recorded sources: none, one at 0, several at one byte, and such without a source."""
    one = Program(([], []))
    start, end = one.places[0]
    for name, entries, rows in [
        ("no source", [[0, None]], [(0, 0, "")]),
        ("a source at 0", [[0, start]], [(0, 0, ""), (0, start, "prologue_end")]),
        ("a source at the end", [[10, end]], [(0, 0, ""), (10, end, "prologue_end")]),
        ("two sources at one byte", [[4, start], [4, start + 2]], [(0, 0, ""), (4, start, "prologue_end"), (4, start + 2, "")]),
        ("a source twice", [[2, start], [4, start]], [(0, 0, ""), (2, start, "prologue_end"), (4, start, "")]),
        ("sources that fall", [[2, start + 5], [4, start + 1]], [(0, 0, ""), (2, start + 5, "prologue_end"), (4, start + 1, "")]),
        ("a hole between sources", [[2, start], [4, None], [6, start + 1]], [(0, 0, ""), (2, start, "prologue_end"), (6, start + 1, "")]),
    ]:
        first = next((source for _, source in entries if source is not None), start)
        last = [root(code="[0-10]"), *TYPES, listed("wasm-function[0]", first)]
        made.carried(f"lines of a function with {name}", [one.told(maps=[entries])], one.data, last=last, lines=[(10, rows)])


# ---- several modules, paths and maps


def module_cases(made):
    """Listed functions of two modules, each with the offset of its own code, its own names and its own context."""
    one, two = Program(([I32], []), imported=1), Program(([], []), ([I64], []))
    labels = [{0: [], VMCTX: []}, {0: [], VMCTX: []}]
    told = [one.told([0], labels=labels), two.told([1, 2], labels=labels)]
    last = [root(code="[0-10 0-10 0-10]"), *TYPES, listed("f", one.places[0][0]), "2 05 03:var0 49>2.1 02[]", "2 34 03:__vmctx 49>>0:WasmtimeVMContext* 02[]"]
    last += [listed("wasm-function[0]", two.places[0][0]), "2 34 03:__vmctx 49>>1:WasmtimeVMContext* 02[]", listed("g", two.places[1][0]), "2 05 03:var0 49>2.2 02[]", "2 34 03:__vmctx 49>>1:WasmtimeVMContext* 02[]"]
    files = [one.data + names(functions=[(1, "f")]), two.data + names("other", functions=[(1, "g")])]
    made.carried("listed functions of two modules", told, *files, last=last)
    made.carried("a carried unit between two own ones, and a listed function of the second", [[function(0)], [function(1)]], SMALL, UNLINKED, last=[root(code="[0-30]"), *TYPES, listed("wasm-function[0]", 25, 30)])
    made.carried("a module of no function", [[]], PREAMBLE, last=[root(), *TYPES], lines=[])


PATHS = [("/m/g.wasm", "g.wasm", "/m"), ("a", "a", ""), ("/a", "a", "/"), ("a/b", "b", "a"), ("/a/", "a", "/"), ("a//", "a", ""), ("//a", "a", "/"), ("/x//y//", "y", "/x"), ("x/./y", "y", "x/."), ("...", "...", ""), ("/m/\u00e9", "\u00e9", "/m")]


def path_cases(made):
    """The name and the directory of a path that is given, or that is made of the module's name or of a number."""
    for path, name, directory in PATHS:
        made.carried(f"the path `{path}`", [[function()]], SMALL, paths=[path], last=[root(name, directory), *TYPES])
    for path in ("", "/", "//", ".", "..", "/..", "a/..", "/a/.", "./"):
        made.refused(f"the path `{path}`", BAD_PATH, [[function()]], SMALL, paths=[path])
    made.carried("a path of the second module alone", [[function()], [function(1)]], SMALL, SMALL, paths=[None, "/m/g.wasm"], last=[root("<gen-0>.wasm", "/<wasm-module>"), *TYPES])
    made.carried("a path of the second module that names no file", [[function()], [function(1)]], SMALL, SMALL, paths=["a", ".."], last=[root("a", ""), *TYPES])
    for number in (None, 0, 7, (1 << 32) - 1):
        made.carried(f"no path and the number {number}", [[function()]], SMALL, paths=[], next_id=number, last=[root(f"<gen-{number or 0}>.wasm", "/<wasm-module>"), *TYPES])
    for name, said in [("m", root("m", "/<wasm-module>")), ("a/b", root("b", "/<wasm-module>/a")), ("", root("<wasm-module>", "/")), ("m\0", root("<gen-7>.wasm", "/<wasm-module>"))]:
        made.carried(f"a module that is named `{name!r}`", [[function()]], SMALL + names(name), paths=[], next_id=7, last=[said, *TYPES])
    made.carried("a path beside a name", [[function()]], SMALL + names("m"), paths=["p"], last=[root("p", ""), *TYPES])
    made.refused("a module that is named `..`", BAD_PATH, [[function()]], SMALL + names(".."), paths=[])


def map_cases(made):
    """Values of the two fields of a map."""
    for value in ("null", "7", "[]", '"a\\u0000"', "true"):
        made.cases.refused_module(f"a path {value}", *MALFORMED, SMALL, map_text=MAP.replace('{"functions"', f'{{"path":{value},"functions"'))
    for value in ("null", "-1", "4294967296", "1.5", '"1"', "[0]"):
        made.cases.refused_module(f"a number of names {value}", *MALFORMED, SMALL, map_text=MAP.replace('"names"', f'"next_id":{value},"names"'))


# ---- refusals


def refusals(made):
    """What is refused of variables, and the order of refusals."""
    one = Program(([I32, I32], []))
    bad, unmapped = [[5, 4, "reg", 2]], [reg(9)]
    for name, labels, status, line in [
        ("a range of a parameter that ends before it begins", {0: bad}, 14, "BadLabelRange 0"),
        ("a range of the context that ends before it begins", {VMCTX: bad}, 14, f"BadLabelRange {VMCTX}"),
        ("a parameter in a register without a number", {1: unmapped}, 16, "UnmappedRegister 9"),
        ("the first of two labels", {1: bad, 0: unmapped}, 16, "UnmappedRegister 9"),
        ("a parameter before the context", {VMCTX: unmapped, 1: bad}, 14, "BadLabelRange 1"),
    ]:
        made.refused(name, (status, line), [one.told(labels=[labels])], one.data)
    made.carried("a bad range of a label without an entry", [one.told(labels=[{2: bad, 7: unmapped}])], one.data, last=[root(code="[0-10]"), *TYPES, listed("wasm-function[0]", one.places[0][0])])
    made.carried("a bad range of a function without a symbol", [one.told([None], labels=[{0: bad}])], one.data, last=[root(), *TYPES])
    made.refused("the path before a variable", BAD_PATH, [one.told(labels=[{0: bad}])], one.data, paths=[".."])
    table = module(line=u32(0x38) + b"\0")
    made.refused("a line table of a later module before the path", (10, "Read LineTable .debug_line 0"), [[function()], [function(1)]], SMALL, table, paths=[".."])
    made.refused("a line table of a later module before a variable", (10, "Read LineTable .debug_line 0"), [one.told(labels=[{0: bad}]), [function(1)]], one.data, table)
    cie = {"code_factor": 1, "data_factor": -8, "return_register": 16, "ops": []}
    falls = {"frame": {"len": 10, "ops": [[4, ["remember"]], [2, ["restore_state"]]]}}
    framed = [{**one.told(labels=[{0: bad}])[0], **falls}]
    made.refused("a variable before a frame", (14, "BadLabelRange 0"), [framed], one.data, cie=cie)
    made.refused("the path before a frame", BAD_PATH, [[{**function(), **falls}]], SMALL, paths=["."], cie=cie)
