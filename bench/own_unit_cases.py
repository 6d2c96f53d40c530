"""Cases of the unit that each module of an output has of its own: each memory, several modules, its texts beside those of the input, and
what is refused of a memory, in which order."""

import json

import location_cases
from entry_cases import BAD_LINES, BASE_TYPE, DATA8, GREATEST, HIGH_PC, LENGTH, MEMBER, NAME, RANGES, REF_ADDR, SEC_OFFSET, STRING, STRP
from entry_cases import SUBPROGRAM, TYPE, Entry, Label, base_type, root, subprogram
from location_cases import DEFINED, REGISTERS, VMCTX, framed, listed_variable, plain, reg, variable
from location_refusals import BAD, behind_shifts
from make_modules import custom, u32
from range_cases import MOST, SMALL, TYPES, low, program_of, within
from worked_texts import BIG_MEMORY_TEXT, GREATEST_MEMORY_TEXT, MEMORY_AT_0_TEXT, MEMORY_TEXT, OWN_TEXT, PLACED_TEXT

TOO_FAR, REFUSED = {"defined": (1 << 32) - 8}, (20, "TooLarge Vmctx")
MEMORIES = [
    ("no memory", None, OWN_TEXT),
    ("a memory at 0", {"defined": 0}, MEMORY_AT_0_TEXT),
    ("a memory at 80", DEFINED, MEMORY_TEXT),
    ("a memory at the greatest offset", {"defined": (1 << 32) - 9}, GREATEST_MEMORY_TEXT),
    ("an imported memory", {"imported": [8, 64]}, OWN_TEXT),
    ("an imported memory at the greatest offsets", {"imported": [GREATEST, GREATEST]}, OWN_TEXT),
]
TARGETS = [{"pointer_bytes": size, "big_endian": big} for size in (4, 8) for big in (False, True)]


class Cases(location_cases.Cases):
    """Cases of modules of one function each."""

    def module_of(self, *units, sections=(), behind=b""):
        """A module of units; without any it has no sections of DWARF."""
        return (self.made(units, sections, [SMALL])[0] if units else program_of([SMALL])[0]) + behind

    def map_text(self, *memories, labels=(), names=("set_mem", "resolve_mem"), **target):
        """A map of modules with a memory each, and the labels of the functions of the first ones. A function's symbol is its number."""
        modules = []
        for i, memory in enumerate(memories):
            _, functions = self.made([], [], [(i, *SMALL[1:])])
            modules.append(self.told(functions, labels[i : i + 1] or [{}], memory))
        value = json.loads(self.map_of(*modules, **{"registers": REGISTERS, **target}))
        return json.dumps({**value, "names": names}, separators=(",", ":"))

    def all_carried(self, name, modules, memories, front=None, texts=None, **told):
        self.cases.carried(name, self.map_text(*memories, **told), *modules, front=front, texts=texts)

    def all_refused(self, name, status, line, modules, memories, **told):
        """The plain program does not know compressed sections and files that are not there."""
        if status in (11, 12):
            self.cases.refused_module(name, status, line, *modules, map_text=self.map_text(*memories, **told))
        else:
            self.refused_modules(name, status, line, self.map_text(*memories, **told), *modules)


def own_unit_cases(cases, module, map_of):
    """`module` makes a module of abbreviations, units, a front and further sections; `map_of` makes a map of modules."""
    made = Cases(cases, module, map_of)
    memory_cases(made)
    module_cases(made)
    text_cases(made)
    name_cases(made)
    order_in_a_module(made)
    order_of_maps(made)
    order_of_modules(made)
    return cases


# ---- what a unit says

def placed():
    """A unit of a subprogram whose type is named by its place in the section, and a variable at an address in memory."""
    return root(subprogram((TYPE, REF_ADDR, Label("b", whole=True)), children=[variable("ED 00 03")]), base_type(b"b", "b"))


def memory_cases(made):
    """Each memory, alone and in front of a carried unit, and each target."""
    for name, memory, text in MEMORIES:
        made.all_carried(f"{name}, alone", [made.module_of()], [memory], front=text)
        made.all_carried(f"{name}, in front of a unit", [made.module_of(placed())], [memory])
    by_place = root(subprogram((TYPE, REF_ADDR, Label("b", whole=True))), base_type(b"b", "b"))
    made.all_carried("a reference of the section behind an own unit", [made.module_of(by_place)], [None], front=PLACED_TEXT)
    for target in TARGETS:
        name = f"{'big' if target['big_endian'] else 'little'} endian, addresses of {target['pointer_bytes']} bytes"
        text = BIG_MEMORY_TEXT if target["big_endian"] and target["pointer_bytes"] == 4 else None
        made.all_carried(f"a memory, {name}", [made.module_of()], [DEFINED], front=text, **target)
        made.all_carried(f"a memory in front of a unit, {name}", [made.module_of(placed())], [DEFINED], **target)
    for number, memory in enumerate([TOO_FAR, {"defined": GREATEST}]):
        made.all_refused(f"a memory {number} that is too far", *REFUSED, [made.module_of()], [memory])
        made.all_refused(f"a memory {number} that is too far in front of a unit", *REFUSED, [made.module_of(placed())], [memory])
    none = json.dumps({"target": {"arch": "x86_64"}, "names": ["set_mem", "resolve_mem"], "modules": [{"functions": []}]})
    made.cases.carried("a module of no function", none, TYPES, front=OWN_TEXT)


def module_cases(made):
    """Several modules, with and without sections of DWARF."""
    bare, whole = made.module_of(), made.module_of(placed())
    for first, memory, _ in MEMORIES[::2]:
        for second, other, _ in MEMORIES[::2]:
            made.all_carried(f"a module of {first} and one of {second}", [whole, whole], [memory, other])
    for name, modules in [
        ("both without sections of DWARF", [bare, bare]),
        ("the first without sections of DWARF", [bare, whole]),
        ("the second without sections of DWARF", [whole, bare]),
    ]:
        made.all_carried(f"two modules, {name}", modules, [DEFINED, None])
    two = made.module_of(placed(), root(subprogram((TYPE, REF_ADDR, Label("b", whole=True)))))
    made.all_carried("three modules of several units", [two, bare, two], [{"imported": [0, 0]}, DEFINED, None])
    unlinked = made.module_of(root(Entry(SUBPROGRAM, low(0), LENGTH)), placed())
    made.all_carried("a unit that is not carried behind an own unit", [unlinked, unlinked], [None, DEFINED])
    for target in TARGETS[1:3]:
        made.all_carried(f"two modules, {target}", [whole, two], [DEFINED, None], **target)


# ---- texts

OWN = ["WasmtimeModuleSyntheticUnit", "wasmtime", "u8", "u8*", "WasmtimeVMContext", "memory", "set_mem", "set", "WasmtimeVMContext*", "WebAssemblyPtr"]
WITHOUT_MEMORY = [text for text in OWN if text != "memory"]
CARRIED, CARRIED_WITHOUT = OWN + ["__vmctx"], WITHOUT_MEMORY + ["__vmctx"]  # with that of a carried subprogram


def named(*names):
    """A unit of a subprogram with a type of each name."""
    types = [(TYPE, STRP, u32(name)) if isinstance(name, int) else (NAME, STRING, name.encode() + b"\0") for name in names]
    return root(subprogram(children=[Entry(MEMBER, attribute) for attribute in types]))


def text_cases(made):
    """Texts of the input that are texts of the own unit stand once, where that unit has them."""
    for text in OWN:
        here = made.module_of(named(text))
        made.all_carried(f"a text `{text}` of the input", [here], [DEFINED], texts=CARRIED)
        behind = CARRIED_WITHOUT + ["memory"] * (text == "memory")
        made.all_carried(f"a text `{text}` of the input without a memory", [here], [None], texts=behind)
    others = ["u", "8*", "u8 *", "U8", "", "VMContext*", "WebAssemblyPtr*", "resolve_mem"]
    made.all_carried("texts that are parts of those of an own unit", [made.module_of(named(*others))], [DEFINED], texts=CARRIED + others)
    mixed = ["x", "set", "y", "u8*", "x", "wasmtime"]
    made.all_carried("texts of both", [made.module_of(named(*mixed))], [DEFINED], texts=CARRIED + ["x", "y"])
    section = (".debug_str", b"\0wasmtime\0u8*\0")
    by_offset = root(subprogram(*[(name, STRP, u32(at)) for name, at in ((NAME, 1), (0x25, 5), (0x6E, 10), (0x1B, 11))]))
    made.all_carried("texts by offsets", [made.module_of(by_offset, sections=[section])], [None], texts=[*WITHOUT_MEMORY, "time", "8*", "__vmctx"])
    first, second = made.module_of(named("x", "memory")), made.module_of(named("y", "x"))
    made.all_carried("texts of two modules", [first, second], [None, DEFINED], texts=[*CARRIED_WITHOUT, "x", "memory", "y"])
    made.all_carried("texts of two modules, of which the first has a memory", [first, second], [DEFINED, None], texts=[*CARRIED, "x", "y"])


def name_cases(made):
    """Names of what sets the memory that a debugger looks at."""
    for name in ["", "s", "set", "u8", "u8*", "wasmtime", "memory", "WasmtimeVMContext", "WasmtimeVMContext*", "WebAssemblyPtr", "größe", "\U0001D49E", "a b", "x" * 300]:
        texts = list(dict.fromkeys(name if text == "set_mem" else text for text in OWN))
        without = list(dict.fromkeys(name if text == "set_mem" else text for text in WITHOUT_MEMORY))
        short = name if len(name) < 100 else f"of {len(name)} letters"
        made.all_carried(f"the name `{short}`", [made.module_of(named("x", ""))], [DEFINED], names=(name, "y"), texts=[*texts, "__vmctx", "x", *[""] * (name != "")])
        made.all_carried(f"the name `{short}` without a memory", [made.module_of()], [None], names=(name, name), texts=without)
    made.all_carried("a name that the input has", [made.module_of(named("f", "set_mem"))], [None], texts=[*CARRIED_WITHOUT, "f"])


# ---- what is refused

CUT_TEXT, CUT_LIST = (NAME, STRP, u32(9)), (RANGES, SEC_OFFSET, bytes(4))
COMPRESSED = custom(".zdebug_str", b"")


def broken_modules(made):
    """Modules of which something is refused: a name, the status and the line, a module, and what the map says of its values."""
    front = len(made.module_of())
    yield "a compressed section", 11, f"Unsupported Compressed {front}", made.module_of(behind=COMPRESSED), {}
    yield "a unit header", 10, "Read UnitHeader .debug_info 0", made.module_of(behind=custom(".debug_info", b"\1")), {}
    yield "an entry", 10, "Read Entry .debug_info 25", made.module_of(root(subprogram(), Entry(BASE_TYPE, (NAME, 0x7F, b"")))), {}
    yield "a list of a subprogram", 10, "Read RangeList .debug_ranges 0", made.module_of(root(Entry(SUBPROGRAM, CUT_LIST))), {}
    yield "a line table", 10, "Read LineTable .debug_line 90", made.module_of(within(attributes=((0x10, SEC_OFFSET, u32(90)),))), {}
    yield "a file", 12, "InvalidFileIndex 0", made.module_of(within(), sections=[(".debug_line", BAD_LINES)]), {}
    yield "a text", 10, "Read Text .debug_info 16", made.module_of(root(subprogram(CUT_TEXT))), {}
    yield "a length", 20, "TooLarge Range", made.module_of(within(Entry(0x0B, low(5), (HIGH_PC, DATA8, MOST.to_bytes(8, "little"))))), {}
    yield "a location list", 10, "Read LocationList .debug_loc 0", made.module_of(within(listed_variable())), {}
    yield "an expression", 10, "Read Expression .debug_info 27", made.module_of(plain("10")), {}
    yield "a range of a value", 14, "BadLabelRange 4", made.module_of(plain("ED 00 04 9F")), BAD
    yield "a register", 16, "UnmappedRegister 9", made.module_of(plain("ED 00 03 9F")), {3: [reg(0, 5, 9)]}
    yield "a jump", 20, "TooLarge Jump", made.module_of(plain(behind_shifts(4095, 8, "2F", True))), {3: [reg(0, 5, 1)]}


def order_in_a_module(made):
    """A memory that is too far is told before all else of its module, and of those behind it."""
    for name, status, line, broken, labels in broken_modules(made):
        made.all_refused(f"{name} that is refused", status, line, [broken], [DEFINED], labels=[labels])
        made.all_refused(f"a memory that is too far before {name} of its module", *REFUSED, [broken], [TOO_FAR], labels=[labels])


def order_of_modules(made):
    """It is told behind all that is refused of the modules before its own."""
    bare = made.module_of()
    for name, status, line, broken, labels in broken_modules(made):
        made.all_refused(f"{name} before a memory of the second module", status, line, [broken, bare], [DEFINED, TOO_FAR], labels=[labels])
        made.all_refused(f"a memory of the first module before {name} of the second", *REFUSED, [bare, broken], [TOO_FAR, DEFINED], labels=[{}, labels])
    made.all_refused("a memory of the second module before a unit of the third", *REFUSED, [bare, bare, made.module_of(plain("10"))], [None, TOO_FAR, None])
    made.all_refused("a unit of the second module before a memory of the third", 10, "Read Expression .debug_info 27", [bare, made.module_of(plain("10")), bare], [None, None, TOO_FAR])
    made.all_refused("two memories that are too far", *REFUSED, [bare, bare], [TOO_FAR, TOO_FAR])
    long = made.module_of(plain("ED 00 03" + "26" * 8190 + "96" * 13 + "9F"))
    part = {3: [reg(0, 20, 1)]}
    made.all_refused("an expression of a list that is too long, in front of a module", 20, "TooLarge Expression", [long, bare], [DEFINED, None], labels=[part])
    made.all_refused("a memory of the second module before an expression of a list that is too long", *REFUSED, [long, bare], [DEFINED, TOO_FAR], labels=[part])
    nowhere = made.module_of(framed(variable("91 12")))
    lies = {3: [reg(0, 20, 1)], VMCTX: [reg(0, 30, 2)]}
    made.all_refused("no memory to read, before a memory of the second module", 15, "InvalidAttributeValue 0", [nowhere, bare], [None, TOO_FAR], labels=[lies])
    made.all_refused("no memory to read, of the second module", *REFUSED, [bare, nowhere], [TOO_FAR, None], labels=[{}, lies])


def order_of_maps(made):
    """It is told behind all that is refused of maps: what has no value, one symbol twice, addresses and lengths."""
    bare = made.module_of()
    text = made.map_text(TOO_FAR, None)
    refused = lambda name, status, line, changed, modules=(bare, bare): made.cases.refused_module(name, status, line, *modules, map_text=changed)
    long = '"symbol":1,"start":' + text.split('"symbol":1,"start":')[1].split('"map"')[0]
    shorter, reverse = long.replace('"body_len":30', '"body_len":2147483647'), long.replace('"start":', '"start":4294967294,"_":')
    longest = long.replace('"body_len":30', '"body_len":2147483648')
    assert len({text.replace(long, by) for by in (long, shorter, reverse, longest)}) == 4
    refused("a memory that is too far, and a long function", *REFUSED, text.replace(long, shorter))
    refused("a function of the second module that is too long before a memory of the first", 20, "TooLarge Addend", text.replace(long, longest))
    refused("an address map of the second module before a memory of the first", 13, "BadAddressMap 1 0 Reversed", text.replace(long, reverse))
    refused("one symbol of two functions before a memory", 21, "SharedSymbol 0 1", text.replace('"symbol":1', '"symbol":0'))
    refused("a map without a value before a memory", 6, "malformed map", text.replace(str(TOO_FAR["defined"]), str(1 << 32)))
    refused("a module that is cut before a memory", 5, f"Malformed {len(TYPES) + 1}", text, [bare, TYPES + b"\1"])
    same = made.map_text(TOO_FAR)
    refused("of one module a function that is too long before its memory", 20, "TooLarge Addend", same.replace('"body_len":30', '"body_len":2147483648'), [bare])
    refused("of one module an address map before its memory", 13, "BadAddressMap 0 0 CodePastBody", same.replace('"body_len":30', '"body_len":3'), [bare])
    refused("a memory before a compressed section of an unnamed function's module", *REFUSED, same.replace('"symbol":0', '"symbol":null').replace('"body_len":30', '"body_len":2147483648'), [made.module_of(behind=COMPRESSED)])
