"""Cases of the variable that says where the context of a module is: which subprograms get it, over which scope, and what is refused of
it."""

from entry_cases import BLOCK, GREATEST, LENGTH, LINES, NAME, NAMESPACE, PARAMETER, STRING, STRP, STRUCTURE, SUBPROGRAM, VARIABLE, Entry, Info
from entry_cases import base_type, pairs, root, subprogram, to
from listed_trees import context, wanted_tree, wrapped
from location_cases import DEFINED, FRAME_BASE, VMCTX, at, cfa, in_list, listed_variable, loc, plain, reg, variable
from location_refusals import BAD_VMCTX
from make_modules import u32
from own_unit_cases import REFUSED, TARGETS, TOO_FAR
from range_cases import INLINED, LISTED, SECOND, SMALL, TEN_MOVED, UNNAMED, for_bytes, low, until, within
from wrapper_cases import CHAR, CHAR_LINE, ORIGIN, SPECIFICATION, Cases, pointer

ALL, EVERYWHERE = {VMCTX: [reg(0, 30, 2)]}, "0-30 5e"
DECLARATION = (0x3C, 0x19, b"")


def declared(key, *attributes, **more):
    """A subprogram without code, which is kept where something names it."""
    return Entry(SUBPROGRAM, *attributes, key=key, **more)


def context_cases(cases, module, map_of):
    """`module` makes a module of abbreviations, units, a front and further sections; `map_of` makes a map of modules."""
    made = Cases(cases, module, map_of)
    place_cases(made)
    function_cases(made)
    scope_cases(made)
    without_cases(made)
    order_in_tree(made)
    module_cases(made)
    refused_places(made)
    order_of_refusals(made)
    return cases


# ---- where the context is


def place_cases(made):
    """Places of the context pointer over parts of a function, in registers and in the frame."""
    for name, ranges, said in [
        ("over the whole function", [reg(0, 30, 2)], EVERYWHERE),
        ("at the front", [reg(0, 10, 2)], "0-10 5e"),
        ("in the middle", [reg(5, 20, 2)], "5-20 5e"),
        ("at the end", [reg(29, 30, 2)], "29-30 5e"),
        ("past the function", [reg(20, GREATEST, 2)], "20-30 5e"),
        ("behind the function alone", [reg(30, 40, 9)], ""),
        ("nowhere, by an empty list", [], ""),
        ("nowhere, by empty ranges", [reg(0, 0, 9), reg(30, 30, 9), cfa(7, 7, 8)], ""),
        ("in the frame", [cfa(0, 30, -16)], "0-30 9170"),
        ("in the frame at 0", [cfa(0, 30, 0)], "0-30 9100"),
        ("in the frame at a great offset", [cfa(0, 30, 300)], "0-30 91ac02"),
        ("in the frame at the greatest offsets", [cfa(0, 10, (1 << 63) - 1), cfa(10, 30, -(1 << 63))], f"0-10 91{'ff' * 9}00 10-30 91{'80' * 9}7f"),
        ("in a register of a great number", [reg(0, 30, 4)], "0-30 9021"),
        ("in two registers", [reg(0, 10, 1), reg(10, 30, 2)], "0-10 5c 10-30 5e"),
        ("in two registers of one number", [reg(0, 10, 1), reg(10, 30, 5)], "0-10 5c 10-30 5c"),
        ("in one register, by ranges that touch", [reg(0, 10, 2), reg(10, 30, 2)], EVERYWHERE),
        ("in a register, then in the frame", [reg(0, 10, 2), cfa(10, 30, -16)], "0-10 5e 10-30 9170"),
        ("with a hole", [reg(0, 10, 2), reg(11, 30, 2)], "0-10 5e 11-30 5e"),
        ("out of order", [cfa(20, 30, 8), reg(0, 10, 2)], "0-10 5e 20-30 9108"),
        ("by ranges of which the later count", [reg(0, 30, 9), reg(0, 20, 2), cfa(15, 30, 8)], "0-15 5e 15-30 9108"),
    ]:
        made.carried(f"the context {name}", within(), labels=[{VMCTX: ranges}], contexts=[f"[{said}]"], places=[])
    made.carried("a context of which the map says nothing", within(), labels=[{}], contexts=["[]"])
    for number, said in ((0, "50"), (31, "6f"), (32, "9020"), (65535, "90ffff03")):
        made.carried(f"the context in register {number}", within(), labels=[ALL], target={"registers": [[2, number]]}, contexts=[f"[0-30 {said}]"])
    for name, memory in (("no memory", None), ("an imported memory", {"imported": [8, 64]}), ("a memory at 0", {"defined": 0})):
        made.carried(f"the context beside {name}", within(), labels=[ALL], memory=memory, contexts=[f"[{EVERYWHERE}]"])


# ---- which subprograms, and over what


def function_cases(made):
    """Subprograms that begin in functions: each has its function whole, in that function's places."""
    whole = {VMCTX: [reg(0, 50, 1)]}
    two = root(subprogram(), Entry(SUBPROGRAM, low(14), LENGTH))
    made.carried("contexts of two functions", two, functions=[SMALL, SECOND], labels=[ALL, whole], contexts=[f"[{EVERYWHERE}]", "[0-50 5c]"])
    same = root(subprogram(), Entry(SUBPROGRAM, low(7), LENGTH))
    made.carried("contexts of two subprograms of one function", same, labels=[ALL], contexts=[f"[{EVERYWHERE}]"] * 2)
    inside = root(subprogram(children=[Entry(SUBPROGRAM, low(14), LENGTH)]))
    made.carried("the context of a function in another", inside, functions=[SMALL, SECOND], labels=[ALL, whole], contexts=[f"[{EVERYWHERE}]", "[0-50 5c]"])
    made.carried("the context of a function whose code was moved", within(begin=10), functions=[TEN_MOVED], labels=[ALL], contexts=[f"[{EVERYWHERE}]"])
    moved = {VMCTX: [reg(0, 25, 2), cfa(25, 30, 8)]}
    made.carried("the context of a function whose code was moved, at two places", within(begin=10), functions=[TEN_MOVED], labels=[moved], contexts=["[0-25 5e 25-30 9108]"])
    short = root(Entry(SUBPROGRAM, low(5), for_bytes(1)))
    made.carried("the context of a subprogram of one byte", short, labels=[ALL], contexts=[f"[{EVERYWHERE}]"])
    made.carried("the context of a subprogram without a length", root(Entry(SUBPROGRAM, low(2))), labels=[ALL], contexts=[f"[{EVERYWHERE}]"])
    listed = root(Entry(SUBPROGRAM, LISTED))
    made.carried("the context of a subprogram with a range list", listed, labels=[ALL], sections=[pairs((5, 6), (10, 11))], contexts=[f"[{EVERYWHERE}]"])
    other = [pairs((1, 2), (5, 6))]
    made.carried("a subprogram whose range list begins in no function", listed, labels=[ALL], sections=other, contexts=[])
    unnamed = root(Entry(SUBPROGRAM, low(26), LENGTH), subprogram())
    made.carried("a subprogram of a function without a symbol", unnamed, functions=[SMALL, UNNAMED], labels=[ALL, ALL], contexts=[f"[{EVERYWHERE}]"])
    empty = (0, 2, 2, 30, [])
    made.carried("the context of a function without a source", within(), functions=[empty], labels=[ALL], contexts=["[]"])
    bare = (0, 2, 13, 0, [])
    made.carried("the context of a function without code", within(), functions=[bare], labels=[ALL], contexts=["[]"])
    bytes_alone = (0, 2, 13, 30, [])
    made.carried("the context of a function without recorded sources", within(), functions=[bytes_alone], labels=[ALL], contexts=[f"[{EVERYWHERE}]"])


def scope_cases(made):
    """Subprograms without code of their own, with the scope of what is around them and the places of the function around."""
    names = Entry(VARIABLE, to("d", ORIGIN))
    inside = lambda entry: root(subprogram(children=[names, entry]))
    part = {VMCTX: [reg(0, 10, 2), cfa(10, 30, 8)]}
    for name, entry, said in [
        ("in a subprogram", declared("d"), "0-10 5e 10-30 9108"),
        ("in a block", Entry(BLOCK, low(5), until(9), children=[declared("d")]), "5-10 5e 10-15 9108"),
        ("in a block of no code", Entry(BLOCK, low(1), until(2), children=[declared("d")]), ""),
        ("in a block that is empty", Entry(BLOCK, low(5), until(5), children=[declared("d")]), ""),
        ("in a block with a begin alone", Entry(BLOCK, low(5), children=[declared("d")]), "0-10 5e 10-30 9108"),
        ("in a block without bounds", Entry(BLOCK, children=[declared("d")]), "0-10 5e 10-30 9108"),
        ("in a block of two intervals", Entry(BLOCK, LISTED, children=[declared("d")]), "5-10 5e 10-30 9108"),
        ("in a block in a block", Entry(BLOCK, LISTED, children=[Entry(BLOCK, low(10), until(13), children=[declared("d")])]), "15-30 9108"),
        ("in an inlined function", Entry(INLINED, low(5), until(9), children=[declared("d")]), "5-10 5e 10-15 9108"),
        ("in a parameter with bounds", Entry(PARAMETER, low(2), until(3), children=[declared("d")]), "0-5 5e"),
        ("with bounds of its own in no function", declared("d", low(1), for_bytes(2)), "0-10 5e 10-30 9108"),
        ("with a length alone", declared("d", for_bytes(2)), "0-10 5e 10-30 9108"),
        ("in a structure in a block", Entry(BLOCK, low(5), until(9), children=[Entry(STRUCTURE, children=[declared("d", DECLARATION)])]), "5-10 5e 10-15 9108"),
    ]:
        made.carried(f"the context of a subprogram {name}", inside(entry), labels=[part], sections=[pairs((5, 6), (10, 11))], contexts=["[0-10 5e 10-30 9108]", f"[{said}]"])
    three = inside(declared("d", to("e", ORIGIN), children=[declared("e")]))
    made.carried("the context of a subprogram in one without code", three, labels=[part], contexts=["[0-10 5e 10-30 9108]"] * 3)
    second = Entry(BLOCK, low(14), until(25), children=[declared("d")])
    made.carried("the context of a subprogram in a block of another function", inside(second), functions=[SMALL, SECOND], labels=[ALL, {VMCTX: [reg(0, 50, 1)]}], contexts=[f"[{EVERYWHERE}]", "[]"])
    over = Entry(BLOCK, low(2), until(40), children=[Entry(SUBPROGRAM, low(14), LENGTH), declared("d")])
    said = [f"[{EVERYWHERE}]", "[0-50 5c]", f"[{EVERYWHERE}]"]
    made.carried("the context of a function in a block of another", inside(over), functions=[SMALL, SECOND], labels=[ALL, {VMCTX: [reg(0, 50, 1)]}], contexts=said)
    in_pointer = root(subprogram(children=[Entry(VARIABLE, to("p"), to("d", ORIGIN)), pointer("char", "p", low(5), until(9), children=[declared("d")])]), CHAR)
    wanted = ["0 11", "1 2e", context(2, EVERYWHERE), "2 34 49>p 31>d", *wrapped(2, "p", "char", "char", ["3 2e =d", context(4, "5-15 5e")]), CHAR_LINE]
    made.tree("the context of a subprogram in a pointer with bounds", [in_pointer], [wanted], labels=[ALL])


def without_cases(made):
    """Scopes outside of all functions, where nothing has a place, and subprograms without a scope."""
    of_root = lambda *entries, **more: root(subprogram(to("d", SPECIFICATION)), *entries, **more)
    for name, entry, said in [
        ("beside functions", declared("d"), []),
        ("in a namespace", Entry(NAMESPACE, children=[declared("d")]), []),
        ("in a structure", Entry(STRUCTURE, children=[declared("d")]), []),
        ("in a block without bounds", Entry(BLOCK, children=[declared("d")]), []),
        ("in a block with a begin alone", Entry(BLOCK, low(5), children=[declared("d")]), []),
        ("in a block with bounds", Entry(BLOCK, low(5), until(9), children=[declared("d")]), ["[]"]),
        ("in a block that is empty", Entry(BLOCK, low(5), until(5), children=[declared("d")]), ["[]"]),
        ("in a namespace with a length alone", Entry(NAMESPACE, for_bytes(3), children=[declared("d")]), ["[]"]),
        ("in a block with a range list", Entry(BLOCK, LISTED, children=[declared("d")]), ["[]"]),
        ("with bounds in no function", declared("d", low(1), for_bytes(9)), []),
        ("in one with bounds in no function", declared("x", low(1), for_bytes(9), children=[declared("d")]), []),
    ]:
        made.carried(f"a subprogram {name}, without a function around it", of_root(entry), labels=[ALL], sections=[pairs((5, 6))], contexts=[f"[{EVERYWHERE}]", *said])
    bounded = of_root(declared("d"), attributes=(LINES, low(2), until(13)))
    made.carried("a subprogram in a root with bounds", bounded, labels=[ALL], contexts=[f"[{EVERYWHERE}]"])
    by_list = of_root(declared("d"), attributes=(LINES, LISTED))
    made.carried("a subprogram in a root with a range list", by_list, labels=[ALL], sections=[pairs((5, 6))], contexts=[f"[{EVERYWHERE}]"])


# ---- where it stands


def order_in_tree(made):
    """The variable stands before the kept children, with a type of the own unit; its texts stand where it does."""
    children = [Entry(PARAMETER, (NAME, STRING, b"a\0")), variable("31"), base_type(b"x")]
    told = ["0 11", "1 2e 03:f", context(2, EVERYWHERE), "2 05 03:a", "2 34 02[31]"]
    made.tree("the context before other children", [root(subprogram((NAME, STRING, b"f\0"), children=children))], [told], labels=[ALL])
    made.tree("the context as the only child", [root(subprogram(children=[base_type(b"x")]))], [["0 11", "1 2e", context(2, EVERYWHERE)]], labels=[ALL])
    named = Entry(VARIABLE, (NAME, STRING, b"__vmctx\0"), at("31"))
    told = ["0 11", "1 2e", context(2, EVERYWHERE), "2 34 03:__vmctx 02[31]"]
    made.tree("the context beside a variable of its name", [root(subprogram(children=[named]))], [told], labels=[ALL])
    both = root(subprogram(children=[listed_variable(), Entry(VARIABLE, in_list(16))]))
    two = (".debug_loc", loc()[1] * 2 + loc((5, 6, "32"))[1])
    made.carried("the list of the context before others", both, labels=[ALL], sections=[two], contexts=[f"[{EVERYWHERE}]"], places=["[5-15 32]"])
    own_list = root(subprogram(in_list(name=FRAME_BASE), children=[listed_variable()]))
    made.carried("the list of a subprogram before that of its context", own_list, labels=[ALL], sections=[loc((5, 6, "31"))], contexts=[f"[{EVERYWHERE}]"], places=["[5-15 31]"] * 2)
    twice = root(subprogram((NAME, STRING, b"__vmctx\0"))), root(subprogram((NAME, STRING, b"g\0"), (0x6E, STRING, b"x\0")))
    texts = ["WasmtimeModuleSyntheticUnit", "wasmtime", "u8", "u8*", "WasmtimeVMContext", "set_mem", "set", "WasmtimeVMContext*", "WebAssemblyPtr", "__vmctx", "g", "x"]
    made.carried("the text of two contexts", *twice, labels=[ALL], memory=None, texts=texts)
    for target in TARGETS:
        name = f"{'big' if target['big_endian'] else 'little'} endian, addresses of {target['pointer_bytes']} bytes"
        unit = root(subprogram(children=[Entry(VARIABLE, to("d", ORIGIN)), Entry(BLOCK, low(5), until(9), children=[declared("d")])]))
        made.carried(f"contexts, {name}", unit, labels=[{VMCTX: [reg(0, 10, 4), cfa(10, 30, -300)]}], target=target)
    for version in (2, 3, 4, 5):
        unit = root(subprogram(), attributes=()), version, 4
        made.tree(f"the context in version {version}", [unit], [["0 11", "1 2e", context(2, EVERYWHERE)]], labels=[ALL])


def module_cases(made):
    """Contexts of two modules, each with its own unit and places; the register is told by the target."""
    whole = made.module_of(root(subprogram()))
    told = lambda own, said: ["0 11", "1 2e", context(2, said, own)]
    labels = [ALL, {VMCTX: [cfa(0, 9, 8)]}]
    for name, memories in (("without memories", (None, None)), ("of which the second has a memory", (None, DEFINED)), ("of which the first has a memory", (DEFINED, None))):
        tree = wanted_tree([None, told(0, EVERYWHERE), None, told(2, "0-9 9108")])
        made.cases.carried(f"contexts of two modules {name}", made.map_text(*memories, labels=labels), whole, whole, tree=tree)
    tree = wanted_tree([None, None, told(1, "0-9 9108")])
    made.cases.carried("the context of the second module", made.map_text(None, DEFINED, labels=labels), made.module_of(), whole, tree=tree)


# ---- what is refused


def refused_places(made):
    """Ranges that end before they begin, and registers without a number."""
    label, unmapped = f"BadLabelRange {VMCTX}", lambda number: f"UnmappedRegister {number}"
    for name, status, line, ranges in [
        ("a range that ends before it begins", 14, label, [reg(5, 4, 2)]),
        ("a second range that ends before it begins", 14, label, [reg(0, 30, 2), cfa(1, 0, 8)]),
        ("a range past the function that ends before it begins", 14, label, [reg(40, 39, 2)]),
        ("a register without a number", 16, unmapped(9), [reg(0, 30, 9)]),
        ("a register without a number on one byte", 16, unmapped(9), [reg(0, 30, 2), reg(29, 30, 9)]),
        ("two registers without a number, out of order", 16, unmapped(8), [reg(10, 30, 9), reg(0, 10, 8)]),
        ("the greatest register", 16, unmapped(GREATEST), [reg(0, 30, GREATEST)]),
        ("a range that ends before it begins behind a register without a number", 14, label, [reg(0, 30, 9), reg(5, 4, 2)]),
    ]:
        made.refused(f"a context with {name}", status, line, within(), labels=[{VMCTX: ranges}])
        made.refused(f"a context without a memory, with {name}", status, line, within(), labels=[{VMCTX: ranges}], memory=None)
    covered = {VMCTX: [reg(0, 30, 9), reg(0, 30, 2)]}
    made.carried("a context with a register without a number that is covered", within(), labels=[covered], contexts=[f"[{EVERYWHERE}]"])
    outside = root(subprogram(to("d", SPECIFICATION)), Entry(BLOCK, low(14), until(25), children=[declared("d")]))
    bad = {VMCTX: [reg(9, 4, 9)]}
    made.refused("ranges of the context of a function that no subprogram begins in", 14, label, outside, functions=[SMALL, SECOND], labels=[ALL, bad])
    made.refused("a context of the second of two subprograms", 14, label, root(subprogram(), Entry(SUBPROGRAM, low(14), LENGTH)), functions=[SMALL, SECOND], labels=[ALL, bad])
    made.refused("a context in a register where the target has none", 16, unmapped(2), within(), labels=[ALL], registers=[])
    unkept = root(subprogram(), Entry(SUBPROGRAM, low(1), LENGTH))
    made.carried("a subprogram in no function, beside one with a context", unkept, labels=[ALL], contexts=[f"[{EVERYWHERE}]"])
    partial = root(Entry(SUBPROGRAM, low(14), LENGTH), tag=0x3C)
    made.refused("a context of a unit that is not carried", 14, label, within(), partial, functions=[SMALL, SECOND], labels=[ALL, bad])


def order_of_refusals(made):
    """The context is placed behind its subprogram's attributes, and before the children."""
    bad, label = BAD_VMCTX, f"BadLabelRange {VMCTX}"
    no_text, cut = (NAME, STRP, u32(9)), [(".debug_loc", u32(5) + u32(6)), (".debug_ranges", u32(5))]
    for name, line, attribute in [
        ("a text", "Read Text .debug_info 16", no_text),
        ("an expression", "Read Expression .debug_info 26", at("10")),
        ("a frame base", "Read Expression .debug_info 26", at("10", FRAME_BASE)),
        ("a location list", "Read LocationList .debug_loc 0", in_list()),
        ("a range list", "Read RangeList .debug_ranges 0", (0x2C, 0x17, bytes(4))),
    ]:
        made.refused(f"{name} of a subprogram before its context", 10, line, root(subprogram(attribute)), sections=cut, labels=[bad])
        made.refused(f"a context before {name} of a child", 14, label, root(subprogram(children=[Entry(VARIABLE, attribute)])), sections=cut, labels=[bad])
        made.refused(f"a context before {name} of an entry behind", 14, label, root(subprogram(to("t")), Entry(0x24, attribute, key="t")), sections=cut, labels=[bad])
        kept = Entry(0x24, attribute, key="t")
        front = root(kept, subprogram(to("t")))
        place = Info(front).labels["t"]
        line = line.replace("info 16", f"info {place}").replace("info 26", f"info {place + 2}")
        made.refused(f"{name} of an entry in front before a context", 10, line, front, sections=cut, labels=[bad])
    made.refused("a context before a value in a child", 14, label, plain("ED 00 04 9F"), labels=[{**BAD_VMCTX, 4: [reg(9, 4, 1)]}])
    made.refused("a value of a subprogram before its context", 14, "BadLabelRange 4", root(subprogram(at("ED 00 04 9F"))), labels=[{**BAD_VMCTX, 4: [reg(9, 4, 1)]}])
    made.refused("a value in a register without a number before a context", 16, "UnmappedRegister 9", root(subprogram(at("ED 00 04 9F"))), labels=[{**BAD_VMCTX, 4: [reg(0, 9, 9)]}])
    made.refused("a context in a register without a number before memory that is not there", 16, "UnmappedRegister 8", plain("ED 00 03"), labels=[{3: [reg(0, 9, 1)], VMCTX: [reg(0, 9, 8)]}], memory=None)
    made.refused("memory of a subprogram that is not there before its context", 15, "InvalidAttributeValue 0", root(subprogram(at("ED 00 03"))), labels=[{3: [reg(0, 9, 1)], VMCTX: [reg(0, 9, 8)]}], memory=None)
    made.refused("a context of the first unit before the line table of the second", 14, label, within(), within(attributes=((0x10, 0x17, u32(90)),)), labels=[bad])
    made.refused("the line table of a unit before its context", 10, "Read LineTable .debug_line 90", within(attributes=((0x10, 0x17, u32(90)),)), labels=[bad])
    made.refused("an entry that cannot be read before a context", 10, f"Read Entry .debug_info {Info(root(subprogram(), Entry(0x24, key='x'))).labels['x']}", root(subprogram(), Entry(0x24, (NAME, 0x7F, b""))), labels=[bad])
    made.refused("a context of each of two units", 14, label, within(), within(), labels=[bad])
    whole, bare = made.module_of(within()), made.module_of()
    made.all_refused("a context before a memory of the second module", 14, label, [whole, bare], [None, TOO_FAR], labels=[bad])
    made.all_refused("a memory of the first module before its context", *REFUSED, [whole, bare], [TOO_FAR, None], labels=[bad])
    made.all_refused("a context of the second module", 14, label, [whole, whole], [None, None], labels=[ALL, bad])
    made.all_refused("a context of the second module in a register without a number", 16, "UnmappedRegister 9", [whole, whole], [None, None], labels=[ALL, {VMCTX: [reg(0, 1, 9)]}])
