"""Cases of pointers and references, which become wrappers: their entries, those around them, and what their attributes become."""

import os

import own_unit_cases
from entry_cases import BLOCK, DATA1, LENGTH, LINES, MEMBER, NAME, NAMESPACE, PARAMETER, REF_ADDR, STRING, STRUCTURE, SUBPROGRAM, TYPE, VARIABLE
from entry_cases import Entry, Label, base_type, pairs, root, subprogram, to
from listed_trees import context, wanted_tree, wrapped
from location_cases import BYTE_SIZE, DEFINED, FRAME_BASE, VMCTX, at, in_list, loc, reg, variable, with_values
from make_modules import u32
from range_cases import LISTED, bodies, for_bytes, low, low_8, told_of, within
from worked_texts import WRAPPER_TEXT

POINTER, REFERENCE, CONST, SPECIFICATION, ORIGIN = 0x0F, 0x10, 0x26, 0x47, 0x31


class Cases(own_unit_cases.Cases):
    """Cases of which the carried units are given by hand, line by line."""

    def tree(self, name, units, lines, **told):
        """The lines of the carried units of one module, which are in order units 1 and so on of the output."""
        self.carried(name, *units, tree=wanted_tree([None, *lines]), **{"labels": [{}], **told})


def pointer(target, key, *attributes, **more):
    return Entry(POINTER, to(target), *attributes, key=key, **more)


def reference(target, key, *attributes, **more):
    return Entry(REFERENCE, to(target), *attributes, key=key, **more)


def naming(keys, *types, **more):
    """A unit of a subprogram with a variable of each type, and types."""
    return root(subprogram(children=[Entry(VARIABLE, to(key)) for key in keys]), *types, **more)


def lines_of(keys, *types, own=0):
    """What becomes of such a unit: the lines of its types are given."""
    return ["0 11", "1 2e", context(2, own=own), *(f"2 34 49>{key}" for key in keys), *types]


CHAR, INT = base_type(b"char", "char"), base_type(b"int", "int")
CHAR_LINE, INT_LINE = "1 24 =char 03:char", "1 24 =int 03:int"


def wrapper_cases(cases, module, map_of):
    """`module` makes a module of abbreviations, units, a front and further sections; `map_of` makes a map of modules."""
    made = Cases(cases, module, map_of)
    worked_cases(made)
    circle_cases(made)
    place_cases(made)
    child_cases(made)
    target_cases(made)
    unit_cases(made)
    attribute_cases(made)
    in_force_cases(made)
    module_cases(made)
    compiled_cases(made)
    return made


# ---- worked examples


def worked_cases(made):
    """Worked examples: the type of a pointer is a constant character, the pointer itself, and a constant of itself."""
    const = Entry(CONST, to("char"), key="c")
    lines = lines_of("p", *wrapped(1, "p", "const char", "c"), "1 26 =c 49>char", CHAR_LINE)
    made.tree("a pointer to a constant character", [naming("p", pointer("c", "p"), const, CHAR)], [lines])
    itself = root(subprogram(to("p")), pointer("p", "p"))
    made.tree("a pointer to itself", [itself], [["0 11", "1 2e 49>p", context(2), *wrapped(1, "p", "??", "p")]])
    made.carried("a pointer to itself, of which the whole text is known", itself, labels=[{}], memory=None, front=WRAPPER_TEXT)
    of_itself = naming("p", pointer("c", "p"), Entry(CONST, to("c"), key="c"))
    made.tree("a pointer to a constant of itself", [of_itself], [lines_of("p", *wrapped(1, "p", "const ??", "c"), "1 26 =c 49>c")])
    refers = wrapped(1, "r", "char", "char", kind="Ref")
    made.tree("a reference to a character", [naming("r", reference("char", "r"), CHAR)], [lines_of("r", *refers, CHAR_LINE)])
    made.tree("a pointer that nothing names", [naming([], pointer("char", "p"), CHAR)], [lines_of([])])


# ---- pointers beside and below others


def circle_cases(made):
    """Pointers to pointers, and pointers to one another: what refers to one names its wrapper."""
    two = naming("p", pointer("q", "p"), pointer("char", "q"), CHAR)
    made.tree("a pointer to a pointer", [two], [lines_of("p", *wrapped(1, "p", "char*", "q"), *wrapped(1, "q", "char", "char"), CHAR_LINE)])
    back = naming("p", CHAR, pointer("char", "q"), pointer("q", "p"))
    made.tree("a pointer to a pointer in front of it", [back], [lines_of("p", CHAR_LINE, *wrapped(1, "q", "char", "char"), *wrapped(1, "p", "char*", "q"))])
    mixed = naming("p", pointer("r", "p"), reference("q", "r"), pointer("char", "q"), CHAR)
    lines = [*wrapped(1, "p", "char*&", "r"), *wrapped(1, "r", "char*", "q", kind="Ref"), *wrapped(1, "q", "char", "char"), CHAR_LINE]
    made.tree("a pointer to a reference to a pointer", [mixed], [lines_of("p", *lines)])
    one_another = naming("pq", pointer("q", "p"), pointer("p", "q"))
    made.tree("two pointers to one another", [one_another], [lines_of("pq", *wrapped(1, "p", "??*", "q"), *wrapped(1, "q", "??*", "p"))])
    itself = naming("r", reference("r", "r"))
    made.tree("a reference to itself", [itself], [lines_of("r", *wrapped(1, "r", "??", "r", kind="Ref"))])
    same = naming("pq", pointer("char", "p"), pointer("char", "q"), CHAR)
    made.tree("two pointers to one type", [same], [lines_of("pq", *wrapped(1, "p", "char", "char"), *wrapped(1, "q", "char", "char"), CHAR_LINE)])
    listed = Entry(STRUCTURE, (NAME, STRING, b"list\0"), key="s", children=[Entry(MEMBER, to("p"))])
    lines = [*wrapped(1, "p", "list", "s"), "1 13 =s 03:list", "2 0d 49>p"]
    made.tree("a structure that points to itself", [naming("s", pointer("s", "p"), listed)], [lines_of("s", *lines)])


def place_cases(made):
    """Where pointers stand: the four entries have the parent of the wrapped one."""
    named = Entry(VARIABLE, to("p"))
    inside = lambda depth: wrapped(depth, "p", "char", "char")
    of_subprogram = root(subprogram(children=[named, pointer("char", "p"), named]), CHAR)
    made.tree("a pointer in a subprogram", [of_subprogram], [["0 11", "1 2e", context(2), "2 34 49>p", *inside(2), "2 34 49>p", CHAR_LINE]])
    first = root(subprogram(children=[pointer("char", "p"), named]), CHAR)
    made.tree("a pointer as the first child of a subprogram", [first], [["0 11", "1 2e", context(2), *inside(2), "2 34 49>p", CHAR_LINE]])
    of_block = root(subprogram(children=[Entry(BLOCK, children=[pointer("char", "p"), named])]), CHAR)
    made.tree("a pointer in a block", [of_block], [["0 11", "1 2e", context(2), "2 0b", *inside(3), "3 34 49>p", CHAR_LINE]])
    of_name = naming("p", Entry(NAMESPACE, children=[CHAR, pointer("char", "p")]))
    made.tree("a pointer in a namespace", [of_name], [lines_of("p", "1 39", "2 24 =char 03:char", *inside(2))])
    of_structure = naming("p", Entry(STRUCTURE, children=[Entry(MEMBER, to("p")), pointer("char", "p"), Entry(MEMBER, to("char"))]), CHAR)
    lines = ["1 13", "2 0d 49>p", *inside(2), "2 0d 49>char", CHAR_LINE]
    made.tree("a pointer between the members of a structure", [of_structure], [lines_of("p", *lines)])
    front = root(pointer("char", "p"), CHAR, subprogram(children=[named]))
    made.tree("a pointer in front of all others", [front], [["0 11", *inside(1), CHAR_LINE, "1 2e", context(2), "2 34 49>p"]])
    behind = naming("p", CHAR, Entry(NAMESPACE, children=[Entry(NAMESPACE, children=[pointer("char", "p")])]))
    made.tree("a pointer behind all others, at a depth", [behind], [lines_of("p", CHAR_LINE, "1 39", "2 39", *inside(3))])


def child_cases(made):
    """Children of pointers, which stand behind the wrapper's own, and pointers among them."""
    parameter = Entry(PARAMETER, to("int"))
    of_two = pointer("char", "p", children=[parameter, Entry(MEMBER, (NAME, STRING, b"m\0"))])
    inner = ["2 05 49>int", "2 0d 03:m"]
    made.tree("a pointer with children", [naming("p", of_two, CHAR, INT)], [lines_of("p", *wrapped(1, "p", "char", "char", inner), CHAR_LINE, INT_LINE)])
    deep = pointer("char", "p", children=[Entry(BLOCK, children=[Entry(BLOCK, children=[parameter])]), parameter])
    inner = ["2 0b", "3 0b", "4 05 49>int", "2 05 49>int"]
    made.tree("a pointer with children of children", [naming("p", deep, CHAR, INT)], [lines_of("p", *wrapped(1, "p", "char", "char", inner), CHAR_LINE, INT_LINE)])
    unkept = pointer("char", "p", children=[base_type(b"x"), parameter, pointer("char", "q")])
    made.tree("a pointer with children of which one is kept", [naming("p", unkept, CHAR, INT)], [lines_of("p", *wrapped(1, "p", "char", "char", ["2 05 49>int"]), CHAR_LINE, INT_LINE)])
    nested = pointer("q", "p", children=[pointer("char", "q")])
    inner = wrapped(2, "q", "char", "char")
    made.tree("a pointer to a pointer in it", [naming("p", nested, CHAR)], [lines_of("p", *wrapped(1, "p", "char*", "q", inner), CHAR_LINE)])
    three = pointer("q", "p", children=[parameter, reference("s", "q", children=[pointer("char", "s", children=[parameter]), parameter]), parameter])
    inner = wrapped(3, "s", "char", "char", ["4 05 49>int"])
    inner = wrapped(2, "q", "char*", "s", [*inner, "3 05 49>int"], kind="Ref")
    lines = wrapped(1, "p", "char*&", "q", ["2 05 49>int", *inner, "2 05 49>int"])
    made.tree("pointers three deep, with children between", [naming("p", three, CHAR, INT)], [lines_of("p", *lines, CHAR_LINE, INT_LINE)])
    last = root(CHAR, subprogram(children=[Entry(VARIABLE, to("q"))]), pointer("char", "p", children=[pointer("p", "q")]))
    lines = ["0 11", CHAR_LINE, "1 2e", context(2), "2 34 49>q", *wrapped(1, "p", "char", "char", wrapped(2, "q", "char*", "p"))]
    made.tree("a pointer that is kept for a pointer in it", [last], [lines])
    deep = pointer("char", "0")
    for depth in range(1, 40):
        deep = pointer(f"{depth - 1}", f"{depth}", children=[deep])
    made.carried("pointers forty deep", naming(["39"], deep, CHAR), labels=[{}], wrappers=[f"Ptr char{'*' * depth}" for depth in range(39, -1, -1)])


# ---- what they go to, and what names them


def target_cases(made):
    """Types that are there, that are not, and that are no reference within the unit."""
    none, unknown = [lines_of("p", *wrapped(1, "p", "??"))], lambda *others: [lines_of("p", *wrapped(1, "p", "??"), *others)]
    typed = lambda *attributes, others=(): [naming("p", Entry(POINTER, *attributes, key="p"), *others)]
    made.tree("a pointer without a type", typed(), none)
    made.tree("a reference without a type", [naming("r", Entry(REFERENCE, key="r"))], [lines_of("r", *wrapped(1, "r", "??", kind="Ref"))])
    made.tree("a pointer to a place at which no entry begins", typed((TYPE, 0x13, u32(17))), none)
    made.tree("a pointer to the header of its unit", typed((TYPE, 0x13, u32(0))), none)
    made.tree("a pointer past its unit", typed((TYPE, 0x13, u32(0xFFFFFFFF))), none)
    for name, form, value in [("a number", DATA1, b"\x10"), ("a text", STRING, b"char\0"), ("a flag", 0x19, b""), ("an expression", 0x18, b"\x01\x30"), ("a signature", 0x20, bytes(8))]:
        made.tree(f"a pointer whose type is {name}", typed((TYPE, form, value)), none)
    by_place = (TYPE, REF_ADDR, Label("char", whole=True))
    made.tree("a pointer whose type is named by its place in the section", typed(by_place, others=[CHAR]), unknown(CHAR_LINE))
    made.tree("a pointer with two types", typed(to("int"), to("char"), others=[CHAR, INT]), [lines_of("p", *wrapped(1, "p", "int", "int"), CHAR_LINE, INT_LINE)])
    made.tree("a pointer with two types, of which the first is named by its place", typed(by_place, to("int"), others=[CHAR, INT]), unknown(CHAR_LINE, INT_LINE))
    made.tree("a pointer with two types, of which the first is nowhere", typed((TYPE, 0x13, u32(9)), to("char"), others=[CHAR]), unknown(CHAR_LINE))
    for form, size in ((0x11, 1), (0x12, 2), (0x13, 4), (0x14, 8), (0x15, 1)):
        entries = typed((TYPE, form, Label("char", size)), others=[CHAR])
        made.tree(f"a pointer to a type by form {form:#x}", entries, [lines_of("p", *wrapped(1, "p", "char", "char"), CHAR_LINE)])
        front = root(CHAR, pointer("char", "p"), subprogram((TYPE, form, Label("p", size))))
        lines = ["0 11", CHAR_LINE, *wrapped(1, "p", "char", "char"), "1 2e 49>p", context(2)]
        made.tree(f"a pointer that is named by form {form:#x}", [front], [lines])
    of_root = root(subprogram(children=[Entry(VARIABLE, to("p"))]), Entry(POINTER, (TYPE, 0x13, u32(11)), key="p"), attributes=(LINES, (NAME, STRING, b"u\0")))
    lines = ["0 11 =u 03:u", "1 2e", context(2), "2 34 49>p", *wrapped(1, "p", "u", "u")]
    made.tree("a pointer to the root", [of_root], [lines])
    to_subprogram = root(Entry(SUBPROGRAM, low(2), LENGTH, (NAME, STRING, b"f\0"), key="f", children=[Entry(VARIABLE, to("p"))]), pointer("f", "p"))
    made.tree("a pointer to a subprogram", [to_subprogram], [["0 11", "1 2e =f 03:f", context(2), "2 34 49>p", *wrapped(1, "p", "f", "f")]])
    made.tree("a pointer to a variable", [naming("p", pointer("v", "p"), Entry(VARIABLE, key="v"))], [lines_of("p", *wrapped(1, "p", "??", "v"), "1 34 =v")])
    names = [(name, REF_ADDR, Label("p", whole=True)) for name in (SPECIFICATION, 0x18)] + [to("p", name) for name in (TYPE, ORIGIN, 0x64)]
    every = root(pointer("char", "p"), CHAR, subprogram(children=[Entry(VARIABLE, *names)]))
    lines = ["0 11", *wrapped(1, "p", "char", "char"), CHAR_LINE, "1 2e", context(2), "2 34 47>>p 18>>p 49>p 31>p 64>p"]
    made.tree("a pointer that is named by each kind of reference", [every], [lines])


def unit_cases(made):
    """Pointers of several units, of each version, and of each target."""
    by_place = lambda key: (TYPE, REF_ADDR, Label(key, whole=True))
    first = root(subprogram(by_place("p")))
    second = naming([], pointer("char", "p"), CHAR)
    lines = [["0 11", "1 2e 49>>p", context(2)], lines_of([], *wrapped(1, "p", "char", "char"), CHAR_LINE)]
    made.tree("a pointer that a unit in front of its own names", [first, second], lines)
    made.tree("a pointer that a unit behind its own names", [second, first], lines[::-1])
    alone = root(pointer("char", "p"), CHAR, attributes=())
    made.tree("a pointer of a unit that is kept for it", [first, alone], [lines[0], ["0 11", *wrapped(1, "p", "char", "char"), CHAR_LINE]])
    far = root(subprogram(by_place("p")), Entry(POINTER, by_place("char"), key="p"))
    made.tree("a pointer to a type of another unit", [far, root(CHAR, attributes=())], [["0 11", "1 2e 49>>p", context(2), *wrapped(1, "p", "??")], ["0 11", CHAR_LINE]])
    partial = root(pointer("char", "p"), CHAR, attributes=(), tag=0x3C)
    made.tree("a pointer of a unit that is not carried", [first, partial], [["0 11", "1 2e", context(2)]])
    nowhere = root(subprogram(by_place("p")), Entry(POINTER, by_place("char"), key="p")), root(CHAR, attributes=(), tag=0x3C)
    made.tree("a pointer to a type of a unit that is not carried", nowhere, [["0 11", "1 2e 49>>p", context(2), *wrapped(1, "p", "??")]])
    both = [root(subprogram(by_place("q")), Entry(POINTER, by_place("q"), key="p")), root(subprogram(by_place("p")), Entry(POINTER, by_place("p"), key="q"))]
    lines = [["0 11", "1 2e 49>>q", context(2), *wrapped(1, "p", "??")], ["0 11", "1 2e 49>>p", context(2), *wrapped(1, "q", "??")]]
    made.tree("pointers of two units to one another", both, lines)
    for version in (2, 3, 4, 5):
        for size in (4, 8):
            begin = low(2) if size == 4 else low_8(2)
            unit = root(Entry(SUBPROGRAM, begin, LENGTH, to("p")), pointer("char", "p"), CHAR, attributes=())
            lines = ["0 11", "1 2e 49>p", context(2), *wrapped(1, "p", "char", "char"), CHAR_LINE]
            made.tree(f"a pointer in version {version} with addresses of {size} bytes", [(unit, version, size)], [lines])
    for target in own_unit_cases.TARGETS:
        name = f"{'big' if target['big_endian'] else 'little'} endian, addresses of {target['pointer_bytes']} bytes"
        units = first, naming("r", reference("p", "r"), pointer("char", "p", children=[Entry(PARAMETER, to("char"))]), CHAR)
        made.carried(f"pointers, {name}", *units, labels=[{VMCTX: [reg(0, 30, 2)]}], target=target)


# ---- attributes of pointers


def attribute_cases(made):
    """What else a pointer says is read, and nothing becomes of it but that it keeps what it names."""
    plain = [lines_of("p", *wrapped(1, "p", "char", "char"), CHAR_LINE)]
    texts = own_unit_cases.CARRIED_WITHOUT + ["WebAssemblyPtrWrapper<char>", "T", "__ptr", "resolve_mem", "ptr", "operator*", "operator->", "char"]
    others = [(NAME, STRING, b"own\0"), (BYTE_SIZE, DATA1, b"\x04"), (0x3A, DATA1, b"\x01"), (0x3B, DATA1, b"\x07"), (0x2100, 0x0A, b"\x02ab"), (0x3F, 0x19, b"")]
    made.tree("a pointer with a name, a size, a place in the source, a block and a flag", [naming("p", pointer("char", "p", *others), CHAR)], plain, memory=None, texts=texts)
    code = [at("31"), at("ED 00 03 9F", BYTE_SIZE), at("91 12", 0x50), at("50", 0x4F), at("ED 00 03 9F", FRAME_BASE)]
    made.tree("a pointer with expressions", [naming("p", pointer("char", "p", *code), CHAR)], plain)
    listed = pointer("char", "p", in_list(), LISTED, (0x2C, 0x17, bytes(4)))
    sections = [loc((5, 6, "31"), (5, 6, "ED 00 03 9F")), pairs((5, 6), (10, 11))]
    made.tree("a pointer with a location list and range lists", [naming("p", listed, CHAR)], plain, sections=sections)
    bounded = pointer("char", "p", low(5), for_bytes(4), (0x52, 0x01, u32(5)))
    made.tree("a pointer with bounds and an address", [naming("p", bounded, CHAR)], plain)
    made.tree("a pointer with a name that is no UTF-8", [naming("p", pointer("char", "p", (NAME, STRING, b"\xFF\0")), CHAR)], plain)
    keeps = [naming("p", pointer("char", "p", to("int", SPECIFICATION), (ORIGIN, REF_ADDR, Label("x", whole=True))), CHAR, INT), root(base_type(b"x", "x"), attributes=())]
    made.tree("a pointer that names other entries", keeps, [lines_of("p", *wrapped(1, "p", "char", "char"), CHAR_LINE, INT_LINE), ["0 11", "1 24 03:x"]])
    dropped = pointer("char", "p", to("int", 0x01), (0x43, 0x17, u32(9)), (0x2137, 0x18, b"\x01\x10"))
    made.tree("a pointer with attributes that go", [naming("p", dropped, CHAR, INT)], plain)
    shared = [naming("p", pointer("char", "p"), CHAR, *(base_type(name) for name in (b"x", b"y")))]
    same = root(subprogram((NAME, STRING, b"T\0"), (0x6E, STRING, b"operator*\0"), (0x25, STRING, b"WebAssemblyPtrWrapper<char>\0"), to("p")), pointer("char", "p"), CHAR)
    texts = ["T", "operator*", "WebAssemblyPtrWrapper<char>", "__vmctx", "__ptr", "resolve_mem", "ptr", "operator->", "char"]
    made.carried("texts of a wrapper that the input has", same, labels=[{}], memory=None, texts=own_unit_cases.WITHOUT_MEMORY + texts)
    made.tree("a pointer beside types that are not kept", shared, plain)
    unmapped = {3: [reg(0, 30, 9)], 4: [reg(9, 4, 1)]}
    unbuilt = pointer("char", "p", at("ED 00 03 9F"), at("ED 00 04 9F", 0x50), at("ED 00 03", 0x2A), in_list(name=0x19))
    inside = within(Entry(VARIABLE, to("p")), unbuilt, CHAR)
    lines = ["0 11", "1 2e", context(2), "2 34 49>p", *wrapped(2, "p", "char", "char"), "2 24 =char 03:char"]
    sections = [loc((5, 6, "ED 00 04 9F"), (5, 6, "ED 00 03"))]
    made.tree("a pointer whose expressions could not be built", [inside], [lines], labels=[unmapped], memory=None, sections=sections)


def in_force_cases(made):
    """A scope and a frame base of a pointer are in force at its children."""
    whole = {3: [reg(0, 30, 1)], VMCTX: [reg(0, 30, 2)]}
    named = Entry(VARIABLE, to("p"))
    inner = pointer("char", "p", low(5), for_bytes(5), at("ED 00 03 9F", FRAME_BASE), children=[variable("ED 00 03 9F"), variable("91 12 9F")])
    everywhere = context(2, "0-30 5e")
    lines = ["0 11", "1 2e", everywhere, "2 34 49>p", *wrapped(2, "p", "char", "char", ["3 34 02[5-20 5c]", "3 34 02[5-20 7c0023129f]"]), "2 24 =char 03:char"]
    made.tree("a pointer with bounds and a frame base", [within(named, inner, CHAR)], [lines], labels=[{**whole, 3: [reg(0, 20, 1)]}])
    listed = pointer("char", "p", LISTED, children=[variable("ED 00 03 9F")])
    lines = ["0 11", "1 2e", everywhere, "2 34 49>p", *wrapped(2, "p", "char", "char", ["3 34 02[5-15 5c 15-20 5c]"]), "2 24 =char 03:char"]
    made.tree("a pointer with a range list", [within(named, listed, CHAR)], [lines], labels=[{**whole, 3: [reg(0, 15, 1), reg(15, 20, 5)]}], sections=[pairs((5, 6), (10, 11))])


# ---- modules


def module_cases(made):
    """Wrappers of two modules, and names of what resolves an address."""
    lines = lambda own: lines_of("p", *wrapped(1, "p", "char", "char", own=own), CHAR_LINE, own=own)
    whole = made.module_of(naming("p", pointer("char", "p"), CHAR))
    tree = wanted_tree([None, lines(0), None, lines(2)])
    made.cases.carried("pointers of two modules", made.map_text(DEFINED, None), whole, whole, tree=tree)
    tree = wanted_tree([None, None, lines(1)])
    made.cases.carried("a pointer of the second module", made.map_text(None, {"imported": [0, 0]}), made.module_of(), whole, tree=tree)
    for _, memory, _ in own_unit_cases.MEMORIES:
        made.cases.carried(f"a pointer with the memory {memory}", made.map_text(memory), whole, tree=wanted_tree([None, lines(0)]))
    for name in ["", "r", "ptr", "set_mem", "größe", "a b"]:
        tree = wanted_tree([None, lines_of("p", *wrapped(1, "p", "char", "char", resolve=name), CHAR_LINE)])
        made.cases.carried(f"an address that `{name}` resolves", made.map_text(None, names=("set_mem", name)), whole, tree=tree)


def compiled_cases(made):
    """A compiler's modules of C++ with methods, references, and pointers to many types, which stand in `compiled/pointers.cc`. (clang -O0
    -gdwarf-4 and -O2 -gdwarf-5, wasm-ld --export-all.)"""
    of_class = ["Ptr const char", "Ptr Node", "Ref Node"]
    of_methods, of_function = ["Ptr const Node", "Ptr const int", "Ptr const Node"], ["Ptr char*", "Ptr char"]
    names = {4: [*of_class, "Ptr Node", *of_methods, "Ptr const int[]", "Ptr ??", *of_function], 5: [*of_class, *of_methods, "Ptr const int[]", *of_function, "Ptr ??"]}
    contexts = {4: ["[0-678 5e]", "[0-362 5e]", "[0-58 5e]"], 5: ["[0-282 5e]", "[0-242 5e]"]}
    for version in (4, 5):
        with open(os.path.join(os.path.dirname(__file__), "compiled", f"pointers_{version}.hex")) as file:
            compiled = bytes.fromhex(file.read())
        for name, moved in (("in order", 0), ("of which a third was moved to the front", 1)):
            functions = [with_values(told_of(symbol, start, end, moved)) for symbol, (start, end) in enumerate(bodies(compiled))]
            text = made.map_of({"memory": DEFINED, "functions": functions}, registers=[[number, number] for number in range(40)])
            made.cases.carried(f"pointers of a compiler's module of version {version}, with code {name}", text, compiled, wrappers=names[version], contexts=contexts[version])
