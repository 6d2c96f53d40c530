"""Cases of object pointers: which parameters are such, by what their function names or by what they look like, and what becomes of them
and of their functions."""

from entry_cases import BLOCK, DATA1, LENGTH, NAME, NAMESPACE, PARAMETER, REF_ADDR, STRING, STRP, STRUCTURE, SUBPROGRAM, TYPE, VARIABLE, Entry, Info, Label
from entry_cases import root, subprogram, to
from listed_trees import context, wanted_tree, wrapped
from location_cases import VMCTX, at, reg
from make_modules import u32
from own_unit_cases import TARGETS
from range_cases import low
from wrapper_cases import CHAR, CHAR_LINE, CONST, ORIGIN, SPECIFICATION, Cases, pointer, reference

ARTIFICIAL, OBJECT_POINTER, ENTRY_POINT, INLINED, SUBROUTINE, CALL_SITE = 0x34, 0x64, 0x03, 0x1D, 0x15, 0x48
FLAG, FLAG_PRESENT = 0x0C, 0x19
MARK = (ARTIFICIAL, FLAG_PRESENT, b"")


def named(name):
    return (NAME, STRING, name.encode() + b"\0")


def parameter(*attributes, key=None, children=()):
    return Entry(PARAMETER, *attributes, key=key, children=children)


def this(*more):
    """A parameter that looks like an object pointer."""
    return parameter(MARK, named("this"), to("p"), *more)


# What stands behind functions: a pointer, a reference and a constant of the pointer.
TYPES = [pointer("char", "p"), CHAR, reference("char", "r"), Entry(CONST, to("p"), key="c")]
KEPT = [Entry(VARIABLE, to(key)) for key in "prc"]
TYPE_LINES = [*wrapped(1, "p", "char", "char"), CHAR_LINE, *wrapped(1, "r", "char", "char", kind="Ref"), "1 26 =c 49>p"]


def unit(*parameters, attributes=(), tag=None):
    """A subprogram with parameters, or one with an entry of another tag that has them, and types that are kept."""
    inside = [*KEPT, Entry(tag, *attributes, children=parameters)] if tag else [*parameters, *KEPT]
    return root(subprogram(*(() if tag else attributes), children=inside, key="f"), *TYPES)


def lines(*told, attributes="", tag=None):
    """The lines of such a unit, of whose parameters it is given what follows the tag."""
    depth, said = 3 if tag else 2, f" {attributes}" if attributes else ""
    parameters = [f"{depth} 05{' ' * bool(words)}{words}" for words in told]
    kept = ["2 34 49>p", "2 34 49>r", "2 34 49>c"]
    if tag:
        return ["0 11", "1 2e =f", context(2), *kept, f"2 {tag:02x}{said}", *parameters, *TYPE_LINES]
    return ["0 11", f"1 2e =f{said}", context(2), *parameters, *kept, *TYPE_LINES]


def object_pointer_cases(cases, module, map_of):
    """`module` makes a module of abbreviations, units, a front and further sections; `map_of` makes a map of modules."""
    made = Cases(cases, module, map_of)
    worked_cases(made)
    look_cases(made)
    name_cases(made)
    place_cases(made)
    function_cases(made)
    by_name_cases(made)
    stays_cases(made)
    attribute_cases(made)
    target_cases(made)
    refusal_cases(made)
    return cases


def worked_cases(made):
    """A worked example: the first parameter of a subprogram is artificial, is named `this` and points to something."""
    of_pointer = root(subprogram(children=[this()]), pointer("char", "p"), CHAR)
    made.tree("a first parameter that looks like `this`", [of_pointer], [["0 11", "1 2e", context(2), "2 05 03:__this 49>p", *wrapped(1, "p", "char", "char"), CHAR_LINE]])
    text = b"".join(piece + b"\0" for piece in (b"f", b"this", b"char"))
    by_offset = root(subprogram((NAME, STRP, u32(0)), children=[parameter((NAME, STRP, u32(2)), MARK, to("p"))]), pointer("char", "p"), CHAR)
    texts = ["f", "__vmctx", "__this", "WebAssemblyPtrWrapper<char>", "T", "__ptr", "resolve_mem", "ptr", "operator*", "operator->", "char"]
    wanted = ["WasmtimeModuleSyntheticUnit", "wasmtime", "u8", "u8*", "WasmtimeVMContext", "set_mem", "set", "WasmtimeVMContext*", "WebAssemblyPtr", *texts]
    made.carried("the texts of a function with a `this`", by_offset, sections=[(".debug_str", text)], labels=[{}], memory=None, texts=wanted)


# ---- what a parameter looks like


def look_cases(made):
    """Marks, names and types of first parameters."""
    one = lambda name, told, *attributes: made.tree(f"a first parameter {name}", [unit(parameter(*attributes))], [lines(told)])
    one("without a name", "49>p", MARK, to("p"))
    one("of another name", "34:true 03:that 49>p", MARK, named("that"), to("p"))
    one("of an empty name", "34:true 03: 49>p", MARK, named(""), to("p"))
    for name in ("This", "__this", "thi", "thiss", "self"):
        one(f"named `{name}`", f"34:true 03:{name} 49>p", MARK, named(name), to("p"))
    one("that is not artificial", "03:this 49>p", named("this"), to("p"))
    one("that is artificial by a flag", "03:__this 49>p", (ARTIFICIAL, FLAG, b"\1"), named("this"), to("p"))
    one("that is artificial by another flag", "03:__this 49>p", (ARTIFICIAL, FLAG, b"\x80"), named("this"), to("p"))
    one("that is artificial by a flag that is not set", "34:false 03:this 49>p", (ARTIFICIAL, FLAG, b"\0"), named("this"), to("p"))
    one("that is artificial by a number", "34:1 03:this 49>p", (ARTIFICIAL, DATA1, b"\1"), named("this"), to("p"))
    one("that is artificial twice", "03:__this 49>p", MARK, named("this"), (ARTIFICIAL, FLAG, b"\1"), to("p"))
    one("that is artificial, and then not", "03:__this 49>p", MARK, named("this"), (ARTIFICIAL, FLAG, b"\0"), to("p"))
    one("that is not artificial, and then is", "34:true 03:this 49>p", (ARTIFICIAL, FLAG, b"\0"), named("this"), MARK, to("p"))
    one("that is artificial by a flag and by a number", "03:__this 49>p", MARK, (ARTIFICIAL, DATA1, b"\1"), named("this"), to("p"))
    one("that is artificial by a number and by a flag", "34:true 03:this 49>p", (ARTIFICIAL, DATA1, b"\1"), MARK, named("this"), to("p"))
    one("of a reference", "34:true 03:this 49>r", MARK, named("this"), to("r"))
    one("of a constant of a pointer", "34:true 03:this 49>c", MARK, named("this"), to("c"))
    one("of a character", "34:true 03:this 49>char", MARK, named("this"), to("char"))
    one("without a type", "34:true 03:this", MARK, named("this"))
    one("of a type that is nowhere", "34:true 03:this", MARK, named("this"), (TYPE, 0x13, u32(9)))
    one("of a pointer by its place in the section", "34:true 03:this 49>>p", MARK, named("this"), (TYPE, REF_ADDR, Label("p", whole=True)))
    one("of two types, of which the first is a pointer", "03:__this 49>r", MARK, named("this"), to("p"), to("r"))
    one("of two types, of which the second is a pointer", "34:true 03:this 49>p", MARK, named("this"), to("r"), to("p"))
    far = [root(subprogram(children=[parameter(MARK, named("this"), (TYPE, REF_ADDR, Label("p", whole=True)))])), root(pointer("char", "p"), CHAR, attributes=())]
    other = ["0 11", *wrapped(1, "p", "char", "char"), CHAR_LINE]
    made.tree("a first parameter of a pointer of another unit", far, [["0 11", "1 2e", context(2), "2 05 34:true 03:this 49>>p"], other])
    for form, size in ((0x11, 1), (0x12, 2), (0x14, 8), (0x15, 1)):
        one(f"of a pointer by form {form:#x}", "03:__this 49>p", MARK, named("this"), (TYPE, form, Label("p", size)))


def name_cases(made):
    """Names by each form, two names, and names that are no texts."""
    sections = [(".debug_str", b"this\0"), (".debug_line_str", b"a\0this\0"), (".debug_str_offsets", bytes(8) + u32(0) + u32(2))]
    for form, value, told in [
        (0x0E, u32(0), "03:__this 49>p"),
        (0x0E, u32(2), "34:true 03:is 49>p"),
        (0x1F, u32(2), "03:__this 49>p"),
        (0x1F, u32(0), "34:true 03:a 49>p"),
        (0x1A, b"\0", "03:__this 49>p"),
        (0x1A, b"\1", "34:true 03:is 49>p"),
        (0x26, b"\0\0", "03:__this 49>p"),
        (0x28, u32(1), "34:true 03:is 49>p"),
    ]:
        made.tree(f"a `this` by form {form:#x}, {told}", [(unit(parameter(MARK, (NAME, form, value), to("p"))), 5, 4)], [lines(told)], sections=sections)
    one = lambda name, told, *attributes: made.tree(f"a first parameter {name}", [unit(parameter(*attributes, to("p")))], [lines(told)])
    one("named twice, first `this`", "03:__that 49>p", MARK, named("this"), named("that"))
    one("named twice, then `this`", "34:true 03:this 49>p", MARK, named("that"), named("this"))
    one("named `this` twice", "03:__this 49>p", MARK, named("this"), named("this"))
    one("whose name is a number", "03:65 49>p", MARK, (NAME, DATA1, b"A"))
    one("whose name is a number, and then another", "03:__that 49>p", MARK, (NAME, DATA1, b"A"), named("that"))
    one("whose name is `this`, and then a number", "03:65 49>p", MARK, named("this"), (NAME, DATA1, b"A"))
    one("whose name is `this`, and then a reference that goes", "03:__this 49>p", MARK, named("this"), (NAME, 0x13, u32(9)))
    one("with a text under another name", "03:__this 25:this 49>p", MARK, named("this"), (0x25, STRING, b"this\0"))


def place_cases(made):
    """Parameters that are first among those of their function, and others."""
    marked = "34:true 03:this 49>p"
    made.tree("a second parameter that looks like `this`", [unit(parameter(to("p")), this())], [lines("49>p", marked)])
    made.tree("two parameters that look like `this`", [unit(this(), this())], [lines("03:__this 49>p", marked)])
    behind = root(subprogram(children=[Entry(VARIABLE, MARK, named("this"), to("p")), Entry(BLOCK, children=[this()]), this(), Entry(0x18), this()]), pointer("char", "p"), CHAR)
    told = ["0 11", "1 2e", context(2), f"2 34 {marked}", "2 0b", f"3 05 {marked}", "2 05 03:__this 49>p", "2 18", f"2 05 {marked}", *wrapped(1, "p", "char", "char"), CHAR_LINE]
    made.tree("a parameter that is first behind other children", [behind], [told])
    first = root(subprogram(children=[parameter(to("char")), Entry(INLINED, children=[this()]), this()]), pointer("char", "p"), CHAR)
    told = ["0 11", "1 2e", context(2), "2 05 49>char", "2 1d", "3 05 03:__this 49>p", f"2 05 {marked}", *wrapped(1, "p", "char", "char"), CHAR_LINE]
    made.tree("a first parameter of an inlined function between two of the outer one", [first], [told])
    inner = root(subprogram(children=[parameter(MARK, named("this"), to("p"), children=[this()])]), pointer("char", "p"), CHAR)
    told = ["0 11", "1 2e", context(2), "2 05 03:__this 49>p", f"3 05 {marked}", *wrapped(1, "p", "char", "char"), CHAR_LINE]
    made.tree("a parameter of a parameter", [inner], [told])


def function_cases(made):
    """Parents of each tag, with a first parameter that looks like `this`, and with one that they name."""
    for tag in (ENTRY_POINT, INLINED, BLOCK, SUBROUTINE, CALL_SITE, STRUCTURE, NAMESPACE, VARIABLE):
        is_function = tag in (ENTRY_POINT, INLINED)
        keeps = Entry(VARIABLE, to("x", ORIGIN))
        inside = Entry(tag, (OBJECT_POINTER, 0x13, Label("n")), key="x", children=[this(), parameter(MARK, key="n")])
        made_unit = root(subprogram(children=[keeps, inside]), pointer("char", "p"), CHAR)
        told = ["3 05 03:__this 49>p", "3 05"] if is_function else ["3 05 34:true 03:this 49>p", "3 05 =n 34:true"]
        said = f"2 {tag:02x} =x" + ("" if is_function else " 64>n")
        wanted = ["0 11", "1 2e", context(2), "2 34 31>x", said, *told, *wrapped(1, "p", "char", "char"), CHAR_LINE]
        made.tree(f"parameters of an entry of tag {tag:#x}", [made_unit], [wanted])
    declared = Entry(SUBPROGRAM, named("g"), (0x3C, FLAG_PRESENT, b""), key="g", children=[parameter(MARK, to("p"))])
    of_structure = root(subprogram(to("g", SPECIFICATION), children=[this()]), Entry(STRUCTURE, children=[declared]), pointer("char", "p"), CHAR)
    wanted = ["0 11", "1 2e 47>g", context(2), "2 05 03:__this 49>p", "1 13", "2 2e =g 03:g 3c:true", "3 05 49>p", *wrapped(1, "p", "char", "char"), CHAR_LINE]
    made.tree("a function and its declaration", [of_structure], [wanted])
    abstract = Entry(SUBPROGRAM, key="a", children=[parameter(MARK, named("this"), to("p"), key="t")])
    inlined = Entry(INLINED, to("a", ORIGIN), children=[parameter(to("t", ORIGIN))])
    of_inlined = root(subprogram(children=[inlined]), abstract, pointer("char", "p"), CHAR)
    wanted = ["0 11", "1 2e", context(2), "2 1d 31>a", "3 05 31>t", "1 2e =a", "2 05 =t 03:__this 49>p", *wrapped(1, "p", "char", "char"), CHAR_LINE]
    made.tree("an inlined function, whose own parameter says nothing", [of_inlined], [wanted])


# ---- what a function names


def by_name_cases(made):
    """Parameters that their function names, by each reference within the unit."""
    plain = parameter(named("a"), to("char"), key="n")
    for form, size, whole in ((0x11, 1, False), (0x12, 2, False), (0x13, 4, False), (0x14, 8, False), (0x15, 1, False), (REF_ADDR, 4, True)):
        names = (OBJECT_POINTER, form, Label("n", size, whole))
        made.tree(f"a parameter that is named by form {form:#x}", [unit(plain, attributes=[names])], [lines("03:__a 49>char")])
    names = to("n", OBJECT_POINTER)
    made.tree("a second parameter that is named", [unit(parameter(), plain, attributes=[names])], [lines("", "03:__a 49>char")])
    made.tree("a second parameter that is named, behind one that looks like `this`", [unit(this(), plain, attributes=[names])], [lines("03:__this 49>p", "03:__a 49>char")])
    made.tree("a first parameter that is named, before one that looks like `this`", [unit(plain, this(), attributes=[names])], [lines("03:__a 49>char", "34:true 03:this 49>p")])
    bare = parameter(MARK, key="n")
    made.tree("a parameter that is named and has no name", [unit(bare, attributes=[names])], [lines("")])
    number = parameter((NAME, DATA1, b"A"), (ARTIFICIAL, DATA1, b"\1"), key="n")
    made.tree("a parameter that is named, whose name is a number", [unit(number, attributes=[names])], [lines("03:65")])
    unset = parameter(named("a"), (ARTIFICIAL, FLAG, b"\0"), key="n")
    made.tree("a parameter that is named and is not artificial", [unit(unset, attributes=[names])], [lines("03:__a")])
    empty = parameter(named(""), key="n")
    made.tree("a parameter that is named, of an empty name", [unit(empty, attributes=[names])], [lines("03:__")])
    binary = parameter((NAME, STRING, b"\xFF\0"), key="n")
    made.tree("a parameter that is named, of a name that is no UTF-8", [unit(binary, attributes=[names])], [lines(r"03:__\xff")])
    deep = root(subprogram(names, children=[Entry(BLOCK, children=[plain])]), CHAR)
    made.tree("a parameter in a block that a function around it names", [deep], [["0 11", "1 2e", context(2), "2 0b", "3 05 03:a 49>char", CHAR_LINE]])
    of_variable = root(subprogram(names, children=[Entry(VARIABLE, MARK, named("a"), key="n")]))
    made.tree("a variable that is named", [of_variable], [["0 11", "1 2e", context(2), "2 34 34:true 03:a"]])
    other = root(subprogram(names), Entry(SUBPROGRAM, low(2), LENGTH, children=[plain]), CHAR)
    made.tree("a parameter of another function that is named", [other], [["0 11", "1 2e", context(2), "1 2e", context(2), "2 05 03:a 49>char", CHAR_LINE]])
    outer = root(subprogram(children=[Entry(INLINED, names), plain]), CHAR)
    made.tree("a parameter that an inlined function beside it names", [outer], [["0 11", "1 2e", context(2), "2 1d", "2 05 03:a 49>char", CHAR_LINE]])


def stays_cases(made):
    """What of the names of object pointers goes, and what stays."""
    by_place = lambda key: (OBJECT_POINTER, REF_ADDR, Label(key, whole=True))
    own, far = parameter(named("a"), key="n"), root(Entry(SUBPROGRAM, children=[parameter(named("b"), key="m")]), attributes=())
    two = [root(subprogram(by_place("m"), children=[own])), far]
    other = ["0 11", "1 2e", "2 05 =m 03:b"]
    made.tree("an object pointer of another unit", two, [["0 11", "1 2e 64>>m", context(2), "2 05 03:a"], other])
    both = [root(subprogram(by_place("m"), to("n", OBJECT_POINTER), children=[own])), far]
    made.tree("an object pointer of another unit and one of the own", both, [["0 11", "1 2e 64>>m", context(2), "2 05 03:a"], other])
    turned = [root(subprogram(to("n", OBJECT_POINTER), by_place("m"), children=[own])), far]
    made.tree("an object pointer of the own unit and one of another", turned, [["0 11", "1 2e 64>>m", context(2), "2 05 03:__a"], other])
    second = [parameter(named("b"), key="m")]
    for name, attributes, told in [
        ("two object pointers", [to("n", OBJECT_POINTER), to("m", OBJECT_POINTER)], ["2 05 03:__a", "2 05 03:b"]),
        ("an object pointer that is nowhere", [(OBJECT_POINTER, 0x13, u32(9))], ["2 05 03:a", "2 05 03:b"]),
        ("an object pointer that is nowhere, and one", [(OBJECT_POINTER, 0x13, u32(9)), to("n", OBJECT_POINTER)], ["2 05 03:a", "2 05 03:b"]),
        ("an object pointer past its unit", [(OBJECT_POINTER, 0x13, u32(0xFFFF))], ["2 05 03:a", "2 05 03:b"]),
    ]:
        made.tree(name, [root(subprogram(*attributes, children=[own, *second]))], [["0 11", "1 2e", context(2), *told]])
    number = [root(subprogram((OBJECT_POINTER, DATA1, b"\x07"), to("n", OBJECT_POINTER), children=[own]))]
    made.tree("an object pointer that is a number, and one", number, [["0 11", "1 2e 64:7", context(2), "2 05 03:a"]])
    itself = root(subprogram(to("f", OBJECT_POINTER), key="f"))
    made.tree("an object pointer that is the function", [itself], [["0 11", "1 2e", context(2)]])
    of_type = root(subprogram(to("char", OBJECT_POINTER)), CHAR)
    made.tree("an object pointer that is a type, which it keeps", [of_type], [["0 11", "1 2e", context(2), CHAR_LINE]])
    of_pointer = root(subprogram(to("p", OBJECT_POINTER), to("p")), pointer("char", "p"), CHAR)
    made.tree("an object pointer that is a pointer", [of_pointer], [["0 11", "1 2e 49>p", context(2), *wrapped(1, "p", "char", "char"), CHAR_LINE]])
    of_root = root(subprogram(), attributes=((0x10, 0x17, bytes(4)), (OBJECT_POINTER, 0x13, u32(11))))
    made.tree("an object pointer of a root", [of_root], [["0 11 =u 64>u", "1 2e", context(2)]])


def attribute_cases(made):
    """Other attributes of object pointers stay, in their places."""
    labels = {3: [reg(0, 30, 1)], VMCTX: [reg(0, 30, 2)]}
    full = parameter((0x3A, DATA1, b"\1"), MARK, at("ED 00 03 9F"), named("this"), (0x3B, DATA1, b"\x09"), to("p"), at("31 9F", 0x1C))
    wanted = lines("3a:1 02[5c] 03:__this 3b:9 49>p 1c[319f]")
    wanted[2] = context(2, "0-30 5e")
    made.tree("a `this` with a place in the source and a location", [unit(full)], [wanted], labels=[labels])
    inner = parameter(MARK, to("p"), children=[Entry(VARIABLE, named("v"))])
    wanted = lines("49>p")
    wanted.insert(4, "3 34 03:v")
    made.tree("a `this` with a child", [unit(inner)], [wanted])
    itself = root(subprogram(children=[parameter(MARK, named("this"), to("q"), key="t")]), pointer("t", "q"))
    made.tree("a `this` that points to itself", [itself], [["0 11", "1 2e", context(2), "2 05 =t 03:__this 49>q", *wrapped(1, "q", "this", "t")]])


def target_cases(made):
    """Object pointers for each target, and of two modules."""
    for target in TARGETS:
        name = f"{'big' if target['big_endian'] else 'little'} endian, addresses of {target['pointer_bytes']} bytes"
        made.carried(f"a `this`, {name}", unit(this()), labels=[{}], target=target)
    whole = made.module_of(root(subprogram(children=[this()]), pointer("char", "p"), CHAR))
    told = lambda own: ["0 11", "1 2e", context(2, own=own), "2 05 03:__this 49>p", *wrapped(1, "p", "char", "char", own=own), CHAR_LINE]
    made.cases.carried("a `this` of two modules", made.map_text(None, None), whole, whole, tree=wanted_tree([None, told(0), None, told(2)]))


def refusal_cases(made):
    """A name that cannot be read is told in its place, whatever the parameter is."""
    no_text, cut = (NAME, STRP, u32(9)), (".debug_str", b"this")
    start = Info(unit(parameter(MARK, no_text, to("p"), key="t"))).labels["t"]
    text, expression = f"Read Text .debug_info {start}", lambda behind: f"Read Expression .debug_info {start + behind}"
    refused = lambda name, line, *attributes: made.refused(name, 10, line, unit(parameter(*attributes)), sections=[cut], labels=[{}])
    refused("a name of a first parameter past its section", text, MARK, no_text, to("p"))
    refused("a name of a first parameter without an end", text, MARK, (NAME, STRP, u32(0)), to("p"))
    refused("a name of a first parameter that is not artificial", text, no_text, to("p"))
    refused("an expression before the name of a first parameter", expression(2), MARK, at("10"), no_text, to("p"))
    refused("the name of a first parameter before an expression", text, MARK, no_text, at("10"), to("p"))
    refused("a second name of a first parameter", text, MARK, named("this"), no_text, to("p"))
    name = root(subprogram(children=[this(no_text)]), pointer("char", "p"), CHAR)
    made.refused("a second name of a `this` before the name of what it points to", 10, f"Read Text .debug_info {Info(unit(parameter(key='t'))).labels['t']}", name, labels=[{}])
    of_function = root(subprogram(to("t", OBJECT_POINTER), no_text, children=[parameter(no_text, key="t")]))
    made.refused("a text of a function before that of what it names", 10, "Read Text .debug_info 16", of_function, labels=[{}])
