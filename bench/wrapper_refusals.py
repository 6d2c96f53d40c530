"""Cases of what is refused of wrappers: what cannot be read of the attributes of pointers, and names at the ends of their chains."""

from entry_cases import BASE_TYPE, DATA8, HIGH_PC, LENGTH, LINES, NAME, PARAMETER, SEC_OFFSET, STRP, SUBPROGRAM, TYPE, VARIABLE, Entry, Info, base_type, root
from entry_cases import subprogram, to
from location_cases import DEFINED, FRAME_BASE, START_LENGTH, VMCTX, at, in_list, loc, loclists, variable
from location_refusals import BAD, BAD_VMCTX
from make_modules import u32, uleb
from own_unit_cases import COMPRESSED, REFUSED, TOO_FAR
from range_cases import LISTED, MOST, PLACES, START_SCOPE, kinds, low, within
from type_name_cases import ARRAY, chain, text
from wrapper_cases import CHAR, CONST, POINTER, REFERENCE, naming, pointer

NO_UTF8 = ["FF", "80", "61 80", "C3", "C3 28", "C0 80", "E0 80 80", "E2 82", "ED A0 80", "F0 80 80 80", "F4 90 80 80", "F8 88 80 80 80", "C3 A4 E2 82"]
BAD_NAME, NO_TEXT = text(b"\xFF"), (NAME, STRP, u32(9))
FAR = (HIGH_PC, DATA8, MOST.to_bytes(8, "little"))
ADDRX, ENTRY_PC = 0x1B, 0x52


def wrapper_refusals(made):
    """`made` makes the cases of wrappers."""
    bad_names(made)
    unread_texts(made)
    unread_attributes(made)
    order_at_one(made)
    order_of_entries(made)
    order_of_units(made)
    order_of_modules(made)
    return made.cases


def refused(made, name, what, key, *units, **more):
    """What is refused at the entry of a key: a name that is no UTF-8 (`BaseName`), or a text that cannot be read (`Text`)."""
    place = Info(*units).labels[key]
    made.refused(name, 10, f"Read {what} .debug_info {place}", *units, **{"labels": [{}], **more})


# ---- names at the ends of chains


def bad_names(made):
    """Names that are no UTF-8, told at the entries that have them."""
    bad_name = lambda name, key, *units, **more: refused(made, name, "BaseName", key, *units, **more)
    for code in NO_UTF8:
        bad_name(f"a type named {code}", "1", chain((BASE_TYPE, bytes.fromhex(code))))
    bad = (BASE_TYPE, b"\xFF")
    bad_name("a name that is no UTF-8 of what a reference goes to", "1", chain(bad, kind=REFERENCE))
    for steps in ([CONST], [ARRAY], [CONST, ARRAY], [CONST] * 40):
        bad_name(f"a name that is no UTF-8 behind {len(steps)} types, first {steps[0]:#x}", f"{len(steps) + 1}", chain(*steps, bad))
    bad_name("a name that is no UTF-8 behind two pointers", "2", chain(POINTER, bad))
    bad_name("a name that is no UTF-8 of a pointer", "2", chain(CONST, (POINTER, b"\xFF"), (BASE_TYPE, "t")))
    bad_name("a name that is no UTF-8 of a constant of a type with one", "1", chain((CONST, b"\x80"), bad))
    bad_name("a name that is no UTF-8 before a second one", "1", naming("0", pointer("1", "0"), Entry(BASE_TYPE, BAD_NAME, text("t"), key="1")))
    bad_name("a name that is no UTF-8 of a type in front of the pointer", "1", naming("0", Entry(BASE_TYPE, BAD_NAME, key="1"), pointer("1", "0")))
    of_root = root(subprogram(to("0")), Entry(POINTER, (TYPE, 0x13, u32(11)), key="0"), attributes=(LINES, BAD_NAME))
    made.refused("a name that is no UTF-8 of a root", 10, "Read BaseName .debug_info 11", of_root)
    sections = [(".debug_str", b"t\0\xC3\0"), (".debug_line_str", b"\x80\0"), (".debug_str_offsets", bytes(8) + u32(2))]
    for form, value in ((0x0E, u32(2)), (0x1F, u32(0)), (0x1A, b"\0"), (0x25, b"\0")):
        unit = naming("0", pointer("1", "0"), Entry(BASE_TYPE, (NAME, form, value), key="1"))
        bad_name(f"a name of form {form:#x} that is no UTF-8", "1", (unit, 5, 4), sections=sections)
    unnamed = naming([], pointer("1", "0"), Entry(BASE_TYPE, BAD_NAME, key="1"))
    made.carried("a name that is no UTF-8 behind a pointer that nothing names", unnamed, labels=[{}], wrappers=[])
    partial = root(subprogram(to("0")), pointer("1", "0"), Entry(BASE_TYPE, BAD_NAME, key="1"), tag=0x3C)
    made.carried("a name that is no UTF-8 in a unit that is not carried", partial, naming("0", pointer("char", "0"), CHAR), labels=[{}], wrappers=["Ptr char"])


def unread_texts(made):
    """Names of types that cannot be read, told at these, also where they stand behind the pointer."""
    no_text = lambda name, key, *units, **more: refused(made, name, "Text", key, *units, **more)
    cut = [(".debug_str", b"t\0int")]
    ends_in = lambda *attributes: naming("0", pointer("1", "0"), Entry(BASE_TYPE, *attributes, key="1"))
    no_text("the text of a type's name past its section", "1", ends_in(NO_TEXT), sections=cut)
    no_text("the text of a type's name of a section that is not there", "1", ends_in((NAME, STRP, u32(0))))
    no_text("the text of a type's name without an end", "1", ends_in((NAME, STRP, u32(2))), sections=cut)
    indexes = [(".debug_str", b"t\0"), (".debug_str_offsets", bytes(8) + u32(0) + b"\0")]
    no_text("the text of a type's name by an index past its section", "1", (ends_in((NAME, 0x1A, b"\x01")), 5, 4), sections=indexes)
    behind = naming("0", pointer("c", "0"), Entry(CONST, to("1"), key="c"), Entry(BASE_TYPE, NO_TEXT, key="1"))
    no_text("the text of a type's name behind a constant", "1", behind)
    front = naming("0", Entry(BASE_TYPE, NO_TEXT, key="1"), pointer("1", "0"))
    no_text("the text of a type's name in front of the pointer", "1", front)
    past = naming("0", pointer("c", "0"), Entry(CONST, text("c"), to("1"), key="c"), Entry(BASE_TYPE, text("t"), NO_TEXT, key="1"))
    no_text("a second name that cannot be read, where it stands", "1", past)


# ---- attributes of pointers


def unread_attributes(made):
    """Attributes of pointers are read as those of other entries; what only building would refuse is not."""
    start = Info(naming("0", Entry(POINTER, key="0"))).labels["0"]
    expression, texts = f"Read Expression .debug_info {start + 2}", f"Read Text .debug_info {start}"
    cut_list = (".debug_loc", u32(5) + u32(6))
    for name, status, line, attributes, sections in [
        ("a text", 10, texts, [NO_TEXT], []),
        ("a text under another name", 10, texts, [(0x2100, STRP, u32(9))], []),
        ("an expression", 10, expression, [at("10")], []),
        ("an expression under a name that has no list", 10, expression, [at("10", 0x50)], []),
        ("a second operation of an expression", 10, expression, [at("31 08", 0x0B)], []),
        ("a frame base", 10, expression, [at("10", FRAME_BASE)], []),
        ("an expression in the place of a begin", 10, expression, [at("10", 0x11)], []),
        ("a location list", 10, "Read LocationList .debug_loc 0", [in_list()], [cut_list]),
        ("an expression of a location list", 10, "Read Expression .debug_loc 10", [in_list()], [loc((5, 6, "10"))]),
        ("a second expression of a location list", 10, "Read Expression .debug_loc 21", [in_list()], [loc((5, 6, "31"), (5, 6, "10"))]),
        ("a range list", 10, "Read RangeList .debug_ranges 0", [LISTED], [(".debug_ranges", u32(5))]),
        ("a range list of another name", 10, "Read RangeList .debug_ranges 0", [(START_SCOPE, SEC_OFFSET, bytes(4))], [(".debug_ranges", u32(5))]),
        ("a length", 20, "TooLarge Range", [low(5), FAR], []),
    ]:
        made.refused(f"{name} of a pointer that cannot be read", status, line, naming("0", Entry(POINTER, *attributes, key="0")), sections=sections, labels=[{}])
    five = lambda *attributes: (naming("0", Entry(POINTER, *attributes, key="0")), 5, 4)
    line = f"Read AddressValue .debug_info {start + 1}"
    made.refused("an address by an index of a pointer that cannot be read", 10, line, five((ENTRY_PC, ADDRX, b"\x09")), sections=[PLACES], labels=[{}])
    long = START_LENGTH + u32(5) + uleb(MOST)
    made.refused("a length in a location list of a pointer", 20, "TooLarge Range", five(in_list()), sections=[loclists((long, "31"))], labels=[{}])
    made.refused("a length in a range list of a pointer", 20, "TooLarge Range", five(LISTED), sections=[kinds(b"\x07" + u32(5) + uleb(MOST) + b"\0")], labels=[{}])
    based = root(Entry(SUBPROGRAM, low(2), LENGTH, at("ED 00 03 9F", FRAME_BASE), children=[Entry(VARIABLE, to("0")), Entry(POINTER, at("91 80"), key="0")]))
    place = Info(based).labels["0"] + 2
    made.refused("an expression of a pointer on a frame base that cannot be read", 10, f"Read Expression .debug_info {place}", based, labels=[{}])
    without = root(subprogram(children=[Entry(VARIABLE, to("0")), Entry(POINTER, at("91 80"), key="0")]))
    made.carried("an expression of a pointer without a frame base", without, labels=[{}], wrappers=["Ptr ??"])
    bad = {label: ranges for label, ranges in BAD.items() if label != VMCTX}
    expressions = [at("ED 00 04 9F"), at("ED 00 05", 0x50), at("ED 00 09 06 9F", 0x51), in_list(name=0x19)]
    unbuilt = root(subprogram(children=[Entry(VARIABLE, to("0")), Entry(POINTER, *expressions, key="0")]))
    sections = [loc((5, 6, "ED 00 04 9F"), (5, 6, "26" * 8200), (5, 6, "ED 00 03"))]
    made.carried("expressions of a pointer of which building is refused", unbuilt, labels=[bad], memory=None, sections=sections, wrappers=["Ptr ??"], places=[])


# ---- orders


def order_at_one(made):
    """The name is read behind the attributes of the pointer, and before its children."""
    inner = [Entry(VARIABLE, to("0"))]
    unit = lambda *attributes, children=(): root(subprogram(children=inner), pointer("1", "0", *attributes, children=list(children)), Entry(BASE_TYPE, BAD_NAME, key="1"))
    wanted = lambda key, what="Text": f"Read {what} .debug_info {Info(unit()).labels[key]}"
    cut = [(".debug_loc", u32(5) + u32(6)), (".debug_ranges", u32(5))]
    expression = f"Read Expression .debug_info {Info(unit(at('10'))).labels['0'] + 6}"
    for name, status, line, *attributes in [
        ("a text", 10, wanted("0"), NO_TEXT),
        ("an expression", 10, expression, at("10")),
        ("a location list", 10, "Read LocationList .debug_loc 0", in_list()),
        ("a range list", 10, "Read RangeList .debug_ranges 0", LISTED),
        ("a length", 20, "TooLarge Range", low(5), FAR),
    ]:
        made.refused(f"of a pointer {name} before the name of its type", status, line, unit(*attributes), sections=cut, labels=[{}])
    refused(made, "of a pointer the name of its type before a text of a child", "BaseName", "1", unit(children=[Entry(PARAMETER, NO_TEXT)]))
    refused(made, "of a pointer the name of its type before an expression of a child", "BaseName", "1", unit(children=[Entry(PARAMETER, at("10"))]))
    of_chain = chain((CONST, b"\xFF"), (BASE_TYPE, b"\xFF"))
    refused(made, "of a chain the first name alone", "BaseName", "1", of_chain)
    two = naming("0", pointer("1", "0"), Entry(BASE_TYPE, NO_TEXT, BAD_NAME, key="1"))
    refused(made, "of two names the first", "Text", "1", two)


def order_of_entries(made):
    """In file order, each pointer's chain at the pointer, wherever it ends."""
    bad = lambda key, *more: Entry(BASE_TYPE, BAD_NAME, *more, key=key)
    two = naming("pq", pointer("b", "p"), pointer("a", "q"), bad("a"), bad("b"))
    refused(made, "of two pointers the name behind the first", "BaseName", "b", two)
    front = naming("pq", bad("a"), bad("b"), pointer("b", "q"), pointer("a", "p"))
    refused(made, "of two pointers the name in front of the first", "BaseName", "b", front)
    between = naming("pt", pointer("b", "p"), Entry(BASE_TYPE, NO_TEXT, key="t"), bad("b"))
    refused(made, "a name behind a pointer before a text between them", "BaseName", "b", between)
    late = naming("pt", pointer("b", "p"), Entry(BASE_TYPE, NO_TEXT, key="t"), Entry(BASE_TYPE, NO_TEXT, key="b"))
    refused(made, "a text behind a pointer before one between them", "Text", "b", late)
    early = naming("pt", Entry(BASE_TYPE, NO_TEXT, key="t"), pointer("b", "p"), bad("b"))
    refused(made, "a text in front of a pointer before the name behind it", "Text", "t", early)
    outer = naming("p", pointer("b", "p", children=[Entry(PARAMETER, to("q")), pointer("a", "q")]), bad("a"), bad("b"))
    refused(made, "of a pointer in another the name behind the outer one", "BaseName", "b", outer)
    inner = naming("p", pointer("char", "p", children=[Entry(PARAMETER, to("q")), pointer("a", "q")]), CHAR, bad("a"))
    refused(made, "a name behind a pointer in another", "BaseName", "a", inner)
    shared = naming("pq", pointer("b", "p"), bad("b"), pointer("b", "q"))
    refused(made, "a name behind two pointers", "BaseName", "b", shared)
    expression = naming("p", Entry(VARIABLE, at("10"), key="v"), pointer("b", "p"), bad("b"))
    refused(made, "a name beside an expression that is not kept", "BaseName", "b", expression)
    context = root(subprogram(to("p")), pointer("b", "p"), bad("b"))
    made.refused("where the context is before a name behind", 14, f"BadLabelRange {VMCTX}", context, labels=[BAD_VMCTX])
    turned = root(pointer("b", "p"), bad("b"), subprogram(to("p")))
    refused(made, "a name before where the context is", "BaseName", "b", turned, labels=[BAD_VMCTX])


def order_of_units(made):
    """A chain is read in its unit, behind what all units say of their entries and behind the unit's line table."""
    bad = naming("0", pointer("1", "0"), Entry(BASE_TYPE, BAD_NAME, key="1"))
    no_lines = within(attributes=((0x10, SEC_OFFSET, u32(90)),))
    place = f"Read BaseName .debug_info {Info(bad).labels['1']}"
    made.refused("a name of the first unit before the line table of the second", 10, place, bad, no_lines)
    made.refused("the line table of the first unit before a name of the second", 10, "Read LineTable .debug_line 90", no_lines, bad)
    own_lines = naming("0", pointer("1", "0"), Entry(BASE_TYPE, BAD_NAME, key="1"), attributes=((0x10, SEC_OFFSET, u32(90)),))
    made.refused("the line table of a unit before a name in it", 10, "Read LineTable .debug_line 90", own_lines)
    unread = root(subprogram(), Entry(BASE_TYPE, (NAME, 0x7F, b""), key="x"))
    made.refused("an entry of the second unit that cannot be read before a name of the first", 10, f"Read Entry .debug_info {Info(bad, unread).labels['x']}", bad, unread)
    made.refused("a list of a subprogram of the second unit before a name of the first", 10, "Read RangeList .debug_ranges 0", bad, root(Entry(SUBPROGRAM, LISTED)))
    refused(made, "a name of the second unit", "BaseName", "2", naming("0", pointer("1", "0"), base_type(b"t", "1")), naming("3", pointer("2", "3"), Entry(BASE_TYPE, BAD_NAME, key="2")))


def order_of_modules(made):
    """A chain is read before all else of the modules behind its own."""
    bad = naming("0", pointer("1", "0"), Entry(BASE_TYPE, BAD_NAME, key="1"))
    place = f"Read BaseName .debug_info {Info(bad).labels['1']}"
    first, bare = made.module_of(bad), made.module_of()
    made.all_refused("a name that is no UTF-8 before a memory of the second module", 10, place, [first, bare], [DEFINED, TOO_FAR])
    made.all_refused("a memory of the second module that has a name that is no UTF-8", *REFUSED, [bare, first], [DEFINED, TOO_FAR])
    made.all_refused("a name that is no UTF-8 of the second module", 10, place, [bare, first], [None, DEFINED])
    made.all_refused("a name that is no UTF-8 before a compressed section of the second module", 10, place, [first, made.module_of(behind=COMPRESSED)], [DEFINED, DEFINED])
    made.all_refused("a name of the first module before a unit of the second", 10, place, [first, made.module_of(within(variable("10")))], [None, None])
