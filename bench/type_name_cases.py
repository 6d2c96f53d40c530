"""Cases of the names of wrappers, which the chains of types behind pointers and references give."""

from entry_cases import BASE_TYPE, COMPILE_UNIT, DATA1, LINES, NAME, REF_ADDR, STRING, STRUCTURE, SUBPROGRAM, TYPE, VARIABLE
from entry_cases import Entry, Label, base_type, root, subprogram, to
from make_modules import u32
from wrapper_cases import CONST, POINTER, REFERENCE, Cases, naming, pointer, reference

ARRAY, CLASS, ENUMERATION, SUBROUTINE, TYPEDEF, UNION = 0x01, 0x02, 0x04, 0x15, 0x16, 0x17
SUBRANGE, TO_MEMBER, VOLATILE, RESTRICT, UNSPECIFIED, RVALUE = 0x21, 0x1F, 0x35, 0x37, 0x3B, 0x42
OTHERS = (BASE_TYPE, STRUCTURE, CLASS, ENUMERATION, UNION, TYPEDEF, SUBROUTINE, SUBRANGE, TO_MEMBER, VOLATILE, RESTRICT, UNSPECIFIED, RVALUE, SUBPROGRAM, VARIABLE, COMPILE_UNIT, 0xFFFF)


def type_name_cases(cases, module, map_of):
    """`module` makes a module of abbreviations, units, a front and further sections; `map_of` makes a map of modules."""
    made = Cases(cases, module, map_of)
    derived_cases(made)
    named_cases(made)
    circle_cases(made)
    text_cases(made)
    reference_cases(made)
    return cases


# ---- chains


def text(name):
    return (NAME, STRING, (name.encode() if isinstance(name, str) else name) + b"\0")


def chain(*steps, back=None, kind=POINTER, own=()):
    """A pointer `0` to a chain of types, which are a tag each, or a tag and a name. The last goes to none, or to that of a number."""
    entries, count = [], len(steps) + 1
    for number, step in enumerate([(kind,), *(step if isinstance(step, tuple) else (step,) for step in steps)]):
        target = number + 1 if number + 1 < count else back
        attributes = [text(name) for name in step[1:]] + ([to(f"{target}")] if target is not None else [])
        entries.append(Entry(step[0], *attributes, *(own if number == 0 else ()), key=f"{number}"))
    return naming("0", *entries)


def named(made, name, wanted, *steps, **more):
    """A chain, and what stands in the names of all wrappers that come of it, in order."""
    made.carried(f"the name of {name}", chain(*steps, **more), labels=[{}], wrappers=wanted)


T = (BASE_TYPE, "t")


def derived_cases(made):
    """Constants, pointers, references and arrays, one of another, and types of other tags."""
    named(made, "a type", ["Ptr t"], T)
    named(made, "a type behind a reference", ["Ref t"], T, kind=REFERENCE)
    named(made, "a constant", ["Ptr const t"], CONST, T)
    named(made, "a pointer", ["Ptr t*", "Ptr t"], POINTER, T)
    named(made, "a reference", ["Ptr t&", "Ref t"], REFERENCE, T)
    named(made, "an array", ["Ptr t[]"], ARRAY, T)
    named(made, "a reference behind a reference", ["Ref t&", "Ref t"], REFERENCE, T, kind=REFERENCE)
    named(made, "a constant of a constant", ["Ptr const const t"], CONST, CONST, T)
    named(made, "an array of arrays", ["Ptr t[][]"], ARRAY, ARRAY, T)
    named(made, "pointers to pointers", ["Ptr t***", "Ptr t**", "Ptr t*", "Ptr t"], POINTER, POINTER, POINTER, T)
    named(made, "a constant pointer to a constant", ["Ptr const const t*", "Ptr const t"], CONST, POINTER, CONST, T)
    named(made, "a reference to a constant array", ["Ptr const t[]&", "Ref const t[]"], REFERENCE, CONST, ARRAY, T)
    named(made, "an array of constant pointers to references", ["Ptr const t&*[]", "Ptr t&", "Ref t"], ARRAY, CONST, POINTER, REFERENCE, T)
    for tag, wanted in ((CONST, ["Ptr const ??"]), (POINTER, ["Ptr ??*", "Ptr ??"]), (REFERENCE, ["Ptr ??&", "Ref ??"]), (ARRAY, ["Ptr ??[]"])):
        named(made, f"a type of tag {tag:#x} that goes to none", wanted, tag)
    for tag in OTHERS:
        named(made, f"a type of tag {tag:#x} without a name", ["Ptr ??"], tag, T)
        named(made, f"a constant of a type of tag {tag:#x} without a name", ["Ptr const ??"], CONST, tag, T)
        named(made, f"a type of tag {tag:#x} with a name", ["Ptr n"], (tag, "n"), T)
    named(made, "a thousand constants", [f"Ptr {'const ' * 1000}t"], *[CONST] * 1000, T)
    named(made, "a thousand arrays that go to none", [f"Ptr ??{'[]' * 1000}"], *[ARRAY] * 1000)
    named(made, "thirty pointers", [f"Ptr t{'*' * count}" for count in range(30, -1, -1)], *[POINTER] * 30, T)


def named_cases(made):
    """Names at each place of a chain: the first that has one ends it."""
    tags = (CONST, POINTER, ARRAY, BASE_TYPE)
    for place, wanted in enumerate((["Ptr n", "Ptr ??[]"], ["Ptr const n", "Ptr ??[]"], ["Ptr const n*", "Ptr n"], ["Ptr const n[]*", "Ptr n[]"])):
        named(made, f"a chain with a name at place {place}", wanted, *((tag, "n") if i == place else tag for i, tag in enumerate(tags)))
    named(made, "a chain without a name", ["Ptr const ??[]*", "Ptr ??[]"], *tags)
    named(made, "a chain of names", ["Ptr a", "Ptr c"], *zip(tags, "abcd"))
    named(made, "a chain with two names", ["Ptr const b", "Ptr ??[]"], CONST, (POINTER, "b"), ARRAY, BASE_TYPE)
    named(made, "a reference with a name", ["Ptr const r", "Ref t"], CONST, (REFERENCE, "r"), T)
    named(made, "an empty name", ["Ptr "], (BASE_TYPE, ""))
    named(made, "a constant of an empty name", ["Ptr const "], CONST, (BASE_TYPE, ""))
    named(made, "a pointer that has a name itself", ["Ptr t"], T, own=[text("own")])
    for name in ("const ", "a b", "T", "??", "x" * 300, "<>", "größe", "\U0001D49E", "\x01\x7f"):
        short = f"of {len(name)} letters" if len(name) > 100 else f"`{name.encode('unicode_escape').decode()}`"
        named(made, f"a type {short}", [f"Ptr const {name}"], CONST, (BASE_TYPE, name))


def circle_cases(made):
    """Chains that meet an entry again, the pointer itself or another."""
    named(made, "itself", ["Ptr ??"], back=0)
    named(made, "itself, where it has a name", ["Ptr ??"], back=0, own=[text("own")])
    named(made, "a constant of the pointer itself", ["Ptr const ??"], CONST, back=0)
    named(made, "a constant of itself", ["Ptr const ??"], CONST, back=1)
    named(made, "an array of itself", ["Ptr ??[]"], ARRAY, back=1)
    named(made, "a pointer to the pointer itself", ["Ptr ??*", "Ptr ??*"], POINTER, back=0)
    named(made, "a pointer to itself behind a pointer", ["Ptr ??*", "Ptr ??"], POINTER, back=1)
    named(made, "a reference to the pointer itself", ["Ptr ??&", "Ref ??*"], REFERENCE, back=0)
    for back in (0, 1, 2):
        named(made, f"a constant of an array that goes to {back}", ["Ptr const ??[]"], CONST, ARRAY, back=back)
    named(made, "a reference to a constant of the pointer itself", ["Ptr const ??&", "Ref const ??*"], REFERENCE, CONST, back=0)
    named(made, "a reference to a constant of itself", ["Ptr const ??&", "Ref const ??"], REFERENCE, CONST, back=1)
    for back, wanted in ((0, ["??**", "??**", "??**"]), (1, ["??**", "??*", "??*"]), (2, ["??**", "??*", "??"])):
        named(made, f"three pointers of which the last goes to {back}", [f"Ptr {name}" for name in wanted], POINTER, POINTER, back=back)
    for back in range(6):
        named(made, f"five constants of which the last goes to {back}", [f"Ptr {'const ' * 5}??"], *[CONST] * 5, back=back)
    named(made, "a circle with a name in it", ["Ptr const n", "Ptr const ??*"], CONST, (POINTER, "n"), back=0)
    named(made, "a circle behind a name", ["Ptr n", "Ptr ??"], (CONST, "n"), POINTER, back=2)
    named(made, "a circle of thirty pointers", [f"Ptr ??{'*' * 29}"] * 30, *[POINTER] * 29, back=0)


def text_cases(made):
    """Names by each form, names that are no texts, and two names of one entry."""
    sections = [(".debug_str", b"one\0two\0"), (".debug_line_str", b"three\0"), (".debug_str_offsets", bytes(8) + u32(4) + u32(0))]
    ends_in = lambda *attributes: naming("0", pointer("c", "0"), Entry(CONST, to("1"), key="c"), Entry(BASE_TYPE, *attributes, key="1"))
    forms = [(0x0E, u32(4), "two"), (0x0E, u32(1), "ne"), (0x1F, u32(0), "three"), (0x1A, b"\x01", "one"), (0x25, b"\x00", "two"), (0x26, b"\x01\x00", "one"), (0x27, bytes(3), "two"), (0x28, u32(1), "one")]
    for form, value, wanted in forms:
        made.carried(f"the name of a type by form {form:#x}, {wanted}", (ends_in((NAME, form, value)), 5, 4), sections=sections, labels=[{}], wrappers=[f"Ptr const {wanted}"])
    for form, value in ((DATA1, b"\x41"), (0x19, b""), (0x0A, b"\x01A"), (0x18, b"\x01\x30"), (0x13, u32(11))):
        made.carried(f"the name of a type whose name is of form {form:#x}", ends_in((NAME, form, value)), labels=[{}], wrappers=["Ptr const ??"])
    number = (NAME, DATA1, b"\x41")
    made.carried("the name of a type with two names", ends_in(text("a"), text("b")), labels=[{}], wrappers=["Ptr const a"])
    made.carried("the name of a type with two names, of which the first is no text", ends_in(number, text("b")), labels=[{}], wrappers=["Ptr const ??"])
    behind = naming("0", pointer("1", "0"), Entry(CONST, number, text("b"), to("2"), key="1"), Entry(BASE_TYPE, text("t"), key="2"))
    made.carried("the name of a constant whose name is no text", behind, labels=[{}], wrappers=["Ptr const t"])
    unread = ends_in(text("a"), text(b"\xFF"))
    made.carried("a second name that is no UTF-8", unread, labels=[{}], wrappers=["Ptr const a"])
    far = naming("0", pointer("1", "0"), Entry(CONST, text("n"), to("2"), key="1"), Entry(BASE_TYPE, text(b"\xFF"), key="2"))
    made.carried("a name that is no UTF-8 behind one that ends the chain", far, labels=[{}], wrappers=["Ptr n"])
    beside = root(subprogram(to("0"), children=[Entry(VARIABLE, to("1"), text(b"\x80"))]), pointer("2", "0"), Entry(BASE_TYPE, text(b"\xC0\x80"), key="1"), Entry(BASE_TYPE, text("t"), key="2"))
    made.carried("names that are no UTF-8 of other entries", beside, labels=[{}], wrappers=["Ptr t"])
    shared = naming("01", pointer("t", "0"), reference("t", "1"), base_type(b"t", "t"))
    made.carried("the name of a pointer and of a reference to one type", shared, labels=[{}], wrappers=["Ptr t", "Ref t"])


def reference_cases(made):
    """Types of types by each reference, and by what is none within the unit."""
    of_const = lambda *attributes, others=(): naming("0", pointer("c", "0"), Entry(CONST, *attributes, key="c"), base_type(b"t", "t"), *others)
    for form, size in ((0x11, 1), (0x12, 2), (0x13, 4), (0x14, 8), (0x15, 1)):
        made.carried(f"a chain by references of form {form:#x}", of_const((TYPE, form, Label("t", size))), labels=[{}], wrappers=["Ptr const t"])
    for name, *attributes in [
        ("by the place of the type in the section", (TYPE, REF_ADDR, Label("t", whole=True))),
        ("to a place at which no entry begins", (TYPE, 0x13, u32(17))),
        ("past the unit", (TYPE, 0x13, u32(0xFFFF))),
        ("by a number", (TYPE, DATA1, b"\x10")),
        ("of which the first is by its place, and the second is not", (TYPE, REF_ADDR, Label("t", whole=True)), to("t")),
        ("to none",),
        ("under another name", to("t", 0x47)),
    ]:
        made.carried(f"a chain with a reference {name}", of_const(*attributes), labels=[{}], wrappers=["Ptr const ??"])
    two = of_const((TYPE, 0x13, Label("x", whole=True))), root(base_type(b"x", "x"), attributes=())
    made.carried("a chain with a reference past its unit, to another", *two, labels=[{}], wrappers=["Ptr const ??"])
    by_place = naming("0", pointer("c", "0"), Entry(CONST, (TYPE, REF_ADDR, Label("x", whole=True)), key="c")), root(base_type(b"x", "x"), attributes=())
    made.carried("a chain into another unit", *by_place, labels=[{}], wrappers=["Ptr const ??"])
    of_root = naming("0", pointer("c", "0"), Entry(CONST, (TYPE, 0x13, u32(11)), key="c"), attributes=(LINES, text("u")))
    made.carried("a chain to the root", of_root, labels=[{}], wrappers=["Ptr const u"])
    sibling = naming("0", pointer("c", "0"), Entry(CONST, to("t", 0x01), key="c"), base_type(b"t", "t"))
    made.carried("a chain that a sibling does not go on", sibling, labels=[{}], wrappers=["Ptr const ??"])
