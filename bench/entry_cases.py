"""Cases of entries: which are kept, what each attribute becomes, and what is refused of them."""

from make_modules import custom, sleb, u32, uleb
from worked_texts import NAMED_TEXT, UNTYPED_TEXT

# Names and tags by their codes.
NAME, TYPE, DECL_FILE, CALL_FILE, SIBLING, LOW_PC, HIGH_PC, RANGES, STMT_LIST = 0x03, 0x49, 0x3A, 0x58, 0x01, 0x11, 0x12, 0x55, 0x10
COMPILE_UNIT, SUBPROGRAM, BASE_TYPE, NAMESPACE, VARIABLE, PARAMETER, BLOCK, STRUCTURE, MEMBER = 0x11, 0x2E, 0x24, 0x39, 0x34, 0x05, 0x0B, 0x13, 0x0D
ADDR, DATA1, DATA2, DATA4, DATA8, STRING, STRP, REF4, SEC_OFFSET, REF_ADDR = 0x01, 0x0B, 0x05, 0x06, 0x07, 0x08, 0x0E, 0x13, 0x17, 0x10

LINES = (STMT_LIST, SEC_OFFSET, bytes(4))
BEGIN = (LOW_PC, ADDR, u32(2))
LENGTH = (HIGH_PC, DATA4, u32(11))


class Label:
    """A place in `.debug_info` that is named before it is known: the offset of an entry from its unit, or from the section."""

    def __init__(self, key, size=4, whole=False):
        self.key, self.size, self.whole = key, size, whole


class Entry:
    """An entry by its tag, attributes (name, form and value, the form with an implicit value behind it as bytes) and children."""

    def __init__(self, tag, *attributes, children=(), key=None):
        self.tag, self.attributes, self.children, self.key = tag, attributes, list(children), key


def subprogram(*attributes, **more):
    return Entry(SUBPROGRAM, BEGIN, LENGTH, *attributes, **more)


def root(*children, attributes=(LINES,), tag=COMPILE_UNIT):
    return Entry(tag, *attributes, children=children)


class Info:
    """`.debug_abbrev` and `.debug_info` of some units, each a root with a version and an address size."""

    def __init__(self, *units):
        self.abbrev, self.info, self.labels, self.wanted = b"", b"", {}, []
        for unit in units:
            top, version, size = unit if isinstance(unit, tuple) else (unit, 4, 4)
            self.unit(top, version, size)
        for at, label, start in self.wanted:
            place = self.labels.get(label.key, label.key)
            number = place if label.whole else place - start
            self.info = self.info[:at] + number.to_bytes(label.size, "little") + self.info[at + label.size :]

    def unit(self, top, version, size):
        start, table_at = len(self.info), len(self.abbrev)
        self.codes, self.table = {}, b""
        front = version.to_bytes(2, "little")
        front += bytes([1, size]) + u32(table_at) if version == 5 else u32(table_at) + bytes([size])
        self.info += bytes(4) + front
        self.entry(top, start)
        self.abbrev += self.table + b"\0"
        self.info = self.info[:start] + u32(len(self.info) - start - 4) + self.info[start + 4 :]

    def entry(self, entry, start):
        forms = [(name, form if isinstance(form, bytes) else uleb(form)) for name, form, _ in entry.attributes]
        shape = (entry.tag, bool(entry.children), tuple(forms))
        if shape not in self.codes:
            self.codes[shape] = len(self.codes) + 1
            specs = b"".join(uleb(name) + form for name, form in forms)
            self.table += uleb(self.codes[shape]) + uleb(entry.tag) + bytes([bool(entry.children)]) + specs + b"\0\0"
        if entry.key is not None:
            self.labels[entry.key] = len(self.info)
        self.info += uleb(self.codes[shape])
        for _, _, value in entry.attributes:
            if isinstance(value, Label):
                self.wanted.append((len(self.info), value, start))
                value = bytes(value.size)
            self.info += value
        for child in entry.children:
            self.entry(child, start)
        self.info += b"\0" if entry.children else b""


def base_type(name, key=None):
    return Entry(BASE_TYPE, (NAME, STRING, name + b"\0"), key=key)


def to(key, name=TYPE):
    return (name, REF4, Label(key))


def entry_cases(cases, module, small_map):
    """`module` makes a module of abbreviations, units and further sections; `small_map` makes the map of a target."""

    def carried(name, *units, sections=(), big=False, front=None):
        made = Info(*units)
        others = [(section, contents) for section, contents in sections]
        cases.carried(name, small_map(big_endian=big) if big else small_map(), module(made.abbrev, made.info, others=others), front=front)

    def refused(name, status, line, *units, sections=()):
        made = Info(*units)
        cases.refused_module(name, status, line, module(made.abbrev, made.info, others=list(sections)))

    strings = [(".debug_str", b"f\0int\0char\0")]
    f = (NAME, STRP, u32(0))
    integer, char = Entry(BASE_TYPE, (NAME, STRP, u32(2)), key="int"), Entry(BASE_TYPE, (NAME, STRP, u32(6)))
    carried("a type that is named, and one that is not", root(subprogram(f, to("int")), integer, char), sections=strings, front=NAMED_TEXT)
    carried("a type at which no entry begins", root(subprogram(f, (TYPE, REF4, u32(17))), integer, char), sections=strings, front=UNTYPED_TEXT)
    kept_cases(carried)
    reference_cases(carried)
    value_cases(carried)
    file_cases(carried)
    refused_cases(carried, refused)
    list_cases(carried)
    refused_lists(carried, refused)


def kept_cases(carried):
    """Which entries are kept with the required ones."""
    void = lambda tag, *children, key=None: Entry(tag, children=children, key=key)
    for tag in (0x05, 0x0A, 0x0B, 0x0D, 0x18, 0x19, 0x1C, 0x1D, 0x21, 0x22, 0x25, 0x28, 0x2F, 0x30, 0x32, 0x33, 0x48, 0x49, 0x34, 0x27, 0x24, 0x13):
        carried(f"a child of tag {tag:#x}", root(subprogram(children=[void(tag)]), void(tag)))
    carried("a variable below a namespace", root(void(NAMESPACE, void(VARIABLE), subprogram(children=[void(VARIABLE)])), void(NAMESPACE)))
    carried("what children of children name", root(subprogram(children=[void(BLOCK, Entry(VARIABLE, to("s")))]), void(STRUCTURE, Entry(MEMBER, to("i")), key="s"), base_type(b"i", "i"), base_type(b"j")))
    carried("a parent is kept, and its other children are not", root(void(NAMESPACE, void(STRUCTURE, void(BASE_TYPE, key="in"), void(BASE_TYPE))), subprogram(to("in"))))
    carried("a sibling is no reference", root(subprogram(to("s", SIBLING)), base_type(b"s", "s")))
    carried("a circle of references", root(subprogram(to("a")), Entry(STRUCTURE, to("b"), key="a"), Entry(STRUCTURE, to("a"), key="b"), Entry(STRUCTURE, to("d"), key="c"), Entry(STRUCTURE, to("c"), key="d")))
    carried("a subprogram that begins nowhere, named by one that is kept", root(subprogram(to("g", 0x31)), Entry(SUBPROGRAM, (NAME, STRING, b"g\0"), children=[void(PARAMETER)], key="g")))
    deep = void(BLOCK)
    for _ in range(40):
        deep = void(BLOCK, deep)
    carried("blocks forty deep", root(subprogram(children=[deep]), base_type(b"x")))


def reference_cases(carried):
    """References within a unit and between units, forward, back and to nothing."""
    whole = lambda key, size=4: (TYPE, REF_ADDR, Label(key, size, whole=True))
    carried("a reference back", root(base_type(b"b", "b"), subprogram(to("b"))))
    for form, size in ((0x11, 1), (0x12, 2), (0x13, 4), (0x14, 8)):
        carried(f"a reference by form {form:#x}", root(subprogram((TYPE, form, Label("b", size))), base_type(b"b", "b")))
    carried("a reference by ref_udata", root(subprogram((TYPE, 0x15, Label("b", 1))), base_type(b"b", "b")))
    carried("a reference of the section within its unit", root(subprogram(whole("b")), base_type(b"b", "b")))
    other = root(base_type(b"x"), base_type(b"b", "b"), attributes=())
    carried("a reference to a later unit", root(subprogram(whole("b"))), other)
    carried("a reference to an earlier unit", other, root(subprogram(whole("b"))))
    both = root(Entry(STRUCTURE, whole("s"), key="b"), attributes=())
    carried("two units that name one another", root(subprogram(whole("b")), Entry(STRUCTURE, whole("b"), key="s")), both)
    carried("a reference of version 2", (root(subprogram(whole("b", 4))), 2, 4), (other, 3, 8))
    partial = root(base_type(b"b", "b"), attributes=(), tag=0x3C)
    carried("a reference to a unit that is not carried", root(subprogram(whole("b"))), partial)
    carried("a unit reference past its unit", root(subprogram((TYPE, REF4, Label("b", whole=True)))), root(base_type(b"b", "b")))
    carried("a reference to its own entry", root(subprogram(to("f"), key="f")))
    carried("references to the root", root(subprogram((TYPE, REF4, u32(11)), (0x64, REF_ADDR, u32(11)))))
    carried("two references to one place", root(subprogram(to("b"), to("b", 0x47)), base_type(b"b", "b")))
    carried("a type twice, of which the second goes", root(subprogram(to("b"), (TYPE, REF4, u32(9))), base_type(b"b", "b")))


def value_cases(carried):
    """What values of each form become."""
    forms = [
        (0x0B, b"\xFF"), (0x05, b"\x34\x12"), (0x06, u32(0x89ABCDEF)), (0x07, bytes(7) + b"\x80"), (0x0D, sleb(-3)), (0x0F, uleb(1 << 40)),
        (b"\x21" + sleb(-200), b""), (b"\x21\x07", b""), (0x0C, b"\x02"), (0x0C, b"\x00"), (0x19, b""), (0x16, b"\x0B\x05"),
        (0x0A, b"\x02ab"), (0x03, b"\x01\x00\x61"), (0x04, u32(1) + b"z"), (0x09, b"\x81\x00q"), (0x0A, b"\x00"), (0x08, b"text\0"), (0x08, b"\0"),
        (0x1E, bytes(16)), (0x20, bytes(8)), (0x17, u32(9)), (0x22, b"\x01"), (0x23, b"\x01"),
    ]
    for i, (form, value) in enumerate(forms):
        version = 5 if form in (0x1E, 0x22, 0x23) or isinstance(form, bytes) else 4
        carried(f"value {i} of a name of its own", (root(subprogram((0x2100, form, value))), version, 4))
    for form, value in ((0x0B, b"\x07"), (0x06, u32(7)), (0x0F, b"\x07"), (b"\x21\x07", b"")):
        carried(f"the size of a type by {form!r}", (root(subprogram(to("b")), Entry(BASE_TYPE, (0x0B, form, value), key="b")), 5, 4))
    for name in (0x01, 0x43, 0x74, 0x8C, 0x76, 0x79, 0x2137):
        carried(f"an attribute of the name {name:#x} goes", root(subprogram((name, DATA1, b"\x01"), (0x3B, DATA1, b"\x02"))))
    carried("a line table that no root names", root(subprogram((STMT_LIST, SEC_OFFSET, bytes(4)))))
    carried("a name set again", root(subprogram((NAME, STRING, b"a\0"), (0x3B, DATA1, b"\x01"), (NAME, STRING, b"b\0"))))
    carried("bounds are in front", root(Entry(SUBPROGRAM, (NAME, STRING, b"f\0"), BEGIN, (0x3B, DATA1, b"\x01"), LENGTH)))
    text_cases(carried)
    for big in (False, True):
        carried(f"a base type, {'big' if big else 'little'} endian", root(subprogram(to("b"), (0x3B, DATA2, b"\x01\x02")), base_type(b"b", "b")), big=big)
    carried("a base type that has an endianity", root(subprogram(to("b")), Entry(BASE_TYPE, (0x65, DATA1, b"\x01"), (0x0B, DATA1, b"\x04"), key="b")), big=True)
    addresses = [(".debug_addr", bytes(8) + u32(9) + u32(2))]
    for form in (0x1B, 0x29, 0x2A, 0x2B, 0x2C):
        index = (1).to_bytes({0x1B: 1, 0x29: 1, 0x2A: 2, 0x2B: 3, 0x2C: 4}[form], "little")
        carried(f"a begin by an index of form {form:#x}", (root(Entry(SUBPROGRAM, (LOW_PC, form, index), LENGTH)), 5, 4), sections=addresses)
    based = root(Entry(SUBPROGRAM, (LOW_PC, 0x1B, b"\x00"), LENGTH), attributes=(LINES, (0x73, SEC_OFFSET, u32(12))))
    carried("a begin by an index, from a base", (based, 5, 4), sections=addresses)


def text_cases(carried):
    """Texts in place, by offset and by index, and equal texts."""
    sections = [(".debug_str", b"one\0two\0"), (".debug_line_str", b"three\0"), (".debug_str_offsets", bytes(8) + u32(4) + u32(0))]
    for form, value in ((0x0E, u32(4)), (0x1F, u32(0)), (0x1A, b"\x01"), (0x25, b"\x00"), (0x26, b"\x01\x00"), (0x27, bytes(3)), (0x28, u32(1))):
        carried(f"a text by form {form:#x}", (root(subprogram((NAME, form, value))), 5, 4), sections=sections)
    based = root(subprogram((NAME, 0x1A, b"\x00")), attributes=(LINES, (0x72, SEC_OFFSET, u32(12))))
    carried("a text by an index, from a base", (based, 5, 4), sections=sections)
    same = [(NAME, STRING, b"one\0"), (0x25, 0x0E, u32(0)), (0x6E, 0x0E, u32(1)), (0x1B, 0x0E, u32(4))]
    carried("equal texts stand once", (root(subprogram(*same), attributes=(LINES, (NAME, STRING, b"two\0"))), 4, 4), sections=sections)
    carried("equal texts of two units", root(subprogram((NAME, STRING, b"x\0"))), root(subprogram((NAME, STRING, b"y\0"), (0x25, STRING, b"x\0"))))


def file_cases(carried):
    """Numbers of files, which are others in the output."""
    for name in (DECL_FILE, CALL_FILE):
        for number in (0, 1, 2, 200):
            carried(f"file {number} under {name:#x}", root(subprogram((name, DATA1, bytes([number])))))
    for number in (0, 1):
        carried(f"file {number} without a line table", root(subprogram((DECL_FILE, DATA1, bytes([number]))), attributes=()))
        carried(f"file {number} without a line table in version 5", (root(subprogram((DECL_FILE, DATA1, bytes([number]))), attributes=()), 5, 4))
    carried("a file by an implicit constant", (root(subprogram((DECL_FILE, b"\x21\x01", b""))), 5, 4))
    carried("a file that is a text", root(subprogram((DECL_FILE, STRING, b"a\0"))))


NO_LIST = (10, "Read RangeList .debug_ranges 0")  # a list of a section that is not there


def refused_cases(carried, refused):
    """What is refused of entries, at the entry, and in which order."""
    at = 16  # the first entry below the root
    name = lambda form, value: (NAME, form, value)
    cut = [(".debug_str", b"f\0int")]
    refused("a text without an end", 10, f"Read Text .debug_info {at}", root(subprogram(name(STRP, u32(2)))), sections=cut)
    refused("a text past its section", 10, f"Read Text .debug_info {at}", root(subprogram(name(STRP, u32(6)))), sections=cut)
    refused("a text of a section that is not there", 10, f"Read Text .debug_info {at}", root(subprogram(name(STRP, u32(0)))))
    offsets = [(".debug_str", b"f\0"), (".debug_str_offsets", bytes(8) + u32(0) + b"\0")]
    refused("an index of a text past its section", 10, "Read Text .debug_info 17", (root(subprogram(name(0x1A, b"\x01"))), 5, 4), sections=offsets)
    kept = Entry(BASE_TYPE, name(STRP, u32(0)), key="b")
    refused("a text of a kept entry in file order", 10, "Read Text .debug_info 29", root(subprogram(to("b")), kept))
    addresses = [(".debug_addr", bytes(8) + u32(2) + b"\0\0\0")]
    indexed = lambda index: Entry(SUBPROGRAM, (LOW_PC, 0x1B, index), LENGTH)
    refused("an index of an address past its section", 10, "Read AddressValue .debug_info 17", (root(indexed(b"\x01")), 5, 4), sections=addresses)
    refused("an entry that cannot be read", 10, "Read Entry .debug_info 25", root(subprogram(), Entry(VARIABLE, (NAME, 0x7F, b""))))
    low = (LINES, (LOW_PC, ADDR, u32(2)))
    carried("a root with a begin", root(subprogram(), attributes=low))
    refused("a root with ranges", *NO_LIST, root(subprogram(), attributes=(LINES, (RANGES, SEC_OFFSET, bytes(4)))))
    carried("a block with bounds", root(subprogram(children=[Entry(BLOCK, BEGIN, LENGTH)])))
    with_attribute = lambda attribute: root(Entry(SUBPROGRAM, BEGIN, attribute))
    for what, attribute in [
        ("an expression", (0x02, 0x18, b"\x01\x30")),
        ("a block that is an expression", (0x02, 0x0A, b"\x01\x30")),
        ("a length that is an expression", (HIGH_PC, 0x18, b"\x01\x30")),
    ]:
        carried(what, with_attribute(attribute))
    refused("a location list of a section that is not there", 10, "Read LocationList .debug_loc 0", with_attribute((0x02, SEC_OFFSET, bytes(4))))
    carried("an address", with_attribute((0x2100, ADDR, u32(2))))
    refused("a range list under another name", *NO_LIST, with_attribute((0x2C, SEC_OFFSET, bytes(4))))
    cut_expression = (0x02, 0x18, b"\x01\x10")
    refused("a text before an expression", 10, f"Read Text .debug_info {at}", root(subprogram(name(STRP, u32(0)), cut_expression)))
    refused("an expression before a text", 10, f"Read Expression .debug_info {at + 10}", root(subprogram(cut_expression, name(STRP, u32(0)))))
    refused("a text of the second unit behind the first", 10, "Read Text .debug_info 42", root(subprogram()), root(subprogram(name(STRP, u32(0)))))
    refused("a file that is not there behind no line table", 12, "InvalidFileIndex 0", root(subprogram(name(STRP, u32(0)))), sections=[(".debug_line", BAD_LINES)])


# ---- range lists of subprograms

LISTED = (RANGES, SEC_OFFSET, bytes(4))
GREATEST = 0xFFFFFFFF  # as the first of two addresses, it selects the second as a base
ADDRESSES = (".debug_addr", bytes(8) + u32(1) + u32(5))


def pairs(*pairs):
    """`.debug_ranges` of one list, which ends."""
    return (".debug_ranges", b"".join(u32(begin) + u32(end) for begin, end in pairs) + bytes(8))


def kinds(contents):
    """`.debug_rnglists` of one list."""
    return (".debug_rnglists", contents)


def at_low_pc(low_pc, *attributes):
    return Entry(SUBPROGRAM, (LOW_PC, ADDR, u32(low_pc)), LENGTH, *attributes)


def list_cases(carried):
    """Which lists show that a subprogram is of code. It is carried by its `low_pc`; beside it stands one that is carried whatever the list is."""
    beside = subprogram((NAME, STRING, b"beside\0"))
    for name, low_pc, list_of_pairs in [
        ("of code", 2, [(5, 6), (10, 11)]),
        ("of no code, beside a begin of code", 2, [(0, 6)]),
        ("that is empty", 2, []),
        ("of code, beside a begin of none", 1, [(5, 6)]),
        ("behind a second base, of code", 2, [(GREATEST, 1), (GREATEST, 5), (0, 6)]),
        ("behind a base of no code", 2, [(GREATEST, 1), (5, 6)]),
        ("before a base of no code", 2, [(5, 6), (GREATEST, 1)]),
        ("between two bases", 1, [(0, 1), (GREATEST, 5), (GREATEST, 1), (5, 6)]),
        ("and of bases alone", 1, [(GREATEST, 5)]),
    ]:
        carried(f"a list of pairs {name}", root(beside, at_low_pc(low_pc, LISTED)), sections=[pairs(*list_of_pairs)])
    for index, begin in ((0, 1), (1, 1), (1, 5)):
        indexed = Entry(SUBPROGRAM, (LOW_PC, 0x1B, bytes([index])), LENGTH, LISTED)
        carried(f"a pair from {begin} beside a begin by the index {index}", root(beside, indexed), sections=[ADDRESSES, pairs((begin, 6))])
    eight = Entry(SUBPROGRAM, (LOW_PC, ADDR, u32(2) + bytes(4)), LENGTH, (RANGES, DATA4, bytes(4)))
    carried("a list of pairs of eight bytes in version 3", (root(eight, attributes=()), 3, 8), sections=[(".debug_ranges", bytes.fromhex("FF" * 8 + "05" + "00" * 7 + "01" + "00" * 31))])
    carried("ranges that are no list", root(beside, at_low_pc(2, (RANGES, DATA1, b"\0"))))
    carried("of two lists the first counts", root(beside, at_low_pc(2, (RANGES, SEC_OFFSET, u32(8)), LISTED)), sections=[pairs((5, 6))])
    carried("a list of a type that is not kept is not read", root(beside, Entry(BASE_TYPE, LISTED)))
    five = lambda *attributes: (root(beside, at_low_pc(2, *attributes)), 5, 4)
    for name, contents in [
        ("of two offsets", b"\x04\x00\x03"),
        ("of a base by an index and two offsets", b"\x01\x01\x04\x00\x03"),
        ("of two indexes, by the first", b"\x02\x01\x00"),
        ("of two indexes, not by the second", b"\x02\x00\x01"),
        ("of an index and a length", b"\x03\x01\x00"),
        ("of a base and two offsets", b"\x05" + u32(5) + b"\x04\x00\x03"),
        ("of two addresses", b"\x06" + u32(5) + u32(6)),
        ("of two addresses, not by the second", b"\x06" + u32(1) + u32(6)),
        ("of an address behind a base of no code", b"\x05" + u32(1) + b"\x07" + u32(5) + b"\x00"),
        ("of an address and a length that is too great", b"\x07" + u32(5) + uleb((1 << 64) - 1)),
        ("without entries", b""),
    ]:
        carried(f"a list {name}", five(LISTED), sections=[ADDRESSES, kinds(contents + b"\0")])
    lists = kinds(bytes(12) + u32(8) + u32(12) + b"\x04\x00\x03\x00\x03\x01\x01\x00")
    for index in (0, 1):
        carried(f"a list by the index {index}", five((RANGES, 0x23, bytes([index]))), sections=[ADDRESSES, lists])
    based = root(beside, at_low_pc(2, (RANGES, 0x23, b"\x00")), attributes=(LINES, (0x74, SEC_OFFSET, u32(16))))
    carried("a list by an index, from a base", (based, 5, 4), sections=[ADDRESSES, kinds(bytes(16) + u32(4) + b"\x03\x01\x01\x00")])


def refused_lists(carried, refused):
    """What is refused of range lists of subprograms: first what cannot be read of the list, told there, and then the begin beside it."""
    listed, cut = Entry(SUBPROGRAM, LISTED), (".debug_ranges", u32(5) + u32(6))
    at_list, at_kinds = "Read RangeList .debug_ranges 0", "Read RangeList .debug_rnglists 0"
    carried("a subprogram that its list requires", root(listed), sections=[pairs((5, 6))])
    carried("a subprogram that its list of version 5 requires", (root(listed), 5, 4), sections=[kinds(b"\x06" + u32(5) + u32(6) + b"\0")])
    carried("a subprogram that its list requires, beside a begin of none", root(at_low_pc(1, LISTED)), sections=[pairs((GREATEST, 5), (0, 1))])
    by_index = Entry(SUBPROGRAM, (LOW_PC, 0x1B, b"\x00"), LISTED)
    carried("a subprogram that its list requires, beside a begin of none by an index", root(by_index), sections=[ADDRESSES, pairs((5, 6))])
    refused("a list of a block that is kept", *NO_LIST, root(subprogram(children=[Entry(BLOCK, LISTED)])))
    refused("a list of a section that is not there", 10, at_list, root(listed))
    refused("a list without its end", 10, at_list, root(listed), sections=[cut])
    refused("a list that is cut in an address", 10, at_list, root(listed), sections=[(".debug_ranges", bytes(7))])
    refused("a list past its section", 10, "Read RangeList .debug_ranges 40", root(Entry(SUBPROGRAM, (RANGES, SEC_OFFSET, u32(40)))), sections=[pairs((5, 6))])
    refused("a list that cannot be read of a subprogram that begins in a function", 10, at_list, root(subprogram(LISTED)), sections=[cut])
    refused("a list that cannot be read of a unit that is not carried", 10, at_list, root(subprogram()), root(listed, tag=0x3C), sections=[cut])
    refused("a list before a line table", 10, at_list, root(subprogram(), listed), sections=[cut, (".debug_line", b"\x38\0")])
    refused("a list before an entry that cannot be read", 10, at_list, root(listed, Entry(VARIABLE, (NAME, 0x7F, b""))), sections=[cut])
    refused("a kind of entry that is none", 10, at_kinds, (root(listed), 5, 4), sections=[kinds(b"\x08\0")])
    for name, contents in [
        ("a base", b"\x01\x02"),
        ("a start and an end", b"\x02\x02\x00"),
        ("an end", b"\x02\x01\x02"),
        ("a start and a length", b"\x03\x02\x01"),
        ("a start behind one that shows code", b"\x03\x01\x01\x03\x02\x01"),
    ]:
        refused(f"{name} by an index that cannot be read", 10, at_kinds, (root(listed), 5, 4), sections=[ADDRESSES, kinds(contents + b"\0")])
    indexed = (root(Entry(SUBPROGRAM, (RANGES, 0x23, b"\x01"))), 5, 4)
    refused("an index of a list past its section", 10, "Read RangeList .debug_info 17", indexed, sections=[kinds(bytes(12) + u32(4) + b"\0\0\0")])
    refused("a list by an index past its section", 10, "Read RangeList .debug_rnglists 112", indexed, sections=[kinds(bytes(16) + u32(100) + bytes(4))])
    begin = Entry(SUBPROGRAM, (LOW_PC, 0x1B, b"\x02"), LISTED)
    refused("a list before the begin beside it", 10, at_list, root(begin), sections=[ADDRESSES, cut])
    refused("a begin that cannot be read beside a list", 10, "Read AddressValue .debug_info 16", root(begin), sections=[ADDRESSES, pairs((5, 6))])
    refused("a begin that cannot be read beside an empty list", 10, "Read AddressValue .debug_info 16", root(begin), sections=[ADDRESSES, pairs()])


BAD_LINES = bytes.fromhex("36000000 0400 1B000000 01 01 01 FB 0E 0D 000101010100000001000001 00 612E6300000000 00 0005020200000001 04 09 01 020503 0101 0203 000101")
