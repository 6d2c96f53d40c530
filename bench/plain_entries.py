"""The units and entries of a module, read plainly, and which entries are kept. (DWARF 4 and 5, sections 2 and 7.5.)"""

from dataclasses import dataclass, field

TAG_COMPILE_UNIT, TAG_SUBPROGRAM, TAG_NAMESPACE, TAG_VARIABLE, TAG_CONSTANT, TAG_BASE_TYPE = 0x11, 0x2E, 0x39, 0x34, 0x27, 0x24
TAG_ARRAY_TYPE, TAG_ENTRY_POINT, TAG_FORMAL_PARAMETER, TAG_MEMBER, TAG_POINTER_TYPE, TAG_REFERENCE_TYPE = 0x01, 0x03, 0x05, 0x0D, 0x0F, 0x10
TAG_STRUCTURE_TYPE, TAG_INLINED_SUBROUTINE, TAG_CONST_TYPE, TAG_TEMPLATE_TYPE = 0x13, 0x1D, 0x26, 0x2F
TAG_POINTER_TO_MEMBER, TAG_RVALUE_REFERENCE = 0x1F, 0x42
AT_SIBLING, AT_STMT_LIST, AT_LOW_PC, AT_HIGH_PC, AT_RANGES, AT_START_SCOPE = 0x01, 0x10, 0x11, 0x12, 0x55, 0x2C
AT_NAME, AT_TYPE, AT_LOCATION, AT_BYTE_SIZE, AT_LANGUAGE, AT_PRODUCER, AT_ARTIFICIAL = 0x03, 0x49, 0x02, 0x0B, 0x13, 0x25, 0x34
AT_MEMBER_LOCATION, AT_ENCODING, AT_OBJECT_POINTER, AT_LINKAGE_NAME = 0x38, 0x3E, 0x64, 0x6E
AT_DECL_FILE, AT_CALL_FILE, AT_ENDIANITY, AT_FRAME_BASE = 0x3A, 0x58, 0x65, 0x40
AT_CONTAINING_TYPE, AT_VTABLE_LOCATION = 0x1D, 0x4D
AT_STR_OFFSETS_BASE, AT_ADDR_BASE, AT_RNGLISTS_BASE, AT_LOCLISTS_BASE = 0x72, 0x73, 0x74, 0x8C
LOCATION_NAMES = (0x02, 0x19, 0x2A, 0x38, 0x40, 0x46, 0x48, 0x4A, 0x4D)
EXPRESSION_NAMES = LOCATION_NAMES + (0x0B, 0x0D, 0x22, 0x2E, 0x2F, 0x37, 0x4E, 0x4F, 0x50, 0x51)
DROPPED_NAMES = (AT_SIBLING, 0x43, AT_STR_OFFSETS_BASE, AT_ADDR_BASE, AT_RNGLISTS_BASE, AT_LOCLISTS_BASE, 0x76, 0x79, 0x2137)
PART_TAGS = (0x05, 0x0A, 0x0B, 0x0D, 0x18, 0x19, 0x1C, 0x1D, 0x21, 0x22, 0x25, 0x28, 0x2F, 0x30, 0x32, 0x33, 0x48, 0x49)
USUAL_BASES = {AT_STR_OFFSETS_BASE: 8, AT_ADDR_BASE: 8, AT_RNGLISTS_BASE: 12, AT_LOCLISTS_BASE: 12}  # behind the header of the section


class Refused(ValueError):
    """What a run refuses, by the line that it prints."""


class Reader:
    def __init__(self, data, at=0):
        self.data, self.at = data, at

    def take(self, count):
        if self.at + count > len(self.data):
            raise ValueError("the bytes end early")
        self.at += count
        return self.data[self.at - count : self.at]

    def number(self, size):
        return int.from_bytes(self.take(size), "little")

    def leb(self):
        """The bits of a number of variable length, how many they are, and whether the highest of them is set."""
        value, bits = 0, 0
        while True:
            byte = self.number(1)
            value |= (byte & 0x7F) << bits
            bits += 7
            if byte < 0x80:
                return value, bits, byte & 0x40 != 0

    def uleb(self):
        value, _, _ = self.leb()
        return value

    def sleb(self):
        value, bits, is_negative = self.leb()
        return value - (1 << bits) if is_negative else value

    def text(self):
        end = self.data.index(0, self.at)
        return self.take(end + 1 - self.at)[:-1]


def uleb(n):
    out = bytearray()
    while n >= 0x80:
        out.append(n & 0x7F | 0x80)
        n >>= 7
    return bytes(out) + bytes([n])


def sleb(n):
    out = bytearray()
    while not -64 <= n < 64:
        out.append(n & 0x7F | 0x80)
        n >>= 7
    return bytes(out) + bytes([n & 0x7F])


def read_table(data, offset):
    """Tag, children and attributes of each code of an abbreviation table; of equal codes the first counts."""
    reader, table = Reader(data, offset), {}
    while code := reader.uleb():
        tag, children, attributes = reader.uleb(), reader.number(1), []
        while (pair := (reader.uleb(), reader.uleb())) != (0, 0):
            implicit = reader.sleb() if pair[1] == 0x21 else None
            attributes.append((*pair, implicit))
        table.setdefault(code, (tag, children, attributes))
    return table


@dataclass
class Entry:
    offset: int
    depth: int
    tag: int
    attributes: list  # pairs of a name and a value: a kind and what is of that kind

    def value(self, name):
        """The first value of a name."""
        return next((value for n, value in self.attributes if n == name), None)


@dataclass
class Unit:
    offset: int
    end: int
    version: int
    address_size: int
    entries: list = field(default_factory=list)

    @property
    def root(self):
        return self.entries[0] if self.entries else Entry(0, 0, 0, [])

    def entry_at(self, offset):
        """The entry that begins at an offset."""
        return next((entry for entry in self.entries if entry.offset == offset), None)

    @property
    def line_table(self):
        value = self.root.value(AT_STMT_LIST)
        return value[1] if value and value[0] == "line" else None

    def base(self, name):
        value = self.root.value(name)
        return value[-1] if value and isinstance(value[-1], int) and value[0] in ("constant", "dropped") else USUAL_BASES[name]

    @property
    def text_base(self):
        return self.base(AT_STR_OFFSETS_BASE)


def read_units(sections):
    data = sections.get(".debug_info", b"")
    at, units = 0, []
    while at < len(data):
        reader, offset = Reader(data, at), at
        at += 4 + reader.number(4)
        version = reader.number(2)
        if version == 5:
            kind, size = reader.number(1), reader.number(1)
            table = reader.number(4)
            reader.take(8 if kind in (4, 5) else 0)
        else:
            table, size = reader.number(4), reader.number(1)
        unit = Unit(offset, at, version, size)
        read_entries(reader, unit, read_table(sections[".debug_abbrev"], table))
        units.append(unit)
    return units


def read_entries(reader, unit, table):
    depth = 0
    while reader.at < unit.end:
        offset, code = reader.at, reader.uleb()
        if code == 0:
            depth -= 1
        else:
            tag, children, specs = table[code]
            attributes = [(name, value_of(reader, unit, name, form, implicit)) for name, form, implicit in specs]
            unit.entries.append(Entry(offset, depth, tag, attributes))
            depth += children
        if depth <= 0:
            break


def section_offset(name, number):
    if name in LOCATION_NAMES:
        return ("locations", number)
    if name == AT_STMT_LIST:
        return ("line", number)
    return ("ranges", number) if name in (AT_RANGES, AT_START_SCOPE) else ("dropped", number)


def value_of(reader, unit, name, form, implicit):
    """The value of a form under a name. (DWARF 5, section 7.5.5.)"""
    while form == 0x16:
        form = reader.uleb()
    fixed = {0x0B: 1, 0x05: 2, 0x06: 4, 0x07: 8}
    if form == 0x01:
        return ("address", reader.number(unit.address_size))
    if form in (0x1B, 0x29, 0x2A, 0x2B, 0x2C):
        return ("address index", reader.uleb() if form == 0x1B else reader.number(form - 0x28))
    if form in (0x03, 0x04, 0x0A, 0x09):
        size = {0x03: 2, 0x04: 4, 0x0A: 1}.get(form)
        data = reader.take(reader.number(size) if size else reader.uleb())
        return ("expression", data, reader.at - len(data)) if name in EXPRESSION_NAMES else ("block", data)
    if form == 0x18:
        data = reader.take(reader.uleb())
        return ("expression", data, reader.at - len(data))
    if form in fixed:
        number = reader.number(fixed[form])
        old = form == 0x06 and unit.version < 4 and section_offset(name, number)[0] != "dropped"
        return section_offset(name, number) if old else ("constant", form, number)
    if form in (0x0D, 0x0F, 0x21):
        number = reader.sleb() if form == 0x0D else reader.uleb() if form == 0x0F else implicit
        return ("constant", form, number % (1 << 64))
    if form in (0x0C, 0x19):
        return ("flag", form == 0x19 or reader.number(1) != 0)
    if form == 0x08:
        return ("text", reader.text())
    if form in (0x0E, 0x1F):
        return ("text at", {0x0E: ".debug_str", 0x1F: ".debug_line_str"}[form], reader.number(4))
    if form == 0x1A or 0x25 <= form <= 0x28:
        return ("text index", reader.uleb() if form == 0x1A else reader.number(form - 0x24))
    if 0x11 <= form <= 0x15:
        return ("unit", reader.uleb() if form == 0x15 else reader.number({0x11: 1, 0x12: 2, 0x13: 4, 0x14: 8}[form]))
    if form == 0x10:
        return ("info", reader.number(unit.address_size if unit.version == 2 else 4))
    if form == 0x17:
        return section_offset(name, reader.number(4))
    if form == 0x22:
        return ("location index" if name in LOCATION_NAMES else "dropped", reader.uleb())
    if form == 0x23:
        return ("range index" if name in (AT_RANGES, AT_START_SCOPE) else "dropped", reader.uleb())
    return ("dropped", reader.take({0x1E: 16, 0x20: 8}[form]))


def text_of(sections, unit, value):
    """The text that a value names; None for a value that is no text."""
    if value[0] == "text":
        return value[1]
    if value[0] == "text at":
        return Reader(sections[value[1]], value[2]).text()
    if value[0] == "text index":
        offset = Reader(sections[".debug_str_offsets"], unit.text_base + 4 * value[1]).number(4)
        return Reader(sections[".debug_str"], offset).text()
    return None


def address_of(sections, unit, value):
    """The address that a value is; None for a value that is no address."""
    if value and value[0] == "address":
        return value[1]
    if value and value[0] == "address index":
        at = unit.base(AT_ADDR_BASE) + unit.address_size * value[1]
        return Reader(sections[".debug_addr"], at).number(unit.address_size)
    return None


def target_of(unit, value):
    """The offset that a reference names."""
    if value[0] == "unit" and unit.offset + value[1] < unit.end:
        return unit.offset + value[1]
    return value[1] if value[0] == "info" else None


def begun(sections, unit, entry, function_at):
    """The function that a subprogram begins in, by its `low_pc`."""
    address = address_of(sections, unit, entry.value(AT_LOW_PC)) if entry.tag == TAG_SUBPROGRAM else None
    return None if address is None else function_at(address)


# What each kind of entry of a list says from version 5 on, and its operands: an index of an address, a number, an address.
KINDS = {1: ("base", "i"), 2: ("ends", "ii"), 3: ("length", "in"), 4: ("offsets", "nn"), 5: ("base", "a"), 6: ("ends", "aa"), 7: ("length", "an")}


def is_range_list(value):
    return value is not None and value[0] in ("ranges", "range index")


def range_entries(sections, unit, value):
    """The entries of the range list that a value names: `base`, `pair`, `ends`, `length` or `offsets`, and the operands, of which
    those by an index are addresses. (DWARF 4, section 2.17.3; DWARF 5, sections 7.25 and 7.28.)"""
    size, name = unit.address_size, ".debug_rnglists" if unit.version >= 5 or value[0] == "range index" else ".debug_ranges"
    place = value[1]
    if value[0] == "range index":
        base = unit.base(AT_RNGLISTS_BASE)
        place = base + Reader(sections[name], base + 4 * place).number(4)
    reader = Reader(sections[name], place)
    if name == ".debug_ranges":
        while (pair := (reader.number(size), reader.number(size))) != (0, 0):
            yield ("base", pair[1]) if pair[0] == (1 << 8 * size) - 1 else ("pair", *pair)
        return
    read = {"i": lambda: address_of(sections, unit, ("address index", reader.uleb())), "n": reader.uleb, "a": lambda: reader.number(size)}
    while kind := reader.number(1):
        what, operands = KINDS[kind]
        yield what, *[read[operand]() for operand in operands]


def list_shows_code(sections, unit, entry, function_at):
    """Whether the range list of an entry shows that it is of code. A base, where one is known, decides for the pairs behind it."""
    low_pc, shows = entry.value(AT_LOW_PC), False
    base = function_at(low_pc[1]) is not None if low_pc and low_pc[0] == "address" else None
    for kind, first, *_ in range_entries(sections, unit, entry.value(AT_RANGES)):
        is_code = kind != "offsets" and function_at(first) is not None
        if kind == "base":
            base = is_code
        elif kind == "pair" and base is not None:
            shows |= base
        else:
            shows |= is_code
    return shows


def is_required(sections, unit, entry, function_at):
    """Whether a subprogram is of code: by its `low_pc`, and where it has `ranges`, by these."""
    ranges = entry.value(AT_RANGES)
    if entry.tag != TAG_SUBPROGRAM or ranges is None:
        return begun(sections, unit, entry, function_at) is not None
    return is_range_list(ranges) and list_shows_code(sections, unit, entry, function_at)


def kept_offsets(sections, units, function_at):
    """The offsets of the entries that are kept: the required ones, and step by step what these keep."""
    everything = {e.offset: (u, e) for u in units for e in u.entries}
    parents, parts = {}, {}
    for unit in units:
        last = {}
        for entry in unit.entries:
            last[entry.depth] = entry
            if entry.depth > 0:
                above = last[entry.depth - 1]
                parents[entry.offset] = above.offset
                inner = entry.tag in (TAG_VARIABLE, TAG_CONSTANT) and not (above.depth == 0 or above.tag == TAG_NAMESPACE)
                if entry.tag in PART_TAGS or inner:
                    parts.setdefault(above.offset, []).append(entry.offset)
    kept, work = set(), [o for o, (u, e) in everything.items() if is_required(sections, u, e, function_at)]
    while work:
        offset = work.pop()
        if offset in kept or offset not in everything:
            continue
        kept.add(offset)
        unit, entry = everything[offset]
        work += [parents[offset]] if offset in parents else []
        work += [target_of(unit, value) for name, value in entry.attributes if name != AT_SIBLING]
        work += parts.get(offset, [])
    return kept
