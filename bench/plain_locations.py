"""Where values are: the location lists of the input, the scope, the frame and the frame base that are in force at an entry, and what
an attribute becomes that is an expression or a location list. (DWARF 4, section 2.6; DWARF 5, sections 2.6 and 7.29.)"""

from dataclasses import dataclass

from plain_entries import AT_FRAME_BASE, AT_HIGH_PC, AT_LOCLISTS_BASE, AT_LOW_PC, AT_RANGES, LOCATION_NAMES, TAG_SUBPROGRAM
from plain_entries import Reader, Refused, address_of
from plain_expressions import VMCTX, Compiled, Local, built, compiled
from plain_ranges import TooLong, extent, first_base, function_begun, interval_of, translated_intervals

CALL_FRAME = b"\x9C"  # the canonical frame address, which every frame base becomes
CONTEXT = Compiled((Local(VMCTX, True),), False)  # the context pointer alone

# What each kind of entry of a list says from version 5 on, and its operands: an index of an address, a number, an address.
KINDS = {1: ("base", "i"), 2: ("ends", "ii"), 3: ("length", "in"), 4: ("offsets", "nn"), 5: ("default", ""), 6: ("base", "a"), 7: ("ends", "aa"), 8: ("length", "an")}


# ---- location lists


def is_location(value):
    return value[0] in ("expression", "locations", "location index")


def list_place(sections, unit, entry, value):
    """The section and the offset of a location list."""
    if value[0] == "locations":
        return ".debug_loclists" if unit.version >= 5 else ".debug_loc", value[1]
    base = unit.base(AT_LOCLISTS_BASE)
    try:
        offset = Reader(sections.get(".debug_loclists", b""), base + 4 * value[1]).number(4)
    except ValueError:
        raise Refused(f"Read LocationList .debug_info {entry.offset}")
    return ".debug_loclists", base + offset


def old_entries(sections, unit, reader):
    """The entries of a list up to version 4: what each is, its operands, and its expression with the place of that."""
    size = unit.address_size
    while (pair := (reader.number(size), reader.number(size))) != (0, 0):
        if pair[0] == (1 << 8 * size) - 1:
            yield "base", pair[1:], None
        else:
            yield "pair", pair, expression_at(reader, reader.number(2))


def new_entries(sections, unit, reader):
    """The same from version 5 on."""
    read = {"i": lambda: address_of(sections, unit, ("address index", reader.uleb())), "n": reader.uleb, "a": lambda: reader.number(unit.address_size)}
    while kind := reader.number(1):
        if kind not in KINDS:
            raise ValueError("an entry of no kind")
        what, operands = KINDS[kind]
        values = [read[operand]() for operand in operands]
        yield what, values, None if what == "base" else expression_at(reader, reader.uleb())


def expression_at(reader, length):
    return reader.at, reader.take(length)


def locations_of(sections, unit, entry, value):
    """The section of a location list, and its intervals that are not empty, each with the place and the bytes of its expression."""
    name, place = list_place(sections, unit, entry, value)
    read, base, found = old_entries if name == ".debug_loc" else new_entries, first_base(sections, unit), []
    try:
        for kind, operands, expression in read(sections, unit, Reader(sections.get(name, b""), place)):
            if kind == "base":
                base = operands[0]
            elif kind != "default":
                found.append((interval_of(base, kind, *operands), *expression))
    except TooLong:
        raise Refused("TooLarge Range")
    except ValueError:
        raise Refused(f"Read LocationList {name} {place}")
    return name, [(interval, at, data) for interval, at, data in found if interval[0] < interval[1]]


# ---- what is in force


@dataclass
class InForce:
    """What an entry has of itself or of the nearest above it: the intervals of its scope, the function of its frame, a frame base."""

    scope: list | None = None
    frame: object = None
    base: Compiled | None = None


def in_force(sections, unit, entry, above, function_at):
    """What is in force at an entry, by what is in force at its parent. The root of a unit gives and has nothing."""
    if entry.depth == 0:
        return InForce()
    scope, frame, base = above.scope, above.frame, above.base
    function = function_begun(sections, unit, entry, function_at)
    if function:
        scope, frame = function.scope, function
    elif entry.tag != TAG_SUBPROGRAM and (entry.value(AT_HIGH_PC) or entry.value(AT_RANGES)):
        scope = extent(sections, unit, entry)[0]
    return InForce(scope, frame, own_base(entry) or base)


def own_base(entry):
    """The frame base of an entry, where that is an expression that is supported. What cannot be read is told in its place."""
    value = entry.value(AT_FRAME_BASE)
    try:
        return compiled(value[1], None) if value and value[0] == "expression" else None
    except ValueError:
        return None


# ---- what attributes become


def compiled_at(section, place, data, base):
    try:
        return compiled(data, base)
    except ValueError:
        raise Refused(f"Read Expression {section} {place}")


def location_made(sections, unit, entry, given, machine, name, value):
    """What an attribute becomes that is an expression or a location list: an expression, a list of native ranges with expressions, or
    nothing. In the place of a bound an expression is read, and goes."""
    if value[0] != "expression":
        return list_made(sections, unit, entry, given, machine, value)
    expression = compiled_at(".debug_info", value[2], value[1], None if name == AT_FRAME_BASE else given.base)
    if name in (AT_LOW_PC, AT_HIGH_PC, AT_RANGES):
        return None
    if name == AT_FRAME_BASE:
        return "expression", CALL_FRAME
    return None if expression is None else expression_made(expression, given, machine, name)


def read_location(sections, unit, entry, given, name, value):
    """Reads an expression or a location list, of which nothing is built."""
    if value[0] == "expression":
        compiled_at(".debug_info", value[2], value[1], None if name == AT_FRAME_BASE else given.base)
        return
    section, locations = locations_of(sections, unit, entry, value)
    for _, place, data in locations:
        compiled_at(section, place, data, given.base)


def context_locations(given, machine):
    """Where the context pointer lies over a scope, which may be empty."""
    if not given.scope:
        return []
    return built(CONTEXT, translated_intervals(given.scope, machine.function_at), given.frame, machine)[0]


def expression_made(expression, given, machine, name):
    if expression.is_simple:
        return ("expression", expression.code) if expression.code else None
    if not given.scope:
        return None
    ranges, covers = built(expression, translated_intervals(given.scope, machine.function_at), given.frame, machine)
    if ranges and covers and len({data for _, _, _, data in ranges}) == 1:
        return "expression", ranges[0][3]
    return ("locations", ranges) if ranges and name in LOCATION_NAMES else None


def list_made(sections, unit, entry, given, machine, value):
    """A list of what is built over each interval; nothing where none has an expression that is supported."""
    section, locations = locations_of(sections, unit, entry, value)
    made = []
    for interval, place, data in locations:
        expression = compiled_at(section, place, data, given.base)
        if expression is not None:
            made.append(built(expression, translated_intervals([interval], machine.function_at), given.frame, machine)[0])
    return ("locations", [location for ranges in made for location in ranges]) if made else None
