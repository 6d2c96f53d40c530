"""What the kept entries of a unit become. (DWARF 4 and 5, chapters 2 and 5; this project's own rules.)"""

from dataclasses import dataclass

from plain_entries import AT_CALL_FILE, AT_DECL_FILE, AT_ENDIANITY, AT_HIGH_PC, AT_LOCATION, AT_LOW_PC, AT_NAME, AT_RANGES, AT_STMT_LIST, AT_TYPE
from plain_entries import AT_CONTAINING_TYPE, AT_VTABLE_LOCATION, DROPPED_NAMES, TAG_BASE_TYPE, TAG_POINTER_TO_MEMBER, TAG_SUBPROGRAM, TAG_VARIABLE, address_of, is_range_list, target_of, text_of
from plain_expressions import Machine
from plain_locations import InForce, context_locations, in_force, is_location, location_made, read_location
from plain_made import DATA1, UDATA, Made, constant, in_section, text
from plain_own_units import CONTEXT_POINTER
from plain_pointers import names_pointer, object_pointers, unlike_this
from plain_ranges import intervals_of, range_attributes, translated_address, translated_intervals
from plain_wrappers import is_wrapped, wrapper


@dataclass
class Carried:
    """A unit that is carried, with the sections of its module, the entries that are kept, its line table, if it has one, and the version of
    the output."""

    sections: dict
    unit: object
    entries: list
    table: object
    machine: Machine
    written: int


def file_number(unit, table, written, number):
    """The number of a file in an output of a version; None where the file is not there. Up to version 4 the number 0 is no file, in version 5
    it is one. (Section 2.14.)"""
    version = table.version if table else unit.version
    if version < 5 and number == 0:
        return 0 if written == 4 else None
    files = table.files if table else []
    inside = number < len(files) if version == 5 else number <= len(files)
    return number + (version == 5) if inside else None


def value_made(carried, entry, given, emitted, name, value):
    """What a value becomes: a kind, and what is of that kind; None where it goes. `emitted` are the offsets of the entries of the module
    that are in the output."""
    kind, sections, unit, table, function_at = value[0], carried.sections, carried.unit, carried.table, carried.machine.function_at
    if name in DROPPED_NAMES:
        return None
    if name == AT_STMT_LIST:
        return ("lines",) if entry.depth == 0 and table else None
    if is_location(value):
        return location_made(sections, unit, entry, given, carried.machine, name, value)
    if name in (AT_LOW_PC, AT_HIGH_PC, AT_RANGES) or kind in ("dropped", "line"):
        return None
    if kind == "constant" and name in (AT_DECL_FILE, AT_CALL_FILE):
        number = file_number(unit, table, carried.written, value[2])
        return None if number is None else constant(UDATA, number)
    if kind == "constant":
        return constant(0x0D if value[1] == 0x21 else value[1], value[2])
    if kind in ("flag", "block"):
        return value
    if kind in ("unit", "info"):
        target = target_of(unit, value)
        goes = target not in emitted or names_pointer(unit, entry, name, value)
        return None if goes else (kind, (carried.machine.module, target))
    if kind in ("address", "address index"):
        return translated_address(address_of(sections, unit, value), function_at)
    if is_range_list(value):
        return ("ranges", translated_intervals(intervals_of(sections, unit, value), function_at))
    return ("text", text_of(sections, unit, value))


def entries_in_force(carried):
    """The entries that are kept, each with what is in force at it."""
    above = {}
    for entry in carried.entries:
        parent = above.get(entry.depth - 1, InForce())
        above[entry.depth] = in_force(carried.sections, carried.unit, entry, parent, carried.machine.function_at)
        yield entry, above[entry.depth]


def is_gone(carried, entry, name):
    """Whether an attribute that was read goes, as it leads a debugger to take a wrapper for a pointer."""
    if not carried.machine.for_debugger:
        return False
    return name == AT_VTABLE_LOCATION or name == AT_CONTAINING_TYPE and entry.tag != TAG_POINTER_TO_MEMBER


def entry_made(carried, entry, given, emitted, is_big):
    """What an entry becomes that is not wrapped."""
    attributes = range_attributes(carried.sections, carried.unit, entry, carried.machine)
    for name, value in entry.attributes:
        made = value_made(carried, entry, given, emitted, name, value)
        if made is not None and not is_gone(carried, entry, name):
            attributes[name] = made
    if is_big and entry.tag == TAG_BASE_TYPE:
        attributes[AT_ENDIANITY] = constant(DATA1, 2)
    return Made(entry.depth, entry.tag, attributes, (carried.machine.module, entry.offset))


def context_variable(carried, entry, given):
    """What a subprogram gets before its children: where the context is over the scope, if one is in force."""
    if entry.tag != TAG_SUBPROGRAM or given.scope is None:
        return []
    to_context = in_section((carried.machine.module, CONTEXT_POINTER))
    lies = ("locations", context_locations(given, carried.machine))
    return [Made(entry.depth + 1, TAG_VARIABLE, {AT_NAME: text("__vmctx"), AT_TYPE: to_context, AT_LOCATION: lies})]


def read_alone(carried, entry, given, emitted):
    """Reads the attributes of a wrapped entry, of which nothing is built."""
    range_attributes(carried.sections, carried.unit, entry, carried.machine)
    for name, value in entry.attributes:
        if is_location(value) and name not in DROPPED_NAMES and name != AT_STMT_LIST:
            read_location(carried.sections, carried.unit, entry, given, name, value)
        else:
            value_made(carried, entry, given, emitted, name, value)


def tree_of(carried, emitted, is_big, resolve_name):
    """The entries of the output, in order."""
    tree, behind, pointers = [], [], object_pointers(carried)
    for entry, given in entries_in_force(carried):
        close(tree, behind, entry.depth)
        if is_wrapped(carried, entry):
            read_alone(carried, entry, given, emitted)
            made, others = wrapper(carried, entry, resolve_name)
            tree += made
            behind.append((entry.depth, others))
        else:
            made = entry_made(carried, entry, given, emitted, is_big)
            if entry.offset in pointers:
                made.attributes = unlike_this(made.attributes)
            tree += [made, *context_variable(carried, entry, given)]
    close(tree, behind, 0)
    return tree


def close(tree, behind, depth):
    """What stands behind the wrappers that end before an entry at a depth."""
    while behind and behind[-1][0] >= depth:
        tree += behind.pop()[1]
