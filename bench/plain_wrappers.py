"""What stands in the place of pointers and references of the input, whose values are addresses in a linear memory: structures that hold
such an address, with functions that make native pointers of it. (This project's own trees and names.)"""

from plain_entries import AT_ARTIFICIAL, AT_BYTE_SIZE, AT_LINKAGE_NAME, AT_MEMBER_LOCATION, AT_NAME, AT_TYPE, Refused, target_of, text_of
from plain_entries import TAG_ARRAY_TYPE, TAG_CONST_TYPE, TAG_FORMAL_PARAMETER, TAG_MEMBER, TAG_POINTER_TYPE, TAG_REFERENCE_TYPE, TAG_STRUCTURE_TYPE
from plain_entries import TAG_RVALUE_REFERENCE, TAG_SUBPROGRAM, TAG_TEMPLATE_TYPE
from plain_made import DATA1, Made, constant, in_section, in_unit, text
from plain_own_units import WASM_POINTER

KINDS = {TAG_POINTER_TYPE: "WebAssemblyPtrWrapper", TAG_REFERENCE_TYPE: "WebAssemblyRefWrapper"}
KINDS_FOR_DEBUGGER = KINDS | {TAG_RVALUE_REFERENCE: "WebAssemblyRefWrapper"}
DERIVED = {TAG_CONST_TYPE: (b"const ", b""), TAG_POINTER_TYPE: (b"", b"*"), TAG_REFERENCE_TYPE: (b"", b"&"), TAG_ARRAY_TYPE: (b"", b"[]")}
UNKNOWN = b"??"


def kinds(carried):
    return KINDS_FOR_DEBUGGER if carried.machine.for_debugger else KINDS


def is_wrapped(carried, entry):
    """Whether an entry is wrapped: pointers and references are, for a debugger rvalue references too."""
    return entry.tag in kinds(carried)


def type_of(unit, entry):
    """The entry of the unit that is the type of an entry, by a reference within the unit."""
    value = entry.value(AT_TYPE)
    return unit.entry_at(target_of(unit, value)) if value and value[0] == "unit" else None


def chain_of(unit, entry):
    """The types behind an entry, each the type of the one before, up to one that is met again."""
    met = {entry.offset}
    while (entry := type_of(unit, entry)) and entry.offset not in met:
        met.add(entry.offset)
        yield entry


def name_of(carried, entry):
    """The name of an entry of a chain, which must be UTF-8; None where it has none that is a text."""
    value = entry.value(AT_NAME)
    try:
        name = text_of(carried.sections, carried.unit, value) if value else None
        if name is not None:
            name.decode()
    except UnicodeDecodeError:
        raise Refused(f"Read BaseName .debug_info {entry.offset}")
    except (ValueError, KeyError):
        raise Refused(f"Read Text .debug_info {entry.offset}")
    return name


def name_of_type(carried, entry):
    """The name of the type of an entry: its own, or one that is made of the name of its type, and so on."""
    around = []
    for step in chain_of(carried.unit, entry):
        name = name_of(carried, step)
        if name is not None or step.tag not in DERIVED:
            return derived(UNKNOWN if name is None else name, around)
        around.append(DERIVED[step.tag])
    return derived(UNKNOWN, around)


def derived(name, around):
    """A name with what stands around it, the innermost last."""
    for before, behind in reversed(around):
        name = before + name + behind
    return name


def wrapper(carried, entry, resolve_name):
    """What a pointer or a reference becomes: the structure with its own children, and what stands behind those that it has of the
    wrapped entry: a pointer to it, and a reference and a pointer to what the wrapped one goes to."""
    module, depth, target = carried.machine.module, entry.depth, type_of(carried.unit, entry)
    to = lambda key: {AT_TYPE: in_unit(key)}
    itself, pointer, far_reference, far_pointer = [(module, entry.offset, *role) for role in ((), ("to it",), ("reference",), ("pointer",))]
    to_target = to((module, target.offset)) if target else {}
    name = ("text", kinds(carried)[entry.tag].encode() + b"<" + name_of_type(carried, entry) + b">")
    made = [
        Made(depth, TAG_STRUCTURE_TYPE, {AT_NAME: name, AT_BYTE_SIZE: constant(DATA1, 4)}, itself),
        Made(depth + 1, TAG_TEMPLATE_TYPE, {AT_NAME: text("T"), **to_target}),
        Made(depth + 1, TAG_MEMBER, {AT_NAME: text("__ptr"), AT_TYPE: in_section((module, WASM_POINTER)), AT_MEMBER_LOCATION: constant(DATA1, 0)}),
    ]
    for function, key in (("ptr", far_pointer), ("operator*", far_reference), ("operator->", far_pointer)):
        made.append(Made(depth + 1, TAG_SUBPROGRAM, {AT_LINKAGE_NAME: text(resolve_name), AT_NAME: text(function), **to(key)}))
        made.append(Made(depth + 2, TAG_FORMAL_PARAMETER, {**to(pointer), AT_ARTIFICIAL: ("flag", True)}))
    behind = [
        Made(depth, TAG_POINTER_TYPE, to(itself), pointer),
        Made(depth, TAG_REFERENCE_TYPE, to_target, far_reference),
        Made(depth, TAG_POINTER_TYPE, to_target, far_pointer),
    ]
    return made, behind
