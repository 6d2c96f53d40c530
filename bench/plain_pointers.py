"""Parameters that are object pointers: those that a function names so, and first ones that look like a `this`. They become wrappers,
which no debugger takes for an object pointer. (DWARF 4, section 5.5.7; DWARF 5, section 5.7.8; this project's own rule.)"""

from plain_entries import AT_ARTIFICIAL, AT_NAME, AT_OBJECT_POINTER, TAG_ENTRY_POINT, TAG_FORMAL_PARAMETER, TAG_INLINED_SUBROUTINE, TAG_POINTER_TYPE
from plain_entries import TAG_SUBPROGRAM, target_of, text_of
from plain_wrappers import type_of

FUNCTIONS = (TAG_SUBPROGRAM, TAG_INLINED_SUBROUTINE, TAG_ENTRY_POINT)


def names_pointer(unit, entry, name, value):
    """Whether an attribute of a function names an entry of its own unit as the object pointer."""
    is_pointer = entry.tag in FUNCTIONS and name == AT_OBJECT_POINTER and value[0] in ("unit", "info")
    return is_pointer and unit.entry_at(target_of(unit, value)) is not None


def looks_like_this(carried, entry):
    """Whether a parameter looks like a `this`. A name that cannot be read is told in its place."""
    name, pointed = entry.value(AT_NAME), type_of(carried.unit, entry)
    try:
        is_this = name is None or text_of(carried.sections, carried.unit, name) in (None, b"this")
    except (ValueError, KeyError):
        return False
    return entry.value(AT_ARTIFICIAL) == ("flag", True) and is_this and pointed is not None and pointed.tag == TAG_POINTER_TYPE


def object_pointers(carried):
    """The offsets of the parameters of a unit that are object pointers."""
    above, with_parameters, found = {}, set(), set()
    for entry in carried.entries:
        above[entry.depth] = entry
        parent = above.get(entry.depth - 1)
        if parent and parent.tag in FUNCTIONS and entry.tag == TAG_FORMAL_PARAMETER:
            named = parent.value(AT_OBJECT_POINTER)
            is_named = named is not None and target_of(carried.unit, named) == entry.offset
            is_first = parent.offset not in with_parameters
            with_parameters.add(parent.offset)
            if is_named or is_first and looks_like_this(carried, entry):
                found.add(entry.offset)
    return found


def unlike_this(attributes):
    """The attributes of an object pointer: it is not artificial, and its name is another."""
    made = {name: value for name, value in attributes.items() if name != AT_ARTIFICIAL}
    if made.get(AT_NAME, ("",))[0] == "text":
        made[AT_NAME] = ("text", b"__" + made[AT_NAME][1])
    return made
