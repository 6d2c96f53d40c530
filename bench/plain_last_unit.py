"""The unit of an output for the functions without debugging information: what their file tells of them, the path of the unit, its entries and
its lines. (WebAssembly 1.0, sections 5.3, 5.5 and 7.4.1; the unit is this project's own, of names of DWARF 4, section 7.5.)"""

from dataclasses import dataclass, field

import plain_ranges
from plain_entries import AT_BYTE_SIZE, AT_ENCODING, AT_HIGH_PC, AT_LANGUAGE, AT_LOCATION, AT_LOW_PC, AT_NAME, AT_PRODUCER, AT_RANGES, AT_STMT_LIST, AT_TYPE
from plain_entries import AT_DECL_FILE, TAG_BASE_TYPE, TAG_COMPILE_UNIT, TAG_FORMAL_PARAMETER, TAG_SUBPROGRAM, TAG_VARIABLE, Reader, Refused
from plain_expressions import VMCTX, Compiled, Local, built
from plain_made import DATA1, DATA2, UDATA, Made, constant, in_section, in_unit, text
from plain_own_units import C11, CONTEXT_POINTER

AT_COMP_DIR, AT_DECL_LINE = 0x1B, 0x3B
SIGNED, FLOAT = 5, 4  # encodings
BASE_TYPES = {0x7F: ("i32", 4, SIGNED), 0x7E: ("i64", 8, SIGNED), 0x7D: ("f32", 4, FLOAT), 0x7C: ("f64", 8, FLOAT)}  # by the value types of WebAssembly


# ---- what a file tells


@dataclass
class ToldFile:
    """What is told of functions: the place of the code section's contents, how many are imported, the name of the module, the names of
    functions by their numbers and of locals by both numbers, and of each defined function the types of its parameters and of its locals."""

    code: int = 0
    imported: int = 0
    module_name: bytes | None = None
    function_names: dict = field(default_factory=dict)
    local_names: dict = field(default_factory=dict)
    types: list = field(default_factory=list)


def vector(reader, read):
    return [read() for _ in range(reader.uleb())]


def name_at(reader):
    name = reader.take(reader.uleb())
    name.decode()
    return name


def readable(reader, count, read):
    """As many things as can be read, one behind another."""
    found = []
    try:
        for _ in range(count):
            found.append(read())
    except ValueError:
        pass
    return found


def counted(contents):
    """A reader behind the count of a section's vector, and that count; none where there is none."""
    reader = Reader(contents)
    try:
        return reader, reader.uleb()
    except ValueError:
        return reader, 0


def parameters_at(reader):
    if reader.number(1) != 0x60:
        raise ValueError("no function type")
    parameters = vector(reader, lambda: reader.number(1))
    vector(reader, lambda: reader.number(1))
    return parameters


def import_at(reader):
    """Whether an import is of a function."""
    name_at(reader), name_at(reader)
    kind = reader.number(1)
    if kind == 0:
        reader.uleb()
    elif kind in (1, 2):
        reader.take(1 if kind == 1 else 0)
        flags = reader.number(1)
        reader.uleb(), reader.uleb() if flags & 1 else None
    else:
        reader.take(2 if kind == 3 else 1), reader.uleb() if kind == 4 else None
    return kind == 0


def groups_at(body):
    """The groups of the locals of a body, none where they cannot be read."""
    reader = Reader(body)
    try:
        return vector(reader, lambda: (reader.uleb(), reader.number(1)))
    except ValueError:
        return None


def told_file(data):
    """What the file of a module tells. What cannot be read tells nothing."""
    told, reader, sections = ToldFile(), Reader(data, 8), {}
    while reader.at < len(data):
        number, size = reader.number(1), reader.uleb()
        told.code = reader.at if number == 10 else told.code
        contents = reader.take(size)
        if number == 0:
            inside = Reader(contents)
            number = name_at(inside)
            contents = contents[inside.at :]
        sections[number] = contents
    if 2 in sections:
        imports = Reader(sections[2])
        told.imported = sum(vector(imports, lambda: import_at(imports)))
    tell_types(told, sections)
    tell_names(told, sections.get(b"name", b""))
    return told


def tell_types(told, sections):
    types, count = counted(sections.get(1, b""))
    parameters = readable(types, count, lambda: parameters_at(types))
    numbers, count = counted(sections.get(3, b""))
    numbers = readable(numbers, count, numbers.uleb)
    code, count = counted(sections.get(10, b""))
    bodies = readable(code, count, lambda: code.take(code.uleb()))
    for i, number in enumerate(numbers):
        groups = groups_at(bodies[i]) if i < len(bodies) else None
        known = number < len(parameters) and groups is not None
        told.types.append((parameters[number], groups) if known else ([], []))


def tell_names(told, contents):
    reader = Reader(contents)
    subsections = readable(reader, len(contents), lambda: (reader.number(1), reader.take(reader.uleb())))
    for number, said in subsections:
        inside = Reader(said)
        association = lambda: (inside.uleb(), name_at(inside))
        try:
            if number == 0:
                read = name_at(inside)
            elif number == 1:
                read = vector(inside, association)
            elif number == 2:
                read = vector(inside, lambda: (inside.uleb(), vector(inside, association)))
            else:
                continue
        except ValueError:
            continue
        if inside.at < len(said):
            continue
        if number == 0:
            told.module_name = read
        elif number == 1:
            told.function_names |= dict(read)
        else:
            told.local_names |= {(function, local): name for function, locals_of in read for local, name in locals_of}


def type_of_local(types, number):
    """The type of a local, parameters first, and whether it is one of these; None where there is no such local."""
    parameters, groups = types
    if number < len(parameters):
        return parameters[number], True
    number -= len(parameters)
    for count, value_type in groups:
        if number < count:
            return value_type, False
        number -= count
    return None, False


# ---- its path


def without_zero(name):
    return None if name is None or 0 in name else name


def unit_path(path, module_name, next_id):
    """The path of the unit, by what the map gives and by the name that the file of the first module tells."""
    given = without_zero(None if path is None else path.encode())
    if given is not None:
        return given
    name = without_zero(module_name)
    return b"/<wasm-module>/" + (b"<gen-%d>.wasm" % next_id if name is None else name)


def split_path(path):
    """Its directory and its name; slashes at the end of both are cut."""
    cut = path.rstrip(b"/")
    before, slash, name = cut.rpartition(b"/")
    directory = before.rstrip(b"/")
    return (directory or b"/") if slash else b"", name


# ---- its entries


def base_types(unit):
    made = []
    for value_type, (name, size, encoding) in BASE_TYPES.items():
        attributes = {AT_NAME: text(name), AT_BYTE_SIZE: constant(DATA1, size), AT_ENCODING: constant(DATA1, encoding)}
        made.append(Made(1, TAG_BASE_TYPE, attributes, (unit, value_type)))
    return made


def root(directory, name, listed, machine):
    whole = [(f, 0, f.length) for _, _, _, f in listed if f.length > 0]
    attributes = {AT_PRODUCER: text("wasmtime"), AT_LANGUAGE: constant(DATA2, C11), AT_NAME: ("text", name), AT_STMT_LIST: ("lines",)}
    return Made(0, TAG_COMPILE_UNIT, attributes | {AT_COMP_DIR: ("text", directory)} | plain_ranges.list_base(TAG_COMPILE_UNIT, machine) | {AT_RANGES: ("ranges", whole)})


def named_or(name, other):
    return ("text", other.encode() if without_zero(name) is None else name)


def function_made(told, place, function):
    index = told.imported + place
    first = function.sources[0][1] if function.sources else function.start
    attributes = {AT_LOW_PC: ("address", function, 0), AT_HIGH_PC: constant(UDATA, function.length)}
    attributes[AT_NAME] = named_or(told.function_names.get(index), f"wasm-function[{index}]")
    attributes |= {AT_DECL_FILE: constant(UDATA, 1), AT_DECL_LINE: constant(UDATA, told.code + first)}
    return Made(1, TAG_SUBPROGRAM, attributes)


def located(function, machine, label):
    """Where a label lies over the source of its function."""
    native = plain_ranges.translated_intervals(function.scope, machine.function_at)
    return ("locations", built(Compiled((Local(label, True),), False), native, function, machine)[0])


def label_made(unit, told, place, function, machine, label):
    """The entry of a label, if it has one."""
    if label == VMCTX:
        to_context = in_section((machine.module, CONTEXT_POINTER))
        return [Made(2, TAG_VARIABLE, {AT_NAME: text("__vmctx"), AT_TYPE: to_context, AT_LOCATION: located(function, machine, label)})]
    value_type, is_parameter = type_of_local(told.types[place], label)
    if value_type not in BASE_TYPES:
        return []
    name = named_or(told.local_names.get((told.imported + place, label)), f"var{label}")
    attributes = {AT_NAME: name, AT_TYPE: in_unit((unit, value_type)), AT_LOCATION: located(function, machine, label)}
    return [Made(2, TAG_FORMAL_PARAMETER if is_parameter else TAG_VARIABLE, attributes)]


def listed_functions(tolds, maps, begun):
    """The functions with a symbol in which no kept subprogram begins, in order: each with what its file tells, its machine, and its place."""
    for told, (functions, machine) in zip(tolds, maps):
        for place, function in enumerate(functions):
            if function.symbol is not None and function.number not in begun:
                yield told, machine, place, function


def begun_functions(carried):
    """The numbers of the functions that the kept subprograms of a carried unit begin in."""
    found = [plain_ranges.function_begun(carried.sections, carried.unit, entry, carried.machine.function_at) for entry in carried.entries]
    return {function.number for function in found if function}


def last_unit(paths, next_id, tolds, maps, begun):
    """The entries of the unit, the name of its file, and its functions, each with the place of the code section's contents in its file."""
    directory, name = split_path(unit_path(paths[0], tolds[0].module_name, next_id))
    if name in (b"", b".", b".."):
        raise Refused("Path")
    listed, unit = list(listed_functions(tolds, maps, begun)), "the last unit"
    tree = [root(directory, name, listed, maps[0][1]), *base_types(unit)]
    for told, machine, place, function in listed:
        tree.append(function_made(told, place, function))
        for label in sorted(function.labels):
            tree += label_made(unit, told, place, function, machine, label)
    return tree, name, [(told.code, function) for told, _, _, function in listed]
