"""What a run prints, worked out anew from the files that it reads: a plain reading of WebAssembly, of the map and of DWARF,
and a plain writing of the output. It knows valid inputs alone, of what is built so far, and is as slow as it is short.
"""

import json
from dataclasses import dataclass, field, replace
from functools import partial

import plain_ranges
from plain_entries import Reader, Refused, Unit, kept_offsets, read_table, read_units, sleb, uleb
from plain_entries import AT_FRAME_BASE, AT_HIGH_PC, AT_LOW_PC, AT_RANGES, AT_STMT_LIST, DROPPED_NAMES, TAG_COMPILE_UNIT, TAG_SUBPROGRAM
from plain_expressions import Machine, built, compiled, place_at
from plain_frames import refuse_frames, write_frames
from plain_last_unit import AT_COMP_DIR, begun_functions, last_unit, told_file
from plain_lists import START_LENGTH_PLACE, START_LENGTH_RANGE, Lists, sized_expression
from plain_locations import CONTEXT, is_location, locations_of
from plain_own_units import own_unit
from plain_spelling import write_units
from plain_trees import Carried, entries_in_force, tree_of
from plain_wrappers import is_wrapped

DROPPED = (0, 0xFFFFFFFF)
NOT_PLACED = (AT_LOW_PC, AT_HIGH_PC, AT_RANGES, AT_FRAME_BASE, AT_STMT_LIST, *DROPPED_NAMES)  # no expression of these names is built


# ---- what is read


def read_wasm(data):
    """The offset of the code section's contents, and the custom sections; of equal names the later counts."""
    reader, code, sections = Reader(data, 8), 0, {}
    while reader.at < len(data):
        number, size = reader.number(1), reader.uleb()
        if number == 10:
            code = reader.at
        contents = Reader(reader.take(size))
        if number == 0:
            name = contents.take(contents.uleb()).decode()
            sections[name] = contents.data[contents.at :]
    return code, sections


@dataclass(eq=False)
class Function:
    number: int
    symbol: int | None
    start: int
    end: int
    length: int
    entries: list  # pairs of a native offset and the wasm offset of its source, or None
    labels: dict  # the ranges of each value, with a start, an end and a place: `reg` or `cfa`, and a number
    for_debugger: bool = False  # whether the output is for a debugger

    @property
    def sources(self):
        return [(native, wasm) for native, wasm in self.entries if wasm is not None]

    @property
    def scope(self):
        """Its source whole, as a scope. A debugger leaves the end of an interval out, so its last source lies before that."""
        return [(self.start, self.end + 1 if self.for_debugger else self.end)]


def read_map(data, codes):
    """What is told, and of each module the functions, with wasm offsets in place of those of the file, and what their code runs on."""
    value, number, modules = json.loads(data), 0, []
    registers, for_debugger = dict(value["target"].get("registers", [])), value["target"].get("debugger", False)
    for i, (told, code) in enumerate(zip(value["modules"], codes)):
        functions = []
        for f in told["functions"]:
            entries = [(native, None if place is None else place - code) for native, place in f["map"]]
            labels = {label: [(start, end, tuple(place)) for start, end, *place in ranges] for label, ranges in f.get("labels", [])}
            functions.append(Function(number, f["symbol"], f["start"] - code, f["end"] - code, f["body_len"], entries, labels, for_debugger))
            number += 1
        modules.append((functions, Machine(i, partial(function_at, functions), registers, told.get("memory"), for_debugger)))
    return value, modules


def function_at(functions, address):
    """The function with the greatest start at or below an address, the last of several, if it has a symbol."""
    below = [f for f in functions if f.start <= address]
    if address in DROPPED or not below:
        return None
    owner = max(below, key=lambda f: (f.start, f.number))
    return owner if owner.symbol is not None else None


@dataclass
class Row:
    offset: int = 0
    file: int = 1
    line: int = 1
    column: int = 0
    is_stmt: bool = True
    basic_block: bool = False
    prologue_end: bool = False
    epilogue_begin: bool = False
    isa: int = 0
    discriminator: int = 0


def after_row(row):
    return replace(row, basic_block=False, prologue_end=False, epilogue_begin=False, discriminator=0)


@dataclass
class Table:
    version: int
    directories: list = field(default_factory=list)  # from 1 on
    files: list = field(default_factory=list)  # pairs of the directory and the name, from 1 on, in version 5 from 0 on
    own: bytes | None = None  # in version 5 directory 0
    segments: list = field(default_factory=list)  # pairs of a start and rows, with the files counted from 1 on
    steps: list = field(default_factory=list)  # each start, row and end, in order


def read_line_table(sections, unit, offset):
    """The line table at an offset, as a unit reads it."""
    reader = Reader(sections[".debug_line"], offset)
    end = reader.number(4) + reader.at
    table = Table(reader.number(2))
    size = unit.address_size
    if table.version == 5:
        size = reader.number(1)
        reader.take(1)
    program = reader.number(4) + reader.at
    step = reader.number(1)
    if table.version >= 4:
        reader.take(1)
    is_stmt, base = reader.number(1) != 0, reader.number(1)
    base -= 256 if base >= 128 else 0
    width, opcode_base = reader.number(1), reader.number(1)
    operands = [0] + list(reader.take(opcode_base - 1))
    if table.version == 5:
        names_of_5(reader, sections, unit.text_base, table)
    else:
        names_of_4(reader, table)
    reader = Reader(reader.data[:end], program)
    run_program(reader, table, (size, step, is_stmt, base, width, operands))
    return table


def names_of_4(reader, table):
    while name := reader.text():
        table.directories.append(name)
    while name := reader.text():
        table.files.append((reader.uleb(), name))
        reader.uleb(), reader.uleb()


def names_of_5(reader, sections, text_base, table):
    directories = entries_of_5(reader, sections, text_base)
    table.own, table.directories = (directories[0][1] if directories else None), [path for _, path in directories[1:]]
    table.files = entries_of_5(reader, sections, text_base)


def entries_of_5(reader, sections, text_base):
    formats = [(reader.uleb(), reader.uleb()) for _ in range(reader.number(1))]
    entries = []
    for _ in range(reader.uleb()):
        directory, path = 0, None
        for content, form in formats:
            value = value_of_5(reader, sections, text_base, form)
            if content == 1:
                path = value
            elif content == 2 and isinstance(value, int):
                directory = value
        entries.append((directory, path))
    return entries


def value_of_5(reader, sections, text_base, form):
    if form == 0x08:
        return reader.text()
    if form == 0x1A or 0x25 <= form <= 0x28:
        index = reader.uleb() if form == 0x1A else reader.number(form - 0x24)
        offset = Reader(sections[".debug_str_offsets"], text_base + 4 * index).number(4)
        return Reader(sections[".debug_str"], offset).text()
    if form in (0x0E, 0x1F):
        name = {0x0E: ".debug_str", 0x1F: ".debug_line_str"}[form]
        return Reader(sections[name], reader.number(4)).text()
    if form == 0x0F:
        return reader.uleb()
    if form == 0x1E:
        return reader.take(16)
    return reader.number({0x0B: 1, 0x05: 2, 0x06: 4, 0x07: 8}[form])


def run_program(reader, table, parameters):
    size, step, is_stmt, base, width, operands = parameters
    opcode_base, first = len(operands), Row(is_stmt=is_stmt)
    row, rows, start = first, [], None

    def close():
        if start is not None and rows:
            table.segments.append((start, rows))

    def show(row):
        shift = 1 if table.version == 5 else 0
        rows.append(replace(row, file=row.file + shift))
        table.steps.append(("row", row))
        return after_row(row)

    while reader.at < len(reader.data):
        opcode = reader.number(1)
        if opcode >= opcode_base:
            a = opcode - opcode_base
            row = show(replace(row, offset=row.offset + step * (a // width), line=row.line + base + a % width))
        elif opcode == 0:
            inside = Reader(reader.take(reader.uleb()))
            kind = inside.number(1)
            if kind == 1:
                close()
                table.steps.append(("end", row.offset if row.offset < 1 << 32 else None))
                row, rows, start = first, [], None
            elif kind == 2:
                close()
                row, rows, start = replace(row, offset=0), [], inside.number(size)
                table.steps.append(("start", start))
            elif kind == 3 and table.version <= 4:
                name = inside.text()
                table.files.append((inside.uleb(), name))
            elif kind == 4:
                row = replace(row, discriminator=inside.uleb())
        elif opcode == 1:
            row = show(row)
        elif opcode == 2:
            row = replace(row, offset=row.offset + step * reader.uleb())
        elif opcode == 3:
            row = replace(row, line=row.line + reader.sleb())
        elif opcode == 4:
            row = replace(row, file=reader.uleb())
        elif opcode == 5:
            row = replace(row, column=reader.uleb())
        elif opcode == 6:
            row = replace(row, is_stmt=not row.is_stmt)
        elif opcode == 7:
            row = replace(row, basic_block=True)
        elif opcode == 8:
            row = replace(row, offset=row.offset + step * ((255 - opcode_base) // width))
        elif opcode == 9:
            row = replace(row, offset=row.offset + reader.number(2))
        elif opcode == 10:
            row = replace(row, prologue_end=True)
        elif opcode == 11:
            row = replace(row, epilogue_begin=True)
        elif opcode == 12:
            row = replace(row, isa=reader.uleb())
        else:
            for _ in range(operands[opcode]):
                reader.uleb()


def listed_row(row):
    words = ["row", row.offset, row.file, row.line, row.column]
    words += ["isa", row.isa] if row.isa else []
    words += ["discriminator", row.discriminator] if row.discriminator else []
    return words + [flag for flag in ("is_stmt", "basic_block", "prologue_end", "epilogue_begin") if getattr(row, flag)]


def listed_lines(module):
    """The line table at 0 of a module, with its names and its steps, as its first unit reads it."""
    _, sections = read_wasm(module)
    first = sections[".debug_info"]
    version = int.from_bytes(first[4:6], "little")
    size = first[7] if version == 5 else first[10]
    unit = read_units(sections)[0] if ".debug_abbrev" in sections else Unit(0, 0, version, size)
    table = read_line_table(sections, unit, 0)
    lines = [["table", table.version]]
    lines += [["directory", i, name.decode()] for i, name in enumerate(table.directories, 1)]
    lines += [["file", i, *pair] for i, pair in enumerate(table.files, 0 if table.version == 5 else 1)]
    for kind, value in table.steps:
        lines.append(listed_row(value) if kind == "row" else [kind] if value is None else [kind, value])
    return "".join(" ".join(w.decode() if isinstance(w, bytes) else str(w) for w in line) + "\n" for line in lines)


# What a value of a form is: a name of its kind, or of the number that it is.
OLD_FORMS = {0x01: "address", 0x05: 2, 0x06: 4, 0x08: "text", 0x0A: "block", 0x0B: 1, 0x0C: "flag", 0x0E: "offset", 0x13: "unit"}


def listed_value(reader, name, form, size, names):
    kind = OLD_FORMS[form]
    if kind == "address":
        return f"Addr(Constant({reader.number(size)}))"
    if kind == "text":
        return f"Text({list(reader.text())})"
    if kind == "block":
        what = "Exprloc" if name in names["location"] else "Block"
        return f"{what}({list(reader.take(reader.number(1)))})"
    if kind == "flag":
        return f"Flag({str(reader.number(1) != 0).lower()})"
    if kind == "offset":
        return f"TextRef {{ form: {form}, bits: {reader.number(4)} }}"
    if kind == "unit":
        return f"UnitRef({reader.number(4)})"
    number = reader.number(kind)
    return f"LineRef({number})" if name == names["line_table"] else f"Constant {{ form: {form}, bits: {number} }}"


def listed_unit(module, names):
    """The only unit of a module, of version 2 or 3, with its entries and their values."""
    _, sections = read_wasm(module)
    info = sections[".debug_info"]
    reader = Reader(info, 4)
    version, table, size = reader.number(2), reader.number(4), reader.number(1)
    table, depth = read_table(sections[".debug_abbrev"], table), 0
    lines = [f"unit 0 {len(info)} {version} {size} 1"]
    while reader.at < len(info):
        at, code = reader.at, reader.uleb()
        if code == 0:
            depth -= 1
            continue
        tag, children, attributes = table[code]
        lines.append(f"{at:#x} {depth} {tag:#x}")
        lines += [f"  {name:#x} {listed_value(reader, name, form, size, names)}" for name, form, _ in attributes]
        depth += children
    return "".join(line + "\n" for line in lines)


# ---- what is carried


def image_of(start, rows, function):
    """The rows of the image of a segment: of each recorded source in order the last row at or below its distance to the
    start. The first one found stands at 0, a later one at its native offset, unless its row has the offset of the one before."""
    image, found = [], None
    for native, wasm in function.sources:
        here = [row for row in rows if wasm >= start and row.offset <= wasm - start]
        if here and (found is None or here[-1].offset != found):
            image.append(replace(here[-1], offset=0 if found is None else native))
        found = here[-1].offset if here else found
    return image


# ---- what is written


class Section:
    def __init__(self, name):
        self.name, self.body, self.relocations = name, bytearray(), []

    def printed(self):
        lines = [f"section {self.name} {len(self.body)}", self.body.hex()]
        lines += [f"reloc {offset} {size} {target} {addend}" for offset, size, target, addend in self.relocations]
        return "".join(line + "\n" for line in lines)


# What the fields of directories and files are in version 5: a content type and a form each.
PATH_IN_LINE_STR, DIRECTORY_UDATA = (1, 0x1F), (2, 0x0F)


class Writer:
    def __init__(self, target):
        self.order = "big" if target.get("big_endian", False) else "little"
        self.size, self.version = target.get("pointer_bytes", 8), target.get("version", 4)
        ranges, places = (".debug_rnglists", ".debug_loclists") if self.version == 5 else (".debug_ranges", ".debug_loc")
        names = (".debug_abbrev", ".debug_info", ".debug_line", ".debug_line_str", ranges, places, ".debug_str", ".debug_frame")
        self.sections = [Section(name) for name in names]
        self.abbrev, self.info, self.line, self.line_str, ranges, places, self.str, self.frame = self.sections
        self.ranges, self.places = Lists(self, ranges, START_LENGTH_RANGE), Lists(self, places, START_LENGTH_PLACE)
        self.texts = {}  # where each text stands, by its section and itself

    def printed(self):
        return "".join(section.printed() for section in self.sections if section.body)

    def text(self, section, text, to=None):
        """The offset of a text, in `.debug_str` unless another section is given."""
        to = to or self.str
        if (to.name, text) not in self.texts:
            self.texts[to.name, text] = len(to.body)
            to.body += text + b"\0"
        self.offset(section, to, self.texts[to.name, text])

    def number(self, value, size):
        return value.to_bytes(size, self.order)

    def offset(self, section, to, value):
        section.relocations.append((len(section.body), 4, f"section {to.name}", value))
        section.body += self.number(value, 4)

    def address(self, section, function, addend=0):
        """An address of a function; without one the number 0."""
        if function:
            section.relocations.append((len(section.body), self.size, f"func {function.number}", addend))
        section.body += self.number(addend, self.size)

    def range_list(self, section, ranges):
        self.ranges.add(section, [(*piece, b"") for piece in ranges])

    def location_list(self, section, ranges):
        self.places.add(section, [(*piece, sized_expression(self, data)) for *piece, data in ranges])

    def end_unit(self):
        self.ranges.end_unit()
        self.places.end_unit()

    def sized(self, section, write):
        """What has its length in front of it."""
        at = len(section.body)
        section.body += bytes(4)
        write()
        section.body[at : at + 4] = self.number(len(section.body) - at - 4, 4)

    def line_table(self, own, table, images):
        """A line table of a unit whose compilation directory is given."""
        at = len(self.line.body)
        self.line.body += bytes(4) + self.number(self.version, 2)
        self.line.body += bytes([self.size, 0]) if self.version == 5 else b""
        self.sized(self.line, lambda: self.line_header(own, table))
        for function, rows in images:
            self.sequence(function, rows)
        self.line.body[at : at + 4] = self.number(len(self.line.body) - at - 4, 4)

    def line_header(self, own, table):
        """What stands behind the header's length. In version 5 directory 0 is the unit's own, and file 0 is file 1. (DWARF 5, section 6.2.4.)"""
        body = self.line.body
        body += bytes.fromhex("010101fb0e0d000101010100000001000001")
        if self.version < 5:
            body += b"".join(name + b"\0" for name in table.directories) + b"\0"
            body += b"".join(name + b"\0" + uleb(directory) + b"\0\0" for directory, name in table.files) + b"\0"
            return
        body += bytes([1, *PATH_IN_LINE_STR]) + uleb(1 + len(table.directories))
        for name in [own, *table.directories]:
            self.text(self.line, name, self.line_str)
        files = table.files[:1] + table.files
        body += bytes([2, *PATH_IN_LINE_STR, *DIRECTORY_UDATA]) + uleb(len(files))
        for directory, name in files:
            self.text(self.line, name, self.line_str)
            body += uleb(directory)

    def sequence(self, function, rows):
        body = self.line.body
        body += bytes([0, self.size + 1, 2])
        self.address(self.line, function)
        before = Row()
        for row in rows:
            if row.discriminator:
                operand = uleb(row.discriminator)
                body += bytes([0, len(operand) + 1, 4]) + operand
            body += bytes(code for code, flag in ((7, row.basic_block), (10, row.prologue_end), (11, row.epilogue_begin)) if flag)
            body += b"\x06" if row.is_stmt != before.is_stmt else b""
            for code, name in ((4, "file"), (5, "column"), (12, "isa")):
                if getattr(row, name) != getattr(before, name):
                    body += bytes([code]) + uleb(getattr(row, name))
            body += b"\x03" + sleb(row.line - before.line) if row.line != before.line else b""
            body += b"\x02" + uleb(row.offset - before.offset) if row.offset != before.offset else b""
            body.append(1)
            before = row
        body += b"\x02" + uleb(function.length - before.offset) if function.length != before.offset else b""
        body += bytes([0, 1, 1])


def carried_units(sections, machine, version=4):
    """The carried units of a module, for an output of a version."""
    units = read_units(sections)
    kept = kept_offsets(sections, units, machine.function_at)
    for unit in units:
        entries = [e for e in unit.entries if e.offset in kept]
        if unit.root.tag == TAG_COMPILE_UNIT and entries:
            table = None if unit.line_table is None else read_line_table(sections, unit, unit.line_table)
            yield Carried(sections, unit, entries, table, machine, version)


def printed_text(map_bytes, modules):
    """The text that a run on a map and modules prints."""
    files = [read_wasm(data) for data in modules]
    told, maps = read_map(map_bytes, [code for code, _ in files])
    target, (set_name, resolve_name) = told["target"], told["names"]
    writer, units, begun, is_big = Writer(target), [], set(), target.get("big_endian", False)
    for (_, sections), (functions, machine) in zip(files, maps):
        units.append((own_unit(machine.module, set_name, machine.memory), None))
        carried = list(carried_units(sections, machine, writer.version))
        emitted = {entry.offset for unit in carried for entry in unit.entries}
        for unit in carried:
            units.append((tree_of(unit, emitted, is_big, resolve_name), len(writer.line.body)))
            write_lines(writer, own_directory(units[-1][0]), unit.table, functions)
            begun |= begun_functions(unit)
    paths = [module.get("path") for module in told["modules"]]
    tree, name, listed = last_unit(paths, told.get("next_id", 0), [told_file(data) for data in modules], maps, begun)
    units.append((tree, len(writer.line.body)))
    writer.line_table(own_directory(tree), Table(4, [], [(0, name)]), [(function, listed_rows(code, function)) for code, function in listed])
    cie, frames = target.get("cie"), frames_of(told["modules"])
    refuse_frames(cie, frames)
    write_units(writer, units)
    write_frames(writer, cie, frames)
    return writer.printed()


def listed_rows(code, function):
    """The rows of a function without debugging information, whose lines are offsets in its file: one at 0, and one for each recorded source, of which the
    first ends the prologue."""
    rows = [Row(native, line=code + wasm, prologue_end=i == 0, discriminator=1) for i, (native, wasm) in enumerate(function.sources)]
    return [Row(0, line=0, discriminator=1), *rows]


def frames_of(modules):
    """The frames of the functions with a symbol, each with its function's number over all modules."""
    functions = [f for module in modules for f in module["functions"]]
    return [(number, f["frame"]) for number, f in enumerate(functions) if f["symbol"] is not None and f.get("frame")]


def own_directory(tree):
    """The compilation directory that the root of a tree names; the empty text where it names none."""
    value = tree[0].attributes.get(AT_COMP_DIR)
    return value[1] if value and value[0] == "text" else b""


def write_lines(writer, own, table, functions):
    if table:
        images = [(function_at(functions, start), start, rows) for start, rows in table.segments]
        images = [(f, image_of(start, rows, f)) for f, start, rows in images if f is not None]
        writer.line_table(own, table, [(f, rows) for f, rows in images if rows])


# ---- what is said of each byte


def in_force(rows, offset):
    """The last row at or below an offset, without its own."""
    here = [replace(row, offset=0) for row in rows if row.offset <= offset]
    return here[-1] if here else None


def row_for_byte(start, rows, function, byte):
    """The row of the last recorded source at or below a byte that has one; before any, of the first that has one."""
    found = [(native, in_force(rows, wasm - start)) for native, wasm in function.sources if wasm >= start]
    found = [(native, row) for native, row in found if row is not None]
    below = [row for native, row in found if native <= byte]
    return below[-1] if below else found[0][1]


def bytes_of(function):
    """The bytes of a function's native code; of a long one those beside which something may change."""
    if function.length < 1000:
        return range(function.length)
    near = {native + d for native, _ in function.entries + [(0, None), (function.length, None)] for d in (-1, 0, 1)}
    return sorted(b for b in near if 0 <= b < function.length)


def check_bytes(map_bytes, modules):
    """Whether each image has, at each byte of its function, the row of that byte's source."""
    for functions, carried in carried_of(map_bytes, modules):
        for start, rows in carried.table.segments if carried.table else ():
            function = function_at(functions, start)
            image = image_of(start, rows, function) if function else []
            for byte in bytes_of(function) if image else ():
                assert in_force(image, byte) == row_for_byte(start, rows, function, byte)


def check_listed(map_bytes, modules):
    """Whether a function without debugging information has, at each byte, the line that is the place in its file of the last recorded source at or below
    that, and 0 before any."""
    files = [read_wasm(data) for data in modules]
    told, maps = read_map(map_bytes, [code for code, _ in files])
    begun = set().union(*(begun_functions(carried) for _, carried in carried_of(map_bytes, modules)))
    paths = [module.get("path") for module in told["modules"]]
    _, _, listed = last_unit(paths, told.get("next_id", 0), [told_file(data) for data in modules], maps, begun)
    for code, function in listed:
        for byte in bytes_of(function):
            below = [wasm for native, wasm in function.sources if native <= byte]
            assert in_force(listed_rows(code, function), byte).line == (code + below[-1] if below else 0)


def carried_of(map_bytes, modules):
    """The carried units of all modules, with the functions of their module."""
    files = [read_wasm(data) for data in modules]
    _, maps = read_map(map_bytes, [code for code, _ in files])
    for (_, sections), (functions, machine) in zip(files, maps):
        for carried in carried_units(sections, machine):
            yield functions, carried


def source_of(function, byte):
    """The source of a byte: that of the last entry at or below it."""
    return next((wasm for native, wasm in reversed(function.entries) if native <= byte), None)


def shown_source(function, byte):
    """The source that is shown at a byte: that of the last entry with one at or below it, before any the first, and the function's start where
    there is none."""
    below = [wasm for native, wasm in function.sources if native <= byte]
    return below[-1] if below else function.sources[0][1] if function.sources else function.start


def is_shown_in(function, intervals, at, byte):
    """Whether the source that is shown at a byte lies in one of the intervals that begin in its function, whose ends are left out."""
    return any(begin <= shown_source(function, byte) < end and at(begin) is function for begin, end in intervals)


def check_scopes(map_bytes, modules):
    """Whether entries with intervals have the native code whose source is in these, and none whose source is outside. Said of
    functions of which no two sources stand at one native offset, and not of subprograms that have their function whole. For a debugger they
    have exactly the bytes at which a source of these is shown."""
    for functions, carried in carried_of(map_bytes, modules):
        at = carried.machine.function_at
        for entry in carried.entries:
            if plain_ranges.function_begun(carried.sections, carried.unit, entry, at) is None:
                intervals, _ = plain_ranges.extent(carried.sections, carried.unit, entry)
                native = plain_ranges.translated_intervals(intervals, at)
                for function in functions:
                    check_scope(function, intervals, at, [(start, end) for owner, start, end in native if owner is function])


def check_scope(function, intervals, at, native):
    if function.for_debugger:
        for byte in bytes_of(function):
            assert any(start <= byte < end for start, end in native) == is_shown_in(function, intervals, at, byte)
        return
    if len({n for n, _ in function.sources}) < len(function.sources):
        return
    for byte in bytes_of(function):
        covered, source = any(start <= byte < end for start, end in native), source_of(function, byte)
        if source is not None:
            assert not covered or any(begin <= source <= end for begin, end in intervals)
            inside = any(begin <= source < end and at(begin) is function for begin, end in intervals)
            assert covered or not inside


def uses_of(carried):
    """The expressions that are built over intervals: those of the attributes of an entry that is not wrapped, those of its location lists,
    and where the context is."""
    for entry, given in entries_in_force(carried):
        if entry.tag == TAG_SUBPROGRAM and given.scope:
            yield CONTEXT, given.scope, given.frame
        if is_wrapped(carried, entry):
            continue
        values = [value for name, value in entry.attributes if is_location(value) and (value[0] != "expression" or name not in NOT_PLACED)]
        for value in values:
            if value[0] == "expression":
                uses = [(compiled(value[1], given.base), given.scope)]
            else:
                uses = [(compiled(data, given.base), [interval]) for interval, _, data in locations_of(carried.sections, carried.unit, entry, value)[1]]
            yield from ((expression, scope, given.frame) for expression, scope in uses if expression and scope)


def check_locations(map_bytes, modules):
    """Whether what is built has the native code whose source is in the scope and in which all labels have a place, and none in which
    one has none or whose source is outside. Said of the functions of which `check_scopes` says something."""
    for functions, carried in carried_of(map_bytes, modules):
        at = carried.machine.function_at
        for expression, scope, frame in uses_of(carried):
            ranges, _ = built(expression, plain_ranges.translated_intervals(scope, at), frame, carried.machine)
            labels = [] if expression.code is not None else expression.needed_labels
            for function in functions:
                native = [(start, end) for owner, start, end, _ in ranges if owner is function]
                check_location(function, scope, at, native, labels, function is frame)


def check_location(function, scope, at, native, labels, is_frame):
    if function.for_debugger:
        for byte in bytes_of(function):
            is_placed = all(is_frame and place_at(function, label, byte) is not None for label in labels)
            assert any(start <= byte < end for start, end in native) == (is_placed and is_shown_in(function, scope, at, byte))
        return
    if len({n for n, _ in function.sources}) < len(function.sources):
        return
    for byte in bytes_of(function):
        covered, source = any(start <= byte < end for start, end in native), source_of(function, byte)
        is_placed = all(is_frame and place_at(function, label, byte) is not None for label in labels)
        assert is_placed or not covered
        if source is not None:
            assert not covered or any(begin <= source <= end for begin, end in scope)
            inside = any(begin <= source < end and at(begin) is function for begin, end in scope)
            assert covered or not inside or not is_placed
