"""What outside tools and a plain reader say of the sections that a text prints."""

import json
import os
import re
import subprocess
import sys
import tempfile

import plain_run
from output_lists import PLACES, RANGES, all_lists, counts_of_dwarfdump, counts_of_readelf, is_new, list_at, pairs_of_dwarfdump, places_of_eu_readelf, ranges_of_readelf
from plain_entries import AT_HIGH_PC, AT_LOW_PC, AT_NAME, AT_RANGES, AT_TYPE, TAG_COMPILE_UNIT, Reader, read_units, target_of, text_of
from plain_expressions import OPERANDS
from printed_frames import read_frames, told_frames


def sections_of(text):
    """The sections of a printed text: name, body and relocations."""
    sections, lines = [], text.splitlines()
    at = 0
    while at < len(lines):
        _, name, _ = lines[at].split()
        body, relocations = bytearray.fromhex(lines[at + 1]), []
        at += 2
        while at < len(lines) and lines[at].startswith("reloc "):
            relocations.append(lines[at].split()[1:])
            at += 1
        sections.append((name, body, relocations))
    return sections


def front_of(text):
    """The sections of a printed text, of which those that are wanted may be the front."""
    return text


def is_front(what, wanted, read):
    """Whether an output begins with what is wanted: its sections with those of the units for modules, and its texts with theirs. Behind these comes
    what the last unit adds, which is for functions without debugging information."""
    if what == "texts":
        return read[: len(wanted)] == wanted
    if what != "front":
        return False
    sections = {name: (body, relocations) for name, body, relocations in sections_of(read)}
    return all(begins(sections.get(name), body, relocations) for name, body, relocations in sections_of(wanted))


def begins(section, body, relocations):
    return section is not None and section[0][: len(body)] == body and section[1][: len(relocations)] == relocations


def body_of(text, name):
    return next((bytes(body) for other, body, _ in sections_of(text) if other == name), b"")


def texts_of(text):
    """The texts of printed sections, in order."""
    return [piece.decode() for piece in body_of(text, ".debug_str").split(b"\0")[:-1]]


def paths_of(text):
    """The names in line tables of version 5, in order."""
    return [piece.decode() for piece in body_of(text, ".debug_line_str").split(b"\0")[:-1]]


def tables_of(text):
    """Of each unit with a line table of version 5, with the lowest byte of a number first, the directories and the files, both from number 0 on."""
    sections = {name: bytes(body) for name, body, _ in sections_of(text)}
    tables = [plain_run.read_line_table(sections, unit, unit.line_table) for unit in read_units(sections) if unit.line_table is not None]
    decoded = lambda names: [name.decode() for name in names]
    return [(decoded([table.own, *table.directories]), [(directory, name.decode()) for directory, name in table.files]) for table in tables]


def rows_of(text):
    """Of each line sequence of the printed sections the offsets and lines of its rows, by either byte order and address size."""
    body = body_of(text, ".debug_line")
    big = body[:4] != b"" and int.from_bytes(body[:4], "little") > len(body)
    at, sequences = 0, []
    while at < len(body):
        size = int.from_bytes(body[at : at + 4], "big" if big else "little")
        sequences += table_rows(body[at + 4 : at + 4 + size], "big" if big else "little")
        at += 4 + size
    return sequences


def table_rows(table, order):
    fields = 4 if int.from_bytes(table[:2], order) == 5 else 2  # the version, and in version 5 two sizes
    header = int.from_bytes(table[fields : fields + 4], order)
    reader = plain_run.Reader(table, fields + 4 + header)
    sequences, rows, offset, line = [], [], 0, 1
    while reader.at < len(table):
        opcode = reader.number(1)
        if opcode == 0:
            inside = reader.take(reader.uleb())
            if inside[0] == 1:
                sequences.append(rows)
                rows, offset, line = [], 0, 1
        elif opcode == 1:
            rows.append((offset, line))
        elif opcode == 2:
            offset += reader.uleb()
        elif opcode == 3:
            line += reader.sleb()
        elif opcode in (4, 5, 12):
            reader.uleb()
    return sequences


def last_lines(text):
    """Of each line sequence of the last unit, with the lowest byte of a number first, its length and its rows: offsets, lines, and whether the prologue
    ends there."""
    sections = {name: bytes(body) for name, body, _ in sections_of(text)}
    unit, sequences, rows = read_units(sections)[-1], [], []
    for kind, value in plain_run.read_line_table(sections, unit, unit.line_table).steps:
        if kind == "row":
            assert (value.file, value.discriminator, value.is_stmt, value.column) == (1, 1, True, 0)
            rows.append((value.offset, value.line, "prologue_end" if value.prologue_end else ""))
        elif kind == "end":
            sequences.append((value, rows))
            rows = []
    return sequences


def code_of(text):
    """What the entries of the units for modules say of their code, with the lowest byte of a number first: of each that says something
    `LOW+LENGTH`, `LOW`, or `[BEGIN-END ..]` for a list."""
    return code_in(text, module_units)


def code_in(text, units_of):
    """The same of the units that are chosen."""
    sections = {name: bytes(body) for name, body, _ in sections_of(text)}
    entries = [(unit, entry) for unit in units_of(sections) for entry in unit.entries]
    return [said for unit, entry in entries if (said := entry_code(sections, unit, entry))]


def module_units(sections):
    """The units for modules: all but the last, which is for functions without debugging information."""
    return read_units(sections)[:-1]


def entry_code(sections, unit, entry):
    low_pc, high_pc, ranges = map(entry.value, (AT_LOW_PC, AT_HIGH_PC, AT_RANGES))
    if ranges:
        pairs, _ = list_at(sections, RANGES, ranges[1], unit.address_size, "little")
        return f"[{' '.join(f'{begin}-{end}' for begin, end in pairs)}]"
    return low_pc and f"{low_pc[1]}" + (f"+{high_pc[2]}" if high_pc else "")


def places_of(text):
    """What the entries of printed sections say of where values are, but for the context: of each attribute that says something `HEX`, an
    expression, or `[BEGIN-END HEX ..]`, a list."""
    return [said for name, said in all_places(text) if name != CONTEXT]


def contexts_of(text):
    """The same of the context alone."""
    return [said for name, said in all_places(text) if name == CONTEXT]


CONTEXT = b"__vmctx"


def frames_of(text):
    """The body of the frames of printed sections and their relocations; nothing where there are none."""
    found = [[body.hex(), *(" ".join(words) for words in relocations)] for name, body, relocations in sections_of(text) if name == ".debug_frame"]
    return found[0] if found else []


def all_places(text):
    """The name of each entry of the units for modules that says where something is, and what it says, with the lowest byte of a number first."""
    sections = {name: bytes(body) for name, body, _ in sections_of(text)}
    for unit, entry in ((unit, entry) for unit in module_units(sections) for entry in unit.entries):
        name = entry.value(AT_NAME)
        for value in (value for _, value in entry.attributes if value[0] in ("expression", "locations")):
            yield name and text_of(sections, unit, name), value_said(sections, unit, value)


def value_said(sections, unit, value):
    """What an expression or a location list says."""
    if value[0] == "expression":
        return value[1].hex()
    found, _ = list_at(sections, PLACES, value[1], unit.address_size, "little")
    return f"[{' '.join(f'{begin}-{end} {data.hex()}'.strip() for begin, end, data in found)}]"


def location_lists(sections, size, order):
    """The offset of each location list, with the begins, the ends and the places of the operations of its entries."""
    lists = all_lists(sections, PLACES, size, order)
    return [(at, [(begin, end, operation_places(data)) for begin, end, data in found]) for at, found in lists]


def operation_places(data):
    """Where the operations of an expression of an output begin."""
    reader, places = Reader(data), []
    while reader.at < len(data):
        places.append(reader.at)
        code = reader.number(1)
        for kind in OPERANDS.get(code, ["sleb"] if 0x70 <= code < 0x90 else OF_REGISTERS.get(code, [])):
            reader.leb() if isinstance(kind, str) else reader.take(kind)
    return places


OF_REGISTERS = {0x90: ["uleb"], 0x92: ["uleb", "sleb"]}


# ---- outside tools

# By the byte order and the address size: the class, the order and the machine of an ELF file.
MACHINES = {("little", 8): (2, 1, 243), ("little", 4): (1, 1, 243), ("big", 8): (2, 2, 22), ("big", 4): (1, 2, 22)}


def elf(order, size, sections):
    """An object file with some sections."""

    def number(value, count):
        return value.to_bytes(count, order)

    names, bodies, headers = b"\0", b"", []
    front = 64 if size == 8 else 52
    for name, body in [*sections, (".shstrtab", None)]:
        at = len(names)
        names += name.encode() + b"\0"
        body = names if body is None else bytes(body)
        headers.append((at, 3 if name == ".shstrtab" else 1, front + len(bodies), len(body)))
        bodies += body
    table = number(0, 40 if size == 4 else 64)
    for at, kind, offset, length in headers:
        table += number(at, 4) + number(kind, 4) + number(0, 2 * size) + number(offset, size) + number(length, size)
        table += number(0, 8) + number(1, size) + number(0, size)
    kind, endian, machine = MACHINES[order, size]
    head = b"\x7fELF" + bytes([kind, endian, 1]) + bytes(9) + number(1, 2) + number(machine, 2) + number(1, 4)
    head += number(0, size) + number(0, size) + number(front + len(bodies), size) + number(0, 4) + number(front, 2)
    head += number(0, 4) + number(40 if size == 4 else 64, 2) + number(len(headers) + 1, 2) + number(len(headers), 2)
    return head + bodies + table


class Died(Exception):
    """A tool that does not end, or that is ended."""


def asked(tool, option, path):
    """What a tool prints of a file; what it complains of goes with it."""
    try:
        found = subprocess.run([tool, option, path], capture_output=True, text=True, errors="backslashreplace", timeout=20)
    except subprocess.TimeoutExpired:
        raise Died(f"{tool} {option}")
    if found.returncode < 0:
        raise Died(f"{tool} {option}")
    return found.stdout.splitlines(), found.stderr


def asked_of_entries(text, order, path):
    """What llvm-dwarfdump prints of entries; nothing where it ends at types that have no name for it."""
    try:
        return asked("llvm-dwarfdump", "--debug-info", path)
    except Died:
        if order == "little" and has_endless_types(text):
            return None, ""
        raise


def has_endless_types(text):
    """Whether types without names go in a circle, or to a unit."""
    units = read_units({name: bytes(body) for name, body, _ in sections_of(text)})
    return any(is_endless(unit, entry) for unit in units for entry in unit.entries)


def is_endless(unit, entry):
    met = set()
    while entry and entry.offset not in met and entry.value(AT_NAME) is None and entry.value(AT_TYPE):
        met.add(entry.offset)
        entry = unit.entry_at(target_of(unit, entry.value(AT_TYPE)))
    return entry is not None and bool(met) and (entry.offset in met or entry.tag == TAG_COMPILE_UNIT)


def printed_rows(lines):
    """The rows that llvm-dwarfdump prints, as offsets and lines."""
    rows = [line.split()[:2] for line in lines if line.startswith("0x") and "end_sequence" not in line]
    return [(int(address, 16), int(line)) for address, line in rows]


def printed_code(lines):
    """What llvm-dwarfdump prints of the code of entries, as `code_of` says it."""
    said, entries = [], "\n".join(lines).split("DW_TAG_")[1:]
    for entry in entries:
        values = dict(re.findall(r"DW_AT_(low_pc|high_pc)\s+\((0x[0-9a-f]+)\)", entry))
        low, high = (int(values.get(name, "0"), 16) for name in ("low_pc", "high_pc"))
        if "DW_AT_ranges" in entry:
            pairs = re.findall(r"\[(0x[0-9a-f]+), (0x[0-9a-f]+)\)", entry)
            said.append(f"[{' '.join(f'{int(begin, 16)}-{int(end, 16)}' for begin, end in pairs)}]")
        elif values:
            said.append(f"{low}" + (f"+{high - low}" if "high_pc" in values else ""))
    return said


def references_of(text):
    """Where the references of entries go, in order, with the lowest byte of a number first."""
    units = read_units({name: bytes(body) for name, body, _ in sections_of(text)})
    values = [(unit, value) for unit in units for entry in unit.entries for _, value in entry.attributes]
    return [target_of(unit, value) for unit, value in values if value[0] in ("unit", "info")]


def printed_references(lines):
    """The same as eu-readelf prints it."""
    found = [re.search(r"\((ref4|ref_addr)\) \[ *([0-9a-f]+)\]$", line) for line in lines]
    return [int(match[2], 16) for match in found if match]


def printed_expressions(lines):
    """Where the operations of the expressions begin that eu-readelf prints of entries."""
    expressions = []
    for line in lines:
        if "(exprloc)" in line or "(block" in line:
            expressions.append([])
        elif place := re.match(r" {10,}\[ *([0-9]+)\]", line):
            expressions[-1].append(int(place[1]))
    return expressions


def expressions_of(text):
    sections = {name: bytes(body) for name, body, _ in sections_of(text)}
    values = [value for unit in read_units(sections) for entry in unit.entries for _, value in entry.attributes]
    return [operation_places(value[1]) if value[0] == "expression" else [] for value in values if value[0] in ("expression", "block")]


# What --verify says of entries that stand so in the input; it wants a root with a begin where there is a location list.
SAID_BY_INPUTS = ("overlapping", "not contained in its parent's ranges", "incompatible tag", "_file that references", "_file with", "has no DW_AT_call")
SAID_BY_INPUTS += ("Base address not defined", "Unsupported DW_AT_location encoding: DW_FORM_data")


def verified(sections, order, size, lengths):
    """What llvm-dwarfdump complains of where functions stand one behind another, but for what is so in the input."""
    starts = [0x10000 + sum(lengths[:i]) for i in range(len(lengths))]
    bodies = []
    for name, body, relocations in sections:
        for offset, count, kind, number, *addend in relocations:
            if kind == "func":
                offset, count = int(offset), int(count)
                body[offset : offset + count] = (starts[int(number)] + int(addend[0])).to_bytes(count, order)
        bodies.append((name, body))
    with tempfile.NamedTemporaryFile(suffix=".o") as file:
        file.write(elf(order, size, bodies))
        file.flush()
        try:
            lines, _ = asked("llvm-dwarfdump", "--verify", file.name)
        except Died:
            return []  # it does not end where a call site stands beside subprograms
    return [line for line in lines if line.startswith(("error", "warning")) and not any(words in line for words in SAID_BY_INPUTS)]


def complaints(text, order, size, path):
    """What outside tools read otherwise in an output than it says, and what they complain of."""
    sections = {name: bytes(body) for name, body, _ in sections_of(text)}
    lines, _ = asked("llvm-dwarfdump", "--debug-line", path)
    units, errors = asked_of_entries(text, order, path)
    compared = [(printed_rows(lines), [row for rows in rows_of(text) for row in rows])]
    if units is not None:
        compared += [(printed_code(units), code_in(text, read_units))] if order == "little" else []
    compared += compared_ranges(sections, order, size, path, units)
    locations, _ = asked("llvm-dwarfdump", "--debug-loclists" if is_new(sections) else "--debug-loc", path)
    compared += compared_locations(sections, order, size, path, locations)
    others, _ = asked("eu-readelf", "--debug-dump=info", path)
    if order == "little":
        compared += [(printed_expressions(others), expressions_of(text)), (printed_references(others), references_of(text))]
    found = [pair for pair in compared if pair[0] != pair[1]]
    bad = [line for line in (units or []) + locations if "decoding error" in line]
    return found + bad[:3] + ([errors[:300]] if "error" in errors or "warning" in errors else [])


def compared_ranges(sections, order, size, path, units):
    """The range lists that llvm-dwarfdump and readelf print, each beside what the output says. readelf reads those of `ranges` alone, and in
    version 5 not all of these."""
    lists = all_lists(sections, RANGES, size, order)
    others = ranges_of_readelf(asked("readelf", "--debug-dump=Ranges", path)[0])
    compared = [(others, [pair for pair in lists if pair[0] in dict(others)])]
    if is_new(sections):
        printed = pairs_of_dwarfdump(asked("llvm-dwarfdump", "--debug-rnglists", path)[0])
        return compared + [(printed, [pair for _, pairs in lists for pair in pairs])]
    compared.append((ranges_of_readelf(asked("llvm-dwarfdump", "--debug-ranges", path)[0]), lists))
    return compared + ([] if units is None else [(len(others), sum("DW_AT_ranges" in line for line in units))])


def compared_locations(sections, order, size, path, lines):
    """The location lists that llvm-dwarfdump, readelf and eu-readelf print, each beside what the output says."""
    lists = location_lists(sections, size, order)
    entries = [(begin, end, len(places)) for _, found in lists for begin, end, places in found]
    others, _ = asked("readelf", "--debug-dump=loc", path)
    compared = [(counts_of_dwarfdump(lines), entries), (counts_of_readelf(others), entries)]
    others, _ = asked("eu-readelf", "--debug-dump=loc", path)
    return compared + [(places_of_eu_readelf(others), [it for it in lists if it[1] or not is_new(sections)])]


def compared_frames(told, path):
    """The call frames that readelf prints, beside those that the map tells, where they differ."""
    lines, _ = asked("readelf", "--debug-dump=frames", path)
    pair = (read_frames(lines), told_frames(told))
    return [pair] if pair[0] != pair[1] else []


def check(outputs):
    """Asks outside tools of each output that has units: llvm-dwarfdump whether it reads them without complaint, and the same rows,
    range lists, bounds and locations in them; readelf, whether it reads the same range lists and locations, and the frames that the map
    tells, and eu-readelf the same locations, expressions and references."""
    bad = 0
    for name, map_text, text in outputs:
        sections = sections_of(text)
        if not sections:
            continue
        told = json.loads(map_text)
        order = "big" if told["target"].get("big_endian") else "little"
        size = told["target"].get("pointer_bytes", 8)
        with tempfile.TemporaryDirectory() as folder:
            path = os.path.join(folder, "output.o")
            with open(path, "wb") as file:
                file.write(elf(order, size, [(section, body) for section, body, _ in sections]))
            found = complaints(text, order, size, path) + compared_frames(told, path)
        found += verified(sections, order, size, [f["body_len"] for module in told["modules"] for f in module["functions"]])
        if found:
            bad += 1
            print(name, *(str(pair)[:1000] for pair in found))
    print(f"{len(outputs)} outputs, {bad} not as printed")
    sys.exit(1 if bad else 0)
