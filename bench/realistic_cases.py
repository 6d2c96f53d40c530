"""The case of a realistic module, and what two readers that know nothing of the program say of the units of its output."""

import re
import shutil
import tempfile

import check_cases
from listed_trees import OWN_UNIT
from plain_entries import AT_NAME, TAG_STRUCTURE_TYPE, TAG_SUBPROGRAM, read_units, text_of
from realistic_module import front_of, functions_of, map_text, names_of
from realistic_units import debug_sections
from small_module import module

WRAPPER = "WebAssemblyPtrWrapper<const char>"
UNITS = [OWN_UNIT.decode(), "words.c", "points.c", "words.wasm"]  # the own unit, two that are carried, and the last


def realistic_module():
    """The module, and its map."""
    functions, contents = functions_of()
    front, code = front_of(functions, contents)
    abbreviations, info, lines, others = debug_sections(functions)
    return module(abbreviations, info, lines, others, front) + names_of(functions), map_text(functions, code)


def realistic_cases(cases):
    made, told = realistic_module()
    cases.carried("a realistic module", told, made)
    _, _, printed = cases.outputs[-1]
    wanted = (UNITS, 1, ["fill_bytes"])
    assert summary_of(printed) == wanted, summary_of(printed)
    if shutil.which("llvm-dwarfdump"):
        assert dumped_summary(printed) == wanted, dumped_summary(printed)
    return cases


# ---- the names of its units, how many structures have the name of the wrapper, and the names of the last unit's subprograms


def summary_of(text):
    """As the plain reader of entries reads them."""
    sections = {name: bytes(body) for name, body, _ in check_cases.sections_of(text)}
    units = read_units(sections)
    named = lambda unit, tag: [name_of(sections, unit, entry) for entry in unit.entries if entry.tag == tag]
    structures = [name for unit in units for name in named(unit, TAG_STRUCTURE_TYPE)]
    return [name_of(sections, unit, unit.root) for unit in units], structures.count(WRAPPER), named(units[-1], TAG_SUBPROGRAM)


def name_of(sections, unit, entry):
    value = entry.value(AT_NAME)
    return value and text_of(sections, unit, value).decode()


def dumped_summary(text):
    """As llvm-dwarfdump prints them."""
    with tempfile.NamedTemporaryFile(suffix=".o") as file:
        file.write(check_cases.elf("little", 8, [(name, body) for name, body, _ in check_cases.sections_of(text)]))
        file.flush()
        lines, complaints = check_cases.asked("llvm-dwarfdump", "--debug-info", file.name)
    assert complaints == "", complaints
    units = [dumped_entries(unit) for unit in "\n".join(lines).split("DW_TAG_compile_unit")[1:]]
    structures = [name for unit in units for tag, name in unit if tag == "structure_type"]
    return [unit[0][1] for unit in units], structures.count(WRAPPER), [name for tag, name in units[-1] if tag == "subprogram"]


def dumped_entries(unit):
    """The tag and the name of each entry that is printed of a unit, its root first."""
    entries = ("compile_unit" + unit).split("DW_TAG_")
    found = [(entry.split()[0], re.search(r'DW_AT_name\s+\("(.*)"\)', entry)) for entry in entries]
    return [(tag, name and name[1]) for tag, name in found]
