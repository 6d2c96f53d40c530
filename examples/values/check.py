#!/usr/bin/env python3
"""Runs the commands that README.md shows behind `$`, and compares what they print: check.py [DWARFCARRY].

DWARFCARRY is the built program, which takes the place of the command with `rt try`. Then the numbers of each moment that the page shows
must stand in the module of worked cases, of which the proof tool computes the values; the locations of the input that this module
names must stand in values.wasm; and each row of operations.py, with gdb's value, must stand in the module of these. Where a tool is
not installed, the check says so and ends there, with status 0.
"""

import re
import shutil
import sys
from pathlib import Path

FOLDER = Path(__file__).resolve().parent
sys.path.append(str(FOLDER.parent))

from pages import is_as_shown, run, shown_commands

TOOLS = ("rt", "gdb", "readelf")
INTERPRETER = "wasm-interp"  # of Debian's wabt
SESSION = "gdb -nx -batch -x session.gdb "
PROOFS = FOLDER.parents[1] / "crates" / "dwc_worked" / "proofs"
MOMENTS, MEANING, OPERATIONS = (PROOFS / f"{name}.antt" for name in ("MomentsOfExample", "MeaningOfExample", "DebuggerCases"))
LOCATIONS = ("high", "made")  # definitions in MEANING


def missing_tool(program: Path | None) -> str | None:
    wanted = [tool for tool in TOOLS if tool != "rt" or not program]
    return next((tool for tool in wanted if shutil.which(tool) is None), None)


def check_page(commands: list[tuple[str, list[str]]], program: Path | None) -> bool:
    """Whether all commands print what the page shows; the first that does not ends it."""
    for command, wanted in commands:
        if program and "rt try" in command:
            command = f"{program} out/values.json values.wasm > out/values.txt"
        if command.startswith(INTERPRETER) and shutil.which(INTERPRETER) is None:
            print(f"{INTERPRETER} is not installed, so this is not checked: {command}")
            continue
        ended = run(command, FOLDER)
        if not is_as_shown(command, wanted, ended.stdout.splitlines(), ended.stderr):
            return False
    return True


def spelled(numbers: list[str]) -> str:
    """A list of numbers, as the module writes it."""
    return "".join(f"{number} ∷ " for number in numbers) + "[]"


def spelled_bytes(text: str) -> str:
    return spelled([f"0x{byte}" for byte in text.split()])


def spelled_memory(line: str) -> str:
    """Bytes of memory, of which the runs are told that are not 0."""
    size, runs = re.match(r".*, (\d+) bytes, all 0 but for (.*)", line).groups()
    spelled_runs = [f"({place}, {spelled_bytes(text)}) ∷ " for place, text in (run.split(": ") for run in runs.split("; "))]
    return f"filled {size} 0 (" + "".join(spelled_runs) + "[])"


def spelled_line(line: str) -> str:
    """What a line of a moment is in the module."""
    kind, _, rest = line.strip().partition(" ")
    if kind == "expression":
        return f"expression = {spelled_bytes(rest)};"
    if kind == "registers":
        return f"registers = {spelled(rest.split())};"
    if kind == "frame":
        return f"frame = {rest};"
    if kind == "gdb":
        number = int(rest.split()[1])
        return f"printed = {f'pos {number}' if number >= 0 else f'negsuc {-number - 1}'};"
    return spelled_memory(line)


def stand_in(module: Path, wanted: list[str]) -> bool:
    """Whether a module has all that is wanted, which is something."""
    text = re.sub(r"\s+", " ", module.read_text())
    missing = [it for it in wanted if it not in text]
    for it in missing:
        print(f"{module.name} does not have: {it}")
    return bool(wanted) and not missing


def moments_stand(session: list[str]) -> bool:
    """Whether the module has the numbers of all moments, and where memory begins too."""
    lines = [line for line in session if line.startswith("  ")]
    begins = [f"({begin[1]}, " for line in lines if (begin := re.search(r" at (\d+), ", line))]
    return stand_in(MOMENTS, [*map(spelled_line, lines), *begins])


def operations_stand() -> bool:
    """Whether the module of operations has what gdb prints of each row, and no row more."""
    rows = [line.split(" | ") for line in run("python3 operations.py out/operations", FOLDER).stdout.splitlines()]
    count = OPERATIONS.read_text().count("0x9f ∷ [], ")
    if count != len(rows):
        print(f"{OPERATIONS.name} has {count} rows and operations.py {len(rows)}")
    return stand_in(OPERATIONS, [f"({spelled_bytes(code)}, {value})" for _, code, value in rows]) and count == len(rows)


def stand_in_input() -> bool:
    """Whether the input has the locations that the module names."""
    wasm, text = (FOLDER / "values.wasm").read_bytes(), MEANING.read_text()
    found = {name: re.search(rf"^{name} = (.*)$", text, re.MULTILINE)[1] for name in LOCATIONS}
    missing = [name for name, numbers in found.items() if bytes(int(it, 16) for it in re.findall(r"0x\w+", numbers)) not in wasm]
    for name in missing:
        print(f"values.wasm does not have the location of {name} in {MEANING.name}")
    return not missing


def main() -> int:
    program = Path(sys.argv[1]).resolve() if sys.argv[1:] else None
    tool = missing_tool(program)
    if tool:
        print(f"{tool} is not installed, so nothing of examples/values is checked")
        return 0
    commands = shown_commands(FOLDER / "README.md")
    if not check_page(commands, program):
        return 1
    session = next(wanted for command, wanted in commands if command.startswith(SESSION))
    return 0 if all([moments_stand(session), stand_in_input(), operations_stand()]) else 1


if __name__ == "__main__":
    sys.exit(main())
