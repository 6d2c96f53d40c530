#!/usr/bin/env python3
"""Runs the commands that README.md shows behind `$`, and compares what they print: check.py [DWARFCARRY].

DWARFCARRY is the built program, which takes the place of the command with `rt try`. Then each clang from 14 to 19 that is installed with
its wasm-ld makes the WebAssembly file anew: the program made of it must end as the one here, and gdb print the same but for addresses.

Where `rt` or `gdb` is wanted and not installed, the check says so and ends there, with status 0. Where gdb cannot write the registers
of this processor, and so calls no function, the check says so and passes over the command.
"""

import re
import shutil
import sys
from pathlib import Path

FOLDER = Path(__file__).resolve().parent
sys.path.append(str(FOLDER.parent))

from pages import is_as_shown, run, shown_commands

TOOLS = ("rt", "gdb")
# What gdb 13 says where the processor has larger registers than it knows.
NO_REGISTERS = "Couldn't write extended state status"
CLANGS = range(14, 20)
ANSWER = 30  # of the program
SESSION = "gdb -nx -batch -x pointers.gdb "


def missing_tool(command: str) -> str | None:
    return next((tool for tool in TOOLS if tool in command.split() and shutil.which(tool) is None), None)


def check_page(commands: list[tuple[str, list[str]]], program: Path | None) -> bool | None:
    """Whether all commands print what the page shows; None where a tool is missing."""
    for command, wanted in commands:
        if program and "rt try" in command:
            command = f"{program} out/list.json list.wasm > out/list.txt"
        tool = missing_tool(command)
        if tool:
            print(f"{tool} is not installed, so nothing is checked from here on: {command}")
            return None
        ended = run(command, FOLDER)
        if NO_REGISTERS in ended.stderr:
            print(f"gdb cannot write the registers of this processor, so this is not checked: {command}")
        elif not is_as_shown(command, wanted, ended.stdout.splitlines(), ended.stderr):
            return False
    return True


def without_addresses(lines: list[str]) -> list[str]:
    return [re.sub(r"0x[0-9a-f]+|memory\+\d+", "..", line) for line in lines]


def check_clang(clang: str, linker: str, level: str, program: Path | None, session: list[str]) -> bool:
    """Whether a file that another clang makes is compiled, and at -O0 debugged, as the one here."""
    flags = f"--target=wasm32 -g {level} -fdebug-compilation-dir=. -c list.c -o out/clang.o"
    steps = [f"{clang} {flags}", f"{linker} --no-entry out/clang.o -o out/clang.wasm"]
    steps += ["python3 compile.py out/clang.wasm out/clang.code out/clang.json"]
    steps += [f"{program} out/clang.json out/clang.wasm > out/clang.txt"] if program else []
    parts = "out/clang out/clang.wasm out/clang.code out/clang.json" + (" out/clang.txt" if program else "")
    ended = run(" && ".join([*steps, f"python3 link.py {parts}", "out/clang"]), FOLDER)
    if ended.returncode != ANSWER:
        print(f"{clang} {level}: ends with {ended.returncode} and not {ANSWER}\n{ended.stderr}", end="")
        return False
    if not program or level != "-O0":
        print(f"{clang} {level}: the program ends with {ANSWER}")
        return True
    ended = run(SESSION + "out/clang", FOLDER)
    printed = without_addresses(ended.stdout.splitlines())
    return is_as_shown(f"{clang} {level}: {SESSION}out/clang", without_addresses(session), printed, ended.stderr)


def check_clangs(program: Path | None, session: list[str]) -> bool:
    good = True
    for version in CLANGS:
        clang, linker = f"clang-{version}", f"wasm-ld-{version}"
        if shutil.which(clang) is None or shutil.which(linker) is None:
            print(f"{clang} and {linker} are not installed, so they are not tried")
            continue
        for level in ("-O0", "-O1"):
            good = check_clang(clang, linker, level, program, session) and good
    return good


def main() -> int:
    program = Path(sys.argv[1]).resolve() if sys.argv[1:] else None
    commands = shown_commands(FOLDER / "README.md")
    shown = check_page(commands, program)
    if not shown:
        return 0 if shown is None else 1
    session = next(wanted for command, wanted in commands if command.startswith(SESSION))
    return 0 if check_clangs(program, session) else 1


if __name__ == "__main__":
    sys.exit(main())
