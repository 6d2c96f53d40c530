#!/usr/bin/env python3
"""Makes a native program of a WebAssembly file, with dwarfcarry's DWARF: build.py [--times] MODULE.wasm OUT -O0|-O2

The file exports `memory` and `run`, a function without parameters, and imports nothing. OUT is a folder, in which the program is
OUT/program. Each command is printed, with --times its processor seconds too. The environment variable DWARFCARRY names the built program;
without it crates/dwarfcarry/out/dwarfcarry is run.
"""

import os
import shlex
import shutil
import subprocess
import sys
from pathlib import Path

HERE = Path(__file__).resolve().parent
ROOT = HERE.parents[1]
DWARFCARRY = os.environ.get("DWARFCARRY") or str(ROOT / "crates" / "dwarfcarry" / "out" / "dwarfcarry")
MAKER = str(HERE / "wasm2c_map.py")
TO_ASSEMBLY = str(ROOT / "tools" / "to_assembly.py")
# The code of a function stays in one piece and in its own frame, and each variable has one place.
FLAGS = ["-g", "-no-pie", "-fno-optimize-sibling-calls", "-fno-reorder-blocks-and-partition", "-fno-var-tracking", "-fno-omit-frame-pointer"]
LIBRARIES = ["-lwasm-rt-impl", "-lm"]
PYTHON = "python3"


def steps(level: str) -> list[tuple[list[str], str | None]]:
    """Commands, and the file that takes what they print."""
    pins = ["--pin"] if level != "-O0" else []
    compile_ = ["gcc", level, *FLAGS, "-c"]
    return [
        (["wasm2c", "--no-debug-names", "-n", "program", "program.wasm", "-o", "program.c"], None),
        ([PYTHON, MAKER, "lines", "program.wasm", "program.c", "names.txt", *pins], "lines.c"),
        ([*compile_, "lines.c"], None),
        ([*compile_, "host.c"], None),
        (["gcc", "-no-pie", "lines.o", "host.o", "-o", "by-offsets", *LIBRARIES], None),
        ([PYTHON, MAKER, "map", "program.wasm", "names.txt", "by-offsets"], "map.json"),
        ([DWARFCARRY, "map.json", "program.wasm"], "printed.txt"),
        ([PYTHON, TO_ASSEMBLY, "printed.txt", "names.txt"], "debug.s"),
        (["gcc", "-c", "debug.s"], None),
        (["objcopy", "--strip-debug", "lines.o", "code.o"], None),
        (["gcc", "-no-pie", "code.o", "debug.o", "host.o", "-o", "program", *LIBRARIES], None),
    ]


def shown(words: list[str], out: str | None) -> str:
    names = ["dwarfcarry" if word == DWARFCARRY else Path(word).name if word.startswith("/") else word for word in words]
    return shlex.join(names) + (f" > {out}" if out else "")


def run(words: list[str], out: str | None, folder: Path) -> None:
    with open(folder / (out or os.devnull), "w") as file:
        subprocess.run(words, cwd=folder, stdout=file if out else None, check=True)


def processor_seconds() -> float:
    """What all commands have taken."""
    used = os.times()
    return used.children_user + used.children_system


def main() -> int:
    words = [word for word in sys.argv[1:] if word != "--times"]
    if len(words) != 3 or words[2] not in ("-O0", "-O2"):
        print("usage: build.py [--times] MODULE.wasm OUT -O0|-O2", file=sys.stderr)
        return 2
    module, folder = Path(words[0]), Path(words[1])
    folder.mkdir(parents=True, exist_ok=True)
    try:
        shutil.copy(module, folder / "program.wasm")
        shutil.copy(HERE / "host.c", folder)
        for step, out in steps(words[2]):
            begin = processor_seconds()
            run(step, out, folder)
            seconds = f"{processor_seconds() - begin:7.2f} s  " if "--times" in sys.argv else ""
            print(seconds + shown(step, out), flush=True)
    except (OSError, subprocess.CalledProcessError) as error:
        print(f"build.py: {error}", file=sys.stderr)
        return 1
    return 0


if __name__ == "__main__":
    sys.exit(main())
