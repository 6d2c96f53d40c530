#!/usr/bin/env python3
"""Runs the commands that README.md shows behind `$`, and compares what they print: check.py [--zlib SOURCES] [DWARFCARRY].

DWARFCARRY is the built program; without it crates/dwarfcarry/out/dwarfcarry is run. With --zlib the program of zlib is made at both
levels too, from the folder of its sources, and stopped 1,000 times: the check fails where a line is wrong. Where a tool is not
installed, or dwarfcarry not built, the check says what it skips and ends with status 0.
"""

import os
import shutil
import sys
from pathlib import Path

FOLDER = Path(__file__).resolve().parent
sys.path.append(str(FOLDER.parent))

from pages import is_as_shown, run, shown_commands

BUILT = FOLDER.parents[1] / "crates" / "dwarfcarry" / "out" / "dwarfcarry"
# Each tool with Debian's package of it.
TOOLS = {"clang-19": "clang-19", "wasm-ld-19": "lld-19", "llvm-dwarfdump-19": "llvm-19", "llvm-symbolizer-19": "llvm-19"}
TOOLS |= {"wasm2c": "wabt", "gcc": "gcc", "objcopy": "binutils", "gdb": "gdb", "lldb": "lldb"}
LIBRARY = ("/usr/lib/wasm32-wasi/libc.a", "wasi-libc")  # of C, for WebAssembly
WRONG = ("wrong line", "wrong offset")


def missing_packages() -> list[str]:
    return sorted({package for tool, package in TOOLS.items() if shutil.which(tool) is None})


def check_page() -> bool:
    """Whether all commands print what the page shows; the first that does not ends it."""
    for command, wanted in shown_commands(FOLDER / "README.md"):
        ended = run(command, FOLDER)
        if not is_as_shown(command, wanted, ended.stdout.splitlines(), ended.stderr):
            return False
    return True


def check_zlib(sources: Path, level: str) -> bool:
    out = f"out/zlib{level}"
    steps = [f"python3 zlib_module.py {sources} {out}.wasm {level}", f"python3 build.py {out}.wasm {out} {level}", f"{out}/program"]
    ended = run(" && ".join([*steps, f"python3 stops.py {out}"]), FOLDER)
    print(f"zlib {level}:", *ended.stdout.splitlines()[-20:], ended.stderr, sep="\n")
    return ended.returncode == 0 and not any(word in ended.stdout for word in WRONG)


def main() -> int:
    words = sys.argv[1:]
    sources = Path(words[1]).resolve() if words[:1] == ["--zlib"] and len(words) > 1 else None
    program = Path(words[-1]).resolve() if len(words) in (1, 3) else BUILT
    packages = missing_packages()
    if packages or not program.exists():
        what = f"these packages are not installed: {', '.join(packages)}" if packages else f"there is no {program}"
        print(f"{what}; so nothing of examples/wasm2c is checked")
        return 0
    os.environ["DWARFCARRY"] = str(program)
    if not check_page():
        return 1
    if sources is None or not Path(LIBRARY[0]).exists():
        print("zlib is not made: it wants --zlib SOURCES and Debian's package", LIBRARY[1])
        return 0
    return 0 if all([check_zlib(sources, level) for level in ("-O0", "-O2")]) else 1


if __name__ == "__main__":
    sys.exit(main())
