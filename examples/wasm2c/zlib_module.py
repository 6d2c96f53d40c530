#!/usr/bin/env python3
"""Compiles zlib and zlib_main.c to WebAssembly with DWARF: zlib_module.py SOURCES OUT.wasm -O0|-O2

SOURCES is the folder of zlib's sources, as `apt-get source zlib` makes it.
"""

import subprocess
import sys
import tempfile
from pathlib import Path

HERE = Path(__file__).resolve().parent
NAMES = "adler32 compress crc32 deflate inffast inflate inftrees trees uncompr zutil".split()
LIBRARIES = ["-L/usr/lib/wasm32-wasi", "-lc"]


def compile_all(sources: Path, out: Path, level: str) -> None:
    with tempfile.TemporaryDirectory() as folder:
        objects = []
        for path in [*(sources / f"{name}.c" for name in NAMES), HERE / "zlib_main.c"]:
            objects.append(str(Path(folder, path.stem + ".o")))
            flags = ["--target=wasm32-wasi", "-g", "-w", level, f"-I{sources}", "-c", str(path), "-o", objects[-1]]
            subprocess.run(["clang-19", *flags], check=True)
        subprocess.run(["wasm-ld-19", "--no-entry", *objects, *LIBRARIES, "-o", str(out)], check=True)


def main() -> int:
    if len(sys.argv) != 4:
        print("usage: zlib_module.py SOURCES OUT.wasm -O0|-O2", file=sys.stderr)
        return 2
    try:
        compile_all(Path(sys.argv[1]).resolve(), Path(sys.argv[2]), sys.argv[3])
    except (OSError, subprocess.CalledProcessError) as error:
        print(f"zlib_module.py: {error}", file=sys.stderr)
        return 1
    return 0


if __name__ == "__main__":
    sys.exit(main())
