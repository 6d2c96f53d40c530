"""to_assembly.py's assembly gives, assembled and linked, the printed bytes with their relocations filled in."""

import shutil
import subprocess
import sys
import tempfile
import unittest
from pathlib import Path

from small import PRINTED
from to_assembly import Malformed, add_bases, assembly_of, read_printed

TOOL = Path(__file__).resolve().parents[1] / "to_assembly.py"
FUNCTION = 0x401000
ASSEMBLERS = ("", "aarch64-linux-gnu-", "riscv64-linux-gnu-")  # prefixes of the tools of little-endian targets
# A scope of two lists of ranges, of which the second begins at 48.
RANGES = """section .debug_info 8
0000000030000000
reloc 0 4 section .debug_ranges 0
reloc 4 4 section .debug_ranges 48
section .debug_ranges 80
01000000000000000200000000000000030000000000000004000000000000000000000000000000000000000000000005000000000000000600000000000000\
00000000000000000000000000000000
reloc 0 8 func 0 1
reloc 8 8 func 0 2
reloc 16 8 func 0 3
reloc 24 8 func 0 4
reloc 48 8 func 0 5
reloc 56 8 func 0 6
"""


def filled(sections) -> dict[str, bytes]:
    """The bytes of each section, where each section begins at 0 and the function stands at its address."""
    made = {}
    for section in sections:
        body = bytearray(section.body)
        for it in section.relocations:
            base = 0 if it.target.startswith(".L") else FUNCTION
            body[it.offset : it.offset + it.size] = (base + it.addend).to_bytes(it.size, "little")
        made[section.name] = bytes(body)
    return made


def linked(assembly: str, prefix: str, names: list[str]) -> dict[str, bytes]:
    """The bytes of each section behind the assembler and the linker."""
    with tempfile.TemporaryDirectory() as folder:
        paths = {kind: str(Path(folder, kind)) for kind in ("s", "o", "elf", "bytes")}
        Path(paths["s"]).write_text(assembly)
        subprocess.run([f"{prefix}as", "-o", paths["o"], paths["s"]], check=True)
        place = f"--defsym=wasm_function_0={FUNCTION}"
        subprocess.run([f"{prefix}ld", place, "-e", "0", "-o", paths["elf"], paths["o"]], check=True, capture_output=True)
        made = {}
        for name in names:
            words = ["-O", "binary", f"--only-section={name}", f"--set-section-flags={name}=alloc", paths["elf"], paths["bytes"]]
            subprocess.run([f"{prefix}objcopy", *words], check=True)
            made[name] = Path(paths["bytes"]).read_bytes()
        return made


class Assembly(unittest.TestCase):
    def check_linked(self, text: str, bases: bool, prefix: str):
        sections = read_printed(text, None)
        if bases:
            add_bases(sections)
        assembly = "\n".join(line for section in sections for line in assembly_of(section)) + "\n"
        wanted = filled(sections)
        self.assertEqual(linked(assembly, prefix, list(wanted)), wanted)

    def test_linked_sections(self):
        for prefix in ASSEMBLERS:
            with self.subTest(assembler=prefix + "as"):
                if shutil.which(prefix + "as") is None:
                    self.skipTest(f"{prefix}as is not installed")
                self.check_linked(PRINTED.read_text(), False, prefix)
                self.check_linked(RANGES, True, prefix)

    def test_bases(self):
        sections = read_printed(RANGES, None)
        add_bases(sections)
        info, ranges = sections
        base = b"\xff" * 8 + bytes(8)
        self.assertEqual([it.addend for it in info.relocations], [0, 64])
        self.assertEqual((ranges.body[:16], ranges.body[64:80], len(ranges.body)), (base, base, 112))
        self.assertEqual([it.offset for it in ranges.relocations], [16, 24, 32, 40, 80, 88])

    def test_names(self):
        (section,) = [it for it in read_printed(PRINTED.read_text(), ["first"]) if it.name == ".debug_line"]
        self.assertEqual(section.relocations[0].target, "first")
        with self.assertRaises(Malformed):
            read_printed(PRINTED.read_text(), [])

    def test_text_of_another_kind(self):
        for text in ("hello\n", "section .debug_str 2\n00\n", "section .debug_str 1\n", "reloc 0 4 func 0 0\n"):
            with self.subTest(text=text):
                ended = subprocess.run([sys.executable, TOOL, "-"], input=text, capture_output=True, text=True)
                self.assertEqual((ended.returncode, ended.stdout), (1, ""))
                self.assertIn("line ", ended.stderr)
