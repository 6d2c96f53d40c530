#!/usr/bin/env python3
"""Makes a file of variables, one for each row of ROWS, and has gdb print them: operations.py OUT

The location of a variable is the row's operations of DWARF, with `stack_value` behind them; its type is an unsigned number of 64 bits.
A line is printed for each row: its operations, their bytes, and gdb's value. No process is needed: memory is that of the file.
"""

import re
import subprocess
import sys
from pathlib import Path

sys.path.append(str(Path(__file__).resolve().parent.parent / "list"))

import elf

ADDRESS, MEMORY = 0x500000, bytes([0x11, 0x92, 0x13, 0x94, 0x15, 0x96, 0x17, 0x98])  # what there is to read
STACK_VALUE, LIT0 = 0x9F, 0x30
CODES = {"deref": 0x06, "const1u": 0x08, "const1s": 0x09, "const2u": 0x0A, "const2s": 0x0B, "const4u": 0x0C, "const4s": 0x0D}
CODES |= {"const8u": 0x0E, "const8s": 0x0F, "constu": 0x10, "consts": 0x11, "dup": 0x12, "drop": 0x13, "over": 0x14, "pick": 0x15}
CODES |= {"swap": 0x16, "rot": 0x17, "abs": 0x19, "and": 0x1A, "div": 0x1B, "minus": 0x1C, "mod": 0x1D, "mul": 0x1E, "neg": 0x1F}
CODES |= {"not": 0x20, "or": 0x21, "plus": 0x22, "plus_uconst": 0x23, "shl": 0x24, "shr": 0x25, "shra": 0x26, "xor": 0x27}
CODES |= {"eq": 0x29, "ge": 0x2A, "gt": 0x2B, "le": 0x2C, "lt": 0x2D, "ne": 0x2E, "skip": 0x2F, "deref_size": 0x94, "nop": 0x96}
CODES |= {f"lit{number}": LIT0 + number for number in range(32)}
# How many bytes an operand has; those in LEB128 are apart.
SIZES = {f"const{size}{sign}": size for size in (1, 2, 4, 8) for sign in "us"} | {"pick": 1, "skip": 2, "deref_size": 1}
LEB = ("constu", "consts", "plus_uconst")
LEAST = f"const8u {2**63}"  # the least number with a sign
# Operations that make a number of the stack, or of memory; what moves elements is made one number. There is no `bra`: gdb 13.1 aborts
# where two ways through a location meet.
ROWS = f"""
lit0 | lit31 | const1u 255 | const1s -1 | const2u 65535 | const2s -2 | const4u 4294967295 | const4s -3
const8u 18446744073709551615 | const8s -4 | constu 300 | consts -300
lit7 dup mul | lit7 lit9 drop | lit7 lit9 over minus mul | lit1 lit2 lit3 pick 2 mul plus minus | lit7 lit9 swap minus
lit1 lit2 lit3 rot lit16 mul plus lit16 mul plus | lit5 nop
lit7 neg abs | lit7 abs | {LEAST} abs | const1u 204 const1u 170 and | const1u 204 const1u 170 or | const1u 204 const1u 170 xor
lit5 not
const8u 18446744073709551615 lit2 plus | lit5 lit7 minus | const4u 4294967295 dup mul | lit0 neg | {LEAST} neg
lit5 neg plus_uconst 3 | lit5 neg plus_uconst 300
lit7 neg lit2 div | lit7 lit2 neg div | lit7 neg lit2 neg div | lit7 lit2 div | {LEAST} lit2 div
lit7 lit3 mod | lit7 neg lit3 mod | lit7 lit3 neg mod
lit5 lit3 shl | lit1 const1u 63 shl | lit7 neg lit1 shr | lit7 neg lit1 shra | lit7 lit1 shra | lit7 neg const1u 63 shr
{LEAST} const1u 63 shra
lit1 neg lit0 lt | lit0 lit1 neg lt | lit3 lit3 lt | lit1 neg lit0 le | lit0 lit1 neg le | lit3 lit3 le | lit1 neg lit0 gt
lit0 lit1 neg gt | lit3 lit3 gt
lit1 neg lit0 ge | lit0 lit1 neg ge | lit3 lit3 ge | lit3 lit3 eq | lit3 lit4 eq | lit3 lit3 ne | lit3 lit4 ne
lit4 skip 1 lit5 lit6 plus
const4u {ADDRESS} deref | const4u {ADDRESS} deref_size 1 | const4u {ADDRESS} deref_size 2
const4u {ADDRESS} plus_uconst 2 deref_size 4 | const4u {ADDRESS} deref_size 8
"""


def leb(number: int) -> bytes:
    """A number in LEB128, with as many bytes as one with a sign needs."""
    made = bytearray()
    while not -64 <= number < 64:
        made.append(number & 0x7F | 0x80)
        number >>= 7
    return bytes([*made, number & 0x7F])


def encoded(row: str) -> bytes:
    """The bytes of a row's operations."""
    words, made = iter(row.split()), b""
    for word in words:
        made += bytes([CODES[word]])
        if word in SIZES:
            size = SIZES[word]
            made += (int(next(words)) % 2 ** (8 * size)).to_bytes(size, "little")
        elif word in LEB:
            made += leb(int(next(words)))
    return made + bytes([STACK_VALUE])


# A unit with its name and language; a type with name, size and encoding; a variable with name, type, location, and that it is external.
ABBREVIATIONS = bytes.fromhex("01 11 01 03 08 13 0b 00 00  02 24 00 03 08 0b 0b 3e 0b 00 00  03 34 00 03 08 49 13 02 18 3f 19 00 00  00")
HEADER_SIZE, C99, UNSIGNED = 11, 0x0C, 7


def information(expressions: list[bytes]) -> bytes:
    unit = b"\x01operations\0" + bytes([C99])
    type_place = HEADER_SIZE + len(unit)
    body = unit + b"\x02number\0" + bytes([8, UNSIGNED])
    for index, expression in enumerate(expressions):
        size = bytes([len(expression)])  # below 128
        body += b"\x03" + f"row{index}".encode() + b"\0" + type_place.to_bytes(4, "little") + size + expression
    body += b"\0"
    return (len(body) + HEADER_SIZE - 4).to_bytes(4, "little") + bytes.fromhex("0400 00000000 08") + body


def main() -> None:
    (out,) = sys.argv[1:]
    rows = [row.strip() for row in ROWS.replace("\n", "|").split("|") if row.strip()]
    expressions = [encoded(row) for row in rows]
    data = elf.Section(".data", MEMORY, flags=elf.LOADED | elf.WRITABLE, address=ADDRESS)
    debug = [elf.Section(".debug_abbrev", ABBREVIATIONS), elf.Section(".debug_info", information(expressions))]
    Path(out).write_bytes(elf.executable(ADDRESS, [data, *debug], []))
    commands = [word for index in range(len(rows)) for word in ("-ex", f"print row{index}")]
    printed = subprocess.run(["gdb", "-nx", "-batch", out, *commands], capture_output=True, text=True, check=True).stdout
    values = re.findall(r"^\$\d+ = (.*)$", printed, re.MULTILINE)
    for row, expression, value in zip(rows, expressions, values, strict=True):
        print(f"{row} | {expression.hex(' ')} | {value}")


if __name__ == "__main__":
    main()
