"""For gdb: `source moments.py`, then `moment NAME [EXPRESSION]` shows where gdb has a variable's value from, and that value.

It prints the bytes of the variable's location at the address of the selected frame, the sixteen general registers in DWARF's order, the
canonical frame address with the bytes of the function's frame below it, the context, the linear memory, and what gdb prints of EXPRESSION,
which is NAME where it is left out. Of memory only runs of bytes that are not 0 are printed. Registers are those of the selected frame.
readelf says where the location of a variable stands; gdb does not tell its bytes.
"""

import re
import struct
import subprocess

import gdb

REGISTERS = "rax rdx rcx rbx rsi rdi rbp rsp r8 r9 r10 r11 r12 r13 r14 r15".split()  # as DWARF numbers them
CONTEXT_SIZE = 16  # a global and the pointer to the linear memory
USED_MEMORY = 1024  # the part of the linear memory that is C's stack
LISTED = re.compile(r"DW_AT_location +: (0x[0-9a-f]+|0) \(location list\)")
DUMPED = slice(13, 48)  # where a line of `readelf -x` has its bytes


def printed_by(*words: str) -> str:
    return subprocess.run(words, capture_output=True, text=True, check=True).stdout


def from_list(body: bytes, offset: int, address: int) -> bytes:
    """The expression of a location list for an address."""
    while True:
        begin, end = struct.unpack_from("<QQ", body, offset)
        if begin == end == 0:
            raise gdb.GdbError("no location here")
        (size,) = struct.unpack_from("<H", body, offset + 16)
        if begin <= address < end:
            return body[offset + 18 : offset + 18 + size]
        offset += 18 + size


def location(name: str, address: int) -> bytes:
    """The expression of a variable, which has a location list, at an address. Of more than one variable of the name the first counts."""
    program = gdb.current_progspace().filename
    entries = printed_by("readelf", "-wi", program).split("Abbrev Number")
    entry = next(entry for entry in entries if re.search(rf"DW_AT_name .*: {name}\s", entry) and LISTED.search(entry))
    lines = printed_by("readelf", "-x", ".debug_loc", program).splitlines()
    body = bytes.fromhex("".join(line[DUMPED] for line in lines if line.startswith("  0x")))
    return from_list(body, int(LISTED.search(entry)[1], 16), address)


def shown_memory(what: str, begin: int, size: int) -> None:
    """Prints where memory begins, and the runs of bytes in it that are not 0."""
    body = bytes(gdb.selected_inferior().read_memory(begin, size))
    runs = [f"{found.start()}: {found[0].hex(' ')}" for found in re.finditer(rb"[^\0](?:\0{0,3}[^\0])*", body)]
    print(f"  {what} at {begin}, {size} bytes, all 0 but for", "; ".join(runs) or "none")


class Moment(gdb.Command):
    """Shows where a variable's value comes from, and the value: moment NAME [EXPRESSION]"""

    def __init__(self):
        super().__init__("moment", gdb.COMMAND_DATA)

    def invoke(self, words, from_terminal):
        name, *expression = words.split(maxsplit=1)
        frame = gdb.selected_frame()
        address = frame.pc() - (1 if frame.level() else 0)  # that of the call, where it has not returned
        canonical = int(re.search(r"frame at (0x[0-9a-f]+)", gdb.execute("info frame", to_string=True))[1], 16)
        bottom = int(frame.read_register("rsp"))
        context = int(gdb.parse_and_eval("(unsigned long) __vmctx"))
        print(f"{name} in {frame.name()}, at {address:#x}")
        print("  expression", location(name, address).hex(" "))
        print("  registers", *(int(frame.read_register(it)) % 2**64 for it in REGISTERS))
        print("  frame", canonical)
        shown_memory("stack", bottom, canonical - bottom)
        shown_memory("context", context, CONTEXT_SIZE)
        shown_memory("linear memory", int(gdb.parse_and_eval("*(unsigned long *) &__vmctx->memory")), USED_MEMORY)
        print("  gdb prints", gdb.parse_and_eval(expression[0] if expression else name))


Moment()
