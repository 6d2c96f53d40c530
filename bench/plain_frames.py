"""How code unwinds: the section `.debug_frame`, from the common information entry of a target and the frames of functions. (DWARF 4, sections
6.4 and 7.23; of several spellings of one instruction this project's own choice.)"""

from plain_entries import Refused, sleb, uleb

CIE_ID, CIE_VERSION, NO_AUGMENTATION, NOP = 0xFFFFFFFF, 1, 0, 0
ADVANCE_LOC, OFFSET, RESTORE = 0x40, 0x80, 0xC0  # with an operand in the low six bits
ADVANCE_LOC_1, ADVANCE_LOC_2, ADVANCE_LOC_4 = 0x02, 0x03, 0x04
OFFSET_EXTENDED, RESTORE_EXTENDED, OFFSET_EXTENDED_SF = 0x05, 0x06, 0x11
DEF_CFA, DEF_CFA_SF, DEF_CFA_OFFSET, DEF_CFA_OFFSET_SF = 0x0C, 0x12, 0x0E, 0x13
OF_REGISTER = {"cfa_register": 0x0D, "undefined": 0x07, "same_value": 0x08}
ALONE = {"remember": 0x0A, "restore_state": 0x0B}
WITH_OFFSET = ("cfa", "cfa_offset")  # an offset below 0 alone is factored, and one from 0 on is in bytes


def factored(instruction):
    """The offset of an instruction that is written in units of the data factor, if it has one."""
    name, offset = instruction[0], instruction[-1]
    return offset if name == "offset" or name in WITH_OFFSET and offset < 0 else None


def instruction_bytes(factor, instruction):
    """An instruction of the map, by the data factor."""
    name, *operands = instruction
    if name in ALONE:
        return bytes([ALONE[name]])
    if name in OF_REGISTER:
        return bytes([OF_REGISTER[name]]) + uleb(*operands)
    if name == "restore":
        return with_register(RESTORE, RESTORE_EXTENDED, *operands)
    if name == "offset":
        register, count = operands[0], operands[1] // factor
        if count < 0:
            return bytes([OFFSET_EXTENDED_SF]) + uleb(register) + sleb(count)
        return with_register(OFFSET, OFFSET_EXTENDED, register) + uleb(count)
    *register, offset = operands
    code, signed_code = (DEF_CFA, DEF_CFA_SF) if name == "cfa" else (DEF_CFA_OFFSET, DEF_CFA_OFFSET_SF)
    front = b"".join(map(uleb, register))
    return bytes([signed_code]) + front + sleb(offset // factor) if offset < 0 else bytes([code]) + front + uleb(offset)


def with_register(code, extended, register):
    return bytes([code + register]) if register < 64 else bytes([extended]) + uleb(register)


def advance_bytes(writer, count):
    """An advance by so many units of the code factor."""
    if count == 0:
        return b""
    if count < 0x40:
        return bytes([ADVANCE_LOC + count])
    code, size = (ADVANCE_LOC_1, 1) if count < 0x100 else (ADVANCE_LOC_2, 2) if count < 0x10000 else (ADVANCE_LOC_4, 4)
    return bytes([code]) + writer.number(count, size)


def refuse_frames(cie, frames):
    """What cannot be written of the frames of functions, by their numbers, with a common information entry."""
    for number, frame in frames if cie else ():
        refuse_frame(cie, number, frame)


def refuse_frame(cie, number, frame):
    """What cannot be written of the frame of a function: its code offsets, and then its factored offsets."""
    before = 0
    for at, _ in frame["ops"]:
        if at < before or at % cie["code_factor"]:
            raise Refused(f"InvalidFrameCodeOffset {number}")
        before = at
    for offset in (factored(instruction) for _, instruction in frame["ops"]):
        if offset is not None and offset % cie["data_factor"]:
            raise Refused(f"InvalidFrameDataOffset {number}")


def write_frames(writer, cie, frames):
    """The section with a common information entry and the frames of functions, by their numbers; none without the entry, and none without a frame."""
    if not cie or not frames:
        return
    number, section = writer.number, writer.frame
    common = number(CIE_ID, 4) + bytes([CIE_VERSION, NO_AUGMENTATION]) + uleb(cie["code_factor"]) + sleb(cie["data_factor"]) + bytes([cie["return_register"]])
    write_entry(writer, common + b"".join(instruction_bytes(cie["data_factor"], instruction) for instruction in cie["ops"]))
    for function, frame in frames:
        at = len(section.body)
        section.relocations.append((at + 4, 4, f"section {section.name}", 0))
        section.relocations.append((at + 8, writer.size, f"func {function}", 0))
        write_entry(writer, number(0, 4) + number(0, writer.size) + number(frame["len"], writer.size) + program(writer, cie, frame["ops"]))


def program(writer, cie, ops):
    """The instructions of a frame, each behind an advance from the offset of the one before it."""
    made, before = b"", 0
    for at, instruction in ops:
        made += advance_bytes(writer, (at - before) // cie["code_factor"]) + instruction_bytes(cie["data_factor"], instruction)
        before = at
    return made


def write_entry(writer, contents):
    """An entry with its length in front, filled up to a multiple of the size of an address."""
    contents += bytes([NOP]) * (-(4 + len(contents)) % writer.size)
    writer.frame.body += writer.number(len(contents), 4) + contents
