"""Cases of how code unwinds: what stands in `.debug_frame`, and what is refused of frames, in which order."""

import location_cases
from make_modules import custom
from own_unit_cases import TARGETS
from small_module import FRONT, PREAMBLE, SMALL, function, map_of, module, unit

# What a compiler tells of x86-64, and of a function that takes 16 bytes of its stack from its second byte on.
USUAL = {"code_factor": 1, "data_factor": -8, "return_register": 16, "ops": [["cfa", 7, 8], ["offset", 16, -8]]}
FRAME = {"len": 30, "ops": [[1, ["cfa_offset", 16]]]}
WORDS = {"code_factor": 4, "data_factor": -4, "return_register": 30, "ops": [["same_value", 29]]}
UP = {"code_factor": 1, "data_factor": 4, "return_register": 255, "ops": []}

# Each instruction, with registers below and from 64 on, and offsets on both sides of 0.
EACH = [["cfa", 7, 8], ["cfa", 300, 2147483647], ["cfa", 7, -16], ["cfa_register", 6], ["cfa_register", 65535], ["cfa_offset", 0], ["cfa_offset", 128]]
EACH += [["cfa_offset", -8], ["cfa_offset", -1024], ["restore", 0], ["restore", 63], ["restore", 64], ["undefined", 200], ["same_value", 3]]
EACH += [["offset", 3, -16], ["offset", 63, -1024], ["offset", 64, -16], ["offset", 3, 16], ["offset", 300, 1040], ["offset", 16, 0], ["remember"], ["restore_state"]]
EACH_BYTES = "0c0708 410cac02ffffffff07 41120702 410d06 410dffff03 410e00 410e8001 411301 41138001 41c0 41ff 410640 4107c801 410803 418302 41bf8001 41054002"
EACH_BYTES += " 4111037e 4111ac02fe7e 419000 410a 410b"

FALLS, BROKEN = [[5, ["remember"]], [4, ["restore_state"]]], [[0, ["offset", 16, -9]]]
BAD_CODE, BAD_DATA = "InvalidFrameCodeOffset", "InvalidFrameDataOffset"


def of(ops, length=30):
    return {"len": length, "ops": ops}


def framed(frame, symbol=0, **more):
    return {**function(symbol=symbol, **more), "frame": frame}


def entry(length, contents):
    """An entry with its length, lowest byte first."""
    return f"{length:02x}000000" + contents.replace(" ", "")


def described(length, code, contents):
    """A frame description entry of so many bytes of code, with addresses of eight bytes."""
    return entry(length, "00" * 12 + f"{code:02x}" + "00" * 7 + contents)


COMMON = entry(0x14, "ffffffff 01 00 01 78 10 0c0708 9001 000000000000")
ONE = [COMMON + described(0x1C, 30, "41 0e10 0000000000"), "28 4 section .debug_frame 0", "32 8 func 0 0"]


class Cases(location_cases.Cases):
    """Cases of the small module with frames."""

    def carried(self, name, *functions, cie=USUAL, modules=None, frames=None, **target):
        """A run on a module for each list of functions; the frames of the output may be given by hand."""
        self.cases.carried(name, self.map_of(*functions, cie=cie, **target), *(modules or [SMALL] * len(functions)), frames=frames)

    def refused(self, name, status, line, *functions, cie=USUAL, modules=None):
        """The plain program knows neither bad maps nor compressed sections, long functions and shared symbols."""
        text, modules = self.map_of(*functions, cie=cie), modules or [SMALL] * len(functions)
        if status in (11, 13, 21) or line == "TooLarge Addend":
            self.cases.refused_module(name, status, line, *modules, map_text=text)
        else:
            self.refused_modules(name, status, line, text, *modules)


def frame_cases(cases):
    made = Cases(cases, module, map_of)
    worked_cases(made)
    instruction_cases(made)
    advance_cases(made)
    absent_cases(made)
    function_cases(made)
    target_cases(made)
    code_offsets(made)
    data_offsets(made)
    order_of_refusals(made)
    map_cases(made)
    return cases


# ---- what is written


def worked_cases(made):
    """The small module with a frame, and a module without sections of DWARF."""
    made.carried("a frame of the small module", [framed(FRAME)], frames=ONE)
    made.carried("a frame without sections of DWARF", [framed(FRAME)], frames=ONE, modules=[FRONT])
    made.carried("a frame without instructions", [framed(of([], 0))], frames=[COMMON + described(0x14, 0, ""), *ONE[1:]])
    longest = entry(0x14, "00" * 12 + "ffffffff 00000000")
    made.carried("a frame of the greatest length", [framed(of([], (1 << 32) - 1))], frames=[COMMON + longest, *ONE[1:]])


def instruction_cases(made):
    """Each instruction in a frame, and in a common information entry."""
    each = [[i, instruction] for i, instruction in enumerate(EACH)]
    made.carried("each instruction", [framed(of(each))], frames=[COMMON + described(0x64, 30, EACH_BYTES), *ONE[1:]])
    made.carried("each instruction by a data factor above 0", [framed(of(each))], cie=UP)
    made.carried("each instruction in what frames share", [framed(FRAME)], cie={**USUAL, "ops": EACH})
    lowest = of([[0, ["offset", 3, -(1 << 31)]], [0, ["cfa_offset", -(1 << 31)]], [0, ["cfa", 0, -(1 << 31)]]])
    for factor, front, said in [
        (-1, "7f 00 0000", described(0x2C, 30, "838080808008 138080808008 12008080808008 0000000000")),
        (1, "01 00 0000", described(0x2C, 30, "11038080808078 138080808078 12008080808078 00000000")),
        (-128, "807f 00 00", described(0x24, 30, "8380808008 1380808008 120080808008")),
    ]:
        cie = {"code_factor": 255, "data_factor": factor, "return_register": 0, "ops": []}
        wanted = [entry(0x0C, f"ffffffff 01 00 ff01 {front}") + said, "20 4 section .debug_frame 0", "24 8 func 0 0"]
        made.carried(f"the lowest offsets by a data factor of {factor}", [framed(lowest)], cie=cie, frames=wanted)


def advance_cases(made):
    """Advances by 0, 1, 62, 64, 255, 256, 65535, 65536 and more units of the code factor."""
    places = [0, 1, 63, 127, 382, 638, 66173, 131709, (1 << 32) - 1]
    common = entry(0x0C, "ffffffff 01 00 01 04 ff 000000")
    advances = "0a 410a 7e0a 02400a 02ff0a 0300010a 03ffff0a 04000001000a 0482fdfdff0a 00"
    frame = of([[at, ["remember"]] for at in places], 0)
    wanted = [common + entry(0x34, "00" * 20 + advances), "20 4 section .debug_frame 0", "24 8 func 0 0"]
    made.carried("advances", [framed(frame)], cie=UP, frames=wanted)
    made.carried("advances, big endian", [framed(frame)], cie={**UP, "return_register": 14}, big_endian=True)
    units = [[0, ["cfa_offset", 16]], [4, ["offset", 29, -16]], [4, ["offset", 30, -12]], [256, ["restore", 29]], [1280, ["restore_state"]]]
    common = entry(0x0C, "ffffffff 01 00 04 7c 1e 08 1d 00")
    both = described(0x24, 96, "0e10 41 9d04 9e03 7f dd 030001 0b 000000") + described(0x14, 1, "")
    wanted = [common + both, "20 4 section .debug_frame 0", "24 8 func 0 0", "60 4 section .debug_frame 0", "64 8 func 1 0"]
    made.carried("units of a code factor of 4", [framed(of(units, 96))], [framed(of([], 1), 7)], cie=WORDS, frames=wanted, arch="aarch64")


def absent_cases(made):
    """Without a common information entry, or without a frame, there is no section; then no frame is refused."""
    nothing = {"the common information entry alone": function(), "a frame that is null": framed(None), "a frame of a function without a symbol": framed(FRAME, None)}
    for name, told in nothing.items():
        made.carried(name, [told], frames=[])
    made.carried("a frame alone", [framed(FRAME)], cie=None, frames=[])
    for name, ops in [("falls", FALLS), ("has a broken offset", BROKEN)]:
        made.carried(f"a frame that {name} alone", [framed(of(ops))], cie=None, frames=[])
        made.carried(f"a frame that {name} of a function without a symbol", [framed(of(ops), None)], frames=[])
    made.carried("a module without functions", [], frames=[], modules=[PREAMBLE])
    made.cases.carried("a common information entry that is not there", map_of([framed(FRAME)]), SMALL, frames=[])


def function_cases(made):
    """Frames of several functions and modules, in the order of functions."""
    other = of([[2, ["cfa_register", 6]]], 50)
    for name, functions in [
        ("of two modules", ([framed(FRAME)], [framed(other, 1)])),
        ("of the second of two modules", ([function()], [framed(other, 1)])),
        ("of two modules of three", ([framed(FRAME)], [function(symbol=5)], [framed(other, 1)])),
        ("of two modules, of which the one between has no symbol", ([framed(FRAME)], [framed(FRAME, None)], [framed(other, 1)])),
        ("of symbols that fall", ([framed(FRAME, 9)], [framed(other, 2)])),
    ]:
        made.carried(f"frames {name}", *functions)
    wanted = [COMMON + described(0x1C, 50, "42 0d06 0000000000"), ONE[1], "32 8 func 1 0"]
    made.carried("the frame of a second module", [function()], [framed(other, 1)], frames=wanted)


def target_cases(made):
    """Both orders of bytes and both sizes of addresses."""
    each = of([[4 * i, instruction] for i, instruction in enumerate(EACH)])
    for target in TARGETS:
        name = f"{'big' if target['big_endian'] else 'little'} endian, addresses of {target['pointer_bytes']} bytes"
        made.carried(f"a frame, {name}", [framed(FRAME)], **target)
        made.carried(f"each instruction by a code factor of 4, {name}", [framed(each)], [framed(of([]), 1)], cie={**WORDS, "ops": EACH}, **target)
    common = entry(0x10, "ffffffff 01 00 01 78 10 0c0708 9001 0000")
    wanted = [common + entry(0x10, "00" * 8 + "1e000000 41 0e10 00"), "24 4 section .debug_frame 0", "28 4 func 0 0"]
    made.carried("a frame with addresses of 4 bytes", [framed(FRAME)], frames=wanted, pointer_bytes=4)
    for architecture in ("aarch64", "s390x", "riscv64", "pulley"):
        made.carried(f"a frame, {architecture}", [framed(FRAME)], frames=ONE, arch=architecture)


# ---- what is refused


def code_offsets(made):
    """Code offsets that fall, and such as are no multiples of the code factor."""
    four = {**USUAL, "code_factor": 4}
    refused = lambda name, ops, cie=USUAL: made.refused(f"code offsets: {name}", 17, f"{BAD_CODE} 0", [framed(of(ops))], cie=cie)
    refused("that fall", FALLS)
    refused("that fall at the end", [[0, ["remember"]], [9, ["remember"]], [9, ["remember"]], [8, ["remember"]]])
    refused("the greatest, and then 0", [[(1 << 32) - 1, ["remember"]], [0, ["remember"]]])
    refused("1 by a factor of 4", [[1, ["remember"]]], four)
    refused("6 behind 2 by a factor of 4", [[2, ["remember"]], [6, ["remember"]]], four)
    refused("10 behind 4 by a factor of 4", [[4, ["remember"]], [10, ["remember"]]], four)
    refused("that fall by a factor of 4", [[8, ["remember"]], [4, ["remember"]]], four)
    refused("254 by a factor of 255", [[254, ["remember"]]], {**USUAL, "code_factor": 255})
    even = [[0, ["remember"]], [4, ["remember"]], [4, ["restore_state"]], [(1 << 32) - 4, ["restore_state"]]]
    made.carried("code offsets by a factor of 4", [framed(of(even))], cie=four)
    made.carried("a code offset past the code", [framed(of([[31, ["remember"]]]))])


def data_offsets(made):
    """Factored offsets that are no multiples of the data factor; an offset from 0 on of the canonical frame address is not factored."""
    refused = lambda name, ops, cie=USUAL: made.refused(f"factored offsets: {name}", 18, f"{BAD_DATA} 0", [framed(of(ops))], cie=cie)
    for name, instruction in [
        ("of a register", ["offset", 16, -9]),
        ("above 0 of a register", ["offset", 16, 12]),
        ("of the canonical frame address", ["cfa", 7, -4]),
        ("of the canonical frame address by its register", ["cfa_offset", -1]),
    ]:
        refused(name, [[0, instruction]])
        refused(f"{name}, behind others", [[0, ["cfa_offset", 12]], [1, ["offset", 3, -8]], [2, instruction]])
    refused("by a factor above 0", [[0, ["offset", 16, -6]]], UP)
    refused("the lowest, by the greatest factor", [[0, ["offset", 16, -(1 << 31)]]], {**USUAL, "data_factor": 127, "ops": []})
    whole = [["cfa_offset", 1], ["cfa", 7, 9], ["cfa_offset", 0], ["offset", 16, 0], ["offset", 16, 8], ["cfa", 7, -8], ["cfa_offset", -16]]
    made.carried("offsets that are not factored, or in whole units", [framed(of([[0, instruction] for instruction in whole]))])


def order_of_refusals(made):
    """The first function is refused first, of one its code offsets; frames stand behind all else that is refused."""
    both = of([*BROKEN, *FALLS])
    falls, broken = of(FALLS), of(BROKEN)
    made.refused("code offsets before factored ones", 17, f"{BAD_CODE} 0", [framed(both)])
    for name, first, second, status, line in [
        ("one that falls first", falls, broken, 17, f"{BAD_CODE} 0"),
        ("one with a broken offset first", broken, falls, 18, f"{BAD_DATA} 0"),
        ("one that falls second", FRAME, falls, 17, f"{BAD_CODE} 1"),
        ("one with a broken offset second", FRAME, broken, 18, f"{BAD_DATA} 1"),
        ("one alone", None, both, 17, f"{BAD_CODE} 1"),
    ]:
        made.refused(f"frames of two modules, {name}", status, line, [framed(first)], [framed(second, 1)])
    made.refused("a second frame, behind one of a function without a symbol", 18, f"{BAD_DATA} 1", [framed(falls, None)], [framed(broken, 1)])
    made.refused("of two modules without sections of DWARF", 18, f"{BAD_DATA} 1", [function()], [framed(broken, 1)], modules=[FRONT, FRONT])
    earlier_refusals(made, falls)


def earlier_refusals(made, falls):
    """What is refused before a frame of the first module, also of the second one."""
    cut, compressed = module(info=unit(b"\x05")), SMALL + custom(".zdebug_str", b"")
    no_table = module(info=unit(bytes.fromhex("01 60000000 02 02000000 0B000000 00")))
    two, long = [function(symbol=1)], [function(symbol=1, length=1 << 31)]
    far = {"functions": two, "memory": {"defined": (1 << 32) - 8}}
    for name, status, line, second, last in [
        ("an entry", 10, "Read Entry .debug_info 11", two, cut),
        ("a line table", 10, "Read LineTable .debug_line 96", two, no_table),
        ("a compressed section", 11, f"Unsupported Compressed {len(SMALL)}", two, compressed),
        ("a long function", 20, "TooLarge Addend", long, SMALL),
        ("a memory", 20, "TooLarge Vmctx", far, SMALL),
        ("an address map", 13, "BadAddressMap 1 0 CodeFalls", [function(symbol=1, entries=[[8, 25], [5, 26]])], SMALL),
        ("a shared symbol", 21, "SharedSymbol 0 1", [function()], SMALL),
        ("a module that is cut", 5, "Malformed 9", two, SMALL[:9]),
    ]:
        made.refused(f"before a frame: {name}", status, line, [framed(falls)], second, modules=[SMALL, last])


# ---- what a map says

# Pieces of a map with frames that are changed, so that it has no value.
NO_VALUE = [
    ('"code_factor":1,', ""),
    ('"data_factor":-8,', ""),
    ('"return_register":16,', ""),
    (',"ops":[["cfa",7,8],["offset",16,-8]]', ""),
    ('"len":30,', ""),
    (',"ops":[[1,["cfa_offset",16]]]', ""),
    ('"code_factor":1', '"code_factor":0'),
    ('"code_factor":1', '"code_factor":256'),
    ('"data_factor":-8', '"data_factor":0'),
    ('"data_factor":-8', '"data_factor":-129'),
    ('"data_factor":-8', '"data_factor":-16'),
    ('"data_factor":-8', '"data_factor":128'),
    ('"return_register":16', '"return_register":256'),
    ('["offset",16,-8]', '["offset",16,-9]'),
    ('["offset",16,-8]', '["cfa_offset",-4]'),
    ('["offset",16,-8]', '["offset",65536,-8]'),
    ('["offset",16,-8]', '["offset",16,-2147483649]'),
    ('["offset",16,-8]', '["offset",16]'),
    ('["offset",16,-8]', '["remember",0]'),
    ('["offset",16,-8]', '["advance",1]'),
    ('["offset",16,-8]', '[0,["remember"]]'),
    ('"len":30', '"len":4294967296'),
    ('"len":30', '"len":null'),
    ('[1,["cfa_offset",16]]', '["cfa_offset",16]'),
    ('[1,["cfa_offset",16]]', '[4294967296,["cfa_offset",16]]'),
    ('[1,["cfa_offset",16]]', '[1,["cfa_offset",2147483648]]'),
    ('[1,["cfa_offset",16]]', '[1,["cfa_offset"]]'),
    ('[1,["cfa_offset",16]]', '[1,[]]'),
    ('"frame":{', '"frame":[],"_":{'),
    ('"cie":{', '"cie":[],"_":{'),
]


def map_cases(made):
    """Maps without a value, and such as have another one than they seem to have."""
    text = made.map_of([framed(FRAME)], cie=USUAL)
    for number, (old, new) in enumerate(NO_VALUE):
        assert text.count(old) == 1, old
        made.cases.refused_module(f"map of frames {number} without a value", 6, "malformed map", SMALL, map_text=text.replace(old, new))
    for number, (old, new) in enumerate([('"len":30', '"len":31,"len":30'), ('"cie":{', '"cie":{"unknown":null,'), ('"frame":{', '"frame":null,"frame":{')]):
        assert text.count(old) == 1, old
        made.cases.carried(f"map of frames {number} with a value", text.replace(old, new), SMALL, frames=ONE)
