"""The small module, of which the cases change a part each: one function, one unit and one line table; and its map."""

import json

from make_modules import custom, u32

PREAMBLE = b"\0asm\x01\0\0\0"
FRONT = PREAMBLE + bytes.fromhex("010401600000 03020100 0A0D010B00010101010101010101 0B")
ROOT = bytes.fromhex("01 11 01 1017 0000")
SUBPROGRAM = bytes.fromhex("02 2E 00 1101 1206 0000")
ABBREVIATIONS = ROOT + SUBPROGRAM + b"\0"
ENTRIES = bytes.fromhex("01 00000000 02 02000000 0B000000 00")
PROGRAM = bytes.fromhex("0005020200000001 02030301 01 020503 0101 0203 000101")
PARAMETERS = bytes.fromhex("01 01 01 FB 0E 0D 000101010100000001000001")
ONE_FILE = bytes.fromhex("00 612E6300000000 00")


def sized(contents):
    return u32(len(contents)) + contents


def unit(entries=ENTRIES, version=4, size=4, table=0, kind=1):
    """A unit of a version from 2 to 5, of an address size and with the offset of its abbreviation table."""
    version_bytes = version.to_bytes(2, "little")
    if version == 5:
        return sized(version_bytes + bytes([kind, size]) + u32(table) + entries)
    return sized(version_bytes + u32(table) + bytes([size]) + entries)


def line_table(program=PROGRAM, version=4, names=ONE_FILE, sizes=(4, 0), parameters=PARAMETERS):
    """A line table of a version from 2 to 5; the versions 2 and 3 have no count of operations."""
    fields = (parameters if version >= 4 else parameters[:1] + parameters[2:]) + names
    front = version.to_bytes(2, "little") + (bytes(sizes) if version == 5 else b"")
    return sized(front + sized(fields) + program)


def module(abbreviations=ABBREVIATIONS, info=None, line=None, others=(), front=FRONT):
    """A module with these sections; of two of one name the later counts."""
    info = unit() if info is None else info
    line = line_table() if line is None else line
    sections = [(".debug_abbrev", abbreviations), (".debug_info", info), (".debug_line", line), *others]
    return front + b"".join(custom(name, contents) for name, contents in sections)


SMALL = module()
SOURCES = [[5, 25], [8, None], [15, 30], [23, None]]


def function(symbol=0, start=22, end=33, length=30, entries=SOURCES):
    return {"symbol": symbol, "start": start, "end": end, "body_len": length, "map": entries}


def map_of(*modules, **target):
    value = {"target": {"arch": "x86_64", **target}, "names": ["set_mem", "resolve_mem"]}
    value["modules"] = [module if isinstance(module, dict) else {"functions": module} for module in modules]
    return json.dumps(value, separators=(",", ":"))


MAP = map_of([function()])
