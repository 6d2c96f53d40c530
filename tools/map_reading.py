"""Reads a map file as dwarfcarry does, and says of each field that has no value why it has none."""

import json
import math
import re
from collections.abc import Callable, Iterator
from dataclasses import dataclass

MALFORMED = "malformed"
MAX_BYTES = 2**28
MAX_LEVELS = 127
ARCHITECTURES = ("x86_64", "aarch64", "s390x", "riscv64", "pulley")
TEXT = re.compile(r'"(?:[^"\\]|\\.)*"', re.DOTALL)
LONE_SURROGATE = re.compile("[\ud800-\udfff]")


@dataclass
class Fault:
    kind: str
    where: str
    why: str


class NotJson(Exception):
    """Why some bytes are no JSON."""


# What a value has to be: it gives, of a value and its place, the place and the reason of each fault.
Kind = Callable[[object, str], Iterator[tuple[str, str]]]


# ---- JSON


def whole(text: str) -> int | float:
    """An integer; one that does not fit 64 bits is a float, and so is `-0`."""
    if len(text) < 21 and text != "-0" and -(2**63) <= int(text) < 2**64:
        return int(text)
    return fraction(text)


def fraction(text: str) -> float:
    number = float(text)
    if math.isinf(number):
        raise NotJson(f"the number {text[:20]} is too large")
    return number


def no_constant(text: str) -> float:
    raise NotJson(f"{text} is no value of JSON")


def levels(text: str) -> int:
    """How deep lists and objects nest, texts apart."""
    depth = deepest = 0
    for bracket in re.findall(r"[\[\]{}]", TEXT.sub("", text)):
        depth += 1 if bracket in "[{" else -1
        deepest = max(deepest, depth)
    return deepest


def parse(data: bytes) -> object:
    if len(data) > MAX_BYTES:
        raise NotJson(f"the file has more than {MAX_BYTES} bytes")
    try:
        text = data.decode("utf-8")
        if levels(text) > MAX_LEVELS:
            raise NotJson(f"lists and objects nest deeper than {MAX_LEVELS}")
        value = json.loads(text, parse_int=whole, parse_float=fraction, parse_constant=no_constant)
    except UnicodeDecodeError as error:
        raise NotJson(f"byte {error.start} is not UTF-8") from None
    except json.JSONDecodeError as error:
        raise NotJson(f"line {error.lineno}, column {error.colno}: {error.msg}") from None
    if "\\ud" in text.lower() and any(LONE_SURROGATE.search(json.loads(it)) for it in TEXT.findall(text)):
        raise NotJson("half of a pair of \\u escapes")
    return value


# ---- kinds


def shown(value: object) -> str:
    text = json.dumps(value)
    return text if len(text) <= 40 else text[:37] + ".."


def integer(low: int, high: int) -> Kind:
    def check(value, where):
        if type(value) is not int or not low <= value <= high:
            yield where, f"{shown(value)} is no whole number from {low} to {high}"

    return check


def nullable(kind: Kind) -> Kind:
    def check(value, where):
        if value is not None:
            for place, why in kind(value, where):
                yield place, why + (", nor null" if place == where else "")

    return check


def truth(value: object, where: str):
    if type(value) is not bool:
        yield where, f"{shown(value)} is neither true nor false"


def text(value: object, where: str):
    if type(value) is not str:
        yield where, f"{shown(value)} is no text"
    elif "\0" in value:
        yield where, "the text holds a zero character"


def one_of(*choices: object) -> Kind:
    def check(value, where):
        if not any(type(value) is type(it) and value == it for it in choices):
            yield where, f"{shown(value)} is none of {', '.join(map(shown, choices))}"

    return check


def list_of(kind: Kind) -> Kind:
    def check(value, where):
        if type(value) is not list:
            yield where, f"{shown(value)} is no list"
            return
        for i, item in enumerate(value):
            yield from kind(item, f"{where}[{i}]")

    return check


def parts(*kinds: Kind) -> Kind:
    """A list with as many items, each of its kind."""

    def check(value, where):
        if type(value) is not list or len(value) != len(kinds):
            yield where, f"{shown(value)} is no list of {len(kinds)}"
            return
        for i, (kind, item) in enumerate(zip(kinds, value)):
            yield from kind(item, f"{where}[{i}]")

    return check


def table_of(kind: Kind) -> Kind:
    """A list of pairs of a number and an item, whose numbers are distinct."""

    def check(value, where):
        fault = None
        for fault in list_of(parts(u32, kind))(value, where):
            yield fault
        seen: dict[int, int] = {}
        for i, row in enumerate([] if fault else value):
            if row[0] in seen:
                yield f"{where}[{i}][0]", f"{row[0]} stands in item {seen[row[0]]} already"
            seen.setdefault(row[0], i)

    return check


def fields(required: dict[str, Kind], optional: dict[str, Kind]) -> Kind:
    """An object; fields of other names are passed over."""

    def check(value, where):
        if type(value) is not dict:
            yield where, f"{shown(value)} is no object"
            return
        for name, kind in (required | optional).items():
            place = f"{where}.{name}" if where else name
            if name in value:
                yield from kind(value[name], place)
            elif name in required:
                yield place, "the field is missing"

    return check


# ---- the kinds of a map

u8, u16, u32 = integer(0, 2**8 - 1), integer(0, 2**16 - 1), integer(0, 2**32 - 1)
i8, i32, i64 = integer(-(2**7), 2**7 - 1), integer(-(2**31), 2**31 - 1), integer(-(2**63), 2**63 - 1)
place = nullable(integer(0, 2**32 - 2))  # in the file
OPERANDS = {
    "cfa": (u16, i32),
    "cfa_register": (u16,),
    "cfa_offset": (i32,),
    "restore": (u16,),
    "undefined": (u16,),
    "same_value": (u16,),
    "offset": (u16, i32),
    "remember": (),
    "restore_state": (),
}


def instruction(value: object, where: str):
    if type(value) is not list or not value or type(value[0]) is not str or value[0] not in OPERANDS:
        yield where, f"{shown(value)} does not begin with one of {', '.join(OPERANDS)}"
    elif len(value) != 1 + len(OPERANDS[value[0]]):
        yield where, f'"{value[0]}" has {len(value) - 1} operands and not {len(OPERANDS[value[0]])}'
    else:
        yield from parts(text, *OPERANDS[value[0]])(value, where)


def label_range(value: object, where: str):
    """Where a value lies: from a native offset up to another, at a place."""
    if type(value) is list and len(value) == 4:
        number = u32 if value[2] == "reg" else i64
        yield from parts(u32, u32, one_of("reg", "cfa"), number)(value, where)
    else:
        yield where, f"{shown(value)} is no list of 4"


def factored_offset(it: list) -> int:
    """The offset of an instruction that is written in units of the data factor; 0 for others."""
    return it[-1] if it[0] == "offset" or it[0] in ("cfa", "cfa_offset") and it[-1] < 0 else 0


common_entry_fields = fields({"code_factor": u8, "data_factor": i8, "return_register": u8, "ops": list_of(instruction)}, {})


def common_entry(value: object, where: str):
    """The common information entry, which has to be one that can be written."""
    fault = None
    for fault in common_entry_fields(value, where):
        yield fault
    if fault:
        return
    for name in ("code_factor", "data_factor"):
        if value[name] == 0:
            yield f"{where}.{name}", "the factor is 0"
    for i, it in enumerate(value["ops"]):
        if value["data_factor"] and factored_offset(it) % value["data_factor"]:
            yield f"{where}.ops[{i}]", f"the offset {it[-1]} is no multiple of the data factor {value['data_factor']}"


def memory(value: object, where: str):
    """Where the linear memory is found from the context."""
    if type(value) is dict and ("defined" in value) == ("imported" in value):
        yield where, 'an object with one of "defined" and "imported" is wanted'
    else:
        yield from fields({}, {"defined": u32, "imported": parts(u32, u32)})(value, where)


target = fields(
    {"arch": one_of(*ARCHITECTURES)},
    {"big_endian": truth, "pointer_bytes": one_of(4, 8), "version": one_of(4, 5), "debugger": truth, "registers": table_of(u16), "cie": nullable(common_entry)},
)
frame = fields({"len": u32, "ops": list_of(parts(u32, instruction))}, {})
function = fields(
    {"symbol": nullable(u32), "start": place, "end": place, "body_len": u32, "map": list_of(parts(u32, place))},
    {"body_offset": u32, "labels": table_of(list_of(label_range)), "frame": nullable(frame)},
)
module = fields({"functions": list_of(function)}, {"path": text, "memory": nullable(memory)})
whole_map = fields({"target": target, "names": parts(text, text), "modules": list_of(module)}, {"next_id": u32})


def count_faults(modules: list, defined: list[int]):
    if len(modules) != len(defined):
        yield "modules", f"there are {len(modules)}, and {len(defined)} files of modules"
    for i, (told, count) in enumerate(zip(modules, defined)):
        if len(told["functions"]) != count:
            yield f"modules[{i}].functions", f"there are {len(told['functions'])}, and the file defines {count} functions"


def read_map(data: bytes, defined: list[int]) -> tuple[object, list[Fault]]:
    """The value of a map for modules that define so many functions, or what makes it malformed."""
    try:
        value = parse(data)
    except (NotJson, RecursionError) as error:
        return None, [Fault(MALFORMED, "the file", str(error))]
    faults = list(whole_map(value, "")) or list(count_faults(value["modules"], defined))
    return value, [Fault(MALFORMED, where or "the file", why) for where, why in faults]
