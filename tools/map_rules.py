"""The rules that a map has to keep beside its form, and whether it fits its modules."""

from collections.abc import Iterator

from map_reading import Fault, factored_offset
from wasm_bodies import Module

BAD, LABEL, UNFIT = "bad", "in a label", "unfit"
MAX_LENGTH = 2**31 - 1


def functions_of(value: dict) -> Iterator[tuple[int, str, dict]]:
    """Each function with the number of its module and its place in the map."""
    for i, module in enumerate(value["modules"]):
        for j, function in enumerate(module["functions"]):
            yield i, f"modules[{i}].functions[{j}]", function


# ---- rules


def entry_fault(function: dict) -> tuple[str, str] | None:
    """The first rule that an entry of an address map breaks, and how."""
    start, end, before = function["start"], function["end"], 0
    for i, (native, source) in enumerate(function["map"]):
        if native < before:
            return "CodeFalls", f"map[{i}] has the native offset {native}, behind {before}"
        if native > function["body_len"]:
            return "CodePastBody", f"map[{i}] has the native offset {native}, past the {function['body_len']} bytes of the code"
        if source is not None and not start <= source <= end:
            return "SourceOutside", f"map[{i}] has the source {source}, outside {start} to {end}"
        before = native
    return None


def map_fault(function: dict, code_offset: int) -> tuple[str, str] | None:
    """The first rule that an address map breaks, by its name, and how."""
    start, end = function["start"], function["end"]
    if function.get("body_offset", 0) != 0:
        return "BodyOffset", f"body_offset is {function['body_offset']}, not 0"
    if start is None or end is None:
        return "NoStart", "start or end is null"
    if start < code_offset:
        return "BeforeCodeSection", f"start is {start}, before the contents of the code section at {code_offset}"
    if end < start:
        return "Reversed", f"end is {end}, before start {start}"
    return entry_fault(function)


def address_map_faults(value: dict, modules: list[Module]) -> Iterator[Fault]:
    for i, where, function in functions_of(value):
        fault = map_fault(function, modules[i].code_offset)
        if fault:
            yield Fault(BAD, where, f"{fault[0]} (BadAddressMap): {fault[1]}")


def shared_symbols(value: dict) -> Iterator[Fault]:
    holders: dict[int, str] = {}
    for _, where, function in functions_of(value):
        symbol = function["symbol"]
        if symbol in holders:
            yield Fault(BAD, f"{where}.symbol", f"SharedSymbol: {symbol} is that of {holders[symbol]} too")
        elif symbol is not None:
            holders[symbol] = where


def frame_fault(frame: dict, cie: dict) -> str | None:
    """Why a frame cannot be written with a common information entry."""
    before = 0
    for i, (native, it) in enumerate(frame["ops"]):
        if native < before or native % cie["code_factor"]:
            return f"InvalidFrameCodeOffset: ops[{i}] has the native offset {native}, which falls or is no multiple of {cie['code_factor']}"
        before = native
    for i, (_, it) in enumerate(frame["ops"]):
        if factored_offset(it) % cie["data_factor"]:
            return f"InvalidFrameDataOffset: ops[{i}] has the offset {it[-1]}, which is no multiple of {cie['data_factor']}"
    return None


def frame_faults(value: dict) -> Iterator[Fault]:
    cie = value["target"].get("cie")
    for _, where, function in functions_of(value):
        if function["symbol"] is None:
            continue
        if function["body_len"] > MAX_LENGTH:
            yield Fault(BAD, f"{where}.body_len", f"TooLarge Addend: {function['body_len']} is more than {MAX_LENGTH}")
        fault = frame_fault(function["frame"], cie) if cie and function.get("frame") else None
        if fault:
            yield Fault(BAD, f"{where}.frame", fault)


def map_faults(value: dict, modules: list[Module]) -> list[Fault]:
    return [*shared_symbols(value), *address_map_faults(value, modules), *frame_faults(value)]


def label_faults(value: dict) -> Iterator[Fault]:
    """What is refused only where an expression needs the label."""
    registers = {register for register, _ in value["target"].get("registers", [])}
    for _, where, function in functions_of(value):
        for i, (label, ranges) in enumerate(function.get("labels", [])):
            for j, (start, end, kind, number) in enumerate(ranges):
                place = f"{where}.labels[{i}][1][{j}]"
                if start > end:
                    yield Fault(LABEL, place, f"BadLabelRange: label {label} has a range from {start} down to {end}")
                if kind == "reg" and number not in registers:
                    yield Fault(LABEL, place, f"UnmappedRegister: the target's registers have no number {number}")


# ---- whether the map is that of the modules


def unfit_functions(value: dict, modules: list[Module]) -> Iterator[Fault]:
    for i, module in enumerate(modules):
        told = [(function["start"], function["end"]) for function in value["modules"][i]["functions"]]
        if len(module.bodies) != len(told):
            yield Fault(UNFIT, f"modules[{i}]", f"the code section of {module.path} has {len(module.bodies)} bodies")
            continue
        yield from unfit_bounds(f"modules[{i}]", told, module)


def unfit_bounds(where: str, told: list, module: Module) -> Iterator[Fault]:
    from_contents = [(start - module.code_offset, end - module.code_offset) for start, end in module.bodies]
    if told and told == from_contents:
        yield Fault(UNFIT, where, f"offsets count from the code section's contents; {module.code_offset} is to be added to each")
        return
    for j, (bounds, body) in enumerate(zip(told, module.bodies)):
        if bounds != body:
            why = f"told from {bounds[0]} to {bounds[1]}, its body in {module.path} is from {body[0]} to {body[1]}"
            yield Fault(UNFIT, f"{where}.functions[{j}]", why)
