"""Where the code of entries is: the intervals that they have in the input, and the native code that was made of these, found by a
scan over all runs of a function. (DWARF 4 and 5, section 2.17; runs and how they translate are this project's own.)"""

from dataclasses import dataclass
from functools import cache
from itertools import groupby

from plain_entries import AT_HIGH_PC, AT_LOW_PC, AT_RANGES, TAG_COMPILE_UNIT, TAG_SUBPROGRAM, address_of, is_range_list, range_entries

ADDRESSES = 1 << 64  # how many numbers an address can be
UDATA = 0x0F


# ---- what the input says


class TooLong(ValueError):
    """A start plus a length that is no address."""


def interval_of_length(start, length):
    if start + length >= ADDRESSES:
        raise TooLong
    return start, start + length


def first_base(sections, unit):
    """What lists count from until they select another base: the begin of the unit's root."""
    return address_of(sections, unit, unit.root.value(AT_LOW_PC)) or 0


def interval_of(base, kind, first, second):
    """The interval that an entry of a list says. Offsets and the pairs of an old list count from a base, modulo 2^64."""
    if kind == "length":
        return interval_of_length(first, second)
    return (first, second) if kind == "ends" else ((base + first) % ADDRESSES, (base + second) % ADDRESSES)


def intervals_of(sections, unit, value):
    """The intervals of a range list, without the empty ones."""
    base, intervals = first_base(sections, unit), []
    for kind, *operands in range_entries(sections, unit, value):
        if kind == "base":
            base = operands[0]
        else:
            intervals.append(interval_of(base, kind, *operands))
    return [(begin, end) for begin, end in intervals if begin < end]


def extent(sections, unit, entry):
    """The intervals that an entry has; and the address that it has in place of them, which has no length."""
    if is_range_list(entry.value(AT_RANGES)):
        return intervals_of(sections, unit, entry.value(AT_RANGES)), None
    low_pc, high_pc = address_of(sections, unit, entry.value(AT_LOW_PC)), entry.value(AT_HIGH_PC)
    if low_pc is None:
        return [], None
    if high_pc and high_pc[0] == "constant":
        begin, end = interval_of_length(low_pc, high_pc[2])
    else:
        begin, end = low_pc, address_of(sections, unit, high_pc)
    return ([], low_pc) if end is None else ([(begin, end)] if begin < end else [], None)


def function_begun(sections, unit, entry, function_at):
    """The function with a symbol that a subprogram begins in: at its `low_pc`, or without one with its list."""
    if entry.tag != TAG_SUBPROGRAM:
        return None
    begin = address_of(sections, unit, entry.value(AT_LOW_PC))
    if begin is None:
        begin = next((begin for begin, _ in extent(sections, unit, entry)[0]), None)
    return None if begin is None else function_at(begin)


# ---- runs


@dataclass
class Position:
    """Native code from a start to an end whose source is a wasm offset."""

    wasm: int
    start: int
    end: int


@dataclass
class Run:
    """Native code in which sources do not fall: where it begins and ends in the wasm code and in the native code."""

    wasm_start: int
    wasm_end: int
    start: int
    end: int
    positions: list

    def start_of(self, address):
        """Where the run begins to have the wasm code from an address on."""
        at = [p.start for p in self.positions if p.wasm == address]
        below = [p.end for p in self.positions if p.wasm < address]
        return at[0] if at else below[-1] if below else self.start

    def end_of(self, address):
        """Where it ceases to have the wasm code before an address."""
        at = [p.end for p in self.positions if p.wasm == address]
        above = [p.start for p in self.positions if p.wasm > address]
        return at[-1] if at else above[0] if above else self.end


def joined(positions):
    """Positions, of which those that follow one another at one native offset are one."""
    for start, group in groupby(positions, key=lambda p: p.start):
        same = list(group)
        yield Position(same[0].wasm, start, next((p.end for p in same if p.end > start), start))


@cache
def runs_of(function):
    """The runs of a function, in native order: a new one begins where the sources fall."""
    ends = [native for native, _ in function.entries[1:]] + [function.length]
    pieces = [[]]
    for (native, wasm), end in zip(function.entries, ends):
        if wasm is not None:
            if pieces[-1] and wasm < pieces[-1][-1].wasm:
                pieces.append([])
            pieces[-1].append(Position(wasm, native, end))
    starts = [(function.start, 0)] + [(piece[0].wasm, piece[0].start) for piece in pieces[1:]]
    ends = [(piece[-1].wasm, start) for piece, (_, start) in zip(pieces, starts[1:])] + [(function.end, function.length)]
    return [Run(wasm, wasm_end, start, end, list(joined(piece))) for piece, (wasm, start), (wasm_end, end) in zip(pieces, starts, ends)]


# ---- sources that are shown


@cache
def shown_pieces(function):
    """The native code of a function as pieces of one shown source each: from its start on the last recorded source at or below, and before
    any the first; of a function without a recorded source its start."""
    sources = function.sources or [(0, function.start)]
    first = sources[0][1]
    pieces = [[0, first]]
    for native, wasm in sources:
        pieces.append([native, wasm])
    ends = [native for native, _ in pieces[1:]] + [function.length]
    return [(native, min(end, function.length), wasm) for (native, wasm), end in zip(pieces, ends) if native < min(end, function.length)]


def exact_ranges(function, begin, end):
    """The native code at which a source of an interval is shown, whose end is none of it, as ranges that do not touch."""
    ranges = []
    for start, stop, wasm in shown_pieces(function):
        if begin <= wasm < end:
            if ranges and ranges[-1][1] == start:
                start = ranges.pop()[0]
            ranges.append((start, stop))
    return ranges


# ---- translation


def native_offset(function, address):
    """The native offset of an address that is in a function."""
    if address >= function.end:
        return function.length
    return next(run.start_of(address) for run in runs_of(function) if run.wasm_start <= address <= run.wasm_end)


def native_ranges(function, begin, end):
    """The native code of an interval of the wasm code in a function, in order; for a debugger exact at each byte."""
    if function.for_debugger:
        return exact_ranges(function, begin, end)
    runs = [run for run in runs_of(function) if run.wasm_start < end and begin <= run.wasm_end]
    ranges = [(run.start_of(begin), run.end_of(end)) for run in runs if begin < end]
    return [(start, stop) for start, stop in ranges if start < stop]


def translated_address(address, function_at):
    """The value that an address becomes: an address of a function, or 0."""
    function = function_at(address)
    return ("address", function, native_offset(function, address) if function else 0)


def translated_intervals(intervals, function_at):
    """What intervals become, one behind another: each a function, in which it begins, a start and an end."""
    found = [(function_at(begin), begin, end) for begin, end in intervals]
    return [(function, *pair) for function, begin, end in found if function for pair in native_ranges(function, begin, end)]


# ---- what the output says


def bounds(function, start, end):
    return {AT_LOW_PC: ("address", function, start), AT_HIGH_PC: ("constant", UDATA, end - start)}


def list_base(entry_tag, machine):
    """For a debugger what the list of a root counts from."""
    return {AT_LOW_PC: ("address", None, 0)} if machine.for_debugger and entry_tag == TAG_COMPILE_UNIT else {}


def range_attributes(sections, unit, entry, machine):
    """The attributes that say where the code of an entry is. A subprogram that begins in a function has that function whole."""
    function_at = machine.function_at
    function = function_begun(sections, unit, entry, function_at)
    if function:
        return bounds(function, 0, function.length)
    intervals, position = extent(sections, unit, entry)
    if position is not None:
        is_unit = entry.tag == TAG_COMPILE_UNIT
        return {AT_LOW_PC: ("address", None, 0) if is_unit else translated_address(position, function_at)}
    native = translated_intervals(intervals, function_at)
    if len(native) == 1 and entry.tag != TAG_COMPILE_UNIT:
        return bounds(*native[0])
    return list_base(entry.tag, machine) | {AT_RANGES: ("ranges", native)} if intervals else {}
