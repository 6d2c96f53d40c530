"""Small modules that ask for much: the kinds of make_modules.py that stand on the small module.

- tables_in_turn: N units that name two abbreviation tables of N declarations in turn.
- ends_of_a_table: N units, each of which names the end of one table of N declarations from another declaration on.
- one_list: N subprograms that name one range list of N pairs, which shows no code.
- long_type: N functions without a symbol, of one type of N parameters.
- nested_label: N attributes that ask for one label, whose N ranges lie one in another.
- tails: N pointers that go by N constants into one chain of N constants.
- tails_of_two: N pointers that go by N constants of N constants into one chain of N constants.
- tails_into_a_ring: N pointers that go by N constants into one ring of N pointers, at one place.
- tails_around_a_ring: N pointers that go by N constants of N constants into one ring of N pointers, at N places.
- tails_around_two_rings: N references that go by N constants into two rings of N / 2 references, at N places.
- texts_of_one_hash: N names that the hash of the table of texts takes for one.
- texts_of_close_hash: N names elsewhere, at offsets whose hashes stand close together in a table of N.
- shapes_of_close_hash: N entries of N shapes, whose hashes stand close together in a table of N.
- texts_of_one_slot: N names elsewhere, at offsets that share 64 slots of the table of known texts.
"""

import itertools

from make_modules import section, u32, uleb
from small_module import PREAMBLE, function, line_table, module, unit

ROOT_ENTRY = b"\x01" + u32(0)
SUBPROGRAM_ENTRY = b"\x02" + u32(2) + u32(11)
FIRST = 11 + len(ROOT_ENTRY) + len(SUBPROGRAM_ENTRY)  # where the first entry of the subprogram stands
EXPRESSION_OF_A_LOCAL = bytes.fromhex("04 ED0003 9F")
SEED, MULTIPLIER = 0x243F6A8885A308D3, 0x9E3779B97F4A7C15  # of the toolchain's hash
HASH_OF_ONE = MULTIPLIER.to_bytes(8, "little")  # behind any eight bytes, these eight lead to one hash


def declaration(code, tag, has_children, *attributes):
    names = b"".join(uleb(name) + uleb(form) for name, form in attributes)
    return uleb(code) + uleb(tag) + bytes([has_children]) + names + b"\0\0"


ROOT = declaration(1, 0x11, True, (0x10, 0x17))
SUBPROGRAM = declaration(2, 0x2E, True, (0x11, 0x01), (0x12, 0x06))


def with_entries(declarations, entries, functions=None, others=()):
    """A module of one unit: a root, a subprogram, and entries with the ends of both."""
    table = ROOT + SUBPROGRAM + b"".join(declarations) + b"\0"
    return module(table, unit(ROOT_ENTRY + SUBPROGRAM_ENTRY + entries), line_table(), others), functions or [function()]


def units_at(table, offsets):
    """A module of units with a subprogram each, which name tables at offsets."""
    units = b"".join(unit(ROOT_ENTRY + SUBPROGRAM_ENTRY + b"\0\0", table=offset) for offset in offsets)
    return module(table, units), [function()]


def tables_in_turn_module(count):
    table = ROOT + SUBPROGRAM + b"".join(declaration(3 + i, 0x34, False) for i in range(count)) + b"\0"
    return units_at(table + table, [len(table) * (i % 2) for i in range(count)])


def ends_of_a_table_module(count):
    table, offsets = b"", []
    for i in range(count):
        offsets.append(len(table))
        table += declaration(3 + i, 0x34, False)
    return units_at(table + ROOT + SUBPROGRAM + b"\0", offsets)


def one_list_module(count):
    listed = declaration(3, 0x2E, False, (0x55, 0x17))
    pairs = (u32(0) + u32(1)) * count + u32(0) * 2
    return with_entries([listed], b"\0" + (b"\x03" + u32(0)) * count + b"\0", others=[(".debug_ranges", pairs)])


def text_of(number):
    """Eight bytes, none of them zero, that tell a number."""
    digits = []
    for _ in range(8):
        digits.append(1 + number % 255)
        number //= 255
    return bytes(digits)


def texts_of_one_hash_module(count):
    named = declaration(3, 0x34, False, (0x03, 0x08))
    return with_entries([named], b"".join(b"\x03" + text_of(i) + HASH_OF_ONE + b"\0" for i in range(count)) + b"\0\0")


def state_behind(pieces, state=SEED):
    """The state of the toolchain's hash behind pieces of up to eight bytes."""
    for piece in pieces:
        ends = (piece[0], piece[len(piece) // 2], piece[-1]) if len(piece) < 4 else piece[:4] + piece[-4:]
        product = (state ^ int.from_bytes(bytes(ends), "little")) * (MULTIPLIER ^ 2 * len(piece))
        state = product % 2**64 ^ product >> 64
    return state


def close_ones(keys, count):
    """So many of some keys, which come with their states: those whose place is in the first sixteenth of a table's groups."""
    groups = 1
    while 9 * groups < count:
        groups *= 2
    close = (key for key, state in keys if 16 * ((state ^ state >> 32) % groups) < groups)
    return [key for key, _ in zip(close, range(count))]


def texts_at(offsets):
    """A module of names elsewhere, at offsets, which are of a few texts."""
    named = declaration(3, 0x34, False, (0x03, 0x0E))
    texts = b"counter\0" * (max(offsets) // 8 + 1)
    return with_entries([named], b"".join(b"\x03" + u32(offset) for offset in offsets) + b"\0\0", others=[(".debug_str", texts)])


def texts_of_close_hash_module(count):
    offsets = ((offset, state_behind([offset.to_bytes(8, "little")])) for offset in itertools.count())
    return texts_at(close_ones(offsets, count))


def texts_of_one_slot_module(count):
    return texts_at([8192 * (i // 64) + i % 64 for i in range(count)])


def of_one_byte(name):
    """What is hashed of an attribute of one byte."""
    return [name.to_bytes(2, "little"), b"\x0b\0"]


def pairs_of_attributes():
    """Pairs of names, each with the state of a variable without children that has attributes of these names."""
    for first in range(0x2100, 0x3000):
        front = state_behind([b"\x34\0", b"\0", (2).to_bytes(8, "little"), *of_one_byte(first)])
        for second in range(0x3000, 0x3F00):
            yield (first, second), state_behind(of_one_byte(second), front)


def shapes_of_close_hash_module(count):
    shapes = close_ones(pairs_of_attributes(), count)
    declarations = [declaration(3 + i, 0x34, False, *((name, 0x0B) for name in names)) for i, names in enumerate(shapes)]
    return with_entries(declarations, b"".join(uleb(3 + i) + b"\1\2" for i in range(count)) + b"\0\0")


def links(code, target, step, count):
    """Entries of a code that refer to a target and to what stands behind it, so many bytes each."""
    return b"".join(bytes([code]) + u32(target + step * i) for i in range(count))


def with_types(count, types, pointers):
    """A module of N parameters that have N pointers as their types, and of the types that stand in front of the pointers."""
    tags = [(3, 0x0F), (5, 0x26), (6, 0x05), (7, 0x10)]
    typed = [declaration(code, tag, False, (0x49, 0x13)) for code, tag in tags]
    parameters = links(6, FIRST + len(types) + 5 * count + 1, 5, count)
    return with_entries([*typed, declaration(4, 0x24, False, (0x03, 0x08))], parameters + b"\0" + types + pointers + b"\0")


def tails_module(count, levels=1):
    chain = FIRST + 5 * count + 1
    types = links(5, chain + 5, 5, count) + b"\x04int\0" + links(5, chain, 0, count)
    for _ in range(levels - 1):
        types += links(5, chain + len(types) - 5 * count, 5, count)
    return with_types(count, types, links(3, chain + len(types) - 5 * count, 5, count))


def tails_into_rings_module(count, code=3, rings=1, step=0, levels=1):
    """Tails of so many constants each into rings of types of a code, the first at one place and each other so many bytes behind the last."""
    begin, length = FIRST + 5 * count + 1, count // rings
    types = b""
    for ring in range(begin, begin + 5 * length * rings, 5 * length):
        types += links(code, ring + 5, 5, length - 1) + links(code, ring, 0, 1)
    types += links(5, begin, step, count)
    for _ in range(levels - 1):
        types += links(5, begin + len(types) - 5 * count, 5, count)
    return with_types(count, types, links(code, begin + len(types) - 5 * count, 5, count))


def nested_label_module(count):
    sized = declaration(4, 0x34, False, (0x0B, 0x18))
    ranges = [[i, 4 * count - i, "cfa", i % 40] for i in range(count)]
    told = {**function(length=4 * count + 40), "labels": [[3, ranges]]}
    return with_entries([sized], (b"\x04" + EXPRESSION_OF_A_LOCAL) * count + b"\0\0", [told])


def long_type_module(count):
    body = b"\0\x0B"
    kind = b"\x60" + uleb(count) + b"\x7F" * count + b"\0"
    code = uleb(count) + (uleb(len(body)) + body) * count
    front = PREAMBLE + section(1, uleb(1) + kind) + section(3, uleb(count) + b"\0" * count) + section(10, code)
    first = len(front) - len(code) + len(uleb(count)) + 1
    begins = [first + i * (len(body) + 1) for i in range(count)]
    return front, [function(None, at, at + len(body), 1, []) for at in begins]


KINDS = {
    "tables_in_turn": lambda n: [tables_in_turn_module(n)],
    "ends_of_a_table": lambda n: [ends_of_a_table_module(n)],
    "one_list": lambda n: [one_list_module(n)],
    "texts_of_one_hash": lambda n: [texts_of_one_hash_module(n)],
    "tails": lambda n: [tails_module(n)],
    "tails_of_two": lambda n: [tails_module(n, 2)],
    "texts_of_close_hash": lambda n: [texts_of_close_hash_module(n)],
    "texts_of_one_slot": lambda n: [texts_of_one_slot_module(n)],
    "shapes_of_close_hash": lambda n: [shapes_of_close_hash_module(n)],
    "tails_into_a_ring": lambda n: [tails_into_rings_module(n)],
    "tails_around_a_ring": lambda n: [tails_into_rings_module(n, step=5, levels=2)],
    "tails_around_two_rings": lambda n: [tails_into_rings_module(n, code=7, rings=2, step=5)],
    "nested_label": lambda n: [nested_label_module(n)],
    "long_type": lambda n: [long_type_module(n)],
}

SIZES = {
    "tables_in_turn": [20000, 40000],
    "ends_of_a_table": [20000, 40000],
    "one_list": [100000, 200000],
    "texts_of_one_hash": [10000, 20000],
    "tails": [20000, 40000],
    "tails_of_two": [20000, 40000],
    "texts_of_close_hash": [32000, 64000],
    "texts_of_one_slot": [32000, 64000],
    "shapes_of_close_hash": [32000, 64000],
    "tails_into_a_ring": [20000, 40000],
    "tails_around_a_ring": [20000, 40000],
    "tails_around_two_rings": [20000, 40000],
    "nested_label": [10000, 20000],
    "long_type": [20000, 40000],
}
