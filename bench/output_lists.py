"""The lists of ranges and of places of an output, of version 4 or 5, and as outside tools print them.
(DWARF 4, sections 2.6.2 and 2.17.3; DWARF 5, sections 7.28 and 7.29.)"""

import re

from plain_entries import Reader

RANGES, PLACES = (".debug_ranges", ".debug_rnglists"), (".debug_loc", ".debug_loclists")  # their sections in version 4, and in version 5
HEADER_SIZE = 12  # of the lists of a unit of version 5, of which the length does not count itself
KINDS = {".debug_rnglists": 0x07, ".debug_loclists": 0x08}  # the entry that tells a start and a length, of which lists are made


def is_new(sections):
    """Whether lists are those of version 5."""
    return any(name in sections for name in KINDS)


def list_at(sections, names, at, size, order):
    """The entries of a list, each a begin, an end and, of places, an expression; and where the list ends."""
    name = names[is_new(sections)]
    reader, found = Reader(sections[name], at), []
    number = lambda count: int.from_bytes(reader.take(count), order)
    if name in KINDS:
        while (kind := number(1)) != 0:
            assert kind == KINDS[name], kind
            begin, length = number(size), reader.uleb()
            found.append((begin, begin + length, *([reader.take(reader.uleb())] if names is PLACES else [])))
    else:
        while any(pair := (number(size), number(size))):
            found.append((*pair, *([reader.take(number(2))] if names is PLACES else [])))
    return found, reader.at


def all_lists(sections, names, size, order):
    """The offset of each list of a section, with its entries."""
    name = names[is_new(sections)]
    body, at, lists = sections.get(name, b""), 0, []
    while at < len(body):
        end = len(body)
        if name in KINDS:
            end = at + 4 + int.from_bytes(body[at : at + 4], order)
            assert int.from_bytes(body[at + 4 : at + 6], order) == 5 and body[at + 6 : at + HEADER_SIZE] == bytes([size, 0, 0, 0, 0, 0])
            at += HEADER_SIZE
        while at < end:
            found, behind = list_at(sections, names, at, size, order)
            lists.append((at, found))
            at = behind
        assert at == end
    return lists


# ---- as tools print them

HEXADECIMAL = set("0123456789abcdef")


def ranges_of_readelf(lines):
    """The range lists that readelf prints of either version, and llvm-dwarfdump of version 4: their offsets, and their pairs. An offset stands at
    each entry, in version 5 the entry's own."""
    lists, is_open = [], False
    for line in lines:
        words = line.split()
        if len(words) > 1 and all(len(word) >= 8 and set(word) <= HEXADECIMAL for word in words[:2]):
            if not is_open:
                lists.append((int(words[0], 16), []))
            lists[-1][1].append((int(words[1], 16), int(words[2], 16)))
            is_open = True
        elif words[1:] == ["<End", "of", "list>"]:
            if not is_open:
                lists.append((int(words[0], 16), []))
            is_open = False
    return lists


def pairs_of_dwarfdump(lines):
    """The pairs that llvm-dwarfdump prints of lists of version 5, of which it tells no offsets."""
    found = [re.match(r"\[0x([0-9a-f]+), 0x([0-9a-f]+)\)", line) for line in lines]
    return [(int(pair[1], 16), int(pair[2], 16)) for pair in found if pair]


def counts_of_dwarfdump(lines):
    """The begins, the ends and the counts of operations that llvm-dwarfdump prints of places."""
    found = [re.match(r" +[(\[]0x([0-9a-f]+), 0x([0-9a-f]+)\): (.*)", line) for line in lines]
    return [(int(entry[1], 16), int(entry[2], 16), entry[3].count("DW_OP_")) for entry in found if entry]


def counts_of_readelf(lines):
    """The same of readelf."""
    found = [re.match(r" +[0-9a-f]{8} ([0-9a-f]{8,}) ([0-9a-f]{8,}) \((.*)\)", line) for line in lines]
    return [(int(entry[1], 16), int(entry[2], 16), entry[3].count("DW_OP_")) for entry in found if entry]


def places_of_eu_readelf(lines):
    """The location lists that eu-readelf prints: the offset of each, with the begins, the ends and the places of the operations of its entries.
    Of version 5 it tells the last address of an entry and not its end, and of an empty list nothing."""
    lists, entries = [], []
    for line in lines:
        if begun := re.match(r" \[ *([0-9a-f]+)\] (?:range|<|empty list)", line) or re.match(r"  Offset: ([0-9a-f]+), Index", line):
            entries = []
            lists.append((int(begun[1], 16), entries))
        if bounds := re.search(r"range ([0-9a-f]+), ([0-9a-f]+)$", line):
            entries.append((int(bounds[1], 16), int(bounds[2], 16), []))
        elif begin := re.match(r"      (?:0x)?([0-9a-f]+)\.\.$", line):
            entries.append([int(begin[1], 16), None, []])
        elif last := re.match(r"      (?:0x)?([0-9a-f]+)$", line):
            entries[-1] = (entries[-1][0], int(last[1], 16) + 1, entries[-1][2])
        elif place := re.match(r" {8,}\[ *([0-9]+)\]", line):
            entries[-1][2].append(int(place[1]))
    return lists
