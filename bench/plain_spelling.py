"""How the units of an output are spelled. (DWARF 4 and 5, section 7.5.)"""

from plain_entries import sleb, uleb

UT_COMPILE = 1
FIXED = {0x0B: 1, 0x05: 2, 0x06: 4, 0x07: 8}


def form_of(value):
    forms = {"address": 0x01, "flag": 0x0C, "block": 0x09, "text": 0x0E, "unit": 0x13, "info": 0x10}
    forms |= {"lines": 0x17, "ranges": 0x17, "locations": 0x17, "expression": 0x18}
    return value[1] if value[0] == "constant" else forms[value[0]]


def number_bytes(writer, form, bits):
    if form in FIXED:
        return writer.number(bits, FIXED[form])
    return uleb(bits) if form == 0x0F else sleb(bits - (1 << 64) if bits >= 1 << 63 else bits)


def size_of(writer, value):
    kind = value[0]
    if kind == "constant":
        return len(number_bytes(writer, value[1], value[2]))
    if kind in ("block", "expression"):
        return len(uleb(len(value[1]))) + len(value[1])
    return {"address": writer.size, "flag": 1}.get(kind, 4)


def shapes_of(tree):
    """For each entry its tag, whether it has children, and its names and forms."""
    below = [made.depth for made in tree[1:]] + [0]
    return [(made.tag, made.depth < depth, tuple((name, form_of(value)) for name, value in made.attributes.items())) for made, depth in zip(tree, below)]


def places_in(writer, tree, start):
    """Where each entry stands, and where the unit ends."""
    shapes = shapes_of(tree)
    codes = {shape: i + 1 for i, shape in enumerate(dict.fromkeys(shapes))}
    at, places = start + (12 if writer.version == 5 else 11), []
    for i, (made, shape) in enumerate(zip(tree, shapes)):
        places.append(at)
        at += len(uleb(codes[shape])) + sum(size_of(writer, value) for value in made.attributes.values()) + ends_behind(tree, i)
    return codes, shapes, places, at


def ends_behind(tree, i):
    """How many lists of children end behind an entry: those that the next entry does not stand in."""
    following = tree[i + 1].depth if i + 1 < len(tree) else 0
    return max(0, tree[i].depth - following)


def write_units(writer, units):
    """The units of an output, one behind another: the tree of each, and where its line table stands."""
    laid, keys, at = [], {}, 0
    for tree, _ in units:
        laid.append((at, *places_in(writer, tree, at)))
        keys |= {made.key: place for made, place in zip(tree, laid[-1][3]) if made.key}
        at = laid[-1][-1]
    for (tree, lines_at), (start, codes, shapes, _, end) in zip(units, laid):
        table_at = len(writer.abbrev.body)
        write_table(writer, codes)
        write_header(writer, end - start - 4, table_at)
        for i, (made, shape) in enumerate(zip(tree, shapes)):
            writer.info.body += uleb(codes[shape])
            for value in made.attributes.values():
                write_value(writer, value, start, lines_at, keys)
            writer.info.body += bytes(ends_behind(tree, i))
        writer.end_unit()


def write_header(writer, length, table_at):
    """The header of a compile unit. In version 5 its type stands there too, and the size of an address in front of the table. (Section 7.5.1.1.)"""
    writer.info.body += writer.number(length, 4) + writer.number(writer.version, 2)
    writer.info.body += bytes([UT_COMPILE, writer.size]) if writer.version == 5 else b""
    writer.offset(writer.info, writer.abbrev, table_at)
    writer.info.body += bytes([writer.size]) if writer.version == 4 else b""


def write_table(writer, codes):
    for (tag, children, forms), code in codes.items():
        writer.abbrev.body += uleb(code) + uleb(tag) + bytes([children])
        writer.abbrev.body += b"".join(uleb(name) + uleb(form) for name, form in forms) + b"\0\0"
    writer.abbrev.body.append(0)


def write_value(writer, value, start, lines_at, keys):
    """A value of a unit that starts at a place; `keys` are where the entries of all units stand."""
    kind, info = value[0], writer.info
    if kind == "constant":
        info.body += number_bytes(writer, value[1], value[2])
    elif kind == "flag":
        info.body.append(value[1])
    elif kind in ("block", "expression"):
        info.body += uleb(len(value[1])) + value[1]
    elif kind == "address":
        writer.address(info, *value[1:])
    elif kind == "ranges":
        writer.range_list(info, value[1])
    elif kind == "locations":
        writer.location_list(info, value[1])
    elif kind == "text":
        writer.text(info, value[1])
    elif kind == "lines":
        writer.offset(info, writer.line, lines_at)
    elif kind == "unit":
        info.body += writer.number(keys[value[1]] - start, 4)
    else:
        writer.offset(info, info, keys[value[1]])
