"""How an output lists ranges and places: in version 4 each list stands for itself, in version 5 those of a unit stand behind one header.
(DWARF 4, sections 2.6.2 and 2.17.3; DWARF 5, sections 7.28 and 7.29; of several spellings of one list this project's own choice.)"""

from plain_entries import Refused, uleb

START_LENGTH_RANGE, START_LENGTH_PLACE, END_OF_LIST = 0x07, 0x08, 0x00  # kinds of entries of version 5
NO_SEGMENTS, NO_OFFSETS = 0, 0


class Lists:
    """The lists of one kind of an output: the section that they stand in, and the kind of their entries."""

    def __init__(self, writer, section, kind):
        self.writer, self.section, self.kind = writer, section, kind
        self.header = None  # where that of the unit stands that is written, if it has lists yet

    def add(self, info, pieces):
        """A list, which a field names. A piece is a function, a start, an end and what stands behind them."""
        body, is_new = self.section.body, self.writer.version == 5
        if is_new and self.header is None:
            self.begin()
        self.writer.offset(info, self.section, len(body))
        for function, start, end, behind in pieces:
            if is_new:
                body.append(self.kind)
                self.writer.address(self.section, function, start)
                body += uleb(end - start)
            else:
                self.writer.address(self.section, function, start)
                self.writer.address(self.section, function, end)
            body += behind
        body += bytes([END_OF_LIST]) if is_new else bytes(2 * self.writer.size)

    def begin(self):
        """The header of a unit's lists, whose length is not known yet."""
        self.header = len(self.section.body)
        number = self.writer.number
        self.section.body += bytes(4) + number(5, 2) + bytes([self.writer.size, NO_SEGMENTS]) + number(NO_OFFSETS, 4)

    def end_unit(self):
        if self.header is not None:
            at = self.header
            self.section.body[at : at + 4] = self.writer.number(len(self.section.body) - at - 4, 4)
            self.header = None


def sized_expression(writer, data):
    """An expression of a list, with its length in front: of two bytes in version 4, and of any length in version 5."""
    if writer.version == 5:
        return uleb(len(data)) + data
    if len(data) >= 1 << 16:
        raise Refused("TooLarge Expression")
    return writer.number(len(data), 2) + data
