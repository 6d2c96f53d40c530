"""Entries of an output before their places are known: what refers to one names its key."""

from dataclasses import dataclass

DATA1, DATA2, DATA4, UDATA = 0x0B, 0x05, 0x06, 0x0F


@dataclass
class Made:
    """An entry at a depth, of a tag and with attributes by name. A value is a kind and what is of that kind."""

    depth: int
    tag: int
    attributes: dict
    key: tuple | None = None  # the number of a module, and the offset of an entry of the input or what it is beside those


def text(value):
    return ("text", value.encode())


def constant(form, value):
    return ("constant", form, value)


def in_unit(key):
    """A reference to an entry of the same unit."""
    return ("unit", key)


def in_section(key):
    """A reference to an entry of any unit."""
    return ("info", key)
