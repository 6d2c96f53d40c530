"""The carried units of a printed text as lists of words, and such lists as they are wanted, in which entries are named by keys.

An entry is its depth, its tag, and of each attribute that says nothing of code the name and the value: `03:NAME` a text, `0b:4` a number,
`34:true` a flag, `02[..]` an expression or a list of places, `49>1.5` a reference to the fifth entry of unit 1, `49>>1.5` the same by
its place in the section, and `49>>0:NAME` one to an entry of an own unit, by its name."""

import re

from check_cases import entry_code, module_units, sections_of, value_said
from plain_entries import AT_HIGH_PC, AT_LOW_PC, AT_NAME, AT_RANGES, AT_STMT_LIST, read_units, target_of, text_of

OF_CODE = (AT_LOW_PC, AT_HIGH_PC, AT_RANGES, AT_STMT_LIST)
OWN_UNIT = b"WasmtimeModuleSyntheticUnit"


def is_own(sections, unit):
    name = unit.root.value(AT_NAME)
    return name is not None and text_of(sections, unit, name) == OWN_UNIT


def tree_of(text):
    """The entries of all units that carry one of the input, with the lowest byte of a number first."""
    sections = {name: bytes(body) for name, body, _ in sections_of(text)}
    units = module_units(sections)
    places = {entry.offset: (u, p) for u, unit in enumerate(units) for p, entry in enumerate(unit.entries)}
    told = lambda place: told_place(sections, units, *places[place])
    return [words_of(sections, unit, entry, told) for unit in units if not is_own(sections, unit) for entry in unit.entries]


def last_of(text):
    """The entries of the last unit, each with what it says of its code."""
    sections = {name: bytes(body) for name, body, _ in sections_of(text)}
    units = read_units(sections)
    places = {entry.offset: (u, p) for u, unit in enumerate(units) for p, entry in enumerate(unit.entries)}
    told = lambda place: told_place(sections, units, *places[place])
    lines = [(words_of(sections, units[-1], entry, told), entry_code(sections, units[-1], entry)) for entry in units[-1].entries]
    return [" ".join(words + ([code] if code else [])) for words, code in lines]


def told_place(sections, units, u, p):
    unit = units[u]
    return f"{u}:{text_of(sections, unit, unit.entries[p].value(AT_NAME)).decode()}" if is_own(sections, unit) else f"{u}.{p}"


def words_of(sections, unit, entry, told):
    words = [str(entry.depth), f"{entry.tag:02x}"]
    for name, value in entry.attributes:
        if name not in OF_CODE:
            words.append(f"{name:02x}{word_of(sections, unit, value, told)}")
    return words


def word_of(sections, unit, value, told):
    kind = value[0]
    if kind in ("unit", "info"):
        return (">" if kind == "unit" else ">>") + told(target_of(unit, value))
    if kind == "flag":
        return f":{str(value[1]).lower()}"
    if kind == "constant":
        return f":{value[2]}"
    if kind in ("expression", "locations"):
        return f"[{value_said(sections, unit, value).strip('[]')}]"
    name = text_of(sections, unit, value)
    return f":{name.decode(errors='backslashreplace')}" if name is not None else f" {value}"


def wrappers_of(text):
    """What stands between the brackets of the names of wrappers, in order, behind `Ptr` or `Ref`."""
    names = [word for line in tree_of(text) if line[1] == "13" for word in line if word.startswith("03:WebAssembly")]
    return [re.fullmatch("03:WebAssembly(Ptr|Ref)Wrapper<(.*)>", name, re.DOTALL).expand(r"\1 \2") for name in names]


# ---- what is wanted


def wanted_tree(units):
    """The wanted entries of all units, own ones among them as None. A line is words, or a text of words; `=KEY` names its entry, and
    references say keys, of their own unit before those of others."""
    lines = [[words_in(line) if isinstance(line, str) else list(line) for line in unit or []] for unit in units]
    keys = [{word[1:]: f"{u}.{p}" for p, line in enumerate(unit) for word in line if word[0] == "="} for u, unit in enumerate(lines)]
    every = {key: place for unit in keys for key, place in unit.items()}
    return [[resolved(word, {**every, **keys[u]}) for word in line if word[0] != "="] for u, unit in enumerate(lines) for line in unit]


def words_in(line):
    """The words of a line; spaces may stand between brackets."""
    return re.findall(r"\S*\[[^]]*\]|\S+", line)


def resolved(word, keys):
    found = re.fullmatch("([0-9a-f]{2,4}>>?)(.*)", word)
    return found[1] + keys.get(found[2], found[2]) if found else word


def wrapped(depth, key, name, target=None, inner=(), kind="Ptr", resolve="resolve_mem", own=0):
    """The lines of a wrapper: of a pointer or a reference to what has a name and a key."""
    to = [f"49>{target}"] if target else []
    lines = [
        [f"{depth}", "13", f"={key}", f"03:WebAssembly{kind}Wrapper<{name}>", "0b:4"],
        [f"{depth + 1}", "2f", "03:T", *to],
        [f"{depth + 1}", "0d", "03:__ptr", f"49>>{own}:WebAssemblyPtr", "38:0"],
    ]
    for function, given in (("ptr", "pointer"), ("operator*", "reference"), ("operator->", "pointer")):
        lines += [[f"{depth + 1}", "2e", f"6e:{resolve}", f"03:{function}", f"49>{key}.{given}"], [f"{depth + 2}", "05", f"49>{key}.itself", "34:true"]]
    lines += inner
    return lines + [[f"{depth}", "0f", f"={key}.itself", f"49>{key}"], [f"{depth}", "10", f"={key}.reference", *to], [f"{depth}", "0f", f"={key}.pointer", *to]]


def context(depth, where="", own=0):
    """The line of what says where the context is."""
    return [f"{depth}", "34", "03:__vmctx", f"49>>{own}:WasmtimeVMContext*", f"02[{where}]"]
