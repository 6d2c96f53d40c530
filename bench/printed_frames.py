"""The call frames that readelf prints, and those that a map tells, in one form: of each entry its fields, and behind them its instructions, in a
frame with the native offset from which each holds."""

import re

NAMES = {"def_cfa": "cfa", "def_cfa_register": "cfa_register", "def_cfa_offset": "cfa_offset", "remember_state": "remember"}
ENTRY = r"[0-9a-f]{8} [0-9a-f]{8,} [0-9a-f]{8} (CIE|FDE)(?:.* pc=([0-9a-f]+)\.\.([0-9a-f]+))?$"


def read_frames(lines):
    """The entries that `readelf --debug-dump=frames` prints."""
    entries, place = [], 0
    for line in lines:
        if found := re.match(ENTRY, line):
            place = 0
            entries.append(["CIE"] if found[1] == "CIE" else ["FDE", int(found[3], 16) - int(found[2], 16)])
        elif found := re.match(r"  (?:Code alignment factor|Data alignment factor|Return address column): (-?\d+)$", line):
            entries[-1].append(int(found[1]))
        elif found := re.match(r"  DW_CFA_advance_loc\d?: \d+ to ([0-9a-f]+)$", line):
            place = int(found[1], 16)
        elif (found := re.match(r"  DW_CFA_(\w+)(.*)$", line)) and found[1] != "nop":
            name = re.sub("(_extended)?(_sf)?$", "", found[1])
            operands = re.sub(r"\(.*?\)", "", found[2]).replace("cfa", "")
            said = [NAMES.get(name, name), *map(int, re.findall(r"-?\d+", operands))]
            entries[-1].append(said if entries[-1][0] == "CIE" else [place, said])
    return entries


def told_frames(told):
    """The entries that a map tells."""
    cie = told["target"].get("cie")
    functions = [f for module in told["modules"] for f in module["functions"]]
    frames = [f["frame"] for f in functions if f["symbol"] is not None and f.get("frame")]
    if not cie or not frames:
        return []
    common = ["CIE", cie["code_factor"], cie["data_factor"], cie["return_register"], *cie["ops"]]
    return [common, *(["FDE", frame["len"], *frame["ops"]] for frame in frames)]
