"""The small module and its map, on which the tests are made."""

import json
from pathlib import Path

CRATES = Path(__file__).resolve().parents[2] / "crates"
MAP = CRATES / "dwarfcarry" / "data" / "g.json"
MODULE = CRATES / "dwarfcarry" / "data" / "g.wasm"
PRINTED = CRATES / "dwarfcarry" / "stdout"
CASES = CRATES / "dwc_cases" / "data"


def small_map() -> dict:
    return json.loads(MAP.read_text())


def full_map() -> dict:
    """The small map with every field."""
    told = small_map()
    ops = [["cfa", 7, 8], ["offset", 16, -8]]
    told["target"] |= {"registers": [[0, 0], [1, 2]], "big_endian": False, "pointer_bytes": 8, "version": 5}
    told["target"]["cie"] = {"code_factor": 1, "data_factor": -8, "return_register": 16, "ops": ops}
    told["next_id"] = 3
    told["modules"][0]["memory"] = {"defined": 8}
    function = told["modules"][0]["functions"][0]
    function["labels"] = [[0, [[0, 20, "reg", 1]]], [4294967294, [[0, 30, "cfa", -16]]]]
    frame_ops = [[1, ["cfa_offset", 16]], [1, ["offset", 6, -16]], [4, ["cfa_register", 6]], [9, ["remember"]], [9, ["restore_state"]]]
    function["frame"] = {"len": 30, "ops": frame_ops}
    return told


def cases() -> list[tuple[str, list[bytes]]]:
    """The maps and modules of the repository's cases."""
    found = []
    for path in sorted(CASES.glob("*.txt")):
        for case in path.read_text(errors="replace").split("\nrun ")[1:]:
            parts = [line.split(" ", 2) for line in case.split("\n")]
            maps = [part[2] for part in parts if part[:2] == ["text", "map.json"] and len(part) == 3]
            modules = [bytes.fromhex(part[2]) for part in parts if part[0] == "hex" and len(part) == 3 and part[1].endswith(".wasm")]
            if len(maps) == 1 and modules:
                found.append((maps[0], modules))
    return found
