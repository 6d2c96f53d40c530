"""check_map.py names each fault at its field, and agrees with the program on maps that are changed at random."""

import copy
import json
import os
import random
import subprocess
import tempfile
import unittest
from pathlib import Path

from check_map import faults_of
from small import MAP, MODULE, cases, full_map, small_map
from wasm_bodies import MalformedModule, read_module

PROGRAM = os.environ.get("DWARFCARRY", "")
CHANGES = 400
FUNCTION = ("modules", 0, "functions", 0)
MALFORMED, BAD_MAP, SHARED = 6, 13, 21
NAMED = {14: "BadLabelRange", 16: "UnmappedRegister", 17: "InvalidFrameCodeOffset", 18: "InvalidFrameDataOffset"}
REFUSED_WASM = (5,)

# A field of the full map, what is put there (or REMOVED), and what the fault says: its kind, its field, and a part of its reason.
REMOVED = object()
FAULTS = [
    (("target",), REMOVED, "malformed", "target", "missing"),
    (("target", "arch"), "x86-64", "malformed", "target.arch", "none of"),
    (("target", "big_endian"), 0, "malformed", "target.big_endian", "neither true nor false"),
    (("target", "pointer_bytes"), 8.0, "malformed", "target.pointer_bytes", "none of 4, 8"),
    (("target", "version"), 3, "malformed", "target.version", "none of 4, 5"),
    (("target", "version"), None, "malformed", "target.version", "none of 4, 5"),
    (("target", "version"), 4.0, "malformed", "target.version", "none of 4, 5"),
    (("target", "registers"), [[1, 1], [1, 2]], "malformed", "target.registers[1][0]", "item 0 already"),
    (("target", "cie", "data_factor"), 0, "malformed", "target.cie.data_factor", "0"),
    (("target", "cie", "ops", 1, 2), -12, "malformed", "target.cie.ops[1]", "no multiple"),
    (("names",), ["set"], "malformed", "names", "list of 2"),
    (("names", 0), "a\0b", "malformed", "names[0]", "zero character"),
    (("next_id",), 2**32, "malformed", "next_id", "whole number"),
    (("modules",), [], "malformed", "modules", "files of modules"),
    (("modules", 0, "functions"), [], "malformed", "modules[0].functions", "defines 1"),
    (("modules", 0, "memory"), {}, "malformed", "modules[0].memory", "one of"),
    ((*FUNCTION, "symbol"), -1, "malformed", "modules[0].functions[0].symbol", "nor null"),
    ((*FUNCTION, "start"), 2**32 - 1, "malformed", "modules[0].functions[0].start", "4294967294"),
    ((*FUNCTION, "body_len"), "30", "malformed", "modules[0].functions[0].body_len", "whole number"),
    ((*FUNCTION, "map", 1), [8], "malformed", "modules[0].functions[0].map[1]", "list of 2"),
    ((*FUNCTION, "labels", 0, 1, 0, 2), "stack", "malformed", "modules[0].functions[0].labels[0][1][0][2]", "none of"),
    ((*FUNCTION, "frame", "ops", 0, 1), ["push"], "malformed", "modules[0].functions[0].frame.ops[0][1]", "begin with"),
    ((*FUNCTION, "body_offset"), 1, "bad", "modules[0].functions[0]", "BodyOffset"),
    ((*FUNCTION, "end"), None, "bad", "modules[0].functions[0]", "NoStart"),
    ((*FUNCTION, "start"), 19, "bad", "modules[0].functions[0]", "BeforeCodeSection"),
    ((*FUNCTION, "end"), 21, "bad", "modules[0].functions[0]", "Reversed"),
    ((*FUNCTION, "map", 1, 0), 4, "bad", "modules[0].functions[0]", "CodeFalls"),
    ((*FUNCTION, "map", 3, 0), 31, "bad", "modules[0].functions[0]", "CodePastBody"),
    ((*FUNCTION, "map", 0, 1), 34, "bad", "modules[0].functions[0]", "SourceOutside"),
    ((*FUNCTION, "body_len"), 2**31, "bad", "modules[0].functions[0].body_len", "TooLarge"),
    ((*FUNCTION, "frame", "ops", 2, 0), 0, "bad", "modules[0].functions[0].frame", "InvalidFrameCodeOffset"),
    ((*FUNCTION, "frame", "ops", 1, 1, 2), -17, "bad", "modules[0].functions[0].frame", "InvalidFrameDataOffset"),
    ((*FUNCTION, "labels", 1, 1, 0, 0), 31, "in a label", "modules[0].functions[0].labels[1][1][0]", "BadLabelRange"),
    (("target", "registers"), [], "in a label", "modules[0].functions[0].labels[0][1][0]", "UnmappedRegister"),
    ((*FUNCTION, "start"), 23, "unfit", "modules[0].functions[0]", "from 22 to 33"),
]

# Texts that are no JSON, or no map, for a reason that Python's own reader would let pass or say otherwise.
TEXTS = [
    (b"", "column 1"),
    (b"{\xff}", "byte 1 is not UTF-8"),
    (b"\xef\xbb\xbf{}", "BOM"),
    (b'{"a":NaN}', "NaN"),
    (b'{"a":1e999}', "too large"),
    (b'{"a":"\\ud800"}', "half of a pair"),
    (b'{"a":' + b"[" * 127 + b"]" * 127 + b"}", "deeper than 127"),
    (b"[]", "no object"),
]


# What stands in a field that nobody knows, at the borders of JSON.
VALUES_OF_JSON = ["-0", "0.0", "1e5", "1e400", "1e-999", "18446744073709551616", "1" * 310, "1" * 5000, "01", "-", "+1", ".5", "1.", "0x1"]
VALUES_OF_JSON += ["NaN", "-Infinity", r'"\u0000"', r'"\ud800"', r'"\udc00"', r'"\ud83d\ude00"', r'"\ud83dx"', r'"\x"', '"\t"', '"\x7f"']
VALUES_OF_JSON += ["[1,]", '{"a":1,}', "{1:2}", '{"a":1,"a":2}', "tru", '"\\/"', r'"\\ud800"', "[" * 126 + "]" * 126, "[" * 127 + "]" * 127]
# What stands in front of the small map, and behind it.
AROUND = [("\ufeff", ""), ("\n\t ", " \r\n"), ("\x0c", ""), ("\xa0", ""), ("", "\0"), ("", ",")]
# Fields in front of the map's own, which stand again behind them, and fields that come last.
TWICE = [('"names":5,', ""), ('"next_id":1e999,"next_id":2,', ""), ('"next_id":1.5,"next_id":2,', ""), ("", ',"names":5')]


def changed(path: tuple, value: object) -> dict:
    told = full_map()
    inner = told
    for key in path[:-1]:
        inner = inner[key]
    if value is REMOVED:
        del inner[path[-1]]
    else:
        inner[path[-1]] = value
    return told


def faults(text: bytes, modules: list[bytes] | None = None):
    return faults_of(text, [read_module(str(i), data) for i, data in enumerate(modules or [MODULE.read_bytes()])])


class NamedFaults(unittest.TestCase):
    def test_good_maps_have_none(self):
        for told in (small_map(), full_map()):
            self.assertEqual(faults(json.dumps(told).encode()), [])

    def test_each_fault_is_named_at_its_field(self):
        for path, value, kind, where, why in FAULTS:
            with self.subTest(where=where, why=why):
                found = faults(json.dumps(changed(path, value)).encode())
                self.assertTrue(any(it.kind == kind and it.where == where and why in it.why for it in found), found)

    def test_texts_that_are_no_map(self):
        for text, why in TEXTS:
            with self.subTest(text=text[:20]):
                (found,) = faults(text)[:1]
                self.assertEqual(found.kind, "malformed")
                self.assertIn(why, found.why)

    def test_shared_symbol(self):
        told, data = small_map(), bytearray(MODULE.read_bytes())
        told["modules"] *= 2
        (found,) = faults(json.dumps(told).encode(), [bytes(data)] * 2)
        self.assertIn("SharedSymbol", found.why)

    def test_offsets_from_the_contents_of_the_code_section(self):
        told = small_map()
        told["modules"][0]["functions"][0] |= {"start": 2, "end": 13, "map": []}
        self.assertIn("20 is to be added", [it.why for it in faults(json.dumps(told).encode()) if it.kind == "unfit"][0])


# ---- changes at random

VALUES = [None, True, 0, 1, 7, 21, 22, 33, 34, 255, 256, -1, -8, -129, 2**31, 2**32 - 2, 2**32 - 1, 2**32, 2**64, 0.5, "", "reg", "cfa"]
VALUES += ["\0", [], {}, [0, 0], [[0, 0]], {"defined": 1}, {"imported": [1, 2]}, ["remember"], ["cfa", 7, -3]]
SIGNS = '{}[],:"0123456789.-eE\\ntu '


def places(value: object) -> list[tuple]:
    """Each list or object inside a value, with each key of it."""
    keys = range(len(value)) if isinstance(value, list) else list(value) if isinstance(value, dict) else []
    return [(value, key) for key in keys] + [place for key in keys for place in places(value[key])]


def change_value(chance: random.Random, told: object) -> str:
    """A map in which one value is another, is gone, or stands twice."""
    holder, key = chance.choice(places(told))
    kind = chance.randrange(4)
    if kind == 0:
        del holder[key]
    elif kind == 1 and isinstance(holder, list):
        holder.insert(key, copy.deepcopy(holder[key]))
    elif kind == 2 and type(holder[key]) is int:
        holder[key] += chance.choice((-1, 1, -1000, 1000))
    else:
        holder[key] = copy.deepcopy(chance.choice(VALUES))
    return json.dumps(told)


def change_text(chance: random.Random, text: str) -> str:
    at = chance.randrange(len(text) + 1)
    return text[:at] + chance.choice(["", chance.choice(SIGNS)]) + text[at + chance.randrange(2) :]


def change(chance: random.Random, text: str) -> str:
    if chance.random() < 0.3:
        return change_text(chance, text)
    try:
        return change_value(chance, json.loads(text))
    except (ValueError, IndexError):
        return change_text(chance, text)


def disagreement(found: list, status: int) -> str | None:
    """Why the faults of a map are not those of a run that ended with a status."""
    reasons = " ".join(fault.why for fault in found)
    kinds = {fault.kind for fault in found}
    shared, bad_map = "SharedSymbol" in reasons, "BadAddressMap" in reasons
    if status in REFUSED_WASM:
        return None
    if ("malformed" in kinds) != (status == MALFORMED):
        return "malformed or not"
    if shared != (status == SHARED) or not shared and bad_map != (status == BAD_MAP):
        return "a shared symbol or a bad address map or not"
    if status == 0 and "bad" in kinds:
        return "bad, and carried"
    if status in NAMED and NAMED[status] not in reasons:
        return "refused for what is not named"
    return None


@unittest.skipUnless(PROGRAM, "no built dwarfcarry, so check_map.py is compared with none")
class LikeTheProgram(unittest.TestCase):
    def setUp(self):
        self.folder = tempfile.TemporaryDirectory()
        self.addCleanup(self.folder.cleanup)

    def status(self, text: bytes, modules: list[bytes]) -> int:
        paths = [Path(self.folder.name, name) for name in ("map.json", *map(str, range(len(modules))))]
        for path, contents in zip(paths, [text, *modules]):
            path.write_bytes(contents)
        return subprocess.run([PROGRAM, *map(str, paths)], capture_output=True).returncode

    def compare(self, text: str, modules: list[bytes]):
        data = text.encode(errors="surrogatepass")
        try:
            found = faults(data, modules)
        except MalformedModule:
            return
        status = self.status(data, modules)
        self.assertIsNone(disagreement(found, status), f"status {status}, {found[:2]}, of {text[:2000]}")

    def test_borders_of_json(self):
        text = MAP.read_text().strip()
        fields = [(f'"x":{value},', "") for value in VALUES_OF_JSON] + TWICE
        texts = [f"{{{first}{text[1:-1]}{last}}}" for first, last in fields] + [front + text + back for front, back in AROUND]
        for it in texts:
            with self.subTest(text=it[:40]):
                self.compare(it, [MODULE.read_bytes()])

    def test_changed_maps(self):
        chance = random.Random(1)
        known = [(json.dumps(full_map()), [MODULE.read_bytes()])] * 400 + cases()
        for _ in range(CHANGES):
            text, modules = chance.choice(known)
            for _ in range(chance.choice((1, 1, 2))):
                text = change(chance, text)
            with self.subTest():
                self.compare(text, modules)
