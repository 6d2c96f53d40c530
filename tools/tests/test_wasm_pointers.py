"""wasm_pointers.py shows pointers and what they point to, in a process in which nothing is called, and in a core file."""

import shutil
import subprocess
import tempfile
import unittest
from pathlib import Path

TESTS = Path(__file__).resolve().parent
SCRIPT = TESTS.parent / "wasm_pointers.py"
TOOLS = ("g++", "gdb")
STOP = "break pointers.cc:35"
MISSING = [tool for tool in TOOLS if shutil.which(tool) is None]

# What is given to gdb, and what it prints behind the `=`; an error where that begins with `error`.
SHOWN = [
    ("first", "(node *) 0x8"),
    ("none", "(node *) null"),
    ("reference", "(node &) 0x10"),
    ("text", '(char *) 0x20 "hi"'),
    ("untyped", "(void *) 0x8"),
    ("*first", "{value = 1, next = (node *) 0x10}"),
    ("first->next->value", "4"),
    ("first[1].value", "4"),
    ("(first + 1)->value", "4"),
    ("none == 0", "true"),
    ("first == 0", "false"),
    ("first != none", "true"),
    ("$at(reference)", "{value = 4, next = (node *) null}"),
    ("$at(first).next", "(node *) 0x10"),
    ("$native(first)->value", "1"),
    ("sizeof(first[1].next)", "4"),
    ("$at(none)", "error: a null pointer"),
    ("$at(untyped)", "error: a pointer to no type; cast $native(..) to one"),
    ("$at(nodes)", "error: this is no pointer of WebAssembly"),
]
IN_PLACE = [("inner", "(node *) 0x10"), ("inner->value", "4")]  # in the inlined frame
ASKING = """
import gdb
for text in {texts!r}:
    try:
        print("said", gdb.parse_and_eval(text).format_string())
    except gdb.error as error:
        print("said error:", str(error).removeprefix("Error occurred in Python: "))
"""


@unittest.skipIf(MISSING, f"not installed: {', '.join(MISSING)}")
class Pointers(unittest.TestCase):
    @classmethod
    def setUpClass(cls):
        cls.kept = tempfile.TemporaryDirectory()
        cls.addClassCleanup(cls.kept.cleanup)
        cls.folder = Path(cls.kept.name)
        words = ["g++", "-g", "-O0", "-o", "pointers", str(TESTS / "pointers.cc")]
        subprocess.run(words, cwd=cls.folder, check=True)

    def said(self, shown: list, *commands: str) -> list[str]:
        asking = self.folder / "asking.py"
        asking.write_text(ASKING.format(texts=[text for text, _ in shown]))
        words = ["gdb", "-nx", "-batch", "-ex", "set startup-with-shell off", "-ex", "set may-call-functions off"]
        words += ["-ex", f"source {SCRIPT}", *(word for command in (*commands, f"source {asking}") for word in ("-ex", command))]
        ended = subprocess.run([*words, "pointers"], cwd=self.folder, capture_output=True, text=True)
        return [line.removeprefix("said ") for line in ended.stdout.splitlines() if line.startswith("said ")]

    def check(self, shown: list, *commands: str):
        self.assertEqual(self.said(shown, *commands), [answer for _, answer in shown])

    def test_in_an_inlined_frame_and_its_function(self):
        self.check(IN_PLACE, STOP, "run")
        self.check(SHOWN, STOP, "run", "up")

    def test_in_a_core_file(self):
        self.said([], STOP, "run", f"gcore {self.folder / 'core'}")
        if not (self.folder / "core").exists():
            self.skipTest("gdb writes no core file here")
        self.check(SHOWN, f"core-file {self.folder / 'core'}", "up")
