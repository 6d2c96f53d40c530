#!/usr/bin/env python3
"""Runs the tests of the tools: check.py [DWARFCARRY].

DWARFCARRY is the built program, with which check_map.py is compared on maps that are changed at random; it is
crates/dwarfcarry/out/dwarfcarry where nothing is given. What cannot be run for want of a program is named as skipped.
"""

import os
import sys
import unittest
from pathlib import Path

TOOLS = Path(__file__).resolve().parent
BUILT = TOOLS.parent / "crates" / "dwarfcarry" / "out" / "dwarfcarry"


def main() -> int:
    program = Path(sys.argv[1]).resolve() if sys.argv[1:] else BUILT
    if sys.argv[1:] and not program.exists():
        print(f"check.py: there is no {program}", file=sys.stderr)
        return 2
    os.environ["DWARFCARRY"] = str(program) if program.exists() else ""
    sys.path[:0] = [str(TOOLS), str(TOOLS / "tests")]
    found = unittest.defaultTestLoader.discover(str(TOOLS / "tests"), "test_*.py")
    return 0 if unittest.TextTestRunner(verbosity=2).run(found).wasSuccessful() else 1


if __name__ == "__main__":
    sys.exit(main())
