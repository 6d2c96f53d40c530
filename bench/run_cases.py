#!/usr/bin/env python3
"""Runs the cases of crates/dwc_cases on a built program, one without proofs too, in some seconds.

    run_cases.py [PROGRAM] [--version N] [--debugger]

PROGRAM is crates/dwarfcarry/out/dwarfcarry unless it is given. Each case that is a run must end as the file `stdout` there says; listings are
passed over. With --version each map asks for that version of DWARF first: a run that ends well must print what plain_run.py makes of its files,
and another must end as it does without; but no expression is too long for a list of version 5. So too with --debugger, where each map asks for output
for a debugger; a value may then be refused, or not, as the bytes of its scope are others.
"""

import argparse
import json
import os
import re
import subprocess
import sys
import tempfile
from concurrent.futures import ProcessPoolExecutor
from dataclasses import dataclass, field, replace
from functools import partial

import plain_run
from run import DEFAULT

CRATE = os.path.join(os.path.dirname(os.path.abspath(__file__)), "..", "crates", "dwc_cases")
TOO_LONG_FOR_A_LIST = (20, "dwarfcarry: TooLarge Expression\n")
REFUSED_OF_VALUES = (14, 15, 16)  # labels, memories and registers


@dataclass
class Run:
    name: str
    words: list = field(default_factory=list)
    files: dict = field(default_factory=dict)  # of two with one path the first counts
    status: int = 0
    line: str = ""
    text: str = ""


def lines_of(name):
    with open(os.path.join(CRATE, name), encoding="utf-8") as file:
        return file.read().split("\n")


def all_runs():
    """The cases that are runs, with what they must print."""
    wanted = iter(re.split("(?m)^case ", "\n".join(lines_of("stdout")))[1:])
    for name in lines_of("args")[:-1]:
        run = None
        for line in lines_of(os.path.join("data", name)):
            kind, _, rest = line.partition(" ")
            if kind in ("run", "units", "lines"):
                if run:
                    yield run
                run = wanted_run(rest, next(wanted)) if kind == "run" else next(wanted) and None
            elif run:
                take_part(run, kind, rest)
        if run:
            yield run


def wanted_run(name, wanted):
    """A run without its words and files, by what must be printed of it."""
    first, status, *rest = wanted.split("\n")
    assert first == name, (first, name)
    line = rest.pop(0) + "\n" if rest[0].startswith("dwarfcarry: ") else ""
    return Run(name, status=int(status.split()[1]), line=line, text="\n".join(rest[:-1]))


def take_part(run, kind, rest):
    if kind == "word":
        run.words.append(rest)
    elif kind:
        path, _, contents = rest.partition(" ")
        run.files.setdefault(path, contents.encode() if kind == "text" else bytes.fromhex(contents))


def asking(run, field, value):
    """The same run where the map's target has a field; one that does not tell its target, or tells the field, stays as it is."""
    told = run.files.get(run.words[0], b"") if run.words else b""
    if told.count(b'"target":{') != 1 or b'"%s"' % field in told:
        return run
    told = told.replace(b'"target":{', b'"target":{"%s":%s,' % (field, value))
    return replace(run, files={**run.files, run.words[0]: told})


def printing_anew(run):
    """The same run, which must print what the plain program makes of its files, where it ends well."""
    if run.status == 0:
        run.text = plain_run.printed_text(run.files[run.words[0]], [run.files[word] for word in run.words[1:]])
    return run


def for_debugger(run):
    """The same run where the map asks for output for a debugger. What is refused of values goes by the bytes of their scopes."""
    asked = asking(run, b"debugger", b"true")
    if asked is run:
        return run
    if run.status in REFUSED_OF_VALUES:
        try:
            return printing_anew(replace(asked, status=0, line=""))
        except (ValueError, KeyError):
            return asked
    return printing_anew(asked)


def in_version(run, version):
    """The same run where the map asks for a version."""
    asked = asking(run, b"version", b"%d" % version)
    if asked is run:
        return run
    if version == 5 and (asked.status, asked.line) == TOO_LONG_FOR_A_LIST:
        asked = replace(asked, status=0, line="")
    return printing_anew(asked)


def fault_of(program, version, is_for_debugger, run):
    """The name of a run that ends otherwise than it must, and how."""
    sys.setrecursionlimit(10_000)
    run = in_version(run, version) if version else run
    run = for_debugger(run) if is_for_debugger else run
    with tempfile.TemporaryDirectory() as folder:
        for path, contents in run.files.items():
            with open(os.path.join(folder, path), "wb") as file:
                file.write(contents)
        done = subprocess.run([program, *run.words], cwd=folder, capture_output=True)
    ended = (done.returncode, done.stderr.decode(), done.stdout.decode())
    wanted = (run.status, run.line, run.text)
    return None if ended == wanted else f"{run.name}: {json.dumps(ended)[:300]}"


def main():
    parser = argparse.ArgumentParser(description=__doc__.splitlines()[0])
    parser.add_argument("program", nargs="?", default=DEFAULT)
    parser.add_argument("--version", type=int)
    parser.add_argument("--debugger", action="store_true")
    words = parser.parse_args()
    runs = list(all_runs())
    program = os.path.abspath(words.program)
    with ProcessPoolExecutor() as pool:
        faults = list(pool.map(partial(fault_of, program, words.version, words.debugger), runs, chunksize=16))
    bad = [fault for fault in faults if fault]
    print(*bad[:20], f"{len(runs)} runs, {len(bad)} end otherwise", sep="\n")
    sys.exit(1 if bad else 0)


if __name__ == "__main__":
    main()
