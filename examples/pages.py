"""The commands that a page shows behind `$`, each with what it prints, and whether they still do."""

import difflib
import subprocess
from pathlib import Path

PROMPT = "$ "
FENCE = "```"


def shown_commands(page: Path) -> list[tuple[str, list[str]]]:
    """The commands of a page, each with the lines that it prints."""
    commands, printed = [], None
    for line in page.read_text().splitlines():
        if line.startswith(FENCE):
            printed = None
        elif line.startswith(PROMPT):
            printed = []
            commands.append((line.removeprefix(PROMPT), printed))
        elif printed is not None:
            printed.append(line)
    return commands


def run(command: str, folder: Path) -> subprocess.CompletedProcess:
    return subprocess.run(command, shell=True, cwd=folder, capture_output=True, text=True, errors="replace")


def is_as_shown(command: str, wanted: list[str], printed: list[str], error: str) -> bool:
    """Says whether a command prints what is wanted; where not, how that differs, and what it wrote to standard error."""
    if printed == wanted:
        print("as shown:", command)
        return True
    print("not as shown:", command)
    print("\n".join(difflib.unified_diff(wanted, printed, "README.md", "printed", lineterm="")))
    print(error, end="")
    return False
