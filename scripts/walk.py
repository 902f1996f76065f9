#!/usr/bin/env python3
"""walk.py [--write | --check]: the walk of docs/WALK.md, counted.

Prints how many functions of how many crates it names, and which of them are not there. --write puts the count into the
page; --check says whether each function is there and the page has this count.
"""

import re
import sys
from pathlib import Path

ROOT = Path(__file__).resolve().parent.parent
PAGE = ROOT / "docs" / "WALK.md"
STEP = re.compile(r"^- `(\w+)/(src/[\w/]+\.rt)` ((?:`\w+`, )*`\w+`):", re.M)
COUNT = re.compile(r"^(?:<!-- count -->|These are .* crates\.)$", re.M)


def steps(page: str) -> dict[tuple[str, str], None]:
    """The functions of the page, each once, by file and name."""
    found: dict[tuple[str, str], None] = {}
    for crate, file, names in STEP.findall(page):
        found |= {(f"{crate}/{file}", name): None for name in re.findall(r"\w+", names)}
    return found


def is_there(file: str, name: str) -> bool:
    path = ROOT / "crates" / file
    return path.is_file() and re.search(rf"\bfn {name}\b", path.read_text()) is not None


def main() -> int:
    page = PAGE.read_text()
    named = steps(page)
    crates = {file.split("/")[0] for file, _ in named}
    files = {file for file, _ in named}
    count = f"These are {len(named)} functions in {len(files)} files of {len(crates)} crates."
    missing = [f"docs/WALK.md: no {name} in {file}" for file, name in named if not is_there(file, name)]
    # a step that is written in another way would not be counted
    missing += [f"docs/WALK.md: no step: {it}" for it in re.findall(r"^- .*", page, re.M) if not STEP.match(it)]
    match sys.argv[1:]:
        case []:
            print("\n".join([count, *missing]))
        case ["--write"]:
            PAGE.write_text(COUNT.sub(count, page))
        case ["--check"]:
            if count not in page.splitlines():
                missing.append("docs/WALK.md has another count: scripts/walk.py --write")
            for it in missing:
                print(it)
            return 1 if missing else 0
        case _:
            print(__doc__.splitlines()[0], file=sys.stderr)
            return 2
    return 0


if __name__ == "__main__":
    sys.exit(main())
