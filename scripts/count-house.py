#!/usr/bin/env python3
"""count-house.py [--write | --names]: what there is to live with in this house, counted.

Prints the table of docs/CONTRIBUTING.md; --write puts it there, between its marks. --names lists what it counts: long
functions, long parameter lists, names that stand twice, and the files that a word goes through.

A function is as long as its body, without empty lines and without comments; its parameters are counted with `self`. A
name of specs/ is one that a definition is called by, without the cases of a `data`. What a word goes through are the
files of crates that name it, without rows; pages come on top, which the lists of docs/CONTRIBUTING.md have.
"""

import re
import sys
from dataclasses import dataclass
from pathlib import Path

sys.dont_write_bytecode = True  # a release wants a clone without files of its own
from definitions import CRATES, ROOT, crate_of, in_order, reached, read

PAGE = ROOT / "docs" / "CONTRIBUTING.md"
BEGIN, END = "<!-- house: begin -->", "<!-- house: end -->"
LONG_BODY = 40
LONG_LIST = 6
LONG_LINE = 120
# Parts of the language, and how a file names them.
WORDS = [
    ("a plain built-in (`toupper`)", re.compile(r"\b(?:toupper|Toupper)\b")),
    ("a statement that is a word alone (`nextfile`)", re.compile(r"\b(?:nextfile|next_file|NextFile)\b")),
    ("a statement with a name (`delete array`)", re.compile(r"\b(?:delete_all(?:_of)?|DeleteAll)\b")),
    ("the sign `+=`", re.compile(r'"\+="')),
]
ROWS = {"rows", "row_calls", "library_rows", "library_calls", "edge_tests", "number_tests"}
FUNCTION = re.compile(r"^[ \t]*(?:pub(?:\(crate\))? )?fn (\w+)", re.M)
TYPE = re.compile(r"^[ \t]*pub(?:\(crate\))? (?:struct|enum|trait) (\w+)", re.M)
CLAUSE = re.compile(r"\b(?:requires|ensures|decreases|returns)\b(?:\s+\w+)?\s*$")


@dataclass
class Function:
    where: str
    parameters: int
    lines: int


def plain(text: str) -> str:
    """The text with what comments, strings and characters hold made blank; lines stay where they are."""

    def blank(found: re.Match[str]) -> str:
        return re.sub(r"[^\n]", " ", found[0])

    return re.sub(r'//[^\n]*|"(?:\\[\s\S]|[^"\\])*"|\'(?:\\(?:x..|u\{[^}]*\}|.)|[^\'\\\n])\'', blank, text)


def closing(text: str, at: int) -> int:
    """Where the bracket at this place ends."""
    pairs = {"(": ")", "{": "}", "<": ">", "[": "]"}
    opened, closed = text[at], pairs[text[at]]
    depth = 0
    for i in range(at, len(text)):
        if text[i] == opened:
            depth += 1
        elif text[i] == closed and not (closed == ">" and text[i - 1] in "-="):
            depth -= 1
            if depth == 0:
                return i
    raise SystemExit(f"no end of {opened}: {text[at:at + 60]!r}")


def arguments(inside: str) -> int:
    """How many a list has at its own depth."""
    inside = inside.strip().removesuffix(",")
    depth, count = 0, 1 if inside else 0
    for i, c in enumerate(inside):
        if c in "([{<":
            depth += 1
        elif c in ")]}" or (c == ">" and inside[i - 1] not in "-="):
            depth -= 1
        elif c == "," and depth == 0:
            count += 1
    return count


def functions(path: Path) -> list[Function]:
    text = plain(path.read_text())
    found = []
    for head in FUNCTION.finditer(text):
        at = head.end()
        if text[at] == "<":
            at = closing(text, at) + 1
        end = closing(text, at)
        parameters = arguments(text[at + 1 : end])
        # past the contract to the body, or to the `;` of a function that a trait only names
        start = at = end + 1
        while text[at] not in "{;" or CLAUSE.search(text, start, at):
            if text[at] in "{[":
                at = start = closing(text, at)
            at += 1
        if text[at] == ";":
            continue
        body = text[at + 1 : closing(text, at)]
        lines = sum(1 for line in body.splitlines() if line.strip())
        found.append(Function(f"{path.relative_to(CRATES)} {head[1]}", parameters, lines))
    return found


def at_share(sizes: list[int], share: float) -> int:
    return sorted(sizes)[min(int(len(sizes) * share), len(sizes) - 1)]


def several(pairs: list[tuple[str, str]]) -> dict[str, list[str]]:
    """What stands in more than one place, the most first."""
    where: dict[str, dict[str, None]] = {}
    for name, place in pairs:
        where.setdefault(name, {})[place] = None
    found = {name: list(places) for name, places in where.items() if len(places) > 1}
    return dict(sorted(found.items(), key=lambda it: (-len(it[1]), it[0])))


def through(word: re.Pattern[str]) -> list[str]:
    files = sorted(it for kind in ("rt", "antt") for it in CRATES.glob(f"*/*/**/*.{kind}"))
    files = [it for it in files if not ROWS & set(it.parts) and "out" not in it.parts]
    return [str(it.relative_to(CRATES)) for it in files if word.search(it.read_text())]


Listings = dict[str, list[str]]


def of_code(code: list[Path]) -> tuple[list[tuple[str, str]], Listings]:
    every = [it for path in code for it in functions(path)]
    sizes = [it.lines for it in every]
    long = sorted((it for it in every if it.lines > LONG_BODY), key=lambda it: -it.lines)
    wide = sorted((it for it in every if it.parameters > LONG_LIST), key=lambda it: -it.parameters)
    types = several([(name, crate_of(path)) for path in code for name in TYPE.findall(path.read_text())])
    rows = [
        ("functions", f"{len(every):,}"),
        ("lines of a body, the median and the ninth of ten", f"{at_share(sizes, 0.5)}, {at_share(sizes, 0.9)}"),
        (f"functions over {LONG_BODY} lines", f"{len(long)}"),
        (f"parameter lists over {LONG_LIST}", f"{len(wide)}"),
        ("types of the code that stand in several crates", f"{len(types)}"),
    ]
    return rows, {
        "functions over their length": [f"{it.where}: {it.lines}" for it in long],
        "parameter lists over theirs": [f"{it.where}: {it.parameters}" for it in wide],
        "types in several crates": [f"{name}: {', '.join(where)}" for name, where in types.items()],
    }


def of_definitions(specs: list[Path], proofs: list[Path]) -> tuple[list[tuple[str, str]], Listings]:
    names = [(it.name, str(path.relative_to(CRATES))) for path in specs for it in read(path).definitions]
    twice = several(names)
    over = [(path, len(it)) for path in proofs for it in path.read_text().splitlines() if len(it) > LONG_LINE]
    own = sum(1 for path, _ in over if path.name != "Answers.antt")
    done = reached()
    files = in_order(done)
    apart = sum(it.size for file in files for it in file.definitions if it not in done)
    rows = [
        ("names of `specs/`; those that stand in several files", f"{len({it for it, _ in names}):,}; {len(twice)}"),
        (f"lines of `proofs/` over {LONG_LINE} characters; outside answers", f"{len(over):,}; {own:,}"),
        ("the longest of them", f"{max((size for _, size in over), default=0):,}"),
        ("lines that the headline cites; of these never reached", f"{sum(it.size for it in files):,}; {apart}"),
    ]
    listing = [f"{name}: {', '.join(where)}" for name, where in twice.items()]
    return rows, {"names of specs/ in several files": listing}


def counted() -> tuple[list[tuple[str, str]], Listings]:
    """The rows of the table, and what each of them counts."""
    crates = [line for line in (ROOT / "crates.txt").read_text().splitlines() if ":" in line]
    code = sorted(CRATES.glob("*/src/**/*.rt"))
    specs = sorted(CRATES.glob("*/specs/**/*.antt"))
    proofs = sorted(CRATES.glob("*/proofs/**/*.antt"))
    first, listings = of_code(code)
    second, others = of_definitions(specs, proofs)
    gone = {f"files of crates that name {what}": through(word) for what, word in WORDS}
    rows = [
        ("crates", f"{len(crates)}"),
        ("files of code, of definitions, of proofs", f"{len(code):,}, {len(specs):,}, {len(proofs):,}"),
        *first,
        *second,
        *((what, f"{len(found)}") for what, found in gone.items()),
    ]
    return rows, listings | others | gone


def main() -> int:
    if sys.argv[1:] not in ([], ["--write"], ["--names"]):
        print(__doc__.splitlines()[0], file=sys.stderr)
        return 2
    rows, listings = counted()
    table = "\n".join(["| What | How many |", "|---|---|", *(f"| {what} | {count} |" for what, count in rows)])
    if sys.argv[1:] == ["--write"]:
        head, rest = PAGE.read_text().split(BEGIN, 1)
        PAGE.write_text(f"{head}{BEGIN}\n{table}\n{END}{rest.split(END, 1)[1]}")
    elif sys.argv[1:]:
        for what, lines in listings.items():
            print("\n".join([f"## {what}", "", *lines, ""]))
    else:
        print(table)
    return 0


if __name__ == "__main__":
    sys.exit(main())
