#!/usr/bin/env python3
"""definitions.py [--write | --check | --unreached]: the definitions that the contract of `drive` rests on.

From the names that the contract cites, and the law of the trait World, this follows names from definition to
definition, through all files of `crates/*/specs/`. Prints the table of docs/PROVED.md: each file that has one of these
definitions, with its lines, in the order to read them; and how many lines of theirs are of definitions that are never
reached.

--write puts the table between its marks in docs/PROVED.md; --check says whether it stands there.
--unreached lists, file by file, the definitions that are reached and those that are not: what could be moved apart.

A definition is its own lines and the comment right above it, without empty lines. A name counts as cited where it
stands in the text of a definition and is no variable there. The types of the code (`declared`) are not followed: of
those a contract speaks as plain data.
"""

import re
import sys
from dataclasses import dataclass, field
from functools import cache
from pathlib import Path

ROOT = Path(__file__).resolve().parent.parent
CRATES = ROOT / "crates"
# What is cited by itself: the contract of `drive`, and the law that the world which it is given keeps.
ROOTS = [
    (CRATES / "awkbox" / "src" / "driver.rt", re.compile(r"^pub fn drive<.*?^\{$", re.M | re.S)),
    (CRATES / "box_world" / "src" / "world.rt", re.compile(r"^pub trait World \{.*?^\}$", re.M | re.S)),
]
# What a reader wants to know first stands first; a crate that is not named here stands with the last ones.
SUBJECTS = [
    ("what a run under a policy promises", ["awkbox"]),
    ("requests, replies and events", ["box_world"]),
    ("what a policy's text writes and denies", ["box_policy"]),
    ("what is passed on, and what the log tells", ["box_monitor"]),
    (
        "texts, values, patterns, records, formats, arrays",
        ["awk_text", "awk_ere", "awk_fields", "awk_format", "awk_lib"],
    ),
    ("the form of a script that runs", ["awk_program"]),
    ("plain awk", ["awk_machine"]),
    ("what a run is given, and its outcome", ["awk_run"]),
    ("tokens, the tree and the rules", ["awk_tokens", "awk_tree", "awk_statements"]),
    ("names, and the program of a script", ["awk_resolve", "awk_lowering"]),
    ("the grammar, and accepted scripts", ["awk_parse"]),
]
BEGIN, END = "<!-- definitions: begin -->", "<!-- definitions: end -->"

USE = re.compile(r"^\s*(?:pub |ghost )*use Rattle\.(\w+)\.specs\.([\w.']+?)(?:\.\{([^}]*)\}| as (\S+?));?\s*$", re.M)
HEAD = re.compile(
    r"^(?:(?:abbrev|unfoldable|definition|opaque) )?(?:pub )?"
    r"(?:(?P<sort>record|data) (?P<type>[^\s:({]+)|(?P<name>[^\s:({]+) :(?: |$))"
)
GROUP = re.compile(r"^(?:(?:abbrev|unfoldable) )?mutual\s*$|^module\b")
CASE = re.compile(r"^\s*([\w']+) :(?: |$)")
NAME = re.compile(r"[^\W\d](?:[\w']|-(?=[^\W\d]))*(?:\.[\w']+)*|[^\s\w(){}\[\],;:.\"]+")
BOUND = re.compile(r"λ\s+([^.]*?)\.\s|\blet ([\w']+)\b|[({]([\w' ]+?) :")


@dataclass(eq=False)
class Definition:
    """A definition, or all cases of a `data`."""

    file: Path
    name: str
    lines: list[str]
    # the names that stand in what it is inside of: the parameters of a module
    around: str = ""
    cases: set[str] = field(default_factory=set)

    @property
    def size(self) -> int:
        return sum(1 for line in self.lines if line.strip())

    def symbols(self) -> list[str]:
        """What it is written by; `◌>>=◌` by `>>=`."""
        return [part for part in self.name.split("◌") if part] + sorted(self.cases)


@dataclass(eq=False)
class File:
    path: Path
    size: int
    definitions: list[Definition]
    # names and the names of files by which definitions are cited here
    names: dict[str, list[Definition]]
    files: dict[str, "File"]


def indent(line: str) -> int:
    return len(line) - len(line.lstrip())


def blocks(path: Path, lines: list[str], depth: int, around: str) -> list[Definition]:
    """The definitions of lines that stand at this depth."""
    found: list[Definition] = []
    held: list[str] = []  # comments and `infixl`, which belong to what comes next
    at = 0
    while at < len(lines):
        line = lines[at]
        text = line.strip()
        if not text:
            held, at = [], at + 1
        elif text.startswith(("--", "infix")):
            held, at = [*held, line], at + 1
        elif text.startswith(("use ", "pub use ", "pub mod ")):
            held, at = [], at + 1
        elif GROUP.match(text):
            end = at + 1
            while end < len(lines) and (not lines[end].strip() or indent(lines[end]) > depth):
                end += 1
            # the head of a module may go over several lines, indented by more than its parts
            start = at + 1
            while not text.endswith("mutual") and not lines[start - 1].rstrip().endswith("where") and start < end:
                start += 1
            inner = around + " ".join(lines[at:start])
            found += blocks(path, lines[start:end], depth + 2, inner)
            held, at = [], end
        else:
            head = HEAD.match(text)
            if head:
                found.append(Definition(path, head["type"] or head["name"], held, around))
            if not found:
                raise SystemExit(f"{path}: no definition begins at: {text}")
            end = at + 1
            while end < len(lines) and indent(lines[end]) > depth and lines[end].strip():
                end += 1
            found[-1].lines = [*found[-1].lines, *([] if head else held), *lines[at:end]]
            if head and head["sort"] == "data":
                body = [it for it in lines[at + 1 : end] if not it.strip().startswith("--")]
                least = min((indent(it) for it in body if CASE.match(it)), default=0)
                found[-1].cases |= {it[1] for each in body if indent(each) == least and (it := CASE.match(each))}
            held, at = [], end
    return found


def path_of(crate: str, module: str) -> Path | None:
    path = CRATES / crate / "specs" / (module.replace(".", "/") + ".antt")
    return path if path.is_file() else None


@cache
def read(path: Path) -> File:
    text = path.read_text()
    lines = text.splitlines()
    return cited_by(File(path, len(lines), blocks(path, lines, 0, ""), {}, {}), text)


def cited_by(file: File, text: str) -> File:
    """Fills in what the names of a file mean: those of the files that it uses, and its own."""
    for crate, module, names, alias in USE.findall(text):
        path = path_of(crate, module)
        if path is None:
            continue
        below = read(path)
        if alias:
            file.files[alias] = below
        for name in filter(None, (it.strip() for it in names.split(","))):
            theirs, _, ours = name.partition(" as ")
            symbol = theirs.strip("◌")
            file.names[(ours or theirs).strip("◌")] = [it for it in below.definitions if symbol in it.symbols()]
    for it in file.definitions:
        for symbol in it.symbols():
            file.names.setdefault(symbol, [])
            file.names[symbol] = [other for other in file.names[symbol] if other.file == file.path] + [it]
    return file


def clauses(it: Definition) -> list[str]:
    """The parts of a definition in which a variable means one thing."""
    out: list[str] = []
    least = min(indent(line) for line in it.lines if line.strip())
    for line in it.lines:
        if line.strip().startswith("--"):
            continue
        if indent(line) == least or not out:
            out.append("")
        out[-1] += re.sub(r'"[^"]*"', '""', line) + "\n"
    return out


def cites(file: File, text: str, bound: set[str]) -> list[Definition]:
    found: list[Definition] = []
    for token in NAME.findall(text):
        first, _, rest = token.partition(".")
        if first in bound:
            continue
        if rest and first in file.files:
            below = file.files[first]
            found += below.names.get(rest.split(".")[0], [])
        else:
            found += file.names.get(first, [])
    return found


def variables(file: File, clause: str) -> set[str]:
    bound: set[str] = set()
    for several in BOUND.findall(clause):
        bound |= {name for names in several for name in names.split()}
    left, equals, _ = clause.partition(" =")
    if equals and " : " not in left:
        for name in NAME.findall(left)[1:]:
            meant = file.names.get(name, [])
            if "." not in name and not any(name in it.cases for it in meant):
                bound.add(name)
    return bound


def from_definition(it: Definition) -> list[Definition]:
    file = read(it.file)
    found = cites(file, it.around, set())
    for clause in clauses(it):
        found += cites(file, clause, variables(file, clause))
    return found


def contract() -> list[Definition]:
    """What the contract of `drive` cites, and the law of `World`."""
    found: list[Definition] = []
    for path, part in ROOTS:
        text = path.read_text()
        cited = part.search(text)
        if not cited:
            raise SystemExit(f"{path}: no part that begins as {part.pattern}")
        found += cites(cited_by(File(path, 0, [], {}, {}), text), cited[0], set())
    # `setup.now`: what a setup holds
    parts = read(CRATES / "awk_run" / "specs" / "SetupParts.antt").definitions
    return found + [it for it in parts if it.name == "SetupParts"]


def reached() -> dict[Definition, None]:
    """Every definition that is reached, each behind those that it cites."""
    done: dict[Definition, None] = {}
    seen: set[Definition] = set()
    # by hand, as the chains are long
    stack = [(it, False) for it in reversed(contract())]
    while stack:
        it, closing = stack.pop()
        if closing:
            done[it] = None
        elif it not in seen:
            seen.add(it)
            stack.append((it, True))
            stack += [(below, False) for below in reversed(from_definition(it))]
    return done


def in_order(done: dict[Definition, None]) -> list[File]:
    """The files that have one of them, as they stand on one another, by subject."""
    held = {it.file for it in done}
    order: dict[Path, None] = {}

    def visit(path: Path, above: frozenset[Path]) -> None:
        if path in order or path in above:
            return
        for crate, module, _, _ in USE.findall(path.read_text()):
            below = path_of(crate, module)
            if below in held:
                visit(below, above | {path})
        order[path] = None

    for it in contract():
        visit(it.file, frozenset())
    for it in done:
        visit(it.file, frozenset())
    crates = [it for _, named in SUBJECTS for it in named]
    crates += dict.fromkeys(name for path in order if (name := crate_of(path)) not in crates)
    return sorted(map(read, order), key=lambda file: crates.index(crate_of(file.path)))


def crate_of(path: Path) -> str:
    return path.relative_to(CRATES).parts[0]


def subject_of(crate: str) -> int:
    return next((n for n, (_, crates) in enumerate(SUBJECTS) if crate in crates), len(SUBJECTS) - 1)


def table() -> str:
    rows: list[list[str]] = [[] for _ in SUBJECTS]
    lines = [0] * len(SUBJECTS)
    done = reached()
    files = in_order(done)
    for file in files:
        at = subject_of(crate_of(file.path))
        lines[at] += file.size
        rows[at].append(f"{crate_of(file.path)} {file.path.stem} {file.size}")
    out = ["| What | Files of `crates/CRATE/specs/`, with their lines | Lines |", "|---|---|---|"]
    for (what, _), row, size in zip(SUBJECTS, rows, lines):
        out.append(f"| {what} | {', '.join(joined(row))} | {size:,} |")
    out.append(f"| all | {len(files)} files | {sum(lines):,} |")
    apart = [it for file in files for it in file.definitions if it not in done]
    held = sum(1 for file in files if any(it not in done for it in file.definitions))
    size = sum(it.size for it in apart)
    out.append(f"| of these, never reached from the contract | {len(apart)} definitions, in {held} files | {size:,} |")
    return "\n".join(out)


def joined(row: list[str]) -> list[str]:
    """Names a crate once, before the first of its files."""
    out, last = [], ""
    for entry in row:
        crate, rest = entry.split(" ", 1)
        out.append(rest if crate == last else f"**{crate}** {rest}")
        last = crate
    return out


def named(definitions: list[Definition]) -> str:
    return ", ".join(f"{it.name} {it.size}" for it in definitions)


def unreached() -> str:
    """What could be moved into files of its own, the largest first."""
    done = reached()
    found = []
    for file in in_order(done):
        apart = [it for it in file.definitions if it not in done]
        kept = [it for it in file.definitions if it in done]
        if apart:
            size = sum(it.size for it in apart)
            where = file.path.relative_to(CRATES)
            told = f"{where}: {size} of {file.size} lines are never reached"
            found.append((size, f"{told}\n  not reached: {named(apart)}\n  reached: {named(kept)}"))
    found.sort(key=lambda it: -it[0])
    return "\n".join(text for _, text in found)


def split(page: str) -> tuple[str, str, str]:
    head, rest = page.split(BEGIN, 1)
    old, tail = rest.split(END, 1)
    return head, old.strip("\n"), tail


def main() -> int:
    page = ROOT / "docs" / "PROVED.md"
    match sys.argv[1:]:
        case []:
            print(table())
        case ["--write"]:
            head, _, tail = split(page.read_text())
            page.write_text(f"{head}{BEGIN}\n{table()}\n{END}{tail}")
        case ["--check"]:
            _, old, _ = split(page.read_text())
            if old != table():
                print("docs/PROVED.md has another table of definitions: scripts/definitions.py --write")
                return 1
        case ["--unreached"]:
            print(unreached())
        case _:
            print(__doc__.splitlines()[0], file=sys.stderr)
            return 2
    return 0


if __name__ == "__main__":
    sys.exit(main())
