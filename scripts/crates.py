#!/usr/bin/env python3
"""crates.py [--write | --check | --dot]: the picture of the crates, from crates.txt.

Prints it as text, from the program down to texts: a crate, and those that it stands on directly; what it reaches
through one of them as well is left out. --dot prints the same graph for graphviz.

--write puts the text between its marks in docs/ARCHITECTURE.md, and draws docs/crates.svg where `dot` is installed.
--check says whether both show crates.txt as it is, whether each crate has a section of its own in the page, and whether
each file that a section names is there.
"""

import html
import re
import shutil
import subprocess
import sys
from pathlib import Path

ROOT = Path(__file__).resolve().parent.parent
PAGE = ROOT / "docs" / "ARCHITECTURE.md"
PICTURE = ROOT / "docs" / "crates.svg"
BEGIN, END = "<!-- crates: begin -->", "<!-- crates: end -->"
# the colour of a crate, by its subject; one that is not named here is of the last
SUBJECTS = [
    ("#dceaf7", "awk_hash awk_numbers awk_text awk_ere awk_fields awk_format awk_lib"),
    ("#e2f0d9", "awk_tokens awk_tree awk_expressions awk_statements awk_canon awk_resolve awk_program awk_lowering"),
    ("#e2f0d9", "awk_parse awk_printer"),
    ("#fff2cc", "awk_machine awk_streams awk_store awk_builtins awk_input awk_forms awk_eval awk_run"),
    ("#f8dcd4", "box_world box_policy box_monitor box_audit box_blocks box_os box_listing awk_hints awk_reasons box_advice "
     "listing_laws"),
    ("#e6dcf0", "awkbox awkbox_options awkbox_program"),
    ("#eeeeee", ""),
]

Graph = dict[str, list[str]]


def crates() -> Graph:
    """Each crate with those of the house that it stands on."""
    named = [line.split(":") for line in (ROOT / "crates.txt").read_text().splitlines() if ":" in line]
    house = {name for name, _ in named}
    return {name: [it for it in below.split() if it in house] for name, below in named}


def reached(graph: Graph) -> dict[str, set[str]]:
    """All that each crate stands on, at any depth; crates.txt has what is below first."""
    found: dict[str, set[str]] = {}
    for name, below in graph.items():
        found[name] = set(below).union(*(found[it] for it in below))
    return found


def direct(graph: Graph) -> Graph:
    """The same, without what is reached through another one as well."""
    all_below = reached(graph)
    return {
        name: [it for it in below if not any(it in all_below[other] for other in below)]
        for name, below in graph.items()
    }


def layers(graph: Graph) -> list[list[str]]:
    """The crates by the longest way down to one that stands on no other."""
    height: dict[str, int] = {}
    for name, below in graph.items():
        height[name] = max((height[it] + 1 for it in below), default=0)
    out: list[list[str]] = [[] for _ in range(max(height.values()) + 1)]
    for name, at in height.items():
        out[at].append(name)
    return out


def text(graph: Graph) -> str:
    edges = direct(graph)
    width = max(map(len, graph))
    lines = []
    for at, layer in reversed(list(enumerate(layers(graph)))):
        for n, name in enumerate(layer):
            number = f"{at:2}" if n == 0 else "  "
            lines.append(f"{number}  {name:{width}}  {', '.join(edges[name])}".rstrip())
    return "\n".join(["```text", *lines, "```"])


def dot(graph: Graph) -> str:
    lines = [
        "digraph crates {",
        '  graph [rankdir=TB, nodesep=0.18, ranksep=0.32, bgcolor="white", margin=0.1]',
        '  node [shape=box, style="filled,rounded", fontname="Helvetica,Arial,sans-serif", fontsize=11,'
        ' height=0.28, margin="0.09,0.03", color="#888888"]',
        '  edge [arrowsize=0.5, color="#777777"]',
    ]
    for name in graph:
        colour = next((it for it, named in SUBJECTS if name in named.split()), SUBJECTS[-1][0])
        lines.append(f'  {name} [fillcolor="{colour}"]')
    lines += [f"  {{ rank=same; {'; '.join(layer)} }}" for layer in layers(graph)]
    lines += [f"  {name} -> {it}" for name, below in direct(graph).items() for it in below]
    return "\n".join([*lines, "}"])


def shown(picture: str) -> set[str]:
    """The crates and the edges of the drawing, by the titles that `dot` gives them."""
    titles = re.findall(r'<g id="\w+" class="(?:node|edge)">\s*<title>([^<]*)</title>', picture)
    return {html.unescape(it) for it in titles}


def split(page: str) -> tuple[str, str, str]:
    head, rest = page.split(BEGIN, 1)
    old, tail = rest.split(END, 1)
    return head, old.strip("\n"), tail


def faults(graph: Graph) -> list[str]:
    page = PAGE.read_text()
    found = []
    if split(page)[1] != text(graph):
        found.append("docs/ARCHITECTURE.md has another picture: scripts/crates.py --write")
    edges = {f"{name}->{it}" for name, below in direct(graph).items() for it in below}
    if not PICTURE.is_file() or shown(PICTURE.read_text()) != edges | set(graph):
        found.append("docs/crates.svg shows other crates: scripts/crates.py --write")
    sections = re.findall(r"^### (\w+)\n(.*?)(?=^#|\Z)", page, re.M | re.S)
    names = [name for name, _ in sections]
    found += [f"docs/ARCHITECTURE.md has {names.count(it)} sections on {it}" for it in graph if names.count(it) != 1]
    found += [f"docs/ARCHITECTURE.md has a section on {it}, which is no crate" for it in names if it not in graph]
    for name, body in sections:
        for path in re.findall(r"`((?:src|specs|proofs|data)/[\w./+]*)`", body):
            if not (ROOT / "crates" / name / path).exists():
                found.append(f"docs/ARCHITECTURE.md, {name}: no {path}")
    return found


def main() -> int:
    graph = crates()
    match sys.argv[1:]:
        case []:
            print(text(graph))
        case ["--dot"]:
            print(dot(graph))
        case ["--write"]:
            head, _, tail = split(PAGE.read_text())
            PAGE.write_text(f"{head}{BEGIN}\n{text(graph)}\n{END}{tail}")
            if not shutil.which("dot"):
                print("no graphviz: docs/crates.svg is left as it is", file=sys.stderr)
                return 1
            drawn = subprocess.run(["dot", "-Tsvg"], input=dot(graph), capture_output=True, text=True, check=True)
            # what `dot` tells of itself would change with its version
            PICTURE.write_text(re.sub(r"<!--(?:(?!-->).)*-->\n?", "", drawn.stdout, flags=re.S))
        case ["--check"]:
            found = faults(graph)
            for fault in found:
                print(fault)
            return 1 if found else 0
        case _:
            print(__doc__.splitlines()[0], file=sys.stderr)
            return 2
    return 0


if __name__ == "__main__":
    sys.exit(main())
