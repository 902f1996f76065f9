#!/usr/bin/env python3
"""programs.py PROGRAM [--as-run] [--rounds N] [--scale N] [--only WORD]: how long programs that people write take a
built awkbox, beside gawk and mawk, in one run.

The programs stand in bench/, by their kinds; bench/programs.json says what each one reads. Inputs are made from a seed,
in a folder that goes at the end. A time is of the processor, user and system, children too: the least of the rounds,
which take turns. Only ratios of one run mean anything. awkbox writes each print at once, so the others are made to
flush each line; with --as-run they are not, and awkbox runs with --block-buffered. What is printed is compared, in any
order of its lines. Ends with 1 where it differs.
"""

from __future__ import annotations

import argparse
import json
import math
import os
import random
import re
import resource
import subprocess
import sys
import tempfile
from pathlib import Path

BENCH = Path(__file__).resolve().parent / "bench"
PEERS = ("gawk", "mawk")
WORDS = "the login of reports and error user system quick brown fox jumps lazy dog Pipeline Teach host".split()
RIGHTS = (("read", "/**"), ("write", "out.*"))


def made(scale: int) -> dict[str, list[str]]:
    """The lines of each input: scale 10 makes some 8 MB of the longest."""
    pick = random.Random(9)

    def among(low: int, high: int) -> int:
        return pick.randint(low, high)

    def address() -> str:
        return f"10.{among(0, 9)}.{among(0, 255)}.{among(1, 254)}"

    def log_line(client: str) -> str:
        when = f"0{among(1, 9)}/Nov/2026:10:{among(0, 59):02}:{among(0, 59):02} +0000"
        asked = f"GET /{pick.choice(WORDS)}/{among(1, 400)} HTTP/1.1"
        return f'{client} - - [{when}] "{asked}" {pick.choice((200, 200, 301, 404))} {among(100, 99_999)}'

    def csv_line(number: int) -> str:
        return f"{number},name{among(1, 99_999)},{among(-999, 999)},{pick.choice(WORDS)},{among(1, 10**9)}"

    def sentence() -> str:
        endings = ("", "", "s", ",", ".", "ing")
        return " ".join(pick.choice(WORDS) + pick.choice(endings) for _ in range(among(4, 14)))

    clients = [address() for _ in range(3000)]
    count = 10_000 * scale
    inputs = {
        "log": [log_line(pick.choice(clients)) for _ in range(count)],
        "text": [sentence() for _ in range(count)],
        "csv": [csv_line(i) for i in range(count)],
        "side": [f"{i * 7 % count},name{i},{'abcdef'[i % 6]}" for i in range(count // 30)],
        "sorted": sorted(f"key{int(pick.random() ** 2 * 20_000):05}" for _ in range(count)),
        "nums": [" ".join(str(among(-(10**6), 10**6)) for _ in range(10)) for _ in range(count // 2)],
        "kv": [f"ts={i} host=h{among(1, 50)} cpu={among(0, 100)} mem={among(0, 99_999)}" for i in range(count // 2)],
        "jsonl": [
            f'{{"id":{i},"user":"u{among(1, 5000)}","msg":"{"x" * among(5, 60)}","ms":{among(1, 9999)}}}'
            for i in range(count // 3)
        ],
    }
    inputs["small"] = inputs["text"][: count // 8]
    return inputs


def room_of(folder: Path, scale: int) -> None:
    for name, lines in made(scale).items():
        (folder / name).write_text("\n".join(lines) + "\n")
    rules = "".join(f'[[rule]]\neffect = "allow"\nkind = "{kind}"\nmatch = "{match}"\n' for kind, match in RIGHTS)
    (folder / "policy.toml").write_text(f'version = 1\nbase = "{folder}"\n{rules}')


def flushing(script: str) -> str:
    """The script, with each print flushed."""
    return re.sub(r"^(\s*)(printf? .*|print)$", r"\1\2; fflush()", script, flags=re.M)


def ways(program: Path, row: dict, script: Path, folder: Path, as_run: bool) -> dict[str, list[str]]:
    separator = ["-F", row["fs"]] if "fs" in row else []
    files = row.get("files", [])
    own = [str(program), "run", "--policy", "policy.toml", "--log", "log.denied", "--steps", "1000000000000"]
    own += ["--block-buffered"] if as_run else []
    theirs = script
    if not as_run:
        theirs = folder / "flushing.awk"
        theirs.write_text(flushing(script.read_text()))
    found = {"awkbox": [*own, *separator, "-f", str(script), "--", *files]}
    return found | {peer: [peer, *separator, "-f", str(theirs), *files] for peer in PEERS}


def run(words: list[str], folder: Path) -> tuple[float, list[bytes]]:
    """Its seconds, and its lines in ascending order."""
    before = resource.getrusage(resource.RUSAGE_CHILDREN)
    ran = subprocess.run(
        words,
        cwd=folder,
        stdin=subprocess.DEVNULL,
        stdout=subprocess.PIPE,
        env={"PATH": os.environ["PATH"], "LC_ALL": "C"},
        check=True,
    )
    after = resource.getrusage(resource.RUSAGE_CHILDREN)
    seconds = after.ru_utime + after.ru_stime - before.ru_utime - before.ru_stime
    return seconds, sorted(ran.stdout.split(b"\n"))


def timed(found: dict[str, list[str]], folder: Path, rounds: int) -> tuple[dict[str, float], bool]:
    """The least time of each, and whether awkbox printed what gawk did."""
    least: dict[str, float] = {}
    printed: dict[str, list[bytes]] = {}
    for _ in range(rounds):
        for way, words in found.items():
            seconds, printed[way] = run(words, folder)
            least[way] = min(least.get(way, math.inf), max(seconds, 0.001))
    return least, printed["awkbox"] == printed["gawk"]


def mean(ratios: list[float]) -> float:
    return math.exp(sum(map(math.log, ratios)) / len(ratios))


def main() -> int:
    words = argparse.ArgumentParser(description=(__doc__ or "").split("\n\n")[0])
    words.add_argument("program", type=Path, help="a built awkbox")
    words.add_argument("--as-run", action="store_true", help="output in blocks, as it is when nobody looks on")
    words.add_argument("--rounds", type=int, default=3)
    words.add_argument("--scale", type=int, default=10)
    words.add_argument("--only", default="", help="a kind, or a program's name")
    given = words.parse_args()
    rows = json.loads((BENCH / "programs.json").read_text())
    rows = [row for row in rows if given.only in ("", row["kind"], row["name"])]
    ratios: dict[str, list[tuple[float, float]]] = {}
    differing = []
    with tempfile.TemporaryDirectory() as name:
        folder = Path(name)
        room_of(folder, given.scale)
        for row in rows:
            script = BENCH / row["kind"] / f"{row['name']}.awk"
            found = ways(given.program.resolve(), row, script, folder, given.as_run)
            least, same = timed(found, folder, given.rounds)
            to = (least["awkbox"] / least["gawk"], least["awkbox"] / least["mawk"])
            ratios.setdefault(row["kind"], []).append(to)
            differing += [] if same else [row["name"]]
            told = f"{row['name']:16}{least['awkbox']:7.2f} s  of gawk {to[0]:5.2f}  of mawk {to[1]:5.2f}"
            print(told + ("" if same else "  prints something else"), flush=True)
    for kind, all_of in [*ratios.items(), ("all", [to for some in ratios.values() for to in some])]:
        to_gawk, to_mawk = (mean([to[at] for to in all_of]) for at in (0, 1))
        print(f"{kind:16}{len(all_of):4} programs  of gawk {to_gawk:5.2f}  of mawk {to_mawk:5.2f}")
    return 1 if differing else 0


if __name__ == "__main__":
    sys.exit(main())
