#!/usr/bin/env python3
"""functions.py [--program P] [--count N] [--seed S]: holds the functions of doubles against the C library's.

awkbox gives `sqrt exp log sin cos atan2` of N arguments each (100,000), which it reads as lines: of all sizes, near the
edges of the functions, near multiples of a quarter turn, and the least and largest doubles. Each answer is the C
library's or the double beside it, and a square root is the C library's own; of the arguments for which that has no
finite answer, at 50 awkbox ends with F1. The last line counts the functions: 'N passed, M failed'."""
import argparse
import math
import random
import struct
import subprocess
import sys
import tempfile
from pathlib import Path

TOP = Path(__file__).resolve().parent.parent
BUILT = TOP / "crates/awkbox_program/out/awkbox_program"
EDGES = [0.0, 5e-324, 2.2250738585072014e-308, 1e-300, 1e-20, 2.0**-27, 0.5, 1.0, 1.5, 2.0, math.pi, 22.0, 355.0, 709.7,
         2.0**19 * math.pi / 2, 1e22, 2.0**1000, 1e308, 1.7976931348623157e308]

# each function with the C library's, how many operands it has, and how many doubles it may be off
CALLS = [("sqrt", math.sqrt, 1, 0), ("exp", math.exp, 1, 1), ("log", math.log, 1, 1), ("sin", math.sin, 1, 1),
         ("cos", math.cos, 1, 1), ("atan2", math.atan2, 2, 1)]


def any_double(rng):
    """A finite double, each bit of it by chance."""
    while True:
        x = struct.unpack("<d", struct.pack("<Q", rng.getrandbits(64)))[0]
        if math.isfinite(x):
            return x


def near_turns(rng):
    """A double near a multiple of a quarter turn."""
    x = rng.choice([10, 1000, 1 << 20, 1 << 40, 1 << 60])
    x = rng.randrange(1, x) * (math.pi / 2)
    for _ in range(rng.randrange(3)):
        x = math.nextafter(x, rng.choice([0.0, math.inf]))
    return x


def arguments(rng, count):
    """So many doubles of all kinds."""
    kinds = [
        lambda: rng.choice(EDGES),
        lambda: any_double(rng),
        lambda: near_turns(rng),
        lambda: rng.uniform(0, 10),
        lambda: rng.uniform(-750, 750),
        lambda: rng.uniform(0, 1) * 10.0 ** rng.randrange(-20, 20),
    ]
    return [rng.choice((1, -1)) * rng.choice(kinds)() + 0.0 for _ in range(count)]


def wanted(function, *given):
    """The C library's answer, if it has one that is finite."""
    try:
        answer = function(*given)
    except (OverflowError, ValueError):
        return None
    return answer if math.isfinite(answer) else None


def ordinal(x):
    """The place of a double among all of them."""
    bits = struct.unpack("<q", struct.pack("<d", x))[0]
    return bits if bits >= 0 else -(bits & 0x7FFF_FFFF_FFFF_FFFF)


def answers(program, name, rows):
    """What awkbox prints for each row, exactly."""
    call = f"{name}($1, $2)" if len(rows[0]) == 2 else f"{name}($1)"
    script = f'{{ printf "%.17g\\n", {call} }}'
    with tempfile.TemporaryDirectory() as folder:
        policy = Path(folder, "policy.toml")
        policy.write_text('version = 1\nbase = "/"\n')
        words = [program, "run", "--policy", str(policy), "--log", f"{folder}/log", "--numbers", "double"]
        words += ["--steps", "1000000000", "--block-buffered", "-e", script]
        lines = "".join(" ".join(repr(x) for x in row) + "\n" for row in rows)
        return subprocess.run(words, input=lines, capture_output=True, text=True, check=False)


def held(program, name, function, most, rows):
    """What is wrong with a function, if anything."""
    finite = [(row, want) for row in rows if (want := wanted(function, *row)) is not None]
    ran = answers(program, name, [row for row, _ in finite])
    lines = ran.stdout.splitlines()
    if ran.returncode != 0 or len(lines) != len(finite):
        row = finite[len(lines)][0] if len(lines) < len(finite) else ""
        return f"ends with {ran.returncode} at {row}: {ran.stderr.strip()}"
    exact = 0
    for line, (row, want) in zip(lines, finite):
        away = abs(ordinal(float(line) + 0.0) - ordinal(want + 0.0))
        exact += away == 0
        if away > most:
            return f"{row}: {line}, where the C library has {want!r}"
    out = [row for row in rows if wanted(function, *row) is None][:50]
    for row in out:
        if " F1 " not in answers(program, name, [row]).stderr:
            return f"{row}: no F1"
    print(f"{name}: {len(finite)} arguments, {exact} as the C library, the others beside it; F1 of {len(out)}")
    return None


def main():
    words = argparse.ArgumentParser(description=__doc__, formatter_class=argparse.RawDescriptionHelpFormatter)
    words.add_argument("--program", default=str(BUILT))
    words.add_argument("--count", type=int, default=100_000)
    words.add_argument("--seed", type=int, default=1)
    asked = words.parse_args()
    rng = random.Random(asked.seed)
    failed = 0
    for name, function, operands, most in CALLS:
        rows = list(zip(*(arguments(rng, asked.count) for _ in range(operands))))
        fault = held(asked.program, name, function, most, rows)
        if fault:
            print(f"{name}: {fault}")
            failed += 1
    print(f"{len(CALLS) - failed} passed, {failed} failed")
    return bool(failed)


if __name__ == "__main__":
    sys.exit(main())
