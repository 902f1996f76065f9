#!/usr/bin/env python3
"""search-times.py PROGRAM [--large]: how the time of searches grows with the text, beside gawk in the same run.

Each case is an operation on a text that is hard for its pattern: starts that read on to the end and fail, or matches
of which each reads on to the end. It is done as often as takes a tenth of a second, on 64, 128 and 256 KB; the
milliseconds of one stand, without what the program takes to start and to make the text, and the exponent between the
first and the last (1 is linear), and the nanoseconds that a byte takes. A peer that takes over two seconds is left out
from there on, and gawk where it isn't installed. --large has patterns at the limit of size, on 2, 4 and 8 KB and with ten seconds. The worst exponent and
the worst time a byte stand last."""
import argparse
import math
import os
import random
import resource
import shutil
import subprocess
import tempfile

ENOUGH = 0.1
# the sizes of the texts, and the seconds that a peer may take
USUAL, LONG = ((65536, 131072, 262144), 2), ((2048, 4096, 8192), 10)
POLICY = 'version = 1\nbase = "/tmp"\n'
# a text in which nearly each place has other bytes before it
MIXED = "".join(random.Random(1).choices("ab", k=8192))
# what is repeated to make the text, what stands at its end, the operation on s
CASES = [
    ("a", "", "match(s, /a*b/)"),
    ("a", "", "match(s, /(a|aa)*b/)"),
    ("a", "", "match(s, /a.?.?.?.?.?b/)"),
    ("<", "", "sub(/<.*>/, \"\", s)"),
    ("ab", "", "match(s, /(a.*b)*c/)"),
    ("a", "", "match(s, /(.*)(.*)(.*)c/)"),
    (" ", "x", "sub(/ +$/, \"\", s)"),
    ("ab,", "", "match(s, /[a-z]+,[0-9]/)"),
    ("a", "", "s ~ /a.*b.*c/"),
    ("x", "", "match(s, /x.*y|x/)"),
    ("x", "", "gsub(/x.*y|x/, \"z\", s)"),
    ("<", "", "gsub(/<.*>|</, \"(\", s)"),
    ("ab", "", "gsub(/(ab)*c|a/, \"b\", s)"),
    ("(a", "", "gsub(/\\([^)]*\\)|\\(/, \"[\", s)"),
    ("a ", "b", "gsub(/ +$|(a | b)*c| /, \"_\", s)"),
    ("\\\"a", "", "gsub(/\"([^x]|x[^y])*xy|\"/, \"\", s)"),
    ("x", "", "split(s, p, /x.*y|x/)"),
    ("a,", "", "split(s, p, /,.*;|,/)"),
    ("x", "", "FS = \"x.*y|x\"; $0 = s; n = NF"),
    ("a, ", "", "FS = \", *(.*;)?\"; $0 = s; n = NF"),
    (MIXED, "", "match(s, /(a|b)*a(a|b){12}#/)"),
    (MIXED, "", "gsub(/(a|b)*a(a|b){12}#|a/, \"x\", s)"),
    (MIXED, "", "split(s, p, /(a|b)*a(a|b){12}#|a/)"),
    (MIXED, "", "FS = \"(a|b)*a(a|b){12}#|a\"; $0 = s; n = NF"),
    (MIXED, "", "gsub(/(a|b)*a(a|b){200}#|a/, \"x\", s)"),
]
LARGE = [
    ("a", "", "match(s, /((a?){141}){141}b/)"),
    ("a", "b", "match(s, /((a?){141}){141}b/)"),
    ("a", "", "match(s, /((a?){141}){141}/)"),
    ("ab", "c", "match(s, /((a|b){100}){99}c/)"),
    ("ab", "", "match(s, /([^c]{0,255}){78}c/)"),
    ("ab", "", "match(s, /(([ab]*c){141}){70}/)"),
    ("a", "", "gsub(/((a?){141}){141}b|a/, \"x\", s)"),
    ("ab", "", "split(s, p, /((a|b){100}){99}c|b/)"),
    ("ab", "", "gsub(/(([ab]*c){141}){70}|b/, \"x\", s)"),
]


def run(command, folder, case, size, limit, rounds):
    unit, end, operation = case
    text = f'for (t = "{unit}"; length(t) < {size}; ) t = t t; t = substr(t, 1, {size}) "{end}"'
    script = f"BEGIN {{ {text}; for (k = 0; k < {rounds}; k++) {{ s = t; {operation} }} }}\n"
    with open(f"{folder}/s.awk", "w") as out:
        out.write(script)
    before = resource.getrusage(resource.RUSAGE_CHILDREN)
    ran = subprocess.run(
        command,
        stdin=subprocess.DEVNULL,
        capture_output=True,
        cwd="/tmp",
        env={**os.environ, "LC_ALL": "C"},
        preexec_fn=lambda: resource.setrlimit(resource.RLIMIT_CPU, (limit, limit)),
    )
    after = resource.getrusage(resource.RUSAGE_CHILDREN)
    if ran.returncode < 0:
        return math.inf
    if ran.returncode:
        raise SystemExit(f"{operation}: {ran.stderr.decode().strip()}")
    return after.ru_utime + after.ru_stime - before.ru_utime - before.ru_stime


def one(command, folder, case, size, limit):
    """The seconds of one operation, or infinity."""
    start = min(run(command, folder, case, size, limit, 0) for _ in range(3))
    if start == math.inf:
        return start
    rounds = 1
    while True:
        took = run(command, folder, case, size, limit, rounds) - start
        if took >= ENOUGH or rounds >= 1 << 20:
            more = range(2 if took < 1 else 0)
            again = [run(command, folder, case, size, limit, rounds) - start for _ in more]
            return min([took, *again]) / rounds
        rounds *= 8 if took < ENOUGH / 8 else 2


def times(command, folder, case, sizes, limit):
    found = []
    for size in sizes:
        found.append(math.inf if math.inf in found else one(command, folder, case, size, limit))
    return found


def exponent(found, sizes):
    return math.log(found[-1] / found[0]) / math.log(sizes[-1] / sizes[0]) if found[-1] < math.inf else math.inf


def shown(found, sizes):
    cells = ["%9.3f" % (t * 1000) if t < math.inf else "        -" for t in found]
    if found[-1] == math.inf:
        return " ".join(cells) + "     -"
    return " ".join(cells) + "%6.2f" % exponent(found, sizes)


def main():
    ap = argparse.ArgumentParser(description=__doc__, formatter_class=argparse.RawDescriptionHelpFormatter)
    ap.add_argument("program")
    ap.add_argument("--large", action="store_true")
    a = ap.parse_args()
    with tempfile.TemporaryDirectory() as folder:
        with open(f"{folder}/policy.toml", "w") as out:
            out.write(POLICY)
        script = ["-f", f"{folder}/s.awk"]
        under = ["--policy", f"{folder}/policy.toml", "--log", f"{folder}/log"]
        own = [os.path.abspath(a.program), "run", *under, *script]
        gawk = ["gawk", *script] if shutil.which("gawk") else None
        sizes, limit = LONG if a.large else USUAL
        title = "milliseconds for %d, %d, %d KB, exponent" % tuple(size // 1024 for size in sizes)
        print("%-44s %35s %35s" % (title, "awkbox", "gawk"))
        worst = (0, 0)
        for case in LARGE if a.large else CASES:
            ours = times(own, folder, case, sizes, limit)
            theirs = times(gawk, folder, case, sizes, limit) if gawk else [math.inf] * len(sizes)
            found = (exponent(ours, sizes), ours[-1] / sizes[-1] * 1e9)
            worst = tuple(max(pair) for pair in zip(worst, found))
            named = f"{case[2]}  on {case[0][:9]}..{case[1]}"
            row = (named, shown(ours, sizes), shown(theirs, sizes), found[1])
            print("%-44s %s %s  %8.1f ns a byte" % row, flush=True)
        print("the worst: exponent %.2f, %.1f ns a byte" % worst)


if __name__ == "__main__":
    main()
