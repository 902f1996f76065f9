#!/usr/bin/env python3
"""stack-of-forms.py [--nests] PROGRAM: the bytes of stack that each form of the language takes where it nests,
beside those of a call.

A function calls itself 60 and 120 times deep, at the bottom reads its own VmStk from /proc/self/status, and is run with
the form nested 0 and 8 times around the call. The stack grows by pages, so a number is right to some 10 bytes. Linux
alone.

With --nests each form is nested too deep instead: 199 calls with 60 of it around each. A run has to end by itself, as
F13 where the nest is too deep, and 199 calls with 20 `if` around each have to come to their end. The last line counts
the trials."""
import re
import subprocess
import sys
import tempfile

NESTS, FEW, MANY = 8, 60, 120
POLICY = 'version = 1\nbase = "/proc"\n\n[[rule]]\neffect = "allow"\nkind = "read"\nmatch = "**"\n'
SHOW = 'while ((getline l < "/proc/self/status") > 0) if (l ~ /VmStk/) print l; exit'
EXPRESSIONS = [
    "-(%s)", "!(%s)", "((%s)+n)", "(n+(%s))", "(n^(%s))", "((%s) n)", "(n (%s))", "((%s)<n)", "(n<(%s))", "((%s)?n:1)",
    "(n+1?(%s):1)", "((%s)&&n)", "((%s)||n)", "((%s)~n)", "(n~(%s))", "$(%s)", "a[%s]", "a[%s,1]", "((%s) in a)",
    "((%s,1) in a)", "(v=(%s))", "(a[%s]=n)", "($(%s)=n)", "(v+=(%s))", "(a[%s]+=n)", "(a[%s]++)", "($(%s)++)",
    "length(%s)", "tolower(%s)", "int(%s)", "index((%s),n)", "substr((%s),n)", "substr((%s),n,n)",
    'sprintf("%%s",(%s))', "match((%s),n)", "match(n,(%s))", "split((%s),b,n)", "split(n,b,(%s))", "sub(n,(%s),v)",
    "gsub((%s),n,v)", "close(%s)", "fflush(%s)", "g(%s)", "(getline q < (%s))",
]
STATEMENTS = [
    "if (n>0||n<5) %s", "if (n<0) n=1; else %s", "{ n=n; %s }", "while (n>-1) { %s; break }",
    "do { %s; break } while (n)", "for (i=0;i<1;i++) { %s; break }", "for (i in c) %s",
]


def stack(program, folder, body, depth):
    functions = "function g(x) { return x } function f(n) { if (n < 1) { %s } %s }" % (SHOW, body)
    script = "%s BEGIN { c[1]; f(%d) }" % (functions, depth)
    for name, text in (("s.awk", script), ("policy.toml", POLICY)):
        with open(f"{folder}/{name}", "w") as out:
            out.write(text)
    command = [program, "run", "--policy", f"{folder}/policy.toml", "--log", f"{folder}/log", "-f", f"{folder}/s.awk"]
    ran = subprocess.run(command, capture_output=True, text=True, timeout=60, stdin=subprocess.DEVNULL, cwd="/proc")
    found = re.search(r"VmStk:\s+(\d+)", ran.stdout)
    if not found:
        raise SystemExit(f"{body}: {ran.stderr.strip() or ran.returncode}")
    return int(found[1]) * 1024


def each_call(program, folder, body):
    return (stack(program, folder, body, MANY) - stack(program, folder, body, FEW)) / (MANY - FEW)


def nested(form, inner, times=NESTS):
    for _ in range(times):
        inner = form % inner
    return inner


def ends_well(program, folder, body, wanted):
    functions = "function g(x) { return x } function f(n) { if (n < 1) return 0; %s }" % body
    script = f'{functions} BEGIN {{ c[1]; f(199); print "done" }}'
    with open(f"{folder}/s.awk", "w") as out:
        out.write(script)
    with open(f"{folder}/policy.toml", "w") as out:
        out.write(POLICY)
    command = [program, "run", "--policy", f"{folder}/policy.toml", "--log", f"{folder}/log", "-f", f"{folder}/s.awk"]
    ran = subprocess.run(command, capture_output=True, text=True, timeout=60, stdin=subprocess.DEVNULL, cwd="/proc")
    told = "done" if ran.stdout.startswith("done") else "F13" if " F13 " in ran.stderr else "other"
    if told in wanted and ran.returncode in (0, 2):
        return True
    print(f"{body[:60]}..: status {ran.returncode} {ran.stderr.strip()[:80]}")
    return False


def nests(program):
    passed = failed = 0
    with tempfile.TemporaryDirectory() as folder:
        trials = [("%s" % nested("if (n>0||n<5) %s", "f(n-1)", 20), ("done",))]
        trials += [("return %s+0" % nested(form, "f(n-1)", 60), ("done", "F13")) for form in EXPRESSIONS]
        trials += [("%s" % nested(form, "f(n-1)", 60), ("done", "F13")) for form in STATEMENTS]
        for body, wanted in trials:
            good = ends_well(program, folder, body, wanted)
            passed, failed = passed + good, failed + (not good)
    print(f"{passed} passed, {failed} failed")
    return failed == 0


def main():
    if sys.argv[1] == "--nests":
        sys.exit(0 if nests(sys.argv[2]) else 1)
    program = sys.argv[1]
    with tempfile.TemporaryDirectory() as folder:
        for forms, body, inner in ((EXPRESSIONS, "return %s+0", "f(n-1)"), (STATEMENTS, "%s", "f(n-1)+0")):
            alone = each_call(program, folder, body % inner)
            print(f"{alone:6.0f}  a call, as  {body % inner}")
            for form in forms:
                whole = each_call(program, folder, body % nested(form, inner))
                print(f"{(whole - alone) / NESTS:6.0f}  {form.replace('%%', '%')}")


if __name__ == "__main__":
    main()
