#!/usr/bin/env python3
"""growths.py ROWS: refuses each growth of memory in turn in worked rows, by the program crates/rows/out/rows.

A line for each row, and a last line 'N passed, M failed'. The program is started in a folder that has one table with
one row in it, once for each growth, with scripts/refuse.c before its C library; so it is the proved program that
runs, and it needs a C compiler. What it tells of the row is compared with the row here: with one growth refused a run
has its own answer, as where a cache alone was refused, or says that memory was refused (F13, P8, S9, or F12 where the
log's own writer was refused), and then its requests, its log and its outputs are the first of the row's. A list of
sites and a check have their own answer or say the same."""
import ast
import collections
import concurrent.futures
import os
import pathlib
import re
import shutil
import subprocess
import sys
import tempfile

TOP = pathlib.Path(__file__).resolve().parent.parent
# the most growths that a row and what is made ready for it may have
MOST = 5000
# which answer says that memory was refused, with the exit status and the end of the log that go with it
REFUSALS = [
    ("F13", r"awkbox: 0:0 F13 .*", "2", "whole"),
    ("F12", r"awkbox: \d+:\d+ F12 .*", "2", "part"),
    ("P8", r"awkbox: policy P8", "3", "whole"),
    ("S9", r"awkbox: script \d+:\d+ S9", "3", "whole"),
]
# an answer with no place for a text of its own
OUT_OF_MEMORY = "F13 out of memory"

# a line of a table: its number, its indentation, its name, its second argument and its answer; its text
Line = collections.namedtuple("Line", "number indent name second answer text")
# a row by itself: where it stands, the table that it lies in, and its lines
Row = collections.namedtuple("Row", "name table lines")


def compiled(folder):
    """The library that is loaded before the C library."""
    kit = pathlib.Path(shutil.which("rt") or "/").resolve().parent.parent
    compilers = [os.environ.get("CC"), "cc", "gcc", "clang", str(kit / "toolchain/bin/clang")]
    library = f"{folder}/refuse.so"
    for compiler in filter(None, compilers):
        if shutil.which(compiler):
            command = [compiler, "-O1", "-fPIC", "-shared", "-o", library, str(TOP / "scripts/refuse.c")]
            if subprocess.run(command, capture_output=True).returncode == 0:
                return library
    raise SystemExit("no C compiler\n0 passed, 1 failed")


def unquoted(text):
    """The text of a row's answer: quoted pieces, each as often as it says, or a bare word."""
    pieces = re.findall(r'"((?:[^"\\]|\\.)*)"(?: x (\d+))?|`([^`]*)`', text)
    if not pieces:
        return text
    return "".join(raw or ast.literal_eval(f'"{quoted}"') * int(times or 1) for quoted, times, raw in pieces)


def lines_of(text):
    """Each line of a table, where one in backquotes goes on to the line that closes them."""
    lines = text.splitlines()
    at = 0
    while at < len(lines):
        number, line = at + 1, lines[at]
        at += 1
        if not line or line.startswith("#"):
            continue
        while line.count("`") % 2:
            line += "\n" + lines[at]
            at += 1
        head, _, answer = line.partition(" => ")
        words = [word.strip() for word in head.split(" | ")]
        second = words[1] if len(words) > 1 else ""
        yield Line(number, len(line) - len(line.lstrip(" ")), words[0].split(" ")[0], second, answer, line)


def rows():
    """The rows: each run of growths.txt, and in listings.txt each check, and each list of a script that is accepted."""
    found = []
    for table in ["growths.txt", "listings.txt"]:
        for line in lines_of((TOP / "crates/rows/data" / table).read_text()):
            if line.indent == 0:
                head = line.text
                if line.name == "list" and not re.fullmatch(r"\d+:\d+ S\d", line.answer):
                    found.append(Row(f"{table}:{line.number}", table, [line.text]))
            elif line.indent == 2:
                found.append(Row(f"{table}:{line.number}", table, [head, line.text]))
            else:
                found[-1].lines.append(line.text)
    return found


def told(rows_program, library, folder, number):
    """What the program tells with this growth refused: for a line of the table what came in place of its answer."""
    env = {"LD_PRELOAD": library, "REFUSED": str(number)}
    ran = subprocess.run([rows_program], cwd=folder, env=env, capture_output=True, text=True, timeout=60)
    if ran.returncode not in (0, 1):
        return {0: f"ended with status {ran.returncode}"}
    came = re.findall(r"^(?:growths|listings)\.txt:(\d+): came (.*)$", ran.stdout, re.M)
    return {int(line): re.sub(r"\\x(..)", lambda byte: chr(int(byte[1], 16)), text) for line, text in came}


def is_begun(line, came, asks):
    """Whether what came is the beginning of what the line has, in a run that asked so many requests."""
    if line.name == "asked":
        return came == "none" and int(line.second) > asks
    if line.name in ("steps", "asks"):
        return came == "none" or int(came) <= int(line.answer)
    if line.name in ("log", "output", "errors", "file", "fed"):
        return came == "none" or unquoted(line.answer).startswith(came)
    return False


def run_said(lines, came):
    """What a run says: `own`, a refusal's code, `outside` where no part of the run was refused, or what is wrong."""
    steps = {line.number: line for line in lines if line.answer}
    if not came:
        return "own"
    if set(came) - set(steps) or OUT_OF_MEMORY in came.values():
        return "outside"
    named = {line.name: came[line.number] for line in steps.values() if line.number in came}
    for code, message, status, log_end in REFUSALS:
        if re.fullmatch(message, named.get("says", "")):
            break
    else:
        return f"wrong: {named}"
    full = {line.name: line.answer for line in steps.values()}
    if named.get("status", full["status"]) != status or named.get("log_end", full["log_end"]) != log_end:
        return f"wrong: {named}"
    asks = int(named.get("asks", full["asks"]))
    for number, text in came.items():
        if steps[number].name not in ("says", "status", "log_end") and not is_begun(steps[number], text, asks):
            return f"wrong: {steps[number].text.strip()}: {text}"
    return code


def listing_said(lines, came):
    """The same of a list of sites or a check."""
    if not came:
        return "own"
    text = came.pop(lines[-1].number, "")
    if came:
        return "outside"
    if text == OUT_OF_MEMORY:
        return "Memory"
    if re.fullmatch(r"\d+:\d+ S9", text):
        return "S9"
    return "outside" if "bytes are not read" in text else f"wrong: {text}"


def swept(rows_program, library, row):
    """What is said with each growth of the row refused. Those before are passed over; the one behind it ends this."""
    said = []
    with tempfile.TemporaryDirectory() as folder:
        pathlib.Path(folder, row.table).write_text("\n".join([*row.lines, ""]))
        lines = list(lines_of("\n".join(row.lines)))
        judge = run_said if row.table == "growths.txt" else listing_said
        if told(rows_program, library, folder, 0):
            return ["wrong: the row does not hold"]
        for number in range(1, MOST):
            answer = judge(lines, told(rows_program, library, folder, number))
            if said and answer == "outside":
                return said
            if said or answer not in ("outside", "own", "Memory"):
                said.append(answer)
    return [*said, f"wrong: more than {MOST} growths"]


def main():
    """Tells what came of each row, and gives the exit status."""
    if len(sys.argv) != 2:
        raise SystemExit(__doc__)
    program = str(pathlib.Path(sys.argv[1]).resolve())
    passed = failed = growths = 0
    with tempfile.TemporaryDirectory() as folder, concurrent.futures.ThreadPoolExecutor(os.cpu_count()) as pool:
        library = compiled(folder)
        all_rows = rows()
        for row, said in zip(all_rows, pool.map(lambda row: swept(program, library, row), all_rows)):
            counts = collections.Counter(said)
            answers = ", ".join(f"{answer} {count}" for answer, count in counts.items())
            print(f"{row.name}: {len(said)} growths, each refused: {answers}")
            growths += len(said)
            wrong = any(answer.startswith("wrong") for answer in said)
            passed, failed = passed + (not wrong), failed + wrong
    print(f"{growths} growths of {len(all_rows)} rows")
    print(f"{passed} passed, {failed} failed")
    return bool(failed)


if __name__ == "__main__":
    sys.exit(main())
