#!/usr/bin/env python3
"""policy-schema.py PROGRAM: docs/awkbox-policy.schema.json beside the code that reads policies, and this program.

Compares its keys, words and limits with those of crates/box_policy. Where Python has tomllib and jsonschema, it then
holds policies against the schema and hands them to `PROGRAM lint`, which have to agree: those of the examples and the
pages, and the rows below. A line for each case, and a last line 'N passed, M failed'."""

from __future__ import annotations

import json
import re
import subprocess
import sys
from pathlib import Path

TOP = Path(__file__).resolve().parent.parent
SCHEMA = json.loads((TOP / "docs/awkbox-policy.schema.json").read_text())
WORDS = (TOP / "crates/box_policy/specs/Words.antt").read_text()
READING = (TOP / "crates/box_policy/src/reading.rt").read_text()
POLICY = (TOP / "crates/box_policy/src/policy.rt").read_text()
TOP_OF_1 = 'version = 1\nbase = "/w"\n'
TOP_OF_2 = 'version = 2\nbase = "/w"\n'
# What is in a policy, whether it is in order, and the policy: worked by hand from docs/POLICY.md.
ROWS = [
    ("no rule", True, TOP_OF_1),
    ("a comment that names the schema", True, "#:schema file:///usr/local/share/x.json\n" + TOP_OF_1),
    ("no version", False, 'base = "/w"\n'),
    ("a version 3", False, 'version = 3\nbase = "/w"\n'),
    ("a version that is a text", False, 'version = "1"\nbase = "/w"\n'),
    ("no base", False, "version = 1\n"),
    ("the root as base", True, 'version = 1\nbase = "/"\n'),
    ("a relative base", False, 'version = 1\nbase = "."\n'),
    ("a base that is a number", False, "version = 1\nbase = 1\n"),
    ("an empty base", False, 'version = 1\nbase = ""\n'),
    ("a base with *", False, 'version = 1\nbase = "/w*"\n'),
    ("a base that goes up", False, 'version = 1\nbase = "/w/.."\n'),
    ("a base with a component ...", True, 'version = 1\nbase = "/w/.../x"\n'),
    ("a base with NUL", False, 'version = 1\nbase = "/w\\u0000"\n'),
    ("a base with a line's end", True, 'version = 1\nbase = "/w\\n"\n'),
    ("a key that is not known", False, TOP_OF_1 + "rules = []\n"),
    ("a table for the rules", False, TOP_OF_1 + "[rule]\n"),
    ("a rule that is no table", False, TOP_OF_1 + "rule = [1]\n"),
    ("rules in one value", True, TOP_OF_1 + 'rule = [{ effect = "deny", kind = "env", match = "A" }]\n'),
    ("1,024 rules", True, TOP_OF_1 + '[[rule]]\neffect = "deny"\nkind = "env"\nmatch = "A"\n' * 1024),
    ("1,025 rules", False, TOP_OF_1 + '[[rule]]\neffect = "deny"\nkind = "env"\nmatch = "A"\n' * 1025),
]
# The same of a single rule of version 2, by the lines of its table; a first word 1 stands for version 1.
RULES = [
    (True, 'effect = "allow"', 'kind = "read"', 'match = "a"', 'from = "given"', "limit = 1"),
    (True, 'effect = "deny"', 'kind = "assign"', 'match = "a*"', 'from = "any"'),
    (True, 'effect = "allow"', 'kind = "append"', 'match = "/**/a?/*"', "limit = 1_000_000"),
    (True, 'effect = "allow"', 'kind = "run"', 'match = "a** | b"'),
    (True, 'effect = "allow"', 'kind = "env"', 'match = "LC_*"'),
    (True, "1", 'effect = "allow"', 'kind = "write"', 'match = "./a//...b/**/"'),
    (False, 'kind = "read"', 'match = "a"'),
    (False, 'effect = "allow"', 'match = "a"'),
    (False, 'effect = "allow"', 'kind = "read"'),
    (False, 'effect = "alow"', 'kind = "read"', 'match = "a"'),
    (False, 'effect = "allow"', 'kind = "open"', 'match = "a"'),
    (False, 'effect = "allow"', 'kind = ["read"]', 'match = "a"'),
    (False, 'effect = "allow"', 'kind = "run"', "match = 1"),
    *[(False, 'effect = "allow"', f'kind = "{it}"', 'match = "a/.."') for it in ("write", "append")],
    (False, 'effect = "allow"', 'kind = "read"', 'match = "a"', "path = 1"),
    (False, 'effect = "allow"', 'kind = "read"', 'match = "a"', 'from = "file"'),
    *[(False, 'effect = "allow"', f'kind = "{it}"', 'match = "a"', 'from = "any"')
      for it in ("write", "append", "run", "env")],
    (False, 'effect = "deny"', 'kind = "read"', 'match = "a"', "limit = 1"),
    (False, "1", 'effect = "allow"', 'kind = "read"', 'match = "a"', "limit = 1"),
    *[(False, 'effect = "allow"', 'kind = "read"', 'match = "a"', f"limit = {it}")
      for it in (0, -1, 1000001, '"1"', 1.5)],
    *[(False, 'effect = "allow"', 'kind = "read"', f'match = "{it}"')
      for it in ("", "..", "a/../b", "../a", "a/..", "a**", "**a", "a/***", "\\u0000")],
    *[(False, 'effect = "allow"', 'kind = "run"', f'match = "{it}"') for it in ("", "a\\u0000")],
    *[(False, 'effect = "allow"', 'kind = "env"', f'match = "{it}"') for it in ("", "a-b", "a b", "a?", "\\u00e4")],
    (False, 'effect = "allow"', 'kind = "assign"', 'match = "a=b"'),
    (True, 'effect = "allow"', 'kind = "run"', f'match = "{"a" * 4096}"'),
    (False, 'effect = "allow"', 'kind = "run"', f'match = "{"a" * 4097}"'),
]


def rows() -> list[tuple[str, bool, str]]:
    found = list(ROWS)
    for fine, *lines in RULES:
        top = TOP_OF_1 if lines[0] == "1" else TOP_OF_2
        body = "\n".join(it for it in lines if it != "1")
        found.append((f"a rule: {', '.join(lines)[:100]}", fine, f"{top}[[rule]]\n{body}\n"))
    for file in sorted((TOP / "examples").glob("*/policy.toml")):
        found.append((str(file.relative_to(TOP)), True, file.read_text()))
    page = (TOP / "docs/POLICY.md").read_text()
    blocks = re.findall(r"^```toml\n(.*?)^```", page, re.S | re.M)
    assert blocks, "docs/POLICY.md has samples"
    for number, block in enumerate(blocks, 1):
        found.append((f"sample {number} of docs/POLICY.md", True, block))
    manual = (TOP / "man/awkbox-policy.5").read_text()
    blocks = re.findall(r"^\.Bd [^\n]*\n(version.*?)^\.Ed", manual, re.S | re.M)
    assert blocks, "awkbox-policy(5) has samples"
    for number, block in enumerate(blocks, 1):
        found.append((f"sample {number} of awkbox-policy(5)", True, block))
    return found


def body_of(text: str, head: str, end: str) -> str:
    """What stands behind this line of a source, up to the end."""
    return text.split(head, 1)[1].split(end, 1)[0]


def named(function: str) -> list[set[str]]:
    """The words that a function tells from one another, as the specification and as the code have it."""
    said = body_of(WORDS, f"\n{function} ", "\n\n")
    code = body_of(READING, f"fn {function}(", "\n}").split("\n{\n", 1)[1]
    return [set(re.findall(r'codes "(\w+)"', said)), set(re.findall(r'"(\w+)"', code))]


passed = failed = 0


def tell(name: str, held: bool, seen: object) -> None:
    global passed, failed
    passed, failed = passed + held, failed + (not held)
    print(f"{'ok  ' if held else 'FAIL'} {name}" + ("" if held else f"\n     | {seen}"))


def compare() -> None:
    top, rule = SCHEMA["properties"], SCHEMA["properties"]["rule"]["items"]
    keys = rule["properties"]
    for name, function, ours in (
        ("keys", "is_top_key", set(top)), ("keys of a rule", "is_rule_key", set(keys)),
        ("kinds", "kind_named", set(keys["kind"]["enum"])), ("effects", "effect_named", set(keys["effect"]["enum"])),
        ("words of from", "from_named", set(keys["from"]["enum"])),
    ):
        theirs = named(function)
        tell(name, theirs == [ours, ours], (ours, theirs))
    versions = {int(it) for it in re.findall(r"int_eq z \(pos (\d+)\)", WORDS)}
    tell("versions", versions == set(top["version"]["enum"]), versions)
    limits = [int(it) for it in re.findall(r"pos (\d+)", body_of(WORDS, "\nquota_named z", "then"))]
    tell("limits", limits == [keys["limit"]["minimum"], keys["limit"]["maximum"]], limits)
    sizes = {name: int(it.replace("_", "")) for name, it in re.findall(r"const (MAX_\w+): \w+ = ([\d_]+);", POLICY)}
    ours = {"MAX_RULES": top["rule"]["maxItems"], "MAX_PATTERN": keys["match"]["maxLength"], "MAX_LIMIT": limits[-1]}
    tell("sizes", sizes == ours, sizes)
    needed = set(re.findall(r'has_key \(codes "(\w+)"\)', body_of(WORDS, "\nhas_rule_keys version rule", "\n\n")))
    tell("keys that a rule needs", needed == set(rule["required"]), needed)
    described = [it for table in (top, keys) for it in table if len(table[it].get("description", "")) < 20]
    tell("each key is described", not described, described)


def agree(program: str) -> None:
    try:
        import jsonschema
        import tomllib
    except ImportError as lacking:
        print(f"no {lacking.name} for Python: no policy is held against the schema")
        return
    jsonschema.Draft7Validator.check_schema(SCHEMA)
    validator = jsonschema.Draft7Validator(SCHEMA)
    for name, fine, text in rows():
        by_schema = validator.is_valid(tomllib.loads(text))
        lint = subprocess.run([program, "lint", "--policy", "-"], input=text.encode(), capture_output=True)
        held = by_schema == fine and lint.returncode == (0 if fine else 3)
        tell(name, held, (by_schema, lint.returncode, lint.stdout))


def main() -> int:
    compare()
    agree(sys.argv[1])
    print(f"{passed} passed, {failed} failed")
    return failed > 0


if __name__ == "__main__":
    sys.exit(main())
