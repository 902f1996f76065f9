#!/usr/bin/env python3
"""Runs random scripts by awkbox and by the other awks that are installed, and compares what comes of them.

The scripts and their inputs are of the common part of the language: whole numbers of moderate size, with `--numbers
double` fractions too, by OFMT and CONVFMT that they set, and nothing of what docs/LANGUAGE.md lists under "Where other
awks answer otherwise". Each runs in a folder of its own, awkbox under a policy that allows what the scripts ask for.
Compared are the exit status, the standard output and the files left.

A script fails where all other awks agree with one another and awkbox answers otherwise; where a single other awk is
installed, where the two differ. A script is undecided, and only counted, where the others do not agree, where a run
does not end in time, or where no other awk has what it needs (an awk without a form of the standard is left out of
the scripts that have that form). So a fault that one other awk shares goes unseen: --beside compares with one alone.

A script that fails is made smaller for as long as it fails, and printed as a row of runs.txt with the answers of the
other awks. The scripts depend on the seed alone. The last line counts: 'N passed, M failed'.
"""
import argparse
import itertools
import os
import random
import re
import resource
import shutil
import signal
import subprocess
import sys
import tempfile
import time
from collections import Counter
from dataclasses import dataclass, replace
from pathlib import Path
from typing import NamedTuple, Optional

TOP = Path(__file__).resolve().parent.parent
BUILT = TOP / "crates/awkbox_program/out/awkbox_program"
OTHERS = {
    "gawk": ["gawk", "--posix"],
    "mawk": ["mawk"],
    "original-awk": ["original-awk"],
    "busybox": ["busybox", "awk"],
}

# ---- The grammar: for each kind its forms, a line each, as `weight level template`.
#
# In a template `<kind>` is a part of that kind, `<kind:level>` one that stands in parentheses where it binds looser
# than the level, and `{kind}` the name that `<kind>` gave before. Kinds without an entry are made by Maker.
#
# The kinds keep to the common part. What is multiplied is small, and not negative, since other awks have a negative
# zero; what comes out negative or large is cut down by `%` before it is kept. A `text` compares alike in all awks;
# `any` may be a field that is not there too, which does not. Nothing that is evaluated changes what stands beside it,
# since awks differ in their order: so a function of an expression changes its own variables only, and a
# `print-statement`, which stands in loops over a file, neither reads nor closes one.

LEVELS = "any choice or and match comparison concatenation sum product sign power operand".split()

GRAMMAR = r"""
number
    5 operand <few>
    1 choice -<few>
    5 operand <number-name>
    4 operand <positive>
    3 sum <number:sum> + <number:product>
    3 sum <number:sum> - <number:product>
    2 product <positive:product> * <positive:sign>
    1 product <number:product> % <divisor> + 0
    1 operand int(<number:product> / <divisor>) + 0
    1 choice <condition:or> ? <number> : <number:choice>
    1 sum <cut-text> + 0
    1 operand <number-array>[<key>]
    4 operand <number-call>
positive
    5 operand <few>
    2 operand <count>
    2 operand length(<any>)
    1 operand length()
    2 operand index(<any>, <word>)
    1 operand (!(<condition>))
    1 operand ARGC
    1 operand <power>
power
    1 power <few> ^ <exponent>
power-assignment
    1 any <number-target> = <few>; {number-target} ^= <exponent>
cut-text
    2 operand substr(<any>, <place>, 4)
    1 operand substr(<any>, <place>, <few>)
any
    5 operand <field>
    6 operand <text>
text
    5 operand <word>
    5 operand <text-name>
    4 concatenation <any:concatenation> <any:sum>
    2 concatenation <any:concatenation> <number:sum>
    1 concatenation <number:sum> <any:sum>
    2 operand <cut-text>
    1 operand substr(<any>, <place>)
    1 operand tolower(<any>)
    1 operand toupper(<any>)
    1 operand sprintf(<format>)
    1 choice <condition:or> ? <text> : <text:choice>
    1 operand <text-array>[<key>]
    1 operand <piece-array>[<place>]
    4 operand <text-call>
    1 operand <file-name>
    1 operand ARGV[1]
    1 operand ENVIRON["BESIDE"]
condition
    4 comparison <number:concatenation> <comparison> <number:concatenation>
    3 comparison <text:concatenation> <comparison> <text:concatenation>
    1 comparison <text:concatenation> <comparison> <number:concatenation>
    2 and length($<place>) && ${place} <comparison> <number:concatenation>
    1 and length($<place>) && ${place} <comparison> <text:concatenation>
    3 match <any:comparison> ~ <regex>
    1 match <any:comparison> !~ <regex>
    1 match <any:comparison> ~ <regex-text>
    2 operand <regex>
    1 operand !<regex>
    2 and <condition:and> && <condition:match>
    2 or <condition:or> || <condition:and>
    1 operand !(<condition>)
    1 match <key:comparison> in <array>
    1 match (<few>, <word>) in <array>
    1 operand <text-name>
    1 operand <number-name>
    1 operand $<place>
key
    3 operand <word>
    2 operand <few>
    2 operand <field>
    1 operand <cut-text>
    1 operand <number-name>
    1 any <few>, <word>
regex
    1 operand /<ere>/
regex-text
    1 operand "<ere>"
ere
    4 any <branch>
    1 any ^<branch>
    1 any <branch>$
    1 any ^<branch>$
    1 any <branch>|<ere>
branch
    3 any <repeated>
    3 any <repeated><branch>
repeated
    20 any <atom>
    4 any <atom>*
    4 any <atom>+
    4 any <atom>?
    1 any <interval>
interval
    1 any <atom>{<place>}
    1 any <atom>{<place>,}
    1 any <atom>{1,<place>}
atom
    9 any <letter>
    2 any .
    2 any [<letter><letter>]
    1 any [^<letter><letter>]
    1 any [a-c]
    1 any [0-9]
    1 any [[:digit:]<letter>]
    1 any [^[:alpha:]]
    2 any (<branch>)
    1 any (<branch>|<branch>)
body
    3 any <statements>
statement
    8 any print <items>
    1 any print
    1 any print(<items>)
    3 any printf <format>
    1 any printf(<format>)
    2 any print <items> > "out1"
    1 any printf <format> > ("out" 1)
    1 any print <items> >> "out2"
    1 any print <items> | "sort > sorted"
    5 any <number-target> = <number:product> % 10007 + 0
    2 any <number-target> += <few>
    1 any <number-target> -= <few>
    1 any <number-target>++
    1 any --<number-target>
    1 any <number-target> = <counter>++
    1 any <power-assignment>
    1 any <number-target> *= <place>; {number-target} = {number-target} % 1009 + 0
    1 any <number-target> %= <divisor>; {number-target} += 0
    1 any <number-target> *= 4; {number-target} /= 2; {number-target} = {number-target} % 997 + 0
    4 any <text-target> = substr(<text>, 1, 20)
    1 any <text-target> = <word>
    2 any if (length($<place>)) <text-target> = ${place}
    2 any <number-array>[<key>] = <few>
    1 any <number-array>[<key>] += <few>
    2 any <number-array>[<key>]++
    2 any <text-array>[<key>] = <word>
    1 any <text-array>[<key>] = <text-name>
    1 any delete <array>[<key>]
    1 any <number-target> = 0; for (<loop-key> in <number-array>) {number-target} += {number-array}[{loop-key}]
    1 any <number-target> = 0; for (<loop-key> in <array>) {number-target} += length({loop-key})
    1 any for (<loop-key> in <array>) print {loop-key}, {array}[{loop-key}] | "sort > sorted"
    2 any <number-target> = split(<any>, <piece-array>)
    2 any <number-target> = split(<any>, <piece-array>, <separator>)
    2 any if (length(<text-target>) < 60) <number-target> = gsub(<regex>, <replacement>, {text-target})
    1 any <number-target> = sub(<regex>, <replacement>, <text-target>); {text-target} = substr({text-target}, 1, 30)
    1 any if (length($0) < 60) print gsub(<regex>, <replacement>), $0, NF
    1 any if (NF >= <place> && length($0) < 60) print sub(<regex-text>, <replacement>, ${place}), $0, NF
    2 any if (match(<any>, <regex>)) print RSTART, RLENGTH
    1 any $<place> = <few>
    1 any $<place> = substr(<text>, 1, 6)
    1 any NF = <place>
    1 any $0 = substr(<text>, 1, 20)
    3 any if (<condition>) <block>
    2 any if (<condition>) <block> else <block>
    2 any for (<counter> = 0; {counter} < <few>; {counter}++) <loop-block>
    2 any <counter> = 0; while ({counter}++ < <place>) <loop-block>
    2 any <counter> = 0; do <loop-block> while (++{counter} < <place>)
    1 any for (<counter> = 0; ; {counter}++) { if ({counter} > <place>) break; print {counter} }
    1 any <block>
    1 any if ((getline <text-target>) > 0) print NF, {text-target}
    1 any if ((getline) > 0) print NF, $0
    2 any while ((getline <text-target> < "in2") > 0) <print-block>; close("in2")
    1 any while ((getline < "in2") > 0) <print-block>; close("in2")
    1 any print (getline <text-target> < "none")
    1 any print <items> > "tmp"; close("tmp"); while ((getline <text-target> < "tmp") > 0) <print-block>; close("tmp")
    1 any <command-loop>
    1 any print (system("exit <few>") > 0)
    9 any <procedure-call>
reading-loop
    2 any while (("sort in2" | getline <text-target>) > 0) <print-block>; close("sort in2")
    1 any while (("sort in2" | getline) > 0) <print-block>; close("sort in2")
print-block
    1 any { <print-statement> }
    1 any { <print-statement>; <print-statement> }
print-statement
    3 any print <items>
    1 any printf <format>
    1 any <number-target> += <few>
    1 any <number-array>[<key>]++
loop-block
    4 any <block>
    1 any { if (<condition>) break; <print-statement> }
    1 any { if (<condition>) continue; <print-statement> }
own-statement
    3 any <number-target> = <number:product> % 10007 + 0
    3 any <text-target> = substr(<text>, 1, 20)
    2 any <number-array>[<key>]++
    2 any if (<condition>) <own-block>
    1 any if (length(<text-target>) < 60) <number-target> = gsub(<regex>, <replacement>, {text-target})
rule
    6 any <main-block>
    3 any <condition> <main-block>
    2 any <condition>
    2 any <regex> <main-block>
    1 any <regex>
    1 any !<regex>
    1 any <regex>, <regex> <main-block>
    1 any <record-number> == <place>, <regex>
    2 any BEGIN <block>
    3 any END <block>
main-block
    6 any <block>
    1 any { if (<condition>) next; <print-statement> }
    1 any { if (<condition>) exit <few>; <print-statement> }
    1 any { if (<condition>) exit; <print-statement> }
"""

# What stands in the grammar beside it with `--numbers double`. A quotient may be a negative zero in other awks, which
# the sum with 0 is not. OFMT and CONVFMT are set by statements alone, since other awks look at them later within an
# expression. A record whose field is set to a number is made a text at once: awkbox makes the field's text by CONVFMT
# as it was then, and other awks by what it is later.
FRACTIONS = r"""
number
    1 operand length(<number>)
    1 operand index(<number>, ".")
    9 operand <decimal>
    4 sum <number:product> / <divisor> + 0
    2 sum <number:product> / <decimal> + 0
    2 product <positive:product> * <decimal>
    2 sum int(<number:product> * <decimal> + 0) + 0
    2 operand (<field> + 0)
    1 sum <number:product> % <decimal> + 0
power
    1 power <few> ^ <decimal>
any
    7 operand (<number>)
text
    4 concatenation <any:concatenation> (<number>)
    2 operand substr(<number>, <place>)
    1 operand toupper(<number>)
    1 operand tolower(<number>)
    2 operand sprintf(<number>)
condition
    2 and length($<place>) && ${place} <comparison> <few>
    1 comparison <text:concatenation> <comparison> <few>
    2 comparison (<number>) <comparison> <text:concatenation>
    1 comparison <text:concatenation> <comparison> (<number>)
    1 match <number:comparison> ~ <regex>
    1 match <text:comparison> ~ <number-pattern>
number-pattern
    1 operand (<number>)
key
    3 operand <decimal>
    1 operand (<number>)
    1 any <decimal>, <few>
text-format
    1 any CONVFMT = <number-format>
statement
    6 any <text-format>
    6 any OFMT = <number-format>
    1 any OFMT = "%+.2f"
    2 any <number-target> = split(<number>, <piece-array>, ".")
    2 any if (match(<number>, <regex>)) print RSTART, RLENGTH
    2 any if (length(<text-target>) < 60) <number-target> = gsub(<regex>, <number>, {text-target})
    2 any print <items> > <file-number>; close({file-number})
    1 any print <items> >> <file-number>; close({file-number})
    2 any $<place> = <number>; $0 = $0 ""
    2 any <text-target> = <number>; gsub(<regex>, "-", {text-target})
    2 any while ((getline <text-target> < <file-number>) > 0) <print-block>; close({file-number})
    7 any <number-target> += <decimal>
    2 any <number-target> = <number:product> / <divisor> + 0
    2 any <number-array>[<key>] += <decimal>
    2 any if (length($<place>)) <number-array>[<key>] += ${place}
    3 any printf <format>
rule
    9 any BEGIN { <text-format>; OFMT = <number-format> }
"""

# What a part becomes where it is made as small as it goes.
LEAST = {
    "number": ["0", "1"],
    "positive": ["0", "1"],
    "few": ["1"],
    "any": ['""', '"a"', "$0"],
    "text": ['""', '"a"'],
    "cut-text": ['"1"'],
    "key": ['"a"'],
    "word": ['"a"'],
    "condition": ["1", "0"],
    "ere": ["a"],
    "branch": ["a"],
    "repeated": ["a"],
    "atom": ["a"],
    "replacement": ['""', '"x"'],
    "main-block": ["{ print }"],
    "rule": ["{ print }"],
    "print-statement": ["print"],
    "own-block": ["{ }"],
}

LISTS = {"script": "\n", "statements": "\n", "items": ", "}


class Part(NamedTuple):
    """A node in its place, which takes a kind: where it binds looser than the level, it stands in parentheses."""

    node: "Node"
    level: int
    kind: str


@dataclass(frozen=True)
class Node:
    """A piece of a script: its kind, how tight it binds, and its text, in which parts stand."""

    kind: str
    level: int
    pieces: tuple

    def parts(self):
        return [piece for piece in self.pieces if isinstance(piece, Part)]

    def nodes(self):
        """This node and all below it."""
        yield self
        for part in self.parts():
            yield from part.node.nodes()


def leaf(kind, text, level="operand"):
    return Node(kind, LEVELS.index(level), (text,))


def part_text(part):
    text = node_text(part.node)
    return f"({text})" if part.node.level < part.level else text


def format_text(node):
    """The format of its directives, and behind it their values."""
    directives = [part.node for part in node.parts()]
    values = [part_text(part) for directive in directives for part in directive.parts()]
    return ", ".join(['"' + "".join(directive.pieces[0] for directive in directives) + '"'] + values)


def block_text(node):
    inner = "".join(part_text(part) for part in node.parts())
    return "{\n    " + inner.replace("\n", "\n    ") + "\n}" if inner else "{ }"


def node_text(node):
    if node.kind == "format":
        return format_text(node)
    if node.kind == "block":
        return block_text(node)
    if node.kind in LISTS:
        return LISTS[node.kind].join(part_text(part) for part in node.parts())
    return "".join(piece if isinstance(piece, str) else part_text(piece) for piece in node.pieces)


class Hole(NamedTuple):
    """In a form, the place of a part."""

    kind: str
    level: int


class Again(NamedTuple):
    """In a form, the word once more that a hole of this kind got."""

    kind: str


class Form(NamedTuple):
    weight: int
    level: int
    pieces: tuple

    @property
    def kinds(self):
        return {piece.kind for piece in self.pieces if isinstance(piece, Hole)}


TEMPLATE = re.compile(r"([^<{]+|[<{](?![a-z]))|<([a-z-]+)(?::([a-z]+))?>|\{([a-z-]+)\}")


def read_template(template):
    for text, kind, level, again in TEMPLATE.findall(template):
        yield Hole(kind, LEVELS.index(level or "any")) if kind else Again(again) if again else text


def read_grammar(text):
    forms, kind = {}, None
    for line in filter(None, text.splitlines()):
        if not line.startswith(" "):
            kind = line
            forms[kind] = []
            continue
        weight, level, template = line.split(None, 2)
        forms[kind].append(Form(int(weight), LEVELS.index(level), tuple(read_template(template))))
    return forms


FORMS = read_grammar(GRAMMAR)


def mixes(form):
    """Whether a form compares a number with what may be a text."""
    return {"comparison", "number"} <= form.kinds and bool(form.kinds & {"text", "place"})


def add_fractions():
    """What `--numbers double` changes: in the grammar, printf's conversions, the input and what a case begins with."""
    FORMS["condition"] = [form for form in FORMS["condition"] if not mixes(form)]
    for kind, forms in read_grammar(FRACTIONS).items():
        FORMS[kind] = FORMS.get(kind, []) + forms
        SHALLOW[kind] = SHALLOW.get(kind, []) + [form for form in forms if not form.kinds & DEEP] or forms
    DIRECTIVES.extend((conversion, "number", ["-", "+", " ", "0", "-+", "#"]) for conversion in "eEfffggG")
    DIRECTIVES.append(("s", "number", ["-"]))
    STATES[:] = [FRACTIONS_STATE]
    START_ROWS.append("numbers | double")
    LINE_NUMBERS.extend(["1.5", ".25", "-0.75", "1e3", "2.50", "3.0", "+.5", "12.", "1e-2", "0.1", "99.95"])
    # v stands for a number, which is compared with others, so it is no text
    OPTIONS[:] = [option for option in OPTIONS if ("-v", "v=a:1") not in option] + FORMAT_OPTIONS
    OPERANDS[:] = [operand for operand in OPERANDS if "v=a1" not in operand] + FORMAT_OPERANDS


# Numbers that the input has.
LINE_NUMBERS = [0, 1, 2, 5, 9, 10, 12, 100, 999, "05", "+7", -1, -20]

# Parts that are made of one word, and may become another when a script is made smaller.
CONSTANTS = {
    "decimal": ["0.5", ".25", "1.5", "3.14159", "2.", "1e2", "1.5e-1", "10.75", "0.1", "1e-3", "99.99"],
    "few": ["0", "1", "1", "2", "2", "3", "4", "5", "9"],
    "field": ["$0", "$1", "$1", "$2", "$3", "$NF", "$(1 + 1)"],
    "replacement": ['""', '"x"', '"&"', '"<&>"', r'"\\&"', '"-&"', '"a b"'],
    "code": ["65", "97", "49", '"a"', '"bc"', '"5"'],
}

# Words that stay as they are.
WORDS = {
    "place": ["1", "2", "3", "4"],
    "divisor": ["2", "3", "4", "5", "7", "9"],
    "exponent": ["0", "1", "2", "3"],
    "comparison": ["<", "<=", "==", "!=", ">", ">="],
    "letter": list("aaabbbcc012:, "),
    "separator": ['":"', '" "', '","', "/[:,]/", "/b+/", '"[ab]"', '"a|:"', "/, */", "SUBSEP"],
    "number-format": [f'"%{format}"' for format in ".2f .3f .1f .0f 8.3f -7.1f .3g .10g e .2e G .6g".split()],
    "file-number": ["0.5", ".25", "1.75", "(1 / 8)"],
    "text-array": ["B"],
    "piece-array": ["C"],
}

# What a word of a script is made of.
MARKS = ["a", "b", "c", "B", "0", "1", "2", "5", ":", ",", " ", "-", r"\t", r"\n", r"\"", r"\\", r"\101"]

# Conversions of printf, each with the kind of its value and the flags that mean something for it.
DIRECTIVES = [
    ("d", "number", ["-", "+", " ", "0", "-+"]),
    ("i", "number", ["-", "+", " ", "0"]),
    ("o", "positive", ["-", "0"]),
    ("u", "positive", ["-", "0"]),
    ("x", "positive", ["-", "#", "0"]),
    ("X", "positive", ["-", "#", "0"]),
    ("c", "code", ["-"]),
    ("s", "any", ["-"]),
    ("s", "any", ["-"]),
]

# What most scripts end with: what is in their variables.
STATE = """END {
    print n1, n2, n3 ":" t1 ":" t2 ":" t3 ":" v
    for (k in A) print "A", k, A[k] | "sort > sorted"
    for (k in B) print "B", k, B[k] | "sort > sorted"
}"""
STATES = [STATE]

# With fractions the same, and texts of some by OFMT and by CONVFMT.
FRACTIONS_STATE = STATE.replace("END {", 'END {\n    print n1 / 7 + .0625, n2 / 7 + .0625 ":" n3 / 8 + .0625')


def kinds_within(kind):
    """The kinds that may stand where this one may: it, and those that it has as a form by themselves."""
    within = {kind}
    for form in FORMS.get(kind, []):
        if len(form.pieces) == 1 and isinstance(form.pieces[0], Hole):
            within |= kinds_within(form.pieces[0].kind)
    return within


WITHIN = {kind: kinds_within(kind) for kind in FORMS}

# The forms that are left where a script gets too deep: those of single words, if a kind has such ones.
DEEP = FORMS.keys() | {"format", "items", "block", "own-block"}
SHALLOW = {kind: [form for form in forms if not form.kinds & DEEP] or forms for kind, forms in FORMS.items()}


@dataclass
class Scope:
    """The names that may be used in a place."""

    numbers: list
    number_targets: list  # those of them that may be set
    texts: list
    number_arrays: list
    calls: dict  # of a kind of function to the name of the function


class Maker:
    """Makes a random script."""

    def __init__(self, choose, reads_files):
        self.choose = choose
        self.pick = choose.choice
        self.reads_files = reads_files  # FILENAME is open where the standard input is read without an operand
        self.fresh = 0
        self.scope = Scope(["n1", "n2", "n3", "v"], ["n1", "n2", "n3"], ["t1", "t2", "t3"], ["A"], {})
        # NR after a `command | getline` is another in other awks, so a script has the one or the other
        self.reads_commands = choose.random() < 0.2

    def make(self, kind, depth):
        """A node of the kind, or a word that stays as it is."""
        if kind in FORMS:
            return self.make_form(kind, depth)
        if kind in CONSTANTS:
            return leaf(kind, self.pick(CONSTANTS[kind]))
        if kind in WORDS:
            return self.pick(WORDS[kind])
        return getattr(self, "make_" + kind.replace("-", "_"))(depth)

    def make_form(self, kind, depth):
        forms = FORMS[kind] if depth > 0 else SHALLOW[kind]
        form = self.choose.choices(forms, [form.weight for form in forms])[0]
        words, pieces = {}, []
        for piece in form.pieces:
            if isinstance(piece, Again):
                piece = words[piece.kind]
            elif isinstance(piece, Hole):
                made = self.make(piece.kind, depth - 1)
                words[piece.kind] = made
                piece = Part(made, piece.level, piece.kind) if isinstance(made, Node) else made
            pieces.append(piece)
        if len(pieces) == 1 and isinstance(pieces[0], Part):
            return pieces[0].node
        return Node(kind, form.level, tuple(pieces))

    def make_list(self, kind, count, part_kind, depth, level="any"):
        level = LEVELS.index(level)
        return Node(kind, 0, tuple(Part(self.make(part_kind, depth), level, part_kind) for _ in range(count)))

    # words and names

    def make_word(self, _):
        return leaf("word", '"' + "".join(self.choose.choices(MARKS, k=self.pick([1, 1, 2, 3, 4]))) + '"')

    def make_count(self, depth):
        return self.pick(["NF", self.make_record_number(depth)])

    def make_record_number(self, _):
        return "FNR" if self.reads_commands else self.pick(["NR", "FNR"])

    def make_number_name(self, _):
        return leaf("number-name", self.pick(self.scope.numbers))

    def make_number_target(self, _):
        return self.pick(self.scope.number_targets)

    def make_text_name(self, _):
        return leaf("text-name", self.pick(self.scope.texts))

    def make_text_target(self, _):
        return self.pick(self.scope.texts)

    def make_number_array(self, _):
        return self.pick(self.scope.number_arrays)

    def make_array(self, depth):
        return self.pick([self.make_number_array(depth), "B", "C"])

    def make_loop_key(self, _):
        self.fresh += 1
        return f"k{self.fresh}"

    def make_counter(self, _):
        self.fresh += 1
        name = f"i{self.fresh}"
        self.scope.numbers.append(name)
        return name

    def make_file_name(self, depth):
        return leaf("file-name", "FILENAME") if self.reads_files else self.make("word", depth)

    # lists and blocks

    def make_items(self, depth):
        return self.make_list("items", self.pick([1, 1, 2, 2, 3]), "any", depth, "concatenation")

    def make_statements(self, depth):
        return self.make_list("statements", self.pick([1, 2, 2, 3]), "statement", depth)

    def make_block(self, depth):
        return Node("block", 0, (Part(self.make("statements", depth), 0, "statements"),))

    def make_own_block(self, depth):
        statements = self.make_list("statements", self.pick([1, 2]), "own-statement", depth)
        return Node("block", 0, (Part(statements, 0, "statements"),))

    def make_format(self, depth):
        return self.make_list("format", self.pick([1, 1, 2, 3]), "directive", depth)

    def make_directive(self, depth):
        conversion, kind, flags = self.pick(DIRECTIVES)
        flag = self.pick(["", "", *flags])
        width = self.pick(["", "", "1", "3", "6"])
        precision = self.pick(["", "", ".1", ".3"]) if conversion != "c" else ""
        text = f"%{flag}{width}{precision}{conversion}" + self.pick(["", " ", ":", "a", r"\n", "%%"])
        concatenation = LEVELS.index("concatenation")
        return Node("directive", 0, (text, Part(self.make(kind, depth), concatenation, kind)))

    def make_command_loop(self, depth):
        if not self.reads_commands:
            return self.make("print-statement", depth)
        return self.make("reading-loop", depth)

    # functions

    def make_number_call(self, depth):
        return self.make_call("number", depth) or self.make("few", depth)

    def make_text_call(self, depth):
        return self.make_call("text", depth) or self.make("word", depth)

    def make_procedure_call(self, depth):
        return self.make_call("procedure", depth) or self.make("print-statement", depth)

    def make_call(self, kind, depth):
        name = self.scope.calls.get(kind)
        if not name:
            return None
        first = Part(self.make("few", 0), 0, "few") if kind != "procedure" else self.make_number_array(0)
        pieces = (name + "(", first, ", ", Part(self.make("text", depth), 0, "text"), ")")
        return Node(kind + "-call", LEVELS.index("operand"), pieces)

    def make_function(self, kind, name):
        """A function that changes its own variables only, and calls itself until its first argument is 0."""
        outer, self.scope = self.scope, Scope(["n1", "d", "n"], ["n"], ["s", "r"], ["L"], {})
        ends = Part(self.make(kind, 1), 0, kind)
        body = Part(self.make("own-block", 2), 0, "own-block")
        value = Part(self.make(kind, 2), LEVELS.index("product"), kind)
        self.scope = outer
        start = f"function {name}(d, s, n, r, L) {{\n    if (d <= 0) return "
        if kind == "number":
            value = ("\n    return ", value, f" % 1009 + {name}(d - 1, s)\n}}")
        else:
            value = ("\n    return substr(", value, f", 1, 9) {name}(d - 1, s)\n}}")
        return Node("function", 0, (start, ends, "\n    ", body, *value))

    def make_procedure(self, name):
        """A function that may do what a rule may, and is called as a statement only."""
        outer, self.scope = self.scope, Scope(["n1", "n"], ["n1", "n"], ["s", "r"], ["P", "L"], {})
        body = Part(self.make("block", 2), 0, "block")
        self.scope = outer
        return Node("function", 0, (f"function {name}(P, s, n, r, L) ", body))

    def make_functions(self):
        for kind, name in (("number", "f"), ("text", "g"), ("procedure", "h")):
            if self.choose.random() < 0.2:
                yield self.make_procedure(name) if kind == "procedure" else self.make_function(kind, name)
                self.scope.calls[kind] = name

    def make_script(self):
        items = list(self.make_functions())
        items += [self.make("rule", 4) for _ in range(self.pick([1, 2, 2, 3, 4]))]
        if self.choose.random() < 0.7:
            items.append(leaf("rule", self.pick(STATES)))
        return Node("script", 0, tuple(Part(item, 0, "rule") for item in items))


# ---- A case: a script with what it is started with.


@dataclass(frozen=True)
class Case:
    script: Node
    options: tuple  # pairs, as ("-F", ":") and ("-v", "v=1")
    operands: tuple
    files: tuple  # pairs of a name and lines; "in1" is the standard input too

    @property
    def text(self):
        return node_text(self.script) + "\n"


OPTIONS = [
    (),
    (),
    (),
    (("-F", ":"),),
    (("-F", ","),),
    (("-F", "[:,]"),),
    (("-F", "b+|:"),),
    (("-v", "v=10"),),
    (("-v", "v=a:1"), ("-F", ":")),
    (("-v", "OFS=-"),),
    (("-v", "OFS=, "), ("-F", ":")),
    (("-v", "RS=;"),),
    (("-v", "RS="),),
    (("-v", "SUBSEP=:"),),
    (("-v", r"ORS=|\n"),),
]
OPERANDS = [
    ("in1",),
    ("in1",),
    ("in1", "in2"),
    ("v=3", "in1"),
    ("in1", "v=a1", "in2"),
    ("in2", "", "in1"),
    (),
    ("-",),
    ("in2", "-"),
]

# What each row begins with.
START_ROWS = ["bound | 100000"]

# What scripts with fractions are started with too.
FORMAT_OPTIONS = [
    (("-v", "OFMT=%.2f"),),
    (("-v", "CONVFMT=%.3g"),),
    (("-v", "CONVFMT=%.1f"), ("-v", "OFMT=%.4g")),
]
FORMAT_OPERANDS = [
    ("OFMT=%.1f", "in1"),
    ("in1", "CONVFMT=%.2f", "in2"),
]


def make_line(choose):
    words = []
    for _ in range(choose.choice([0, 1, 2, 3, 3, 4, 5])):
        word = "".join(choose.choices("abcABC", k=choose.randint(1, 3)))
        number = str(choose.choice(LINE_NUMBERS))
        words.append(choose.choice([word, number, number, word + number]))
        words.append(choose.choice([" ", " ", " ", "  ", "\t", ":", ":", ",", ", ", ";"]))
    return "".join(words[:-1] if choose.random() < 0.8 else words)


def make_case(seed, number):
    choose = random.Random(f"{seed}:{number}")
    files = []
    for name in ("in1", "in2"):
        files.append((name, tuple(make_line(choose) for _ in range(choose.choice([0, 1, 2, 3, 4, 6])))))
    options, operands = choose.choice(OPTIONS), choose.choice(OPERANDS)
    return Case(Maker(choose, bool(operands)).make_script(), options, operands, tuple(files))


# ---- Running a case.


class Outcome(NamedTuple):
    """What came of a run; the status is None where it did not end in time."""

    status: Optional[int]
    output: bytes
    files: tuple


COMMANDS = ["sort in2", "sort > sorted", *(f"exit {status}" for status in range(10))]
ALLOWED = [("read", "**"), ("write", "**"), ("append", "**"), ("env", "BESIDE"), ("assign", "*")]
ALLOWED += [("run", command) for command in COMMANDS]

RULE = """[[rule]]
effect = "allow"
kind = "{kind}"
match = "{pattern}"
"""

REFUSED = 3  # awkbox's status where the script is refused
MOST_SECONDS = 5
MOST_SHRINKING = 30  # seconds
MOST_BYTES = 1 << 20


def limit():
    """Keeps a run that does not end from filling the disk."""
    resource.setrlimit(resource.RLIMIT_FSIZE, (MOST_BYTES, resource.getrlimit(resource.RLIMIT_FSIZE)[1]))


class Awk:
    """An awk, with a folder of its own that its runs are in."""

    def __init__(self, name, command, room):
        self.name = name
        self.command = command
        self.folder = room / name / "base"
        self.script = room / name / "script.awk"
        self.folder.mkdir(parents=True)
        self.environment = {"PATH": os.environ["PATH"], "LC_ALL": "C", "BESIDE": "7 a"}
        self.lacks = set()

    def words(self, case):
        options = [word for option in case.options for word in option]
        return [*self.command, *options, "-f", str(self.script), "--", *case.operands]

    def run(self, case):
        self.script.write_text(case.text)
        for name, lines in case.files:
            (self.folder / name).write_text(file_text(lines))
        status = self.start(case)
        output = (self.folder.parent / "output").read_bytes()
        files = []
        for path in sorted(self.folder.iterdir()):
            files.append((path.name, path.read_bytes()))
            path.unlink()
        return Outcome(status, output, tuple(files))

    def start(self, case):
        with open(self.folder / "in1", "rb") as given, open(self.folder.parent / "output", "wb") as output:
            process = subprocess.Popen(
                self.words(case),
                stdin=given,
                stdout=output,
                stderr=subprocess.DEVNULL,
                cwd=self.folder,
                env=self.environment,
                start_new_session=True,
            )
            try:
                return process.wait(MOST_SECONDS)
            except subprocess.TimeoutExpired:
                os.killpg(process.pid, signal.SIGKILL)
                process.wait()
                return None


class Awkbox(Awk):
    """The built program, under a policy that allows what the scripts ask for."""

    def __init__(self, program, numbers, room):
        super().__init__("awkbox", [str(program), "run", "--numbers", numbers], room)
        policy = self.folder.parent / "policy.toml"
        rules = "".join(RULE.format(kind=kind, pattern=pattern) for kind, pattern in ALLOWED)
        policy.write_text(f'version = 1\nbase = "{self.folder}"\n{rules}')
        self.command += ["--policy", str(policy), "--log", str(self.folder.parent / "log")]


# What some awks lack, though the standard has it: kinds of forms, or the text of an option, each with a script that
# ends with status 0 where they are there, and its options.
PROBES = [
    ({"interval"}, 'BEGIN { exit "aa" !~ /^a{2}$/ }', ()),
    ({"power", "power-assignment"}, "BEGIN { exit 2 ^ 2 != 4 }", ()),
    ({"RS="}, '{ exit $0 != "a" }', (("-v", "RS="),)),
    (
        {"text-format", "CONVFMT=%.2f"},
        'BEGIN { x = 1 / 8; y = x ""; CONVFMT = "%.2f"; exit x "" != "0.12" }',
        (),
    ),
    ({"number-pattern"}, 'BEGIN { CONVFMT = "%.2f"; exit "0.5" ~ 0.5 }', ()),
]


def probed(awk):
    """The awk, with what it lacks."""
    for lacks, text, options in PROBES:
        case = Case(leaf("probe", text), options, (), (("in1", ("a",)),))
        if awk.run(case).status != 0:
            awk.lacks |= lacks
    return awk


def needs(case):
    return {node.kind for node in case.script.nodes()} | {text for _, text in case.options} | {*case.operands}


@dataclass(frozen=True)
class Verdict:
    """What came of a case by awkbox, and by the others that have all that it needs."""

    ours: Outcome
    others: dict

    @property
    def is_undecided(self):
        """Whether the others do not agree, or a run did not end in time."""
        is_late = any(outcome.status is None for outcome in (self.ours, *self.others.values()))
        return is_late or len(set(self.others.values())) != 1

    @property
    def is_same(self):
        return not self.is_undecided and self.ours in self.others.values()

    @property
    def fails(self):
        return not self.is_undecided and self.ours not in self.others.values()

    @property
    def is_alone(self):
        """Whether awkbox agrees with none of others that do not agree."""
        return self.is_undecided and bool(self.others) and self.ours not in self.others.values()


def judge(case, awkbox, awks):
    needed = needs(case)
    return Verdict(awkbox.run(case), {awk.name: awk.run(case) for awk in awks if not awk.lacks & needed})


# ---- Making a case that fails smaller.


def replacements(part):
    """What may stand in the place of a part: what its kind is at the least, and what stands in it of its kind."""
    within = WITHIN.get(part.kind, {part.kind})
    for text in LEAST.get(part.kind, []):
        yield leaf(part.kind, text)
    for node in part.node.nodes():
        if node is not part.node and node.kind in within:
            yield node


def without_some(items):
    """The items without one half of them, and without each."""
    half = len(items) // 2
    if half > 1:
        yield items[half:]
        yield items[:half]
    for at in range(len(items)):
        yield items[:at] + items[at + 1 :]


def smaller_nodes(node):
    """The node with parts left out or replaced, those first that change most."""
    if node.kind in LISTS or node.kind == "format":
        least = 0 if node.kind in ("script", "statements") else 1
        for pieces in without_some(node.pieces):
            if len(pieces) >= least:
                yield replace(node, pieces=pieces)
    for at, part in enumerate(node.pieces):
        if isinstance(part, Part):
            for put in itertools.chain(replacements(part), smaller_nodes(part.node)):
                yield replace(node, pieces=(*node.pieces[:at], part._replace(node=put), *node.pieces[at + 1 :]))


def smaller_lines(lines):
    yield from without_some(lines)
    for at, line in enumerate(lines):
        for words in without_some(re.findall(r"[^ :,;\t]+|[ :,;\t]+", line)):
            yield (*lines[:at], "".join(words), *lines[at + 1 :])


def smaller_cases(case):
    size = len(case.text)
    for script in smaller_nodes(case.script):
        smaller = replace(case, script=script)
        if len(smaller.text) < size:
            yield smaller
    for options in without_some(case.options):
        yield replace(case, options=options)
    for operands in without_some(case.operands):
        yield replace(case, operands=operands)
    for at, (name, lines) in enumerate(case.files):
        for fewer in smaller_lines(lines):
            yield replace(case, files=(*case.files[:at], (name, fewer), *case.files[at + 1 :]))


def still_fails(verdict, awkbox, awks):
    """Whether a case fails as the verdict does: a script that is refused is another fault than one that runs."""
    was_refused = verdict.ours.status == REFUSED

    def fails(case):
        now = judge(case, awkbox, awks)
        return now.fails and (now.ours.status == REFUSED) == was_refused

    return fails


def shrink(case, fails, until):
    """The smallest case that is found to fail in this time, going on from each that is smaller and fails."""
    tried = set()
    going = True
    while going:
        going = False
        for smaller in smaller_cases(case):
            if time.monotonic() > until:
                return case
            if smaller not in tried:
                tried.add(smaller)
                if fails(smaller):
                    case, going = smaller, True
                    break
    return case


# ---- Telling.


def quoted(data):
    """Bytes as a text of a row."""
    marks = {ord('"'): r"\"", ord("\\"): r"\\", ord("\n"): r"\n", ord("\t"): r"\t"}
    return '"' + "".join(marks.get(byte) or (chr(byte) if 32 <= byte < 127 else f"\\{byte:03o}") for byte in data) + '"'


def file_text(lines):
    return "".join(line + "\n" for line in lines)


def command_rows(case):
    """The commands of the script, with what they print and how they end."""
    with tempfile.TemporaryDirectory() as folder:
        for name, lines in case.files:
            (Path(folder) / name).write_text(file_text(lines))
        for command in COMMANDS:
            if f'"{command}"' in case.text:
                done = subprocess.run(["sh", "-c", command], cwd=folder, stdin=subprocess.DEVNULL, capture_output=True)
                yield f"command | {quoted(command.encode())} | {quoted(done.stdout)} | {done.returncode}"


def start_rows(case):
    yield from START_ROWS
    for option, text in case.options:
        name, _, value = text.partition("=")
        words = ["separator", text] if option == "-F" else ["assign", name, value]
        yield " | ".join(words[:1] + [quoted(word.encode()) for word in words[1:]])
    for operand in case.operands:
        yield f"operand | {quoted(operand.encode())}"
    for name, lines in case.files:
        text = quoted(file_text(lines).encode())
        if name in case.operands or f'"{name}"' in case.text:
            yield f'put_file | "{name}" | {text}'
        if name == "in1":
            yield f"put_input | {text}"


def end_rows(case, outcome):
    yield f"status => {outcome.status}"
    yield f"output => {quoted(outcome.output)}"
    given = {name for name, _ in case.files} | {"sorted"}
    for name, data in outcome.files:
        if name not in given:
            yield f'file | "{name}" => {quoted(data)}'


def outcome_text(outcome):
    files = "".join(f', file "{name}" {quoted(data)}' for name, data in outcome.files if not name.startswith("in"))
    return f"status {outcome.status}, output {quoted(outcome.output)}{files}"


def row(case, verdict):
    script = case.text.rstrip("\n")
    lines = [f"  run | `{script}`" if "`" not in script else f"  run | {quoted(script.encode())}"]
    answer = next(iter(verdict.others.values()))
    rows = [*start_rows(case), *command_rows(case), *end_rows(case, answer)]
    return "\n".join(lines + ["    " + line for line in rows])


def tell(number, case, verdict):
    print(f"# script {number}: awkbox came to {outcome_text(verdict.ours)}")
    for name, outcome in verdict.others.items():
        print(f"# {name}: {outcome_text(outcome)}")
    print("# as a row, below a policy that allows all, as the one of scripts.txt:")
    print(row(case, verdict), flush=True)


def installed(names, room):
    return [
        probed(Awk(name, command, room))
        for name, command in OTHERS.items()
        if (not names or name in names) and shutil.which(command[0])
    ]


class Counts:
    def __init__(self):
        self.ran = self.passed = self.failed = self.undecided = self.alone = 0
        self.beside = Counter()
        self.otherwise = Counter()

    def add(self, verdict):
        self.ran += 1
        self.passed += verdict.is_same
        self.failed += verdict.fails
        self.undecided += verdict.is_undecided
        self.alone += verdict.is_alone
        for name, outcome in verdict.others.items():
            self.beside[name] += 1
            self.otherwise[name] += outcome != verdict.ours

    def tell(self, seed):
        for name, count in self.beside.items():
            print(f"beside {name}: {count} scripts, {self.otherwise[name]} of them otherwise")
        print(f"seed {seed}: {self.ran} scripts, {self.undecided} undecided ({self.alone} where awkbox stands alone)")
        print(f"{self.passed} passed, {self.failed} failed")


def look_into(number, case, verdict, awkbox, awks, until):
    """Tells a case that fails, made small. One that does not fail once more is undecided."""
    again = judge(case, awkbox, awks)
    if verdict.fails and not again.fails:
        print(f"# script {number} came to another end when it was run again:")
        tell(number, case, verdict)
        return replace(verdict, others={})
    if verdict.fails:
        case = shrink(case, still_fails(verdict, awkbox, awks), until)
    tell(number, case, judge(case, awkbox, awks))
    return verdict


def compare(words, awkbox, awks):
    counts, end = Counts(), time.monotonic() + (words.seconds or float("inf"))
    for number in range(words.first, words.first + words.count):
        if time.monotonic() > end:
            break
        case = make_case(words.seed, number)
        verdict = judge(case, awkbox, awks)
        if verdict.fails or words.alone and verdict.is_alone:
            verdict = look_into(number, case, verdict, awkbox, awks, min(time.monotonic() + MOST_SHRINKING, end))
        counts.add(verdict)
    counts.tell(words.seed)
    return counts.failed


def read_words():
    reader = argparse.ArgumentParser(description=__doc__, formatter_class=argparse.RawDescriptionHelpFormatter)
    option = reader.add_argument
    option("--seed", type=int, default=1, help="what the scripts depend on (1)")
    option("--first", type=int, default=0, help="the number of the first script (0)")
    option("--count", type=int, help="how many scripts (1000; with --seconds, as many as there is time for)")
    option("--seconds", type=float, help="how long at most")
    option("--beside", action="append", choices=OTHERS, help="an awk to compare with, in place of all; may be repeated")
    option("--numbers", choices=["whole", "double"], default="whole", help="which numbers the scripts have (whole)")
    option("--alone", action="store_true", help="tell undecided scripts too, where awkbox agrees with no other awk")
    option("--program", type=Path, default=os.environ.get("AWKBOX_PROGRAM", BUILT),
           help="the built program (what ./build made, or what AWKBOX_PROGRAM names)")
    words = reader.parse_args()
    if words.count is None:
        words.count = 1000 if words.seconds is None else 1_000_000_000
    return words


def main():
    words = read_words()
    program = Path(words.program).resolve()
    if not os.access(program, os.X_OK):
        sys.exit(f"{program} is not there; run ./build")
    limit()
    if words.numbers == "double":
        add_fractions()
    with tempfile.TemporaryDirectory() as room:
        room = Path(room).resolve()
        awks = installed(words.beside, room)
        if not awks:
            print("no other awk is installed, so nothing is compared")
            print("0 passed, 0 failed")
            return 0
        return 1 if compare(words, Awkbox(program, words.numbers, room), awks) else 0


if __name__ == "__main__":
    sys.exit(main())
