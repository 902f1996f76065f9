#!/bin/bash
# Tries the built program on real files and commands: scripts/end-to-end.sh PROGRAM
# A line for each case, and a last line 'N passed, M failed'.
set -u

if [ $# -ne 1 ] || [ ! -x "$1" ]; then
    echo "usage: scripts/end-to-end.sh PROGRAM" >&2
    exit 2
fi
program=$(readlink -f "$1")
top=$(cd "$(dirname "$(readlink -f "$0")")/.." && pwd)
examples=$top/examples

work=$(mktemp -d) || exit 2
trap 'rm -rf "$work"' EXIT
base=$work/base
mkdir -p "$base/out" "$work/elsewhere"
cd "$base" || exit 2

passed=0
failed=0

# policy RULE..: writes the policy file with these rules
policy() {
    printf 'version = 1\nbase = "%s"\n' "$base" >"$work/policy.toml"
    printf '\n[[rule]]\n%s\n' "$@" >>"$work/policy.toml"
}

# no_rules: writes the policy file without a rule
no_rules() {
    printf 'version = 1\nbase = "%s"\n' "$base" >"$work/policy.toml"
}

# script TEXT: writes the script file
script() {
    printf '%s\n' "$1" >"$work/script.awk"
}

# awkbox WORD..: runs the program, and keeps its status and what it wrote
awkbox() {
    "$program" "$@" >"$work/output" 2>"$work/errors"
    status=$?
}

# run WORD..: runs the script file under the policy file, with these words more
run() {
    echo "from another run" >"$work/log"
    awkbox run --policy "$work/policy.toml" --log "$work/log" -f "$work/script.awk" "$@"
}

# holds FILE TEXT: whether the file has just this text
holds() {
    printf '%s' "$2" | cmp -s - "$1"
}

# says TEXT: whether standard error has just this text, but for notes
says() {
    sed '/^awkbox: note: /d' "$work/errors" | cmp -s - <(printf '%s' "$1")
}

# is STATUS OUTPUT ERRORS LOG: whether the run ended with these
is() {
    [ "$status" -eq "$1" ] && holds "$work/output" "$2" && says "$3" &&
        holds "$work/log" "$4"
}

# told STATUS OUTPUT ERRORS: whether the program ended with these
told() {
    [ "$status" -eq "$1" ] && holds "$work/output" "$2" && says "$3"
}

# verdict NAME: tells how the case ended, by the status of the test before
verdict() {
    if [ $? -eq 0 ]; then
        passed=$((passed + 1))
        echo "ok   $1"
    else
        failed=$((failed + 1))
        echo "FAIL $1 (status ${status:-none})"
        head -c 1000 "$work/output" "$work/errors" "$work/log" 2>/dev/null | sed 's/^/     | /'
    fi
}

line=$'\n'

no_rules
script 'BEGIN { print "hi" }'
run
is 0 "hi$line" "" ""
verdict "a print to standard output"

policy "effect = \"allow\"
kind = \"write\"
match = \"$base/out/a\""
script "BEGIN { print \"a\" > \"$base/out/a\" }"
run
is 0 "" "" "" && holds out/a "a$line"
verdict "an allowed write"

echo "old and longer" >out/a
script 'BEGIN { print "b" > "out/a"; print "c" > "out/a" }'
run
is 0 "" "" "" && holds out/a "b${line}c$line"
verdict "an allowed write under the base, to a file that is there"

policy "effect = \"allow\"
kind = \"write\"
match = \"$base/out/a\"" "effect = \"allow\"
kind = \"write\"
match = \"$base/out/b\""
script 'BEGIN { print "a" > "out/a"; print "b" > "out/b"; print "c" > "out/a" }'
run
is 0 "" "" "" && holds out/a "a${line}c$line" && holds out/b "b$line"
verdict "two files at once"

script "BEGIN { print \"a\" > \"$work/elsewhere/x\" }"
run
is 2 "" "awkbox: 1:19 F7 cannot open or write output$line" \
    "1:19 write none \"$work/elsewhere/x\"$line" && [ ! -e "$work/elsewhere/x" ]
verdict "a denied write"

printf 'BEGIN { print "a" > "\303\251" }\n' >"$work/script.awk"
run
is 2 "" "awkbox: 1:19 F7 cannot open or write output$line" "1:19 write none \"\\xc3\\xa9\"$line"
verdict "a denied write of a name that the log quotes"

policy "effect = \"allow\"
kind = \"write\"
match = \"$base/none/a\""
script "BEGIN { print \"a\" > \"$base/none/a\" }"
run
is 2 "" "awkbox: 1:19 F7 cannot open or write output$line" ""
verdict "an allowed write that the system refuses"

no_rules
script 'BEGIN { system("id"); print "on" }'
run
is 0 "on$line" "" "1:9 run none \"id\"$line"
verdict "a denied command"

policy 'effect = "allow"
kind = "run"
match = "echo ran; exit 3"'
script 'BEGIN { print "first"; system("echo ran; exit 3"); print "last" }'
run
is 0 "first${line}ran${line}last$line" "" ""
verdict "an allowed command, between two prints"

printf 'version = 3\nbase = "%s"\n' "$base" >"$work/policy.toml"
run
is 3 "" "awkbox: policy P2$line" ""
verdict "a refused policy"

policy 'effect = "allow"
kind = "write"
match = "a/../b"'
run
is 3 "" "awkbox: policy P6 rule 1$line" ""
verdict "a refused rule"

no_rules
script 'BEGIN { print ) }'
run
[ "$status" -eq 3 ] && [ ! -s "$work/output" ] && holds "$work/log" "" &&
    [ "$(grep -vc "^awkbox: note: " "$work/errors")" -eq 1 ] &&
    grep -Eqx 'awkbox: script 1:[0-9]+ S[1-9]' "$work/errors"
verdict "a refused script"

script 'BEGIN { print "hi" }'
rm -f "$work/log"
awkbox run --policy 'no "file' --log "$work/log" -f "$work/script.awk"
[ "$status" -eq 3 ] && [ ! -s "$work/output" ] &&
    says "awkbox: cannot read \"no \\x22file\"$line" && [ ! -e "$work/log" ]
verdict "a policy file that is not there"

awkbox run --policy "$work/policy.toml" --log "$work/log" -f "$work"
[ "$status" -eq 3 ] && [ ! -s "$work/output" ] &&
    says "awkbox: cannot read \"$work\"$line" && [ ! -e "$work/log" ]
verdict "a script file that is a folder"

awkbox run --policy "$work/policy.toml" --log "$work/none/log" -f "$work/script.awk"
[ "$status" -eq 3 ] && [ ! -s "$work/output" ] &&
    says "awkbox: cannot write \"$work/none/log\"$line"
verdict "a log file that cannot be made"

echo "from another run" >"$work/log"
"$program" run --policy "$work/policy.toml" --log "$work/log" -f "$work/script.awk" \
    >/dev/full 2>"$work/errors"
status=$?
: >"$work/output"
is 2 "" "awkbox: 1:9 F7 cannot open or write output$line" ""
verdict "a standard output that takes nothing"

script "BEGIN { print \"a\" > \"$work/elsewhere/x\" }"
echo "from another run" >"$work/log"
"$program" run --policy "$work/policy.toml" --log "$work/log" -f "$work/script.awk" \
    >"$work/output" 2>/dev/full
status=$?
: >"$work/errors"
is 2 "" "" "1:19 write none \"$work/elsewhere/x\"$line"
verdict "a message that cannot be written"

"$program" run --policy "$work/policy.toml" --log /dev/full -f "$work/script.awk" \
    >"$work/output" 2>"$work/errors"
status=$?
: >"$work/log"
is 2 "" "awkbox: 1:19 F12 cannot write the denial log$line" "" && [ ! -e "$work/elsewhere/x" ]
verdict "a log that takes nothing"

# recipe FOLDER: runs the commands that the folder's README shows, at the top of a clone, and tells
# whether they print what the README says
recipe() {
    local readme=$clone/$1/README.md
    sed -n '/^```sh$/,/^```$/{/^```/!p}' "$readme" >"$work/commands"
    sed -n '/^```text$/,/^```$/{/^```/!p}' "$readme" >"$work/wanted"
    (cd "$clone" && TMPDIR=$work bash "$work/commands") >"$work/output" 2>&1 </dev/null
    status=$?
    : >"$work/errors"
    [ -s "$work/commands" ] && cmp -s "$work/wanted" "$work/output"
}

# a clone with the program built
clone=$work/clone
mkdir -p "$clone/crates/awkbox_program/out"
mkdir "$clone/docs"
cp "$top/docs/awkbox-policy.schema.json" "$clone/docs"
cp -R "$top/README.md" "$top/examples" "$top/man" "$top/completions" "$top/install" "$clone"
ln -s "$program" "$clone/awkbox"
ln -s "$program" "$clone/crates/awkbox_program/out/awkbox_program"
recipes=(. examples/hi examples/report-host examples/teaching-server examples/log-pipeline)
command -v parallel >/dev/null && recipes+=(examples/many-machines)
for folder in "${recipes[@]}"; do
    recipe "$folder"
    verdict "the commands of the README in $folder"
done

# counted COMMAND..: adds the cases of a script that tells them as this one does
counted() {
    "$@" >"$work/cases" 2>&1
    local counts
    counts=$(tail -n 1 "$work/cases" | grep -Ex '[0-9]+ passed, [0-9]+ failed') || counts="0 passed, 1 failed"
    grep -vFx "$counts" "$work/cases"
    passed=$((passed + ${counts%% *}))
    counts=${counts#*, }
    failed=$((failed + ${counts%% *}))
}
if command -v python3 >/dev/null; then
    TMPDIR=$work counted "$top/scripts/teaching-page.py" "$program"
    counted "$top/scripts/policy-schema.py" "$program"
else
    echo "no python3: neither the page of the teaching server nor the schema of policies is tried"
fi

# What docs/EMBEDDING.md shows is in files that are proved.
if command -v python3 >/dev/null; then
    python3 - "$top" >"$work/output" 2>"$work/errors" <<'END'
import re, sys
from pathlib import Path

top = Path(sys.argv[1])
code = "".join((top / "crates/rows" / it).read_text() for it in ("src/embedding.rt", "specs/Printed.antt"))
blocks = re.findall(r"```(?:rust|antt)\n(.*?)```", (top / "docs/EMBEDDING.md").read_text(), re.S)
sys.exit(len(blocks) != 3 or any(it not in code for it in blocks))
END
    status=$?
    [ "$status" -eq 0 ]
    verdict "the code of docs/EMBEDDING.md is the proved one"
fi

# The example of the README's first lines: its script, its rule, its log.
policy 'effect = "allow"
kind = "write"
match = "out/**"'
script "$(sed -n '/^```awk$/,/^```$/{/^```/!p}' "$top/README.md")"
run
is 2 "no commands here$line" "awkbox: 4:19 F7 cannot open or write output$line" \
    "$(grep -E '^[0-9]+:[0-9]+ (run|write) ' "$top/README.md")$line" && holds out/totals.txt "total 12$line" &&
    grep -qF 'awkbox: 4:19 F7 cannot open or write output' "$top/README.md"
verdict "the first example of the README"

# Standard streams that the program was started without.

forged='1:1 run 7 "forged"'
script "BEGIN { print \"1:1 run 7 \\\"forged\\\"\" }"
no_rules
run
is 0 "$forged$line" "" "" # it prints what would be a line of the log
verdict "a print of what looks like a line of the log"

# closed STATUS ERRORS LOG COMMAND..: whether the command, which runs the program without some of
# its streams, ended so
closed() {
    local wanted=$1 errors=$2 log=$3
    shift 3
    echo "from another run" >"$work/log"
    : >"$work/output"
    : >"$work/errors"
    "$@"
    status=$?
    is "$wanted" "" "$errors" "$log"
}
words=(run --policy "$work/policy.toml" --log "$work/log" -f "$work/script.awk")
no_output() { "$program" "${words[@]}" 2>"$work/errors" >&-; }
no_errors() { "$program" "${words[@]}" >"$work/output" 2>&-; }
no_input_no_output() { "$program" "${words[@]}" 2>"$work/errors" <&- >&-; }
no_stream() { "$program" "${words[@]}" <&- >&- 2>&-; }

fault="awkbox: 1:9 F7 cannot open or write output$line"
closed 2 "$fault" "" no_output
verdict "a standard output that is closed is not the log"
closed 2 "$fault" "" no_input_no_output
verdict "nor where standard input is closed too"
closed 2 "" "" no_stream
verdict "nor where all three are closed"

script "BEGIN { print \"a\" > \"$work/elsewhere/x\" }"
closed 2 "" "1:19 write none \"$work/elsewhere/x\"$line" no_errors
verdict "a standard error that is closed is not the log"

policy "effect = \"allow\"
kind = \"write\"
match = \"out/**\""
script 'BEGIN { print "a" > "out/a"; print "b" > "out/b"; print "c" }'
echo "$forged" >"$base/out/a"
closed 2 "awkbox: 1:51 F7 cannot open or write output$line" "" no_output
[ $? -eq 0 ] && holds out/a "a$line" && holds out/b "b$line"
verdict "a standard output that is closed is no file of the script"
policy "effect = \"allow\"
kind = \"write\"
match = \"/dev/stdout\""
script 'BEGIN { print "a" > "/dev/stdout" }'
closed 2 "awkbox: 1:19 F7 cannot open or write output$line" "" no_output
verdict "nor does it take anything by its name"

# The log.

policy "effect = \"allow\"
kind = \"run\"
match = \": >'$work/log'\""
script "BEGIN { system(\"first\"); system(\": >'$work/log'\"); system(\"second\") }"
run
is 0 "" "" "1:$((47 + ${#work})) run none \"second\"$line"
verdict "a log that is emptied during the run goes on at its end"

script 'BEGIN { print "hi" }'
no_rules
cp "$work/policy.toml" "$work/kept.toml"
ln -sf "$work/policy.toml" "$work/policy.link"
ln -f "$work/policy.toml" "$work/policy.second"
cp "$work/script.awk" "$work/kept.awk"
ln -sf "$work/script.awk" "$work/script.link"

# not_log NAME: whether a run that has this file for its log is refused, and all stays as it was
not_log() {
    awkbox run --policy "$work/policy.toml" --log "$1" -f "$work/script.awk"
    [ "$status" -eq 3 ] && [ ! -s "$work/output" ] &&
        says "awkbox: cannot write \"$1\"$line" &&
        cmp -s "$work/policy.toml" "$work/kept.toml" && cmp -s "$work/script.awk" "$work/kept.awk"
}
not_log "$work/policy.toml"
verdict "a log that is the policy"
not_log "$base/../policy.toml"
verdict "a log that is the policy, by another name"
not_log "$work/policy.link"
verdict "a log that is the policy, by a symbolic link"
not_log "$work/policy.second"
verdict "a log that is the policy, by a hard link"
not_log "$work/script.awk"
verdict "a log that is the script"
not_log "$work/script.link"
verdict "a log that is the script, by a symbolic link"
rm -f "$work/policy.second"

awkbox run --policy "$work/policy.toml" --log /dev/null -f "$work/script.awk"
: >"$work/log"
is 0 "hi$line" "" ""
verdict "a log that is no regular file"

# keeps_log NAME WORD..: whether a run with this log and these words is refused, and the log stays as it was
keeps_log() {
    local name=$1
    shift
    awkbox run --policy "$work/policy.toml" --log "$name" -f "$work/script.awk" "$@"
    [ "$status" -eq 3 ] && [ ! -s "$work/output" ] &&
        says "awkbox: cannot write \"$name\"$line" && holds "$work/log" "from another run$line"
}
echo "from another run" >"$work/log"
cp "$work/log" "$work/other"
ln -sf "$work/log" "$work/log.link"
keeps_log "$work/log" -- "$work/other" "$work/log"
verdict "a log that is an operand's file"
keeps_log "$work/log" -- ../log
verdict "a log that is an operand's file, by another name"
keeps_log "$work/log.link" -- "$work/log"
verdict "a log that is an operand's file, by a symbolic link"
keeps_log "$work/log" <"$work/log"
verdict "a log that is the standard input"

# stream NUMBER LOG: whether a run whose standard stream of this number is the log is refused, and adds only what it says
stream() {
    local said="awkbox: cannot write \"$2\"$line"
    echo "from another run" >"$work/log"
    : >"$work/output"
    : >"$work/errors"
    local words=(run --policy "$work/policy.toml" --log "$2" -f "$work/script.awk")
    case $1 in
    1) "$program" "${words[@]}" >>"$work/log" 2>"$work/errors" ;;
    2) "$program" "${words[@]}" >"$work/output" 2>>"$work/log" ;;
    7) "$program" "${words[@]}" >"$work/output" 2>"$work/errors" 7>>"$work/policy.toml" ;;
    esac
    status=$?
    case $1 in
    2) is 3 "" "" "from another run$line$said" ;;
    *) is 3 "" "$said" "from another run$line" && cmp -s "$work/policy.toml" "$work/kept.toml" ;;
    esac
}
stream 1 "$work/log"
verdict "a log that is the standard output"
for name in /dev/stdout /dev/fd/1 /proc/self/fd/1; do
    stream 1 "$name"
    verdict "a log that is the standard output, by the name $name"
done
stream 2 "$work/log"
verdict "a log that is the standard error"
for name in /dev/stderr /dev/fd/2 /proc/self/fd/2; do
    stream 2 "$name"
    verdict "a log that is the standard error, by the name $name"
done
for name in /dev/fd/7 /proc/self/fd/7; do
    stream 7 "$name"
    verdict "a log that is the policy, by the name $name of an open file"
done
stream 1 /dev/fd/63
verdict "a log by the name of a descriptor that is closed"

script 'BEGIN { system("id"); print "on" }'
denial="1:9 run none \"id\"$line"
"$program" run --policy "$work/policy.toml" --log /dev/fd/7 -f "$work/script.awk" \
    >"$work/output" 2>"$work/errors" 7>"$work/log"
status=$?
is 0 "on$line" "" "$denial"
verdict "a log by the name of another open file"
"$program" run --policy "$work/policy.toml" --log /dev/stdout -f "$work/script.awk" 2>"$work/errors" |
    cat >"$work/output"
status=${PIPESTATUS[0]}
: >"$work/log"
is 0 "${denial}on$line" "" ""
verdict "a log that is the standard output, where that is a pipe"
mkfifo "$work/fifo"
cat "$work/fifo" >"$work/log" &
awkbox run --policy "$work/policy.toml" --log "$work/fifo" -f "$work/script.awk" -- "$work/fifo"
wait
is 0 "on$line" "" "$denial"
verdict "a log that is a pipe with a name"
: >"$work/log"
awkbox run --policy "$work/policy.toml" --log "$work/log.link" -f "$work/script.awk"
is 0 "on$line" "" "$denial" && [ -L "$work/log.link" ]
verdict "a log by a symbolic link"

run --log-append
is 0 "on$line" "" "from another run$line$denial"
verdict "a log that is added to"
printf '1:2 run no' >"$work/log"
awkbox run --log-append --policy "$work/policy.toml" --log "$work/log" -f "$work/script.awk"
is 0 "on$line" "" "1:2 run no$line$denial"
verdict "a log that is added to behind a line without an end"
script 'BEGIN { system("id"); system("id"); print "on" }'
second="1:23 run none \"id\"$line"
both=$((${#denial} + ${#second}))
run --log-limit "$both"
is 0 "on$line" "" "$denial$second"
verdict "a log of as many bytes as the limit"
run --log-limit $((both - 1))
is 2 "" "awkbox: 1:23 F12 cannot write the denial log$line" "$denial"
verdict "a log that would pass the limit"
run --log-limit 0
is 2 "" "awkbox: 1:9 F12 cannot write the denial log$line" ""
verdict "a log that takes nothing"
run --log-append --log-limit "$both"
is 0 "on$line" "" "from another run$line$denial$second"
verdict "a limit counts what this run adds"
for _ in 1 2 3 4; do
    "$program" run --policy "$work/policy.toml" --log "$work/log" --log-append -f "$work/script.awk" \
        >/dev/null 2>>"$work/errors" &
done
wait
[ "$(grep -cxF "${denial%"$line"}" "$work/log")" -eq 5 ] && [ "$(wc -l <"$work/log")" -eq 11 ]
verdict "four runs that share a log"

# Texts without end.

script 'BEGIN { print "hi" }'
for pair in "--policy $work/policy.toml -f /dev/zero" "--policy /dev/zero -f $work/script.awk"; do
    rm -f "$work/log"
    # shellcheck disable=SC2086
    awkbox run --log "$work/log" $pair
    [ "$status" -eq 3 ] && says "awkbox: cannot read \"/dev/zero\"$line" && [ ! -e "$work/log" ]
    verdict "a text without end: ${pair//$work\//}"
done
printf 'BEGIN { print "hi" } #' >"$work/script.awk"
head -c $((16777216 - 22)) /dev/zero | tr '\0' x >>"$work/script.awk"
run
is 0 "hi$line" "" ""
verdict "a script of 16 MiB"
printf x >>"$work/script.awk"
run
is 3 "" "awkbox: cannot read \"$work/script.awk\"$line" "from another run$line"
verdict "a script of one byte more"

# Output in blocks.

policy 'effect = "allow"
kind = "run"
match = "**"' 'effect = "allow"
kind = "write"
match = "out/*"' 'effect = "allow"
kind = "append"
match = "/dev/stderr"'
script 'BEGIN {
    print "a"; system("echo b"); print "c"; "echo d" | getline x; print x; print "e" | "cat"; close("cat"); print "f"
    print "g" >> "/dev/stderr"; print "h" > "out/a"; print "i"; close("out/a"); system("cat out/a"); print "j"
}'
run --block-buffered
is 0 "a${line}b${line}c${line}d${line}e${line}f${line}i${line}h${line}j$line" "g$line" ""
verdict "blocks before commands, pipes and files"
script 'BEGIN { print "a"; system("echo b >&2"); print "c"; print "e"; print 1 / n }'
echo "from another run" >"$work/log"
"$program" run --policy "$work/policy.toml" --log "$work/log" --block-buffered -f "$work/script.awk" \
    >"$work/output" 2>&1
status=$?
holds "$work/output" "a${line}b${line}c${line}e${line}awkbox: 1:72 F2 division by zero$line" && [ "$status" -eq 2 ]
verdict "blocks before what a command writes to standard error, and before a fault is told"
script 'BEGIN { for (i = 0; i < 30000; i++) printf "%d,", i; print "" }'
run
cp "$work/output" "$work/at-once"
run --block-buffered
cmp -s "$work/at-once" "$work/output" && is 0 "$(cat "$work/at-once")$line" "" ""
verdict "blocks of a large output"
script 'BEGIN { s = sprintf("%70000s", "x"); print "a"; print s; print "b" }'
run
cp "$work/output" "$work/at-once"
run --block-buffered
cmp -s "$work/at-once" "$work/output"
verdict "a print that is longer than a block"
script 'BEGIN { print "a"; while (1) n++ }'
run --block-buffered --steps 100
is 4 "a$line" "awkbox: F11 step bound reached$line" ""
verdict "a block of a run that took its steps"
script '{ print "read " $0 }'
mkfifo "$work/in" "$work/out"
"$program" run --policy "$work/policy.toml" --log "$work/log" --block-buffered -f "$work/script.awk" \
    <"$work/in" >"$work/out" 2>"$work/errors" &
exec 7>"$work/in" 8<"$work/out"
answers=
for n in 1 2 3; do
    echo "$n" >&7
    read -r -t 20 answer <&8
    answers+="$answer,"
done
exec 7>&- 8<&-
wait $!
[ $? -eq 0 ] && [ "$answers" = "read 1,read 2,read 3," ]
verdict "a block before the run waits for its input"
rm -f "$work/in" "$work/out"
script 'BEGIN { print "a"; exit 5 }'
run --block-buffered
is 5 "a$line" "" ""
verdict "a block of a run with a status of its own"
"$program" run --policy "$work/policy.toml" --log "$work/log" --report "$work/report" --block-buffered \
    -f "$work/script.awk" >/dev/full 2>"$work/errors"
status=$?
: >"$work/output"
is 2 "" "awkbox: cannot write the standard output$line" "" && grep -q '"code":"F7","column":0,"line":0' "$work/report"
verdict "a block that cannot be written at the end"
script 'BEGIN { print "a"; system(""); print "b"; print "c" }'
"$program" run --policy "$work/policy.toml" --log "$work/log" --block-buffered -f "$work/script.awk" \
    >/dev/full 2>"$work/errors"
status=$?
is 2 "" "awkbox: 1:32 F7 cannot open or write output$line" ""
verdict "a block that cannot be written, told by the next print"
no_rules

# A stack that is too small.

script 'BEGIN { print "hi" }'
for kilobytes in 256 8191; do
    echo "from another run" >"$work/log"
    bash -c 'ulimit -s "$1" && shift && exec "$@"' - "$kilobytes" "$program" run --policy "$work/policy.toml" \
        --log "$work/log" -f "$work/script.awk" >"$work/output" 2>"$work/errors"
    status=$?
    is 3 "" "awkbox: the stack is smaller than 8 MiB$line" "from another run$line"
    verdict "a stack of $kilobytes KiB"
done
bash -c 'ulimit -s 8192 && exec "$@"' - "$program" run --policy "$work/policy.toml" --log "$work/log" \
    -f "$work/script.awk" >"$work/output" 2>"$work/errors"
status=$?
is 0 "hi$line" "" ""
verdict "a stack of 8 MiB"
# Limits.

# limited RULE..: writes the policy file in version 2 with these rules
limited() {
    policy "$@"
    sed -i 's/^version = 1$/version = 2/' "$work/policy.toml"
}

limited 'effect = "allow"
kind = "run"
match = "echo sent"
limit = 1'
script 'BEGIN { while (n++ < 3) system("echo sent") }'
run
is 0 "sent$line" "" "1:25 run none \"echo sent\"${line}1:25 run none \"echo sent\"$line"
verdict "a command that may run once"

awkbox check --policy "$work/policy.toml" -f "$work/script.awk"
: >"$work/log"
is 1 "open${line}1:25 run \"echo sent\"$line" "" ""
verdict "what is said of it before"

mkdir -p in
for n in 1 2 3; do echo "$n" >"in/$n"; done
limited 'effect = "allow"
kind = "read"
match = "in/*"
limit = 2'
script 'BEGIN { while (n++ < 3) { f = "in/" n; r = (getline x < f); print r, x } }'
run
is 0 "1 1${line}1 2${line}-1 2$line" "" "1:45 read none \"in/3\"$line"
verdict "a number of files"
rm in/1 in/2 in/3

limited 'effect = "deny"
kind = "run"
match = "**"
limit = 1'
run
: >"$work/log"
is 3 "" "awkbox: policy P5 rule 1$line" ""
verdict "a limit beside an effect that denies"

no_rules
script 'BEGIN { print "hi" }'

# The folder of the start.

outside="awkbox: not started in the policy's base \"$base\"$line"
mkdir -p "$work/start/out"
cd "$work/start" || exit 2
script 'BEGIN { print "hi"; print "a" > "out/a" }'
for kind in read write append; do
    policy "effect = \"allow\"
kind = \"$kind\"
match = \"out/*\""
    run
    is 3 "" "$outside" "" && [ ! -e out/a ]
    verdict "a start in another folder, with a rule of kind $kind"
done
run --log-append
is 3 "" "$outside" "from another run$line"
verdict "a start in another folder, with a log that is added to"

script 'BEGIN { print "hi" }'
no_rules
run
is 0 "hi$line" "" ""
verdict "a start in another folder, without a rule"

policy 'effect = "allow"
kind = "run"
match = "id"'
run
is 0 "hi$line" "" ""
verdict "a start in another folder, without a rule of files"

policy 'effect = "allow"
kind = "write"
match = "out/*"'
script 'BEGIN { print ) }'
run
[ "$status" -eq 3 ] && [ ! -s "$work/output" ] && [ "$(grep -vc "^awkbox: note: " "$work/errors")" -eq 1 ] &&
    grep -Eqx 'awkbox: script 1:[0-9]+ S[1-9]' "$work/errors"
verdict "a start in another folder, without a run"

script 'BEGIN { print "hi" }'
ln -s "$base" "$work/way"
cd "$work/way" || exit 2
run
is 0 "hi$line" "" ""
verdict "a start in the base, by way of a link"

# in another folder, with the words' files there
cd "$work/start" || exit 2
cp "$work/policy.toml" "$work/start/its.toml"
printf '%s\n' 'BEGIN { print "a" > "out/a"; print "b" > "/etc/x" }' >"$work/start/its.awk"
for folder in ../base "$work/way" "$base/out/.."; do
    rm -f "$base/out/a" "$work/start/out/a" its.log
    awkbox run -C "$folder" --policy its.toml --log its.log -f its.awk
    cp its.log "$work/log"
    is 2 "" "awkbox: 1:40 F7 cannot open or write output$line" "1:40 write none \"/etc/x\"$line" &&
        holds "$base/out/a" "a$line" && [ ! -e out/a ] && [ ! -e "$base/its.log" ]
    verdict "a run that enters the folder $folder"
done
policy 'effect = "allow"
kind = "read"
match = "**"
from = "given"'
script '{ print FILENAME, $0 }'
echo 5 >"$base/in.txt"
run "-C$base" -- in.txt
is 0 "in.txt 5$line" "" ""
verdict "operands under the folder that is entered"
cp "$base/in.txt" "$work/start/in.txt"
echo "from another run" >"$work/log"
awkbox run -C "$base" --policy "$work/policy.toml" --log in.txt -f "$work/script.awk" -- in.txt
is 0 "in.txt 5$line" "" "from another run$line" && holds in.txt ""
verdict "a log that has the name of an operand in another folder"
for folder in "$work/none" "$work/policy.toml" ''; do
    run -C "$folder"
    is 3 "" "awkbox: cannot enter \"$folder\"$line" "from another run$line"
    verdict "a folder that cannot be entered: '$folder'"
done
run -C "$work/start"
is 3 "" "$outside" ""
verdict "a folder that is entered and is not the base"

cd "$base" || exit 2
script 'BEGIN { print "hi" }'
sed -i 's|^base = .*|base = "/nowhere \\"at all\\""|' "$work/policy.toml"
run
is 3 "" "awkbox: not started in the policy's base \"/nowhere \\x22at all\\x22\"$line" ""
verdict "a base that is no folder"

# One policy for many folders.

policy 'effect = "allow"
kind = "write"
match = "out/*"' 'effect = "allow"
kind = "read"
match = "**"
from = "given"'
sed -i 's|^base = .*|base = "/nowhere"|' "$work/policy.toml"
script '{ print $0 > "out/a" } END { print "b" > "/etc/x" }'
mkdir -p "$work/one/out" "$work/two/out"
# based FOLDER WORD..: whether the run with these words is one in this folder, under its rules
based() {
    local folder=$1
    shift
    rm -f "$work"/*/out/a
    echo "$folder" >"$work/$folder/in.txt"
    run "$@" -- in.txt
    is 2 "" "awkbox: 1:40 F7 cannot open or write output$line" "1:40 write none \"/etc/x\"$line" &&
        holds "$work/$folder/out/a" "$folder$line" && [ "$(echo "$work"/*/out/a)" = "$work/$folder/out/a" ]
}
cd "$work" || exit 2
for folder in one two; do
    based "$folder" --base . -C "$folder"
    verdict "one policy for many folders: the folder $folder that is entered"
done
cd "$work/two" || exit 2
for folder in . ./ ./. "$work/two" "$work/./two/"; do
    based two --base "$folder"
    verdict "a base in the place of the policy's: $folder"
done
run
is 3 "" "awkbox: not started in the policy's base \"/nowhere\"$line" ""
verdict "no base in the place of the policy's"
for folder in "$work/one" "$work/none" "$work/policy.toml" /; do
    run --base "$folder"
    is 3 "" "awkbox: not started in the policy's base \"$folder\"$line" ""
    verdict "a base that is another folder, or none: $folder"
done
run --base one -C "$work"
is 3 "" "awkbox: not started in the policy's base \"$work/one\"$line" ""
verdict "a base stands under the folder that is entered"
for folder in '' .. ../two "$work/one/../two" '*' '/a?'; do
    run --base "$folder"
    is 3 "" "awkbox: policy P3$line" "" &&
        grep -qF "awkbox: note: a base is an absolute path without \`*\`, \`?\` and \`..\`; \`--base\` gives " "$work/errors"
    verdict "a base that no policy may have: '$folder'"
done
mkdir "$work/st*r"
run --base . -C "$work/st*r"
is 3 "" "awkbox: policy P3$line" "" && grep -qF "\`--base\` gives \`$work/st*r\`" "$work/errors"
verdict "a folder whose name no base may have"
sed -i 's|^base = .*|base = "."|' "$work/policy.toml"
run --base .
is 3 "" "awkbox: policy P3$line" "" && grep -qF "awkbox: note: \`awkbox lint --policy " "$work/errors"
verdict "a policy without a base of its own beside a base that is given"
run --policy "$work/policy.toml" --base . --base .
[ "$status" -eq 3 ] && [ ! -s "$work/output" ]
verdict "a base that is given twice"
no_rules
script 'BEGIN { print "hi" }'
run --base /none
is 0 "hi$line" "" ""
verdict "a base that is no folder, without a rule of files"
cd "$base" || exit 2

# Rules that let a script write to the run's own files.

cp "$work/script.awk" own.awk
# own RULE..: runs own.awk with a policy and a log that lie in the base too
own() {
    policy "$@"
    cp "$work/policy.toml" own.toml
    awkbox run --policy own.toml --log "${log:-own.log}" -f "${awk:-$base/own.awk}"
    : >"$work/log"
}
# writable RULE FILE NAME..: the lines that warn of these
writable() {
    while [ $# -gt 0 ]; do
        printf 'awkbox: warning: the policy lets a script write the %s "%s": rule %s\n' "$2" "$3" "$1"
        shift 3
    done
}
own 'effect = "allow"
kind = "write"
match = "**"'
is 0 "hi$line" "$(writable 1 log own.log 1 policy own.toml 1 script "$base/own.awk")$line" ""
verdict "a rule that allows writing to all of a run's own files"
own 'effect = "deny"
kind = "write"
match = "own.*"' 'effect = "allow"
kind = "append"
match = "*.log"' 'effect = "allow"
kind = "write"
match = "**"'
is 0 "hi$line" "$(writable 2 log own.log)$line" ""
verdict "a rule that allows appending to the log"
log=$work/log own 'effect = "allow"
kind = "write"
match = "*"' 'effect = "allow"
kind = "write"
match = "/**/log"'
is 0 "hi$line" "$(writable 2 log "$work/log" 1 policy own.toml 1 script "$base/own.awk")$line" ""
verdict "a rule that allows writing by an absolute name"
mkdir -p deep
ln -sf ../own.awk deep/link.awk
awk=deep/../deep/link.awk own 'effect = "allow"
kind = "write"
match = "own.awk"'
is 0 "hi$line" "$(writable 1 script deep/../deep/link.awk)$line" ""
verdict "a rule that allows writing to what a link leads to"
awk=deep/link.awk own 'effect = "allow"
kind = "write"
match = "deep/*"'
is 0 "hi$line" "$(writable 1 script deep/link.awk)$line" ""
verdict "a rule that allows writing by the name of a link"
own 'effect = "allow"
kind = "read"
match = "**"' 'effect = "allow"
kind = "run"
match = "**"' 'effect = "allow"
kind = "write"
match = "out/*"'
is 0 "hi$line" "" ""
verdict "rules that allow writing to none of them"
cd "$work/start" || exit 2
cp "$base/own.awk" its.awk
policy 'effect = "allow"
kind = "write"
match = "*.awk"'
awkbox run -C "$work/way" --policy "$work/policy.toml" --log "$work/log" -f ../base/own.awk
is 0 "hi$line" "$(writable 1 script ../base/own.awk)$line" ""
verdict "a name in the folder of the start is warned of as one in the base"
sed -i "s|^base = .*|base = \"$work/way\"|" "$work/policy.toml"
awkbox run -C "$base" --policy "$work/policy.toml" --log "$work/log" -f "$base/own.awk"
is 0 "hi$line" "$(writable 1 script "$base/own.awk")$line" ""
verdict "a file in a base that has a link for its name"
awkbox run -C "$base" --policy "$work/policy.toml" --log "$work/log" -f its.awk
is 0 "hi$line" "" ""
verdict "a file in the folder of the start that has an allowed name in the base"
cd "$base" || exit 2

# The report of a run.

# reports STATUS REPORT WORD..: whether a run with these words ended so, and its report is this line
reports() {
    local wanted=$1 report=$2
    shift 2
    echo "from another run" >"$work/report"
    run --report "$work/report" "$@"
    [ "$status" -eq "$wanted" ] && holds "$work/report" "$report$line"
}
# refused STATUS MESSAGE: the report of a run that was refused by this line
refused() {
    printf '{"denials":0,"exit_status":%s,"fault":null,"log":null,"numbers":"whole","outcome":"refused","refusal":"%s","steps":0}' "$1" \
        "$(sed 's/[\\"]/\\&/g' <<<"$2")"
}
no_rules
script 'BEGIN { exit 3 }'
reports 3 '{"denials":0,"exit_status":3,"fault":null,"log":"whole","numbers":"whole","outcome":"status","refusal":null,"steps":1}'
is 3 "" "" ""
verdict "the report of a run that ended by itself"
script 'BEGIN { system("a"); system("b"); print "c" > "d" }'
reports 2 '{"denials":3,"exit_status":2,"fault":{"code":"F7","column":45,"line":1,"text":"cannot open or write output"},"log":"whole","numbers":"whole","outcome":"fault","refusal":null,"steps":3}'
verdict "the report of a run that ended with a fault"
script 'BEGIN { print 1 / 4, 2 ^ .5, 1e3; exit 3 }'
reports 3 '{"denials":0,"exit_status":3,"fault":null,"log":"whole","numbers":"double","outcome":"status","refusal":null,"steps":2}' --numbers double
is 3 "0.25 1.41421 1000$line" "" ""
verdict "numbers of the standard"
reports 3 "$(refused 3 'awkbox: script 1:26 S3')"
verdict "a script of the standard's numbers is refused without them"
script 'BEGIN { while (1) n++ }'
reports 4 '{"denials":0,"exit_status":4,"fault":null,"log":"whole","numbers":"whole","outcome":"cut","refusal":null,"steps":7}' --steps 7
verdict "the report of a run that took its steps"
script 'BEGIN { system("a") }'
reports 2 '{"denials":0,"exit_status":2,"fault":{"code":"F12","column":9,"line":1,"text":"cannot write the denial log"},"log":"part","numbers":"whole","outcome":"fault","refusal":null,"steps":1}' --log-limit 3
verdict "the report of a run whose log is full"
script 'BEGIN { @ }'
reports 3 "$(refused 3 'awkbox: script 1:9 S1')"
verdict "the report of a script that is refused"
script 'BEGIN { x[1] = 1 }'
reports 3 "$(refused 3 'awkbox: assignment 1 U3')" -v x=1
verdict "the report of a variable that is an array"
reports 3 "$(refused 3 'awkbox: assignment 1 U1')" -v 1=1
verdict "the report of a variable without a name"
reports 3 "$(refused 3 'awkbox: cannot enter "no \x22folder\x22"')" -C 'no "folder"'
verdict "the report of a folder that is not there"
echo 'version = 3' >"$work/policy.toml"
reports 3 "$(refused 3 'awkbox: policy P2')"
verdict "the report of a policy that is refused"
no_rules
awkbox run --policy "$work/none" --log "$work/log" -f "$work/script.awk" --report "$work/report"
[ "$status" -eq 3 ] && holds "$work/report" "$(refused 3 "awkbox: cannot read \"$work/none\"")$line"
verdict "the report of a policy that is not there"

# not_report NAME WORD..: whether a run with this report and these words is refused, and all stays as it was
not_report() {
    local name=$1
    shift
    echo "from another run" >"$work/log"
    awkbox run --policy "$work/policy.toml" --log "$work/log" -f "$work/script.awk" --report "$name" "$@"
    [ "$status" -eq 3 ] && [ ! -s "$work/output" ] && says "awkbox: cannot write \"$name\"$line" &&
        holds "$work/log" "from another run$line" && cmp -s "$work/policy.toml" "$work/kept.toml" &&
        cmp -s "$work/script.awk" "$work/kept.awk"
}
script 'BEGIN { print "hi" }'
cp "$work/policy.toml" "$work/kept.toml"
cp "$work/script.awk" "$work/kept.awk"
for name in log policy.toml script.awk policy.link script.link log.link; do
    not_report "$work/$name"
    verdict "a report that is the run's $name"
done
not_report "$work/kept.awk" -- "$work/kept.awk"
verdict "a report that is an operand's file"
not_report "$work/none/report"
verdict "a report that cannot be made"
rm -f "$work/new"
awkbox run --policy "$work/policy.toml" --log "$work/new" -f "$work/script.awk" --report "$work/new"
[ "$status" -eq 3 ] && says "awkbox: cannot write \"$work/new\"$line"
verdict "a report that is the log, which was not there"
"$program" run --policy "$work/policy.toml" --log "$work/log" -f "$work/script.awk" --report "$work/output" \
    >"$work/output" 2>"$work/errors"
status=$?
: >"$work/log"
is 3 "" "awkbox: cannot write \"$work/output\"$line" ""
verdict "a report that is the standard output"
run --report /dev/full
is 2 "hi$line" "awkbox: cannot write the report \"/dev/full\"$line" ""
verdict "a report that cannot be written"
script 'BEGIN { print 1 / 0 }'
run --report /dev/full
is 2 "" "awkbox: 1:17 F2 division by zero$line" ""
verdict "a fault is told where its report cannot be written"
script 'BEGIN { print "hi" }'
policy 'effect = "allow"
kind = "write"
match = "own.*"'
run --report own.json
is 0 "hi$line" "$(writable 1 report own.json)$line" ""
verdict "a rule that allows writing to the report"
rm -f own.json
no_rules
if command -v timeout >/dev/null; then
    script 'BEGIN { while (1) n++ }'
    timeout 1 "$program" run --policy "$work/policy.toml" --log "$work/log" --steps 1000000000000 \
        -f "$work/script.awk" --report "$work/report" >"$work/output" 2>"$work/errors"
    status=$?
    [ "$status" -eq 124 ] && [ ! -s "$work/report" ]
    verdict "a run that is ended leaves an empty report"
fi

# What is passed on.

# audited STATUS LINES WORD..: whether a run with these words ended so, and its audit has these lines
audited() {
    local wanted=$1 lines=$2
    shift 2
    echo "from another run" >"$work/audit"
    run --audit "$work/audit" "$@"
    [ "$status" -eq "$wanted" ] && holds "$work/audit" "$lines"
}
policy 'effect = "allow"
kind = "read"
match = "**"' 'effect = "allow"
kind = "write"
match = "out/**"' 'effect = "allow"
kind = "append"
match = "out/**"' 'effect = "allow"
kind = "run"
match = "**"' 'effect = "allow"
kind = "env"
match = "LANG"' 'effect = "allow"
kind = "assign"
match = "n"'
script 'BEGIN {
    print "a" > "out/a"; close("out/a")
    while ((getline x < "out/a") > 0) print x
    if ((getline x < "out/none") < 0) print "no"
    system("echo b; exit 3")
    "echo c" | getline x; print x
    print "d" | "cat"; close("cat")
    print ENVIRON["LANG"]
    print "e" >> "out/\303\251"
    if ((getline x < "/etc/passwd") < 0) print "denied"
    system("echo again"); system("echo again")
}
{ print FILENAME, n, $0 }'
echo 5 >in.txt
passed_on="0:0 env ok \"LANG\"
2:15 write ok \"out/a\"
3:13 read ok \"out/a\"
4:10 read failed \"out/none\"
5:5 run ok \"echo b; exit 3\"
6:16 run ok \"echo c\"
7:15 run ok \"cat\"
9:15 append ok \"out/\\xc3\\xa9\"
11:5 run ok \"echo again\"
11:27 run ok \"echo again\"
0:0 assign ok \"n\"
0:0 read ok \"in.txt\"
0:0 read failed \"none.txt\"
0:0 read ok \"./in.txt\"
"
for blocks in '' --block-buffered; do
    rm -f out/*
    # shellcheck disable=SC2086 # none, or one
    env -i LANG=C Z=1 "$program" run --policy "$work/policy.toml" --log "$work/log" --audit "$work/audit" $blocks \
        -f "$work/script.awk" -- n=7 in.txt m=8 none.txt ./in.txt >"$work/output" 2>"$work/errors"
    status=$?
    is 2 "a${line}no${line}b${line}c${line}d${line}C${line}denied${line}again${line}again${line}in.txt 7 5${line}./in.txt 7 5$line" \
        "awkbox: cannot open \"none.txt\"$line" \
        "0:0 env none \"Z\"${line}10:10 read none \"/etc/passwd\"${line}0:0 assign none \"m\"$line" &&
        holds "$work/audit" "$passed_on"
    verdict "an audit has a line for each allowed request, in order${blocks:+, with $blocks}"
done
rm -f out/*
script 'BEGIN { print "a" > "out/none/a" }'
audited 2 "1:19 write failed \"out/none/a\"$line"
is 2 "" "awkbox: 1:19 F7 cannot open or write output$line" ""
verdict "an audit of a run that a failed request ends"
script 'BEGIN { print "a" > "/etc/x" }'
audited 2 ""
is 2 "" "awkbox: 1:19 F7 cannot open or write output$line" "1:19 write none \"/etc/x\"$line"
verdict "an audit does not name what is denied"
script 'BEGIN { print "hi" }'
audited 0 ""
is 0 "hi$line" "" ""
verdict "an audit of a run that asks for nothing"
no_audit="awkbox: cannot write the audit$line"
run --audit /dev/full
is 0 "hi$line" "" ""
verdict "an audit without room, of a run that asks for nothing"
script 'BEGIN { print "a"; system("echo b"); print "c" }'
for blocks in '' --block-buffered; do
    # shellcheck disable=SC2086 # none, or one
    run --audit /dev/full --report "$work/report" $blocks
    is 2 "a${line}b$line" "${no_audit}awkbox: 1:20 F12 cannot write the denial log$line" "" &&
        holds "$work/report" '{"denials":0,"exit_status":2,"fault":{"code":"F12","column":20,"line":1,"text":"cannot write the denial log"},"log":"whole","numbers":"whole","outcome":"fault","refusal":null,"steps":2}'"$line"
    verdict "an audit that cannot be written ends the run${blocks:+, with $blocks}"
done
script 'BEGIN { while ((getline x < "in.txt") > 0) print x; system("echo b"); system("id >/dev/null"); system("echo c") }'
first="1:17 read ok \"in.txt\"${line}1:53 run ok \"echo b\"$line"
audited 2 "$first" --log-limit "${#first}"
is 2 "5${line}b$line" "${no_audit}awkbox: 1:71 F12 cannot write the denial log$line" ""
verdict "an audit that would pass the limit has no part of the line"
script "BEGIN { system(\":\"); system(\": >'$work/audit'\"); system(\": 2\") }"
audited 0 "1:22 run ok \": >'$work/audit'\"${line}1:$((45 + ${#work})) run ok \": 2\"$line"
verdict "an audit that a command empties goes on at its end, with that command's line"
policy 'effect = "allow"
kind = "run"
match = ":"'
script 'BEGIN { system("a"); system(":") }'
audited 0 "1:22 run ok \":\"$line" --log-limit 17
is 0 "" "" "1:9 run none \"a\"$line"
verdict "log and audit may each have as many bytes as the limit"
script 'BEGIN { print "a" > "own.audit"; close("own.audit"); print "b" >> "own.audit" }'
policy 'effect = "allow"
kind = "write"
match = "own.*"'
run --audit own.audit
is 2 "" "$(writable 1 audit own.audit)
awkbox: 1:64 F7 cannot open or write output$line" "1:64 append none \"own.audit\"$line"
verdict "a rule that allows writing to the audit"
rm -f own.audit
script 'BEGIN { print "a" > "own.audit" }'
no_rules
run --audit own.audit
is 2 "" "awkbox: 1:19 F7 cannot open or write output$line" "1:19 write none \"own.audit\"$line" && holds own.audit ""
verdict "an audit that the script may not write"
rm -f own.audit

# not_audit NAME WORD..: whether a run with this audit and these words is refused, and all stays as it was
not_audit() {
    local name=$1
    shift
    echo "from another run" >"$work/log"
    awkbox run --policy "$work/policy.toml" --log /dev/null -f "$work/script.awk" --audit "$name" "$@"
    [ "$status" -eq 3 ] && [ ! -s "$work/output" ] && holds "$work/errors" "awkbox: cannot write \"$name\"$line" &&
        cmp -s "$work/policy.toml" "$work/kept.toml" && cmp -s "$work/script.awk" "$work/kept.awk"
}
script 'BEGIN { print "hi" }'
cp "$work/policy.toml" "$work/kept.toml"
cp "$work/script.awk" "$work/kept.awk"
for name in policy.toml script.awk policy.link script.link; do
    not_audit "$work/$name"
    verdict "an audit that is the run's $name"
done
not_audit "$work/kept.awk" -- "$work/kept.awk"
verdict "an audit that is an operand's file"
not_audit "$work/none/audit"
verdict "an audit that cannot be made"
awkbox run --policy "$work/policy.toml" --log /dev/null -f "$work/script.awk" --audit "$work/report" \
    --report "$work/report"
[ "$status" -eq 3 ] && [ ! -s "$work/output" ] && holds "$work/errors" "awkbox: cannot write \"$work/report\"$line"
verdict "an audit that is the report"
for name in log log.link; do
    echo "from another run" >"$work/log"
    awkbox run --policy "$work/policy.toml" --log "$work/log" -f "$work/script.awk" --audit "$work/$name"
    is 3 "" "awkbox: cannot write \"$work/log\"$line" "from another run$line"
    verdict "an audit that is the log, as $name"
done
run --audit /dev/null
is 0 "hi$line" "" ""
verdict "an audit that is no regular file"
cd "$work/start" || exit 2
rm -f its.audit
awkbox run -C "$base" --policy "$work/policy.toml" --log "$work/log" --audit its.audit -f "$work/script.awk"
is 0 "hi$line" "" "" && holds its.audit "" && [ ! -e "$base/its.audit" ]
verdict "an audit in the folder of the start"
rm -f its.audit
cd "$base" || exit 2

# A policy or a script that is the standard input.

script 'BEGIN { print "hi" }'
awkbox run --policy "$work/policy.toml" --log "$work/log" -f - <"$work/script.awk"
is 0 "hi$line" "" ""
verdict "a script that is the standard input"
awkbox run --policy - --log "$work/log" -f "$work/script.awk" <"$work/policy.toml"
is 0 "hi$line" "" ""
verdict "a policy that is the standard input"
awkbox check --policy - -f "$work/script.awk" <"$work/policy.toml"
is 0 "clean$line" "" ""
verdict "a check of a policy that is the standard input"
awkbox list -f - <<<'BEGIN { system("id") }'
is 0 "1:9 run \"id\"$line" "" ""
verdict "a listing of a script that is the standard input"
awkbox lint --policy - <"$work/policy.toml"
is 0 "" "" ""
verdict "lint of a policy that is the standard input"
awkbox run --policy "$work/policy.toml" --log "$work/log" -f - <&-
is 3 "" "awkbox: cannot read \"-\"$line" ""
verdict "a script that is the standard input, which is closed"
script '{ print "read " $0 }'
(cat "$work/script.awk" && echo more) >"$work/input"
awkbox run --policy "$work/policy.toml" --log "$work/log" -f - <"$work/input"
is 0 "" "" ""
verdict "all of the standard input is the script, and then it has ended"
cp "$work/script.awk" ./-
policy 'effect = "allow"
kind = "write"
match = "-"'
awkbox run --policy - --log "$work/log" -f "$work/kept.awk" <"$work/policy.toml"
is 0 "hi$line" "" ""
verdict "a file called - is not the policy"
awkbox run --policy "$work/policy.toml" --log "$work/log" -f ./- -- - <<<"line"
is 0 "read line$line" "$(writable 1 script ./-)$line" ""
verdict "a script in a file that is called -"
rm -f ./-

# A script of several files and texts.

# parts WORD..: runs a script of these parts under the policy file
parts() {
    echo "from another run" >"$work/log"
    awkbox run --policy "$work/policy.toml" --log "$work/log" "$@"
}
no_rules
printf 'function twice(n) { return 2 * n }' >lib.awk
printf 'BEGIN { print twice(21) }\n' >main.awk
parts -f lib.awk -f main.awk
is 0 "42$line" "" ""
verdict "a library without a newline at its end, and a program"
parts -f main.awk -flib.awk
is 0 "42$line" "" ""
verdict "a program, and a library behind it"
parts -f lib.awk -f - <main.awk
is 0 "42$line" "" ""
verdict "a library, and a program that is the standard input"
parts -e 'BEGIN { print "a" }' -f main.awk '-eBEGIN { print "b" }' -f lib.awk
is 0 "a${line}42${line}b$line" "" ""
verdict "texts and files, in the order of the words"
parts -e 'BEGIN { print ARGV[1] }' in.txt
is 0 "in.txt$line" "" ""
verdict "operands behind a text"
parts -e ''
is 0 "" "" ""
verdict "a text that is empty"
parts -e '' -f lib.awk -e '' -f main.awk
is 0 "42$line" "" ""
verdict "texts that are empty beside files"
for end in '# the end' '# the end \'; do
    printf '%s' "$end" >end.awk
    parts -f end.awk -f lib.awk -f end.awk -f main.awk
    is 0 "42$line" "" ""
    verdict "a file that ends within a comment: $end"
done
parts -f main.awk -f lib.awk -f main.awk
is 0 "42${line}42$line" "" ""
verdict "a file twice"
parts -f lib.awk -f main.awk -f lib.awk
is 3 "" "awkbox: script lib.awk:1:10 S7$line" ""
verdict "a function that a file has twice"
parts -f lib.awk -e 'BEGIN { print' -e '}'
is 0 "$line" "" ""
verdict "a statement that ends where its text does"

# ends_within NAME TEXT PLACE: whether a file that ends so is refused there, alone as before another one
ends_within() {
    printf '%s' "$2" >open.awk
    parts -f open.awk
    is 3 "" "awkbox: script $3$line" "" || { false; verdict "a file that ends within $1, alone"; return; }
    parts -f lib.awk -f open.awk -e '"/; print 1 }'
    is 3 "" "awkbox: script open.awk:$3$line" "from another run$line"
    verdict "a file that ends within $1"
}
ends_within "a string" 'BEGIN { print "a' "1:15 S2"
ends_within "a string that goes on" 'BEGIN { print "a\' "1:15 S2"
ends_within "a pattern that goes on" 'BEGIN { print /a\' "1:15 S2"
ends_within "a line that goes on" 'BEGIN { x = 1 + \' "1:17 S1"

printf '\n\nBEGIN { print "a" > "/etc/x" }\n' >fault.awk
parts -f lib.awk -f fault.awk --report "$work/report"
is 2 "" "awkbox: fault.awk:3:19 F7 cannot open or write output$line" "4:19 write none \"/etc/x\"$line" &&
    grep -qF '"fault":{"code":"F7","column":19,"line":4,' "$work/report" &&
    grep -qF '"refusal":null,"source":{"column":19,"line":3,"name":"fault.awk"},"steps":' "$work/report"
verdict "a fault is told by file and place, and the log has the place in the whole"
parts -f lib.awk -e 'BEGIN { @ }' --report "$work/report"
is 3 "" "awkbox: script -e 1:1:9 S1$line" "from another run$line" && [ "$(cat "$work/report")" = \
    '{"denials":0,"exit_status":3,"fault":null,"log":null,"numbers":"whole","outcome":"refused","refusal":"awkbox: script -e 1:1:9 S1","source":{"column":9,"line":1,"name":"-e 1"},"steps":0}' ]
verdict "the report of a text that is refused"
parts -f lib.awk -f fault.awk -e 'BEGIN { x = }'
is 3 "" "awkbox: script -e 1:1:13 S4$line" ""
verdict "a text that is no script"
awkbox list -f lib.awk -f fault.awk
told 0 "4:19 write \"/etc/x\"$line" ""
verdict "a listing of several files"
awkbox list --files -f lib.awk -f fault.awk -e ''
told 0 "1-1 \"lib.awk\"${line}2-5 \"fault.awk\"${line}6-6 \"-e 1\"$line" ""
verdict "which lines are whose"
awkbox check --policy "$work/policy.toml" -f lib.awk -f fault.awk
told 1 "refused${line}4:19 write \"/etc/x\"$line" ""
verdict "a check of several files"
awkbox lint -f lib.awk -e 'BEGIN { print twice(3) / 2 }'
[ "$status" -eq 0 ] && grep -q '^2:24 ' "$work/output"
verdict "a lint of several files"
awkbox propose --base "$base" -f lib.awk -f fault.awk
[ "$status" -eq 0 ] && grep -q '^# 4:19' "$work/output"
verdict "a proposal for several files"
parts -f lib.awk -f none.awk
is 3 "" "awkbox: cannot read \"none.awk\"$line" "from another run$line" && grep -q 'note: there is no such file' "$work/errors"
verdict "a file of the script that is not there"
cp lib.awk kept.awk
awkbox run --policy "$work/policy.toml" --log lib.awk -f main.awk -f lib.awk
[ "$status" -eq 3 ] && says "awkbox: cannot write \"lib.awk\"$line" && cmp -s lib.awk kept.awk
verdict "a file of the script is not the log"
many=()
echo '# nothing' >one.awk
for ((i = 0; i < 1000; i++)); do many+=(-f one.awk); done
parts "${many[@]}" -f lib.awk -f main.awk
is 0 "42$line" "" ""
verdict "1,000 files and two more"
parts "${many[@]}" -e 'BEGIN { @ }'
is 3 "" "awkbox: script -e 1:1:9 S1$line" "from another run$line"
verdict "a refusal behind 1,000 files"
{
    head -c 9000000 /dev/zero | tr '\0' '#'
    echo
} >large.awk
parts -f large.awk -f main.awk -f lib.awk
is 0 "42$line" "" ""
verdict "a file of 9 MB beside others"
parts -f large.awk -f large.awk
is 3 "" "awkbox: cannot read \"large.awk\"$line" "from another run$line"
verdict "files that have more than 16 MiB together"
rm -f large.awk

# beside_gawk LIBRARY PROGRAM WORD..: whether a program over a library of gawk gives what gawk gives for it
beside_gawk() {
    local library=$1
    printf '%s\n' "$2" >main.awk
    shift 2
    gawk -f "$gawk_library/$library.awk" -f main.awk -- "$@" >"$work/wanted" 2>/dev/null
    parts -f "$gawk_library/$library.awk" -f main.awk -- "$@"
    [ "$status" -eq 0 ] && [ -s "$work/wanted" ] && cmp -s "$work/output" "$work/wanted"
    verdict "a program over gawk's library $library gives what gawk gives"
}
gawk_library=/usr/share/awk
if command -v gawk >/dev/null && [ -e "$gawk_library/join.awk" ]; then
    policy 'effect = "allow"
kind = "read"
match = "*.awk"'
    beside_gawk join 'BEGIN { n = split("a b c", x); print join(x, 1, n, "-"), join(x, 2, n), join(x, 1, n, SUBSEP) }'
    beside_gawk getopt 'BEGIN { while ((c = getopt(ARGC, ARGV, "ab:c")) != -1) print c, Optarg; print Optind }' -a -bx -c -b y z
    beside_gawk ftrans 'function beginfile(f) { print "(" f } function endfile(f) { print f ")" } { n++ } END { print n }' lib.awk one.awk
    beside_gawk ord 'BEGIN { print ord("A"), chr(66) }'
    beside_gawk noassign 'BEGIN { disable_assigns(ARGC, ARGV) } { print FILENAME }' lib.awk
else
    echo "no gawk, or not its library: no program over it is tried"
fi

# Operands behind the script's file.

no_rules
script 'BEGIN { for (i = 1; i < ARGC; i++) print ARGV[i] }'
run a --steps -v x=1 -- b
is 0 "a$line--steps$line-v${line}x=1$line--${line}b$line" "" ""
verdict "words behind the script's file, from the first that is no option on"
run --steps 100 -v x=1 - -f
is 0 "-$line-f$line" "" ""
verdict "options behind the script's file, and then operands, of which - is the first"
run -- -a b
is 0 "-a${line}b$line" "" ""
verdict "operands behind --"
ln -sf "$program" "$work/awkbox"
(
    echo '#!/usr/bin/env -S ./awkbox run --policy policy.toml --log log -f'
    cat "$work/script.awk"
) >"$work/executable"
chmod +x "$work/executable"
(cd "$work" && ./executable a "b c" -x >output 2>errors)
status=$?
is 0 "a${line}b c$line-x$line" "" ""
verdict "a script with a first line that starts awkbox"
sed -i '1s/-f$/-E/' "$work/executable"
(cd "$work" && ./executable --report=x -x -- --help >output 2>errors)
status=$?
is 0 "--report=x$line-x$line--$line--help$line" "" "" && [ ! -e "$work/x" ]
verdict "a script with a first line behind which all words are operands"
awkbox run --policy "$work/policy.toml" --log "$work/log" "-E$work/script.awk" -v x=1
is 0 "-v${line}x=1$line" "" ""
verdict "words behind a script's file that stands in one word with its option"

# The words of run: variables, separator, steps and operands.

no_rules
script '{ print v, $2 }'
echo 'x:y z' >"$work/input"
run -v 'v=a\tb' -F : <"$work/input"
is 0 "a	b y z$line" "" ""
verdict "a variable and a separator"

run -vv=1 -v v=2=3 -F: <"$work/input"
is 0 "2=3 y z$line" "" ""
verdict "values in one word with their options, and a variable that is set twice"

run -F -v <<<"a-vb"
is 0 " b$line" "" ""
verdict "a separator that looks like an option"

script 'function f() { } BEGIN { x[1] = 1 }'
run -v y=1 -v x=1 -v f=1
is 3 "" "awkbox: assignment 2 U3$line" ""
verdict "a variable that is an array"

for word in 1=2 x =x ''; do
    awkbox run --policy none --log none -f none -v y=1 -v "$word"
    : >"$work/log"
    is 3 "" "awkbox: assignment 2 U1$line" ""
    verdict "a variable without a name: '$word'"
done

script 'BEGIN { while (1) { n++; print n } }'
run --steps 5
is 4 "1${line}2$line" "awkbox: F11 step bound reached$line" ""
verdict "a bound of steps"

script 'BEGIN { }'
for steps in 0 007 1000000000000; do
    run --steps "$steps"
    is 0 "" "" ""
    verdict "a bound of $steps steps"
done

# As many levels as a run may nest have room on the stack.
nested() {
    local text=
    for _ in $(seq 90); do text+=$1; done
    text+="$2"
    for _ in $(seq 90); do text+=$3; done
    script "function f(n) { if (n == 0) return 7; $text } BEGIN { a[1]; f($4); print \"back\" }"
    run
}
for body in 'if (1) {|}' 'while (1) {|}' 'for (k in a) {|}'; do
    nested "${body%|*}" ' return f(n - 1) ' "${body#*|}" 10
    is 0 "back$line" "" ""
    verdict "ten calls in 90 levels of $body"
    nested "${body%|*}" ' return f(n - 1) ' "${body#*|}" 198
    is 2 "" "awkbox: 0:0 F13 out of memory$line" ""
    verdict "calls in too many levels of $body"
done
nested 'b[' 'f(n - 1)' '] += 1' 10
is 0 "back$line" "" ""
verdict "ten calls in 90 subscripts"
nested 'b[' 'f(n - 1)' '] += 1' 198
is 2 "" "awkbox: 0:0 F13 out of memory$line" ""
verdict "calls in too many subscripts"

mkdir -p in
printf '1\n2\n' >in/a
printf '3' >in/b
policy 'effect = "allow"
kind = "read"
match = "**"
from = "given"' 'effect = "allow"
kind = "assign"
match = "v"'
script '{ print FILENAME, FNR, NR, v, $0 } END { print NR }'
run -- in/a v=x w=y in/b <"$work/input"
is 0 "in/a 1 1  1${line}in/a 2 2  2${line}in/b 1 3 x 3${line}3$line" "" "0:0 assign none \"w\"$line"
verdict "operands: files, a variable that is set and one that is denied"

run -- - in/none <"$work/input"
is 2 "- 1 1  x:y z${line}1$line" "awkbox: cannot open \"in/none\"$line" ""
verdict "operands: the standard input and a file that is not there"

run -- in/b $'\xff' -- -f
is 2 "in/b 1 1  3${line}1$line" \
    "awkbox: cannot open \"\\xff\"${line}awkbox: cannot open \"--\"${line}awkbox: cannot open \"-f\"$line" \
    "0:0 read none \"\\xff\"$line"
verdict "operands: one that is no text, and words that look like options"

run <"$work/input"
is 0 " 1 1  x:y z${line}1$line" "" ""
verdict "no operand"

script 'BEGIN { ARGV[2] = "in/b"; ARGC = 3 } { print FILENAME, $0 }'
run -- in/a
is 2 "in/a 1${line}in/a 2$line" "awkbox: cannot open \"in/b\"$line" "0:0 read none \"in/b\"$line"
verdict "an operand that the script adds is not given"

# Elements of ARGV that are not the words of the command line are not given.
policy 'effect = "allow"
kind = "read"
match = "**"
from = "given"' 'effect = "allow"
kind = "assign"
match = "ARGC"' 'effect = "allow"
kind = "read"
match = "in/list"'
echo in/b >in/list
not_given() {
    is 2 "$1" "awkbox: cannot open \"in/b\"$line" "0:0 read none \"in/b\"$line"
}
script 'BEGIN { ARGV[1] = "in/b" } { print FILENAME, $0 }'
run -- in/a
not_given ""
verdict "an operand that is changed before the records"

script 'FNR == 1 { ARGV[ARGC] = "in/b"; ARGC++ } { print FILENAME, $0 }'
run -- in/a
not_given "in/a 1${line}in/a 2$line"
verdict "an operand that is added in a rule"

script 'BEGIN { getline ARGV[1] < "in/list" } { print FILENAME, $0 }'
run -- in/a
not_given ""
verdict "an operand that is changed by getline"

script 'BEGIN { ARGV[3] = "in/b" } { print FILENAME, $0 }'
run -- ARGC=4 in/a
not_given "in/a 1${line}in/a 2$line"
verdict "an operand that another operand lets in"

script 'BEGIN { ARGV[2] = ARGV[1]; ARGV[3] = "in/./b"; delete ARGV[1] } { print FILENAME, $0 }'
run -- in/a in/b in/b
is 2 "in/a 1${line}in/a 2$line" "awkbox: cannot open \"in/./b\"$line" "0:0 read none \"in/./b\"$line"
verdict "an operand that is moved, and one that is spelled otherwise"

script '{ r = (getline l < "in/a"); print r; exit }'
run -- in/a
is 0 "-1$line" "" "1:8 read none \"in/a\"$line"
verdict "an operand's file that the script opens is not given"

# The environment.

policy 'effect = "allow"
kind = "env"
match = "LANG"'
script 'BEGIN { for (k in ENVIRON) print k, ENVIRON[k] }'
env -i Z=1 LANG=C A= $'\xff=x' "$program" run --policy "$work/policy.toml" --log "$work/log" \
    -f "$work/script.awk" >"$work/output" 2>"$work/errors"
status=$?
is 0 "LANG C$line" "" "0:0 env none \"A\"${line}0:0 env none \"Z\"$line"
verdict "the environment"

script 'BEGIN { print "hi" }'
run
is 0 "hi$line" "" ""
verdict "an environment that the script does not name"

# Streams.

policy 'effect = "allow"
kind = "read"
match = "in/**"' 'effect = "allow"
kind = "write"
match = "out/*"' 'effect = "allow"
kind = "append"
match = "out/*"' 'effect = "allow"
kind = "run"
match = "sort *"' 'effect = "allow"
kind = "run"
match = "echo *"'
script 'BEGIN { while ((getline l < "in/a") > 0) n += l; print n; print (getline l < "in/none"), (getline l < "none") }'
run
is 0 "3${line}-1 -1$line" "" "1:91 read none \"none\"$line"
verdict "a file that is read to its end"

script 'BEGIN { "echo ab" | getline x; "echo c" | getline; print x, $0; print close("echo ab"), close("none") }'
run
is 0 "ab c${line}0 -1$line" "" ""
verdict "commands that are read"

printf 'b 1\na 2\nc 3\n' >in/c
script '{ print $1 | "sort -r" } END { print "end" }'
run -- in/c
is 0 "end${line}c${line}b${line}a$line" "" ""
verdict "a command that is written to"

script 'BEGIN { print "a" > "out/a"; print "b" >> "out/a"; close("out/a"); print "c" >> "out/a"; print "d" > "out/b"; close("out/b"); getline x < "out/b"; print x }'
cp in/b out/a
run
is 0 "$line" "" "1:127 read none \"out/b\"$line" && holds out/a "a${line}b${line}c$line" && holds out/b "d$line"
verdict "files that are written, added to and closed"

policy 'effect = "allow"
kind = "run"
match = "**"'
script 'BEGIN { print system("exit 3"), system("kill -9 $$"); "exit 5" | getline; print close("exit 5") }'
run
is 0 "3 256${line}5$line" "" ""
verdict "the statuses of commands"

script 'BEGIN { while (("ls in" | getline f) > 0) print f }'
run
is 0 "a${line}b${line}c${line}list$line" "" ""
verdict "a folder that a command lists"

script 'BEGIN { for (i = 1000000; i > 0; i--) print i | "sort -n" }'
run
[ "$status" -eq 0 ] && seq 1000000 | cmp -s - "$work/output" && says ""
verdict "a million lines to a command"

script 'BEGIN { for (i = 0; i < 1000; i++) { c = "echo " i; c | getline x; n += x; print i | "cat"; close(c); close("cat") } print n }'
echo "from another run" >"$work/log"
bash -c 'ulimit -n 32 && exec "$@"' - "$program" run --policy "$work/policy.toml" --log "$work/log" \
    -f "$work/script.awk" >"$work/output" 2>"$work/errors"
status=$?
is 0 "$(seq 0 999)${line}499500$line" "" ""
verdict "two thousand commands, with few descriptors"

policy 'effect = "allow"
kind = "read"
match = "in/*"'
mkfifo in/fifo
script 'BEGIN { while ((getline l < "in/fifo") > 0) print "got " l }'
(printf 'x\ny' >in/fifo) &
run
wait
is 0 "got x${line}got y$line" "" ""
verdict "a pipe with a name"
rm in/fifo

script 'BEGIN { exit 5 } END { print "end" }'
run
is 5 "end$line" "" ""
verdict "the status of a script"

# A host that bounds what a run takes, by the recipe of docs/HOSTING.md.

mkdir -p "$work/host"
sed -n '/^```sh$/,/^```$/{/^```/!p}' "$top/docs/HOSTING.md" >"$work/recipe"
# attack NAME SECONDS SCRIPT RULE..: runs the script by the recipe, and fails where it takes longer
attack() {
    local name=$1 most=$2
    local home=$work/host/$name
    mkdir -p "$home"
    script "$3"
    base=$home no_rules
    [ $# -lt 4 ] || base=$home policy "${@:4}"
    local before=$SECONDS
    hosted host "$home" "$work/script.awk"
    took=$((SECONDS - before))
    [ "$took" -le "$most" ]
}
# hosted FUNCTION FOLDER SCRIPT [OPERAND..]: calls a function of the page, by whose name for it the log is taken then
hosted() {
    awkbox=$program policy=$work/policy.toml logs=$work/host bash -c '. "$0" && "$@"' "$work/recipe" "$@" \
        >"$work/output" 2>"$work/errors" </dev/null
    status=$?
    cp "$(logs=$work/host bash -c '. "$0" && log_of "$1"' "$work/recipe" "$2")" "$work/log"
}
attack plain 5 'BEGIN { print "a" > "a"; system("id"); print "hi" }' 'effect = "allow"
kind = "write"
match = "a"' && is 0 "hi$line" "" "1:26 run none \"id\"$line" && holds "$work/host/plain/a" "a$line" &&
    grep -q '"outcome":"status"' "$work"/host/*plain.json
verdict "a run by the recipe for hosts"
sed -n '/^```sh$/,/^```$/{/^```sh/d;/^```/q;p}' "$top/docs/HOSTING.md" |
    cmp -s - <(tail -n +4 "$examples/teaching-server/host.sh")
verdict "the recipe of the teaching server is that of the page"
mkdir -p "$work/host/one/same" "$work/host/two/same"
base=$work/host/one/same no_rules
script 'BEGIN { system("id") }'
hosted host "$work/host/one/same/" "$work/script.awk"
is 0 "" "" "1:9 run none \"id\"$line"
verdict "a run by the recipe in a folder that is named with a slash behind it"
base=$work/host/two/same no_rules
script 'BEGIN { system("ls") }'
hosted host "$work/host/two/same" "$work/script.awk" && is 0 "" "" "1:9 run none \"ls\"$line" &&
    [ "$(cat "$work"/host/*one*same.log)" = '1:9 run none "id"' ]
verdict "folders of one name have logs of their own"
if command -v bwrap >/dev/null; then
    # the program where ./install puts it, under a prefix of its own
    mkdir -p "$work/prefix/bin"
    cp "$program" "$work/prefix/bin/awkbox"
    script 'BEGIN { print "a" > "a"; system("test -e /etc/passwd || echo boxed"); system("id") }'
    base=$work/host/two/same policy 'effect = "allow"
kind = "write"
match = "a"' 'effect = "allow"
kind = "run"
match = "test -e /etc/passwd || echo boxed"'
    program=$work/prefix/bin/awkbox hosted boxed "$work/host/two/same" "$work/script.awk"
    is 0 "boxed$line" "" "1:71 run none \"id\"$line" && holds "$work/host/two/same/a" "a$line" &&
        grep -q '"outcome":"status"' "$work"/host/*two*same.json
    verdict "a run by the recipe in a box"
fi
attack memory 10 'BEGIN { for (s = "x"; i < 22; i++) s = s s; while (1) a[n++] = s n }' &&
    is 2 "" "awkbox: 0:0 F13 out of memory$line" ""
verdict "an attack on memory"
attack command 30 "BEGIN { system(\"sleep 1000.$$; sleep 1000.$$\") }" 'effect = "allow"
kind = "run"
match = "**"' && [ "$status" -eq 124 ] && ! pgrep -f "sleep 1000[.]$$" >/dev/null
verdict "an attack by a command without end"
attack log 10 'BEGIN { for (c = "id"; i < 12; i++) c = c c; while (1) system(c) }' && [ "$status" -eq 2 ] &&
    says "awkbox: 1:56 F12 cannot write the denial log$line" &&
    [ "$(wc -c <"$work/log")" -le 1000000 ] && [ "$(tail -c 3 "$work/log")" = 'd"' ]
verdict "an attack that floods the log"
attack file 10 'BEGIN { for (s = "x"; i < 20; i++) s = s s; while (1) print s > "a" }' 'effect = "allow"
kind = "write"
match = "a"' && is 2 "" "awkbox: 1:63 F7 cannot open or write output$line" "" &&
    [ "$(wc -c <"$work/host/file/a")" -le 20480000 ]
verdict "an attack that floods a file"
nest=$(printf '(%.0s' {1..100000})
attack nest 10 "BEGIN { x = ${nest}1${nest//(/)} }" && [ "$status" -eq 3 ] && grep -Eqx 'awkbox: script 1:[0-9]+ S5' "$work/errors"
verdict "an attack by a deep nest"
attack calls 10 'function f(n) { return f(n + 1) + 1 } BEGIN { f(0) }' && [ "$status" -eq 2 ] &&
    grep -Eqx 'awkbox: [0-9]+:[0-9]+ F[0-9]+ .*' "$work/errors"
verdict "an attack by calls without end"
attack pattern 30 'BEGIN { for (s = "a"; i < 20; i++) s = s s; while (1) n += match(s, /((a?){141}){141}b/) }' &&
    [ "$status" -ge 124 ]
verdict "an attack by a pattern that is slow"

# Data and patterns that are made to be slow, beside others in the same run.

# user_ms WORD..: the milliseconds of processor time that the program takes
user_ms() {
    local TIMEFORMAT=%3U took
    took=$({ time "$program" "$@" >"$work/output" 2>"$work/errors" </dev/null; } 2>&1)
    echo $((10#${took/./}))
}
if command -v python3 >/dev/null; then
    # 80,000 keys of 16 bytes: any, such as have one hash by a known factor of it, and such as have one hash by a known seed
    python3 - "$work" <<'END'
import sys

MASK, FACTOR, START = 2**64 - 1, 0x9E3779B97F4A7C15, 0x243F6A8885A308D3


def after(state, word):
    product = (state ^ word) * (FACTOR ^ 16)
    return product & MASK ^ product >> 64


def keys(tail):
    texts = (b"%08d" % k for k in range(100000))
    found = [text + tail(int.from_bytes(text, "little")) for text in texts]
    return b"\n".join([key for key in found if b"\n" not in key][:80000]) + b"\n"


seeded = after(START, 0)
for name, tail in (
    ("any", lambda word: b"abcdefgh"),
    ("factor", lambda word: FACTOR.to_bytes(8, "little")),
    ("seed", lambda word: (after(seeded, word) ^ 0x0123456789ABCDEF).to_bytes(8, "little")),
):
    with open(f"{sys.argv[1]}/keys.{name}", "wb") as out:
        out.write(keys(tail))
END
    base=$work/elsewhere policy 'effect = "allow"
kind = "read"
match = "**"
from = "given"'
    script '{ c[$0]++ } END { print length(c[$0]) }'
    count_ms() {
        user_ms run --policy "$work/policy.toml" --log "$work/log" -C "$work/elsewhere" -f "$work/script.awk" -- "$work/keys.$1"
    }
    any=$(count_ms any)
    for made in factor seed; do
        status=$(count_ms "$made")
        [ "$status" -le $((2 * any + 100)) ]
        verdict "keys that are made for a known $made of the hash"
    done
fi

# slow NAME LENGTH OPERATION: whether the operation on a text twice as long takes about twice as long
slow() {
    script 'BEGIN { for (t = "abbabaababbaababba"; length(t) < n; ) t = t t "b" substr(t, 7); s = substr(t, 1, n); '"$3"' }'
    no_rules
    local words=(run --policy "$work/policy.toml" --log "$work/log" -f "$work/script.awk" -v)
    local once twice
    once=$(user_ms "${words[@]}" "n=$2")
    twice=$(user_ms "${words[@]}" "n=$((2 * $2))")
    status=$twice
    [ "$twice" -le $((3 * once + 100)) ]
    verdict "$1"
}
slow "a gsub whose every search reads to the end" 100000 'gsub(/(a|b)*a(a|b){12}#|a/, "x", s)'
slow "a split by such a pattern" 100000 'n = split(s, p, /(a|b)*a(a|b){12}#|a/)'
slow "a gsub by such a pattern of the largest" 1000 'gsub(/((a?){141}){141}#|a/, "x", s)'

# Notes behind messages.

# notes NAME TEXT: whether the last run gave just this note
notes() {
    [ "$(grep '^awkbox: note: ' "$work/errors")" = "awkbox: note: $2" ]
    verdict "a note: $1"
}

no_rules
while IFS='|' read -r name text note; do
    printf "$text" >"$work/script.awk"
    run
    notes "$name" "$note"
done <<'END'
a sign of gawk|BEGIN { @ }|U+0040 is of gawk alone
a byte order mark|\xef\xbb\xbfBEGIN { }|U+FEFF is a byte order mark: save the script without one
a byte that is no text|BEGIN { \xff }|the byte 0xFF is no text of UTF-8
an open string|BEGIN { print "a|the string that begins here is not closed on its line
a fraction|BEGIN { x = 1.5 }|numbers are whole: no point and no exponent
a large number|BEGIN { x = 9223372036854775808 }|a number is at most 9,223,372,036,854,775,807
a sign|BEGIN { print ) }|`)` cannot stand here: an expression comes next, or the end of the statement
a line that ends|BEGIN { x =\n}|the line ends too early: an expression comes next
the end|BEGIN { if (|the script ends too early: an expression comes next
a word of gawk|BEGIN { switch (x) { } }|`{` cannot stand here: `switch` is of gawk alone
a word of fractions|BEGIN { print sin(1) }|`sin` is for numbers with fractions, as --numbers double has them: an expression comes next, or the end of the statement
two ways|BEGIN { x[1] = 1; x = 2 }|`x` is used in two ways, of these: array, variable, function
a function|BEGIN { f(1) }|no function `f` takes these arguments: it is not there, or has fewer parameters
a function of gawk|BEGIN { print gensub("a", "b", "g") }|`gensub` is of gawk alone: the script has no function of this name
a word at a wrong place|BEGIN { next }|`next` stands in a rule for records, or in a function
END

script 'BEGIN { print ) }'
awkbox list -f "$work/script.awk"
notes "list" "\`)\` cannot stand here: an expression comes next, or the end of the statement"
awkbox run --policy "$work/policy.toml" --log "$work/log" -C "$base" -f "$work/script.awk"
notes "in another folder" "\`)\` cannot stand here: an expression comes next, or the end of the statement"
script 'BEGIN { }'
run -v 1=1
notes "an assignment" "\`-v 1=1\` is not NAME=VALUE with the name of a variable"
awkbox list -f "$work/not-there"
notes "no file" "there is no such file"
awkbox list -f "$work"
notes "a folder" "it is a folder"
truncate -s 16777217 "$work/large"
awkbox list -f "$work/large"
notes "a large file" "it has over 16 MiB"
rm "$work/large"
printf 'version = 1\nbase = "w"\n' >"$work/policy.toml"
run
notes "a policy" "\`awkbox lint --policy $work/policy.toml\` tells more"

policy 'effect = "deny"
kind = "write"
match = "out/a"' 'effect = "allow"
kind = "write"
match = "**"'
script 'BEGIN { print > "out/a" }'
run
notes "denied" 'the policy denies it; the log has: 1:15 write 1 "out/a"'
script 'BEGIN { print > "no/a" }'
run
notes "not denied" "no rule denies it: the system refuses it"

mkdir -p in/folder
printf '1\n' >in/a
policy 'effect = "allow"
kind = "read"
match = "in/**"'
script '{ print }'
run -- in/a in/none in/folder secret n=1 - <"$work/input"
notes "operands that cannot be opened" "\"in/none\": there is no such file
awkbox: note: \"in/folder\": it is a folder
awkbox: note: the policy denies an operand; the log has: 0:0 read none \"secret\""
script 'BEGIN { exit 2 }'
run -- in/a
! grep -q '^awkbox: note: ' "$work/errors"
verdict "no note: each operand can be opened"
script 'BEGIN { r = (getline x < "in/folder"); print r }'
run
is 0 "-1$line" "" ""
verdict "a reading that fails is not the end"
rmdir in/folder

# Listings and verdicts.

script '{ print $1 | "sort -r" }'
awkbox list -f "$work/script.awk"
told 0 "0:0 read *${line}0:0 assign *${line}1:12 run \"sort -r\"$line" ""
verdict "a listing"

printf 'BEGIN { print ENVIRON["x"] > "\303\251" ; "a" | getline x | getline; getline < ("-") }\n' \
    >"$work/script.awk"
awkbox list "-f$work/script.awk"
told 0 "0:0 env *${line}1:28 write \"\\xc3\\xa9\"${line}1:43 run \"a\"${line}1:55 run *$line" ""
verdict "a listing with a text that is quoted, and a chain"

policy 'effect = "allow"
kind = "run"
match = "sort *"'
check() { awkbox check --policy "$work/policy.toml" -f "$work/script.awk"; }
script 'BEGIN { system("sort -r") }'
check
told 0 "clean$line" ""
verdict "a script that is clean"

script '{ system("id"); print > $1 }'
check
told 1 "refused${line}1:3 run \"id\"$line" ""
verdict "a script that is refused"

script 'BEGIN { f = "/x"; print "a" > f; print "b" | "sort -r" }'
check
told 1 "open${line}1:29 write *$line" ""
verdict "a script that is open"
awkbox check --allow-open --policy "$work/policy.toml" -f "$work/script.awk"
told 0 "open${line}1:29 write *$line" ""
verdict "a script that may be open"
script '{ system("id"); print > $1 }'
awkbox check --policy "$work/policy.toml" -f "$work/script.awk" --allow-open
told 1 "refused${line}1:3 run \"id\"$line" ""
verdict "a script that is refused where it may be open"

script 'BEGIN { print ) }'
check
told 3 "" "awkbox: script 1:15 S4$line"
verdict "a verdict on a script that is refused"
awkbox list -f "$work/script.awk"
told 3 "" "awkbox: script 1:15 S4$line"
verdict "a listing of a script that is refused"

printf 'version = 3\n' >"$work/policy.toml"
check
told 3 "" "awkbox: policy P2$line"
verdict "a verdict by a policy that is refused"

awkbox check --policy "$work/none" -f "$work/none.awk"
told 3 "" "awkbox: cannot read \"$work/none\"$line"
verdict "a verdict by a policy that is not there"
awkbox list -f "$work/none.awk"
told 3 "" "awkbox: cannot read \"$work/none.awk\"$line"
verdict "a listing of a script that is not there"

for example in hi/hi report-host/report teaching-server/exercise log-pipeline/step many-machines/count; do
    folder=$examples/${example%/*}
    awkbox list -f "$examples/$example.awk"
    [ "$status" -eq 0 ] && cmp -s "$work/output" "$folder/listing.txt" && says ""
    verdict "the listing of the example $example"
    awkbox check --policy "$folder/policy.toml" -f "$examples/$example.awk"
    [ "$status" -eq "$([ "$example" = hi/hi ]; echo $?)" ] &&
        cmp -s "$work/output" "$folder/verdict.txt" && says ""
    verdict "what the policy says of the example $example"
done

# Sites as JSON.

policy 'effect = "allow"
kind = "run"
match = "sort *"' 'effect = "allow"
kind = "write"
match = "out/a*"' 'effect = "deny"
kind = "write"
match = "out/**"' 'effect = "allow"
kind = "append"
match = "out/log"
limit = 2'
sed -i 's/^version = 1/version = 2/' "$work/policy.toml"
script '{ system("sort -r"); system("a \"b\"\t\\"); print > "out/a"
  print > "out/b"; print >> "out/log"; print | $1; print >> "/\377\303\251" }'
awkbox list --json -f "$work/script.awk"
told 0 '{"column":0,"kind":"read","line":0,"text":null}
{"column":0,"kind":"assign","line":0,"text":null}
{"column":3,"kind":"run","line":1,"text":"sort -r"}
{"column":22,"kind":"run","line":1,"text":"a \"b\"\t\\"}
{"column":51,"kind":"write","line":1,"text":"out/a"}
{"column":9,"kind":"write","line":2,"text":"out/b"}
{"column":26,"kind":"append","line":2,"text":"out/log"}
{"column":46,"kind":"run","line":2,"text":null}
{"column":58,"kind":"append","line":2,"text":"/'$'\xef\xbf\xbd\xc3\xa9''"}'"$line" ""
verdict "a listing as JSON"
awkbox check --json --policy "$work/policy.toml" -f "$work/script.awk"
told 1 '{"column":0,"kind":"read","line":0,"rule":null,"text":null,"verdict":"open"}
{"column":0,"kind":"assign","line":0,"rule":null,"text":null,"verdict":"open"}
{"column":3,"kind":"run","line":1,"rule":1,"text":"sort -r","verdict":"allowed"}
{"column":22,"kind":"run","line":1,"rule":null,"text":"a \"b\"\t\\","verdict":"denied"}
{"column":51,"kind":"write","line":1,"rule":2,"text":"out/a","verdict":"allowed"}
{"column":9,"kind":"write","line":2,"rule":3,"text":"out/b","verdict":"denied"}
{"column":26,"kind":"append","line":2,"rule":4,"text":"out/log","verdict":"open"}
{"column":46,"kind":"run","line":2,"rule":null,"text":null,"verdict":"open"}
{"column":58,"kind":"append","line":2,"rule":null,"text":"/'$'\xef\xbf\xbd\xc3\xa9''","verdict":"denied"}'"$line" ""
verdict "a check as JSON"
if command -v jq >/dev/null; then
    [ "$(jq -r 'select(.verdict == "denied") | .text' "$work/output" | head -n 2)" = "a \"b\"$(printf '\t')\\${line}out/b" ]
    verdict "a check as JSON that jq reads"
fi
awkbox check --json --allow-open --policy "$work/policy.toml" -f "$work/script.awk"
[ "$status" -eq 1 ]
verdict "a check as JSON of a script that is refused where it may be open"
script 'BEGIN { print "a" | $1 }'
awkbox check --json --allow-open --policy "$work/policy.toml" -f "$work/script.awk"
told 0 '{"column":19,"kind":"run","line":1,"rule":null,"text":null,"verdict":"open"}'"$line" ""
verdict "a check as JSON of a script that may be open"
script 'BEGIN { print "a" }'
awkbox check --json --policy "$work/policy.toml" -f "$work/script.awk"
told 0 "" "" && awkbox list --json -f "$work/script.awk" && told 0 "" ""
verdict "a check and a listing as JSON of a script without sites"
script 'BEGIN { print ) }'
awkbox check --json --policy "$work/policy.toml" -f "$work/script.awk"
told 3 "" "awkbox: script 1:15 S4$line" && awkbox list --json -f "$work/script.awk" &&
    told 3 "" "awkbox: script 1:15 S4$line"
verdict "a check and a listing as JSON of a script that is refused"

# A base in the place of the policy's own, before a run.

policy 'effect = "allow"
kind = "write"
match = "out/*"'
p=$work/policy.toml
script "BEGIN { print > \"$work/one/out/a\" }"
awkbox check --policy "$p" -f "$work/script.awk"
told 1 "refused${line}1:15 write \"$work/one/out/a\"$line" "" &&
    awkbox check --policy "$p" --base "$work/one" -f "$work/script.awk" && told 0 "clean$line" "" &&
    awkbox check --json --policy "$p" --base "$work/one" -f "$work/script.awk" &&
    grep -q '"verdict":"allowed"' "$work/output" && cd "$work" &&
    awkbox check --policy "$p" --base one -f "$work/script.awk" && told 0 "clean$line" ""
verdict "a check under another base"
cd "$base" || exit 2
for folder in '' ../base "$work/one/.." '?'; do
    awkbox check --policy "$p" --base "$folder" -f "$work/script.awk"
    told 3 "" "awkbox: policy P3$line"
    verdict "a check under a base that no policy may have: '$folder'"
done
cd "$work" || exit 2
awkbox why --policy "$p" --base one write out/a
told 0 "normal form: \"$work/one/out/a\"
rule 1 ($p:4): allow write \"out/*\": fits
allow: rule 1 ($p:4)$line" ""
verdict "why a path is allowed under another base"
awkbox why --policy "$p" --base .. write out/a
told 3 "" "awkbox: policy P3$line"
verdict "why under a base that no policy may have"
cd "$base" || exit 2
awkbox lint --policy "$p" --base ..
told 3 "$p:2: P3: the base that is given in its place is not an absolute path without *, ? and ..$line" ""
verdict "a lint under a base that no policy may have"
policy 'effect = "allow"
kind = "write"
match = "policy.*"'
awkbox lint --policy "$p"
told 0 "" "" && awkbox lint --policy "$p" --base "$work" &&
    told 0 "$p:4: warning: rule 1: allow write reaches the policy$line" ""
verdict "a lint of a policy that lies in the base that is given"
awkbox lint --base / -f "$work/script.awk"
[ "$status" -eq 3 ] && grep -q '^error: --base is of --policy$' "$work/errors"
verdict "a lint under a base without a policy"

# A policy that explains itself.

policy 'effect = "deny"
kind = "write"
match = "out/archive/**"' 'effect = "allow"
kind = "write"
match = "out/**"' 'effect = "allow"
kind = "read"
match = "**"
from = "given"' 'effect = "allow"
kind = "run"
match = "mail *"'
p=$work/policy.toml
awkbox why --policy "$p" write ./out//archive/a
told 0 "normal form: \"$base/out/archive/a\"
rule 1 ($p:4): deny write \"out/archive/**\": fits
rule 2 ($p:9): allow write \"out/**\": fits
deny: rule 1 ($p:4)$line" ""
verdict "why a path is denied"
awkbox why --policy "$p" write out/a
told 0 "normal form: \"$base/out/a\"
rule 1 ($p:4): deny write \"out/archive/**\": does not fit
rule 2 ($p:9): allow write \"out/**\": fits
allow: rule 2 ($p:9)$line" ""
verdict "why a path is allowed"
awkbox why --policy "$p" write ../a
told 0 "normal form: none
rule 1 ($p:4): deny write \"out/archive/**\": does not fit
rule 2 ($p:9): allow write \"out/**\": does not fit
deny: no rule fits$line" ""
verdict "why a path without a normal form is denied"
awkbox why --policy "$p" --given read in/a
told 0 "normal form: \"$base/in/a\"
rule 3 ($p:14): allow read \"**\" given: fits
allow: rule 3 ($p:14)$line" ""
verdict "why an operand is allowed"
awkbox why --policy "$p" read in/a
told 0 "normal form: \"$base/in/a\"
rule 3 ($p:14): allow read \"**\" given: does not fit
deny: no rule fits$line" ""
verdict "why a file that is no operand is denied"
awkbox why --policy "$p" run "mail -s"
told 0 "rule 4 ($p:20): allow run \"mail *\": fits
allow: rule 4 ($p:20)$line" ""
verdict "why a command is allowed"
awkbox why --policy "$p" env HOME
told 0 "deny: no rule fits$line" ""
verdict "why a name is denied"

awkbox lint --policy "$p"
told 0 "$p:20: warning: rule 4: * may stand for an option too$line" ""
verdict "nothing is wrong with a policy but what a command lets through"

# lints NAME LINES STATUS: whether lint tells this of the policy file
lints() {
    awkbox lint --policy "$p"
    told "$3" "$2" ""
    verdict "$1"
}
# lone_rule VERSION TEXT: writes the policy file with one rule, whose header stands on line 4
lone_rule() { printf 'version = %s\nbase = "/w"\n\n[[rule]]\n%s\n' "$1" "$2" >"$p"; }
# rules COUNT: so many rules, five lines each
rules() { yes $'[[rule]]\neffect = "allow"\nkind = "read"\nmatch = "a"\n' | head -n $((5 * $1)); }
top_of() { printf 'version = 1\nbase = "%s"\n%s\n' "$base" "$1" >"$p"; }
top_of 'rules = 1'
lints "a top key that is not known" "$p:3: P4: unknown key \"rules\" (did you mean \"rule\"?); a policy has version, base, rule$line" 3
printf 'base = "/w"\nversion = 3\n' >"$p"
lints "a version that is not known" "$p:2: P2: version is neither 1 nor 2$line" 3
printf 'version = 1\nbase = "w"\n' >"$p"
lints "a base that is not absolute" "$p:2: P3: base does not begin with /$line" 3
top_of 'rule = 1'
lints "rules that are no tables" "$p:3: P5: rule is no array of tables; write [[rule]] above each rule$line" 3
top_of '[[rules]]'
lints "a table that is not known" "$p:3: P4: unknown key \"rules\" (did you mean \"rule\"?); a policy has version, base, rule$line" 3
top_of '"x y".z = 1'
lints "a key in quotes that is not known" "$p:3: P4: unknown key \"x y\"; a policy has version, base, rule$line" 3
printf '# of reports\nbase = "/w"\n' >"$p"
lints "a version that is missing" "$p:1: P2: version is missing; it is 1, or 2 where rules have limits$line" 3
printf 'base = "/w"\n\n[[rule]]\neffect = "allow"\nversion = 1\n' >"$p"
lints "a version below a rule's header" "$p:5: P2: rule 1: version is a key of the policy; write it above the first [[rule]]$line" 3
printf 'version = "1"\nbase = "/w"\n' >"$p"
lints "a version that is no number" "$p:1: P2: version is no whole number; it is 1, or 2 where rules have limits$line" 3
printf 'version = 1\n' >"$p"
lints "a base that is missing" "$p:1: P3: base is missing; it is an absolute path$line" 3
printf 'version = 1\n\n[[rule]]\nkind = "read"\n\n[[rule]]\nbase = "/w"\n' >"$p"
lints "a base below a rule's header" "$p:7: P3: rule 2: base is a key of the policy; write it above the first [[rule]]$line" 3
for case in '1|is no text; it is an absolute path' '"/w/*"|holds * or ?' '"/w/../x"|has a component .., which is never folded' \
    '"/w\u0000"|holds a NUL byte'; do
    printf '%s\n' 'version = 1' "base = ${case%%|*}" >"$p"
    lints "a base that ${case#*|}" "$p:2: P3: base ${case#*|}$line" 3
done
top_of '[rule]'
lints "a table for the rules" "$p:3: P5: rule is no array of tables; write [[rule]] above each rule$line" 3
top_of 'rule = [{kind = "read"}, 2]'
lints "a rule that is no table" "$p:3: P5: rule 2: no table; write [[rule]] above each rule$line" 3
top_of "$(rules 1026)"
lints "rules past the limit" "$p:5123: P7: rule 1025: a policy has at most 1024 rules, and this one has 1026$line" 3
top_of "rule = [$(yes '{kind = "read"},' | head -n 1025)]"
lints "rules past the limit in one value" "$p:3: P7: rule 1025: a policy has at most 1024 rules, and this one has 1025$line" 3
policy 'effect = "allow"
kind = "read"
path = "a"'
lints "a key that is not known" "$p:7: P4 rule 1: unknown key \"path\" (did you mean \"match\"?); a rule has effect, kind, match, from$line" 3
policy 'effect = "allow"
match = "a"'
lints "a key that is missing" "$p:4: P4 rule 1: kind is missing; a rule has effect, kind, match, from$line" 3
policy 'effect = "alow"
kind = "read"
match = "a"'
lints "a value that is not known" "$p:5: P5 rule 1: unknown effect \"alow\" (did you mean \"allow\"?); it is allow or deny$line" 3
policy 'effect = "allow"
kind = "write"
match = "a"
from = "given"'
lints "from beside another kind" "$p:8: P5 rule 1: from stands beside kind \"write\"; it is for read and assign$line" 3
policy 'effect = "allow"
kind = "read"
match = "a/../b"'
lints "a pattern that goes up" "$p:7: P6 rule 1: match \"a/../b\" is no pattern of kind read: it has a component .., which is never folded$line" 3
policy "effect = \"allow\"
kind = \"read\"
match = \"$(head -c 4097 /dev/zero | tr '\0' a)\""
lints "a pattern that is too long" "$p:7: P7 rule 1: match has more than 4096 bytes$line" 3
for key in effect match; do
    lone_rule 1 "$(printf '%s\n' 'effect = "allow"' 'kind = "env"' 'match = "a"' | grep -v "^$key")"
    lints "a rule without $key" "$p:4: P4 rule 1: $key is missing; a rule has effect, kind, match, from$line" 3
done
top_of 'rule = [
  {effect = "allow", kind = "read", match = "a"},
  {effect = "allow", kind = "read"},
]'
lints "a key that is missing in one value" "$p:3: P4 rule 2: match is missing; a rule has effect, kind, match, from$line" 3
lone_rule 1 $'effect = "allow"\nkind = "run"\nmatch = "a"\nlimit = 1'
lints "a limit in version 1" "$p:8: P4 rule 1: a rule has a limit in version 2 alone$line" 3
for case in 'effect|1|effect is no text; it is allow or deny' \
    'kind|"reed"|unknown kind "reed" (did you mean "read"?); it is read, write, append, run, env or assign' \
    'match|1|match is no text' 'from|"file"|unknown from "file"; it is any or given' \
    'limit|0|limit is no whole number from 1 to 1000000'; do
    IFS='|' read -r key value said <<<"$case"
    lone_rule 2 "$(printf '%s\n' 'effect = "allow"' 'kind = "read"' 'match = "a"' | grep -v "^$key"; echo "\"$key\" = $value")"
    lints "a wrong $key" "$p:$(wc -l <"$p"): P5 rule 1: $said$line" 3
done
lone_rule 2 $'effect = "deny"\nkind = "run"\nmatch = "a"\nlimit = 1'
lints "a limit beside an effect that denies" "$p:8: P5 rule 1: limit stands beside an effect that denies$line" 3
for case in 'run||it is empty' 'run|a\u0000|it holds a NUL byte' \
    'env|a-b|a name has letters, digits and _ alone, and * for any run of these' \
    'read|a**|** stands inside a longer component; write it as a component of its own'; do
    IFS='|' read -r kind pattern said <<<"$case"
    lone_rule 1 "$(printf '%s\n' 'effect = "allow"' "kind = \"$kind\"" "match = \"$pattern\"")"
    lints "no pattern: $kind $said" \
        "$p:7: P6 rule 1: match \"${pattern/u0000/x00}\" is no pattern of kind $kind: $said$line" 3
done
printf 'version = 1\nbase = "/\xff"\n' >"$p"
lints "a text that is not UTF-8" "$p:2: P1: invalid UTF-8$line" 3
top_of "x = $(printf '%.0s[' {1..81})$(printf '%.0s]' {1..81})"
lints "a nest that is too deep" "$p:3: P1: cannot recurse further; max recursion depth met$line" 3
printf 'version = 1\nbase = "/w"\n\n[[rule]\n' >"$p"
awkbox lint --policy "$p"
[ "$status" -eq 3 ] && grep -qxE "$p:[45]: P1: .+" "$work/output"
verdict "a text that is no document"
policy 'effect = "allow"
kind = "read"
match = "**"' 'effect = "deny"
kind = "read"
match = "secret/*"' 'effect = "allow"
kind = "run"
match = "sort -*"' 'effect = "allow"
kind = "read"
match = "/proc/**"'
lints "warnings" "$p:9: warning: rule 2: no request reaches it: rule 1 decides all that it speaks of
$p:19: warning: rule 4: allow read reaches /proc
$p:14: warning: rule 3: * lets options of sort through, which write files or start commands
$p:4: warning: rule 1: it fits every path under the base$line" 0

unreached() { echo "$p:$1: warning: rule $2: no request reaches it: rule $3 decides all that it speaks of"; }
policy 'effect = "deny"
kind = "read"
match = "in/**"' 'effect = "allow"
kind = "read"
match = "in/x/**"' 'effect = "deny"
kind = "read"
match = "./in//*.csv"' 'effect = "allow"
kind = "read"
match = "in/a.txt"' 'effect = "allow"
kind = "write"
match = "in/*"' 'effect = "allow"
kind = "write"
match = "in/*.txt"' 'effect = "allow"
kind = "write"
match = "in/*/*"' 'effect = "allow"
kind = "write"
match = "in/**"' 'effect = "allow"
kind = "assign"
match = "A*"' 'effect = "deny"
kind = "assign"
match = "AB"'
lints "rules that no request reaches" "$(unreached 9 2 1)
$(unreached 14 3 1)
$(unreached 19 4 1)
$(unreached 29 6 5)
$(unreached 49 10 9)$line" 0

# warns NAME KIND MATCH WORDS: whether lint has just this of a policy with one rule, which allows
warns() {
    lone_rule 1 "effect = \"allow\"${line}kind = \"$2\"${line}match = \"$3\""
    lints "$1" "${4:+$p:4: warning: rule 1: $4$line}" 0
}
for case in 'git *|* lets options of git through, and git writes files or starts commands' \
    'cat *|* may stand for an option too' 'xargs rm|xargs writes files or starts commands' \
    '/usr/bin/python3 -|python3 does what its input says' 'sort -o f|sort writes a file here' 'sort -n|'; do
    warns "the command ${case%%|*}" run "${case%%|*}" "${case#*|}"
done
for case in '~/a|~ is no home folder; write it out' '$HOME/a|$ names no variable; write its value' \
    'in/{a,b}|{ and } stand for themselves; write a rule for each' \
    'in/[ab]|[ and ] stand for themselves; ? is any one byte' \
    'in/.*|.* fits names that begin with a dot; any name is *' \
    'in/|it is the path without its last /; what is in the folder is /**' \
    'in/\u200b|it holds a character that does not show, U+200B' '*|it fits every name in the base' 'in/a.b|'; do
    warns "the path ${case%%|*}" read "${case%%|*}" "${case#*|}"
done
warns "any name" env '*' "it fits every name"

printf 'version = 1\nbase = “/w”\n' >"$p"
awkbox lint --policy "$p"
[ "$status" -eq 3 ] && grep -q "^$p:2: P1: .*; column 8 has U+201C, which looks like a double quote$" "$work/output"
verdict "a quotation mark that is none of TOML"

deep=$(printf '%04000d' 0 | sed 's/0\{50\}/&\//g')
{
    printf 'version = 1\nbase = "/w"\n'
    for number in {1..1024}; do
        printf '\n[[rule]]\neffect = "allow"\nkind = "read"\nmatch = "%s%d"\n' "$deep" "$number"
    done
} >"$p"
lints "1,024 rules of 4 KB" "" 0

# large NAME KIND_OF_PATTERN..: lint of 1,024 rules for read, whose patterns begin alike, is silent within seconds
large() {
    local name=$1 before=$SECONDS pattern number
    shift
    {
        printf 'version = 1\nbase = "/w"\n'
        for number in {1..512}; do
            for pattern in "$@"; do
                printf '\n[[rule]]\neffect = "allow"\nkind = "read"\nmatch = "%s%s"\n' "${deep%?????????????}" "${pattern/N/$number}"
            done
        done
    } >"$p"
    awkbox lint --policy "$p"
    [ $((SECONDS - before)) -le 10 ] && told 0 "" ""
    verdict "$name"
}
large "512 folders of 4 KB, and as many files beside them" 'dN/**' 'eN/a'
large "the names of 512 folders of 4 KB, and as many files beside them" 'dN/*' 'eN/a'

# What of a script other awks do otherwise, or its writer may not mean.

# hints NAME SCRIPT LINES: whether lint tells this of the script
hints() {
    script "$2"
    awkbox lint -f "$work/script.awk"
    told 0 "${3:+$3$line}" ""
    verdict "$1"
}
divides='drops the fraction; write int(a / b) where that is meant, or multiply before'
hints "divisions" 'BEGIN { print 7 / 2 }
{ $2 /= 2 } { print int(7 / 2 * 3), int(1 + 7 / 2) }' "1:17 / $divides
2:6 /= $divides
2:27 / $divides
2:47 / $divides"
hints "divisions without a fraction, or whose fraction is dropped by int" \
    '{ print int(7 / 2), int(($1 + $2) / 2), int($1 * 100 / $2 / 3), 6 / 3, 2 + 60 / 4 - 1 }' ""
hints "divisions by what another one leaves" 'BEGIN { print 9 / 6 / 3, 6 / 3 ^ 2, 7 % 4 / 2, 6 / 0 }' "1:17 / $divides
1:21 / $divides
1:28 / $divides
1:43 / $divides
1:50 / $divides"
hints "formats" '{ printf "%5.2f%d\n", $1, 2 }
{ print sprintf("%d %*d %e", 1, 2, 3); printf("%%f %s%G", "%f", 1) }' \
    "1:10 %f shows a fraction, and no number has one; write %d
2:17 * in a format takes no width from the arguments; write the width itself
2:47 %G shows a fraction, and no number has one; write %d"
hints "characters" 'BEGIN { printf "%d%c", 1, 300
printf("%s%c%c", substr("a", 1), 255, x "b"); x = sprintf("%c", 0256) "c" x }' \
    "1:16 %c takes a number modulo 256; write the character itself between quotes
2:59 %c takes a number modulo 256; write the character itself between quotes"
early='a number below 1 as the start of substr is before the text; write 1'
hints "starts of substr" '{ print substr($0, 0, 2), substr($0, -1), substr($0, 1), substr($0, 0 + 1) }' \
    "1:20 $early
1:38 $early"
hints "separators of records" 'BEGIN { RS = "\r\n"; RS = "\n"; RS = "\011"; RS = ""; RS = "ab" }' \
    "1:9 RS ends records by the first byte alone; write one byte, or \"\" for records between empty lines
1:55 RS ends records by the first byte alone; write one byte, or \"\" for records between empty lines"
like='is a variable like any other; write'
hints "names of gawk" 'BEGIN { FPAT = "a+"; FIELDWIDTHS = "1 2"; IGNORECASE = 1 }
BEGINFILE { print }
ENDFILE { print RT }
END { print PROCINFO["pid"] }' "1:9 FPAT $like a loop of match and substr
1:22 FIELDWIDTHS $like substr(\$0, start, length) for each field
1:43 IGNORECASE $like tolower on both sides
2:1 BEGINFILE $like FNR == 1 { .. }
3:1 ENDFILE $like FNR == 1 && NR > 1 { .. }, and the same in END
3:17 RT $like RS, which ends all records but the last
4:13 PROCINFO $like a list of the keys in the order that is meant"
alone='stands for its letter alone; write'
hints "escapes of gawk" '/^\s*\w+$/ || /\<a\>/ || /[\w]\y/ || /[]\s[:alpha:]\s]a\\s/
$0 !~ /\S\W\S\./' "1:1 \\s $alone [[:space:]]
1:1 \\w $alone [[:alnum:]_]
1:15 \\< $alone (^|[^[:alnum:]_])
1:15 \\> $alone ([^[:alnum:]_]|\$)
1:26 \\y $alone (^|[^[:alnum:]_]) or ([^[:alnum:]_]|\$)
2:7 \\S $alone [^[:space:]]
2:7 \\W $alone [^[:alnum:]_]"
hints "hexadecimal numbers" 'BEGIN { x = 1; print 0x1F + 1, 0 x, 10 x }' \
    "1:22 0x is the number 0 and a name behind it; write its digits to base 10"
unset='takes a field that is not there for 0; write NF >= n && $n == 0'
hints "fields that are not there" '$3 == 0 { print } 0 != $2
$1 >= 0 && $0 == 0 || $NF == 0 || $2 <= 0 { print ($1 < 0), $1 + $2 == 0 }' "1:4 == $unset
1:21 != $unset
2:4 >= $unset
2:55 < $unset"
hints "conditions that set" '{ if (x = $1) print x; while (y = z) z = y
for (i = 0; i = x; i++) print i; do print; while (x = 0); if ((x = 1)) print x }
$1 = 2 { print }' "1:9 = as a condition sets what is left of it; write ==, or (a = b)
1:33 = as a condition sets what is left of it; write ==, or (a = b)
2:15 = as a condition sets what is left of it; write ==, or (a = b)
2:53 = as a condition sets what is left of it; write ==, or (a = b)
3:4 = as a condition sets what is left of it; write ==, or (a = b)"
hints "names that stand once" '{ count = $1; total += $1 } END { print totl }' \
    "1:3 count is set here and stands nowhere else; write the name that is meant
1:41 totl stands here alone and is never set; write the name that is meant, or give it by -v"
hints "a name that is only read" '$1 > limit { print limit }' \
    "1:6 limit is read and never set; write what sets it, or give it by -v"
hints "functions and parameters" 'function f(a, b, c) { c = a; return c }
function g(a) { return a + f(a) }' "1:15 b is not used by its function; write the function without it
2:10 g is never called; write a call of it, or leave it out"
hints "names that serve though they stand once" '!seen[$0]++ || !n++ || NF < 2
function f(to, m) { to[1] = 1; m[to[1]] }
END { f(a); split($0, b); while ((getline l) > 0) ARGC++; for (k in ENVIRON) print; sub(/a/, "b", t) }' ""
script '{ print $1 / $2 }'
awkbox lint --strict -f "$work/script.awk"
told 1 "1:12 / $divides$line" ""
verdict "a strict lint of a script"
no_rules
awkbox lint --policy "$p" --strict -f "$work/script.awk"
told 1 "1:12 / $divides$line" ""
verdict "a strict lint of a policy and a script"
awkbox lint --policy "$p" -f - <"$work/script.awk"
told 0 "1:12 / $divides$line" ""
verdict "lint of a policy and a script that is the standard input"
lone_rule 1 'effect = "allow"
kind = "env"
match = "*"'
script '{ print $1 }'
awkbox lint --strict --policy "$p" -f "$work/script.awk"
told 1 "$p:4: warning: rule 1: it fits every name$line" ""
verdict "a strict lint of a policy that has a warning"
awkbox lint --strict -f "$work/script.awk"
told 0 "" ""
verdict "a strict lint of a script of which nothing is told"
printf 'version = 3\nbase = "/w"\n' >"$p"
awkbox lint --strict --policy "$p" -f "$work/script.awk"
told 3 "$p:1: P2: version is neither 1 nor 2$line" ""
verdict "a strict lint of a policy that is refused"
: >"$work/script.awk"
awkbox lint --strict -f "$work/script.awk"
told 0 "" ""
verdict "lint of an empty script"
script 'BEGIN { print ) }'
awkbox lint --strict -f "$work/script.awk"
told 3 "" "awkbox: script 1:15 S4$line"
verdict "lint of a script that is refused"
awkbox lint -f "$work/none.awk"
told 3 "" "awkbox: cannot read \"$work/none.awk\"$line"
verdict "lint of a script that is not there"

# Policies that are proposed.

# proposed NAME LINES STATUS ERRORS WORD..: whether a proposal is this
proposed() {
    local name=$1 lines=$2 wanted=$3 errors=$4
    shift 4
    awkbox propose "$@"
    told "$wanted" "$lines" "$errors"
    verdict "$name"
}
# rule_of KIND MATCH: an allow rule as it is proposed
rule_of() { printf '[[rule]]\neffect = "allow"\nkind = "%s"\nmatch = "%s"\n' "$1" "$2"; }
# given_of KIND MATCH: the same for an operand; offer_of KIND MATCH: a rule that is offered
given_of() { printf '%s\nfrom = "given"\n' "$(rule_of "$@")"; }
offer_of() { rule_of "$@" | sed 's/^/#/'; }
script 'BEGIN {
    print > "out/a"
    print > "./out//a"
    print >> "out/b*"
    system("sort \"-n\"")
    print | $1
    while ((getline l < "../in") > 0) n++
    print > "out/archive/c"
}'
f=$work/script.awk
proposed "a policy for a script" "version = 1
base = \"/w\"

# 2:11
$(rule_of write out/a)

# 4:11 append \"out/b*\": a pattern has no escapes, so that * and ? stand for other bytes

# allow? 5:5
$(offer_of run 'sort \"-n\"')

# 6:11 run *: only a run can tell the text

# 7:13 read \"../in\": a component .. is never folded

# 8:11
$(rule_of write out/archive/c)$line" 0 "" --base /w -f "$f"
awkbox propose --base /w -f "$f"
cp "$work/output" "$work/proposed.toml"
awkbox lint --policy "$work/proposed.toml"
told 0 "" ""
verdict "a proposal is a policy"
awkbox check --policy "$work/proposed.toml" -f "$f"
told 1 "refused
4:11 append \"out/b*\"
5:5 run \"sort \\x22-n\\x22\"
7:13 read \"../in\"$line" ""
verdict "a proposal allows what a pattern can hold, but for commands"
sed 's/^#\([^ ]\)/\1/' "$work/proposed.toml" >"$work/taken.toml"
awkbox check --policy "$work/taken.toml" -f "$f"
told 1 "refused
4:11 append \"out/b*\"
7:13 read \"../in\"$line" ""
verdict "a command is allowed once the # is taken from its rule"
proposed "a proposal of a proposal adds comments alone" "$(cat "$work/proposed.toml")

# 4:11 append \"out/b*\": a pattern has no escapes, so that * and ? stand for other bytes

# allow? 5:5
$(offer_of run 'sort \"-n\"')

# 6:11 run *: only a run can tell the text

# 7:13 read \"../in\": a component .. is never folded$line" 0 "" --policy "$work/proposed.toml" -f "$f"

printf 'version = 2 # kept\nbase = "/w"\n\n[[rule]]\neffect = "deny"\nkind = "write"\nmatch = "out/archive/**"\n[[rule]]\neffect = "allow"\nkind = "run"\nmatch = "sort **"\nlimit = 3' >"$p"
proposed "a policy for a script beside a policy" "$(cat "$p")

# 2:11
$(rule_of write out/a)

# 4:11 append \"out/b*\": a pattern has no escapes, so that * and ? stand for other bytes

# 6:11 run *: only a run can tell the text

# 7:13 read \"../in\": a component .. is never folded

# 8:11 write \"out/archive/c\": rule 1 denies it$line" 0 "" --base /w --policy "$p" -f "$f"
proposed "a proposal under another base that leaves the policy its own" "$(cat "$p")$line" 0 "" --base /v --policy "$p"
proposed "a policy beside a base that no policy may have" "" 3 "awkbox: policy P3$line" --base /v/.. --policy "$p"
proposed "a proposal of nothing" "$(cat "$p")$line" 0 "" --policy "$p"

cat >"$work/log" <<'END'
0:0 read none "in/a"
0:0 read 7 "in/a"
3:1 run none "printf '\x5cn' \x22\x0a\xc3\xa4\x22"
3:1 run none "\xff"
0:0 env none "HOME"
0:0 env none "A.B"
9:9 run none "sort -n"
4:4 write 1 "./out/archive/d"
END
proposed "a policy for a log" "$(cat "$p")

# line 1 of the log
$(given_of read in/a)

# allow? line 3 of the log
$(offer_of run "printf '\\\\n' \\\"\\u000a\\u00e4\\\"")

# line 4 of the log run \"\\xff\": it is not UTF-8

# allow? line 5 of the log
$(offer_of env HOME)

# line 6 of the log env \"A.B\": a name's pattern has letters, digits and _ alone

# line 8 of the log write \"./out/archive/d\": rule 1 denies it$line" 0 "" --policy "$p" --log "$work/log"
awkbox propose --policy "$p" --log "$work/log"
sed 's/^#\([^ ]\)/\1/' "$work/output" >"$work/proposed.toml"
awkbox why --policy "$work/proposed.toml" run "$(printf 'printf '"'"'\\n'"'"' "\nä"')"
[ "$status" -eq 0 ] && tail -n 1 "$work/output" | grep -q "^allow: rule 4 "
verdict "a command of a log is allowed once the # is taken from its rule"

printf 'version = 1\nbase = "/w"\n[[rule]]\neffect = "deny"\nkind = "read"\nmatch = "**"\nfrom = "given"\n' >"$p"
printf '0:0 read none "a"\n1:1 read none "b"\n' >"$work/log"
proposed "an operand may have been given" "$(cat "$p")

# line 1 of the log read \"a\": rule 1 denies it

# line 2 of the log
$(rule_of read b)$line" 0 "" --policy "$p" --log "$work/log"

printf 'version = 1\nbase = "/w"\nrule = [{ effect = "allow", kind = "env", match = "A" }] # in one value\n' >"$p"
printf '1:1 read none "B"\n' >"$work/log"
proposed "rules in one value are written anew" "version = 1
base = \"/w\"

$(rule_of env A)

# line 1 of the log
$(rule_of read B)$line" 0 "" --policy "$p" --log "$work/log"

printf 'version = 1\nbase = "/w"\n# kept\nrule = [{ effect = "allow", kind = "env", match = "A" }]\n' >"$p"
printf '1:1 env none "B"\n' >"$work/log"
proposed "rules in one value are written anew for an offer too" "version = 1
base = \"/w\"

$(rule_of env A)

# allow? line 1 of the log
$(offer_of env B)$line" 0 "" --policy "$p" --log "$work/log"
printf '1:1 env none "A"\n' >"$work/log"
proposed "rules in one value, and nothing to offer" "$(cat "$p")$line" 0 "" --policy "$p" --log "$work/log"

cat >"$work/log" <<'END'
0:0 read ok "in/a"
1:2 write failed "no/b"
2:3 append ok "out/c"
0:0 assign ok "n"
3:4 read ok "in/a"
3:4 read failed "in/a"
5:6 run ok "id"
END
of_audit="version = 1
base = \"/w\"

# line 1 of the log
$(given_of read in/a)

# line 2 of the log
$(rule_of write no/b)

# line 3 of the log
$(rule_of append out/c)

# line 4 of the log
$(given_of assign n)

# line 5 of the log
$(rule_of read in/a)

# allow? line 7 of the log
$(offer_of run id)$line"
proposed "a policy for an audit" "$of_audit" 0 "" --base /w --log "$work/log"
printf '7:8 write 4294967295 "out/d"\n0:0 read none "in/a"\n' >>"$work/log"
proposed "a policy for an audit with a log behind it" "$of_audit
# line 8 of the log
$(rule_of write out/d)$line" 0 "" --base /w --log "$work/log"
sed -i '$d' "$work/log"
printf '0:0 read none "in/a"' >>"$work/log"
proposed "a last line without its end" "$of_audit
# line 8 of the log
$(rule_of write out/d)$line" 0 "" --base /w --log "$work/log"
printf '1:1 read ok "in/b' >>"$work/log"
proposed "a line behind one that has no end" "" 3 "awkbox: line 9 of the log is none that a run writes$line" --base /w --log "$work/log"

# Under a wide policy a run with an audit learns a narrow one.
policy 'effect = "allow"
kind = "read"
match = "**"' 'effect = "allow"
kind = "write"
match = "**"'
script 'BEGIN { print "a" > "out/learnt"; getline < "in/none" }'
run --audit "$work/audit"
is 0 "" "" "" && holds "$work/audit" "1:19 write ok \"out/learnt\"${line}1:35 read failed \"in/none\"$line" &&
    awkbox propose --base "$(pwd -P)" --log "$work/audit" && cp "$work/output" "$work/policy.toml" && run &&
    is 0 "" "" "" && awkbox check --policy "$work/policy.toml" -f "$work/script.awk" && [ "$status" -eq 0 ]
verdict "a policy that is learnt in one run"
rm -f out/learnt

for wrong in 'a' '1:1 read none a' '1:1 read none "a' '1:1 read none "\x61"' '1:1 read none "\x2"' '1:1 reed none "a"' '1:x read none "a"' '1:1 read some "a"' '1:1 read none "a" ' '' '01:1 read none "a"' '1:1 read 01 "a"' '1:1 read 4294967296 "a"' '4294967296:1 read none "a"' '1:1 read ok a' '1:1 read okay "a"' '1:1 read failed  "a"' '1:1 ok read "a"' $'1:1 read ok "\xff"' '1:1 read ok "\XFF"' $'1:1 read ok "a"\r' ' 1:1 read ok "a"'; do
    printf '0:0 env none "B"\n%s\n' "$wrong" >"$work/log"
    proposed "a log with the line $wrong" "" 3 "awkbox: line 2 of the log is none that a run writes$line" --base /w --log "$work/log"
done
: >"$work/log"
proposed "an empty log" "version = 1
base = \"/w\"$line" 0 "" --base /w --log "$work/log"
proposed "a log that is not there" "" 3 "awkbox: cannot read \"$work/none\"$line" --base /w --log "$work/none"
proposed "a base that is none" "" 3 "awkbox: policy P3$line" --base ""
proposed "a base with .." "" 3 "awkbox: policy P3$line" --base ../w
proposed "a base under the folder of the start" "version = 1
base = \"$PWD/w\"$line" 0 "" --base ./w
printf 'version = 1\nbase = "/w"\nrules = 1\n' >"$p"
proposed "a policy that is refused" "" 3 "awkbox: policy P4$line" --policy "$p"
for number in {1..1025}; do
    printf '1:1 read none "a%d"\n' "$number"
done >"$work/log"
proposed "a proposal of too many rules" "" 3 "awkbox: the policy would have more than 1024 rules$line" --base /w --log "$work/log"
head -n 1024 "$work/log" >"$work/less"
awkbox propose --base /w --log "$work/less"
cp "$work/output" "$work/proposed.toml"
awkbox lint --policy "$work/proposed.toml"
[ "$status" -eq 0 ] && [ "$(grep -c '^\[\[rule\]\]$' "$work/proposed.toml")" -eq 1024 ]
verdict "a proposal of as many rules as a policy may have"
sed 's/read none "a/env none "A/' "$work/log" >"$work/more"
awkbox propose --base /w --log "$work/more"
[ "$status" -eq 0 ] && [ "$(grep -c '^# allow? ' "$work/output")" -eq 1025 ]
verdict "what is only offered is no rule too many"

cat >"$work/log" <<'END'
0:0 read none "in/a.csv"
2:1 read none "in/b.csv"
0:0 assign none "n"
2:1 read none "in/a.csv"
2:1 run none "sort a"
3:1 run none "sort a"
0:0 read none "in/b.csv"
END
proposed "an operand is allowed as one that was given" "version = 1
base = \"/w\"

# line 1 of the log
$(given_of read in/a.csv)

# line 2 of the log
$(rule_of read in/b.csv)

# line 3 of the log
$(given_of assign n)

# line 4 of the log
$(rule_of read in/a.csv)

# allow? line 5 of the log
$(offer_of run 'sort a')$line" 0 "" --base /w --log "$work/log"

cat >"$work/log" <<'END'
1:1 read none "in/a.csv"
1:1 read none "in/b.csv"
1:1 read none "in/c.csv"
1:1 write none "in/d.csv"
1:1 read none "in/d.txt"
1:1 read none "in/deep/d.csv"
1:1 read none ".csv"
1:1 read none "in/d.csv"
END
names() {
    for number in "$@"; do
        printf '\n# line %d of the log\n' "$number"
        eval "$(sed -n "${number}s/^1:1 \\([a-z]*\\) none \\(.*\\)\$/rule_of \\1 \\2/p" "$work/log")"
    done
}
proposed "four names of a folder with one ending" "version = 1
base = \"/w\"
$(names 1 2 3 4 5 6 7 8)

# allow? this in the place of 4 rules
$(offer_of read 'in/*.csv')$line" 0 "" --base /w --log "$work/log"
head -n 7 "$work/log" >"$work/less"
proposed "three names of a folder with one ending" "version = 1
base = \"/w\"
$(names 1 2 3 4 5 6 7)$line" 0 "" --base /w --log "$work/less"

printf '1:1 read none "a\\x09\\x7f\\xf0\\x9f\\x98\\x80\\x5cb"\n' >"$work/log"
proposed "what is no printable ASCII stands as its number" "version = 1
base = \"/w\"

# line 1 of the log
$(rule_of read 'a\u0009\u007f\U0001f600\\b')$line" 0 "" --base /w --log "$work/log"

# within SECONDS NAME STATUS WORD..: whether propose ends so, and in time
within() {
    local most=$1 name=$2 wanted=$3 before=$SECONDS
    shift 3
    awkbox propose "$@"
    [ "$status" -eq "$wanted" ] && [ $((SECONDS - before)) -le "$most" ]
    verdict "$name"
}
# What is too large is told in one line.
yes '1:1 read none "in/a"' | head -c 100000000 >"$work/large"
within 10 "a log of 100 MB" 3 --base /w --log "$work/large"
told 3 "" "awkbox: cannot read \"$work/large\"$line"
verdict "a log of 100 MB is told of in one line"
truncate -s 16777216 "$work/large"
within 20 "a log of 16 MiB with a cut line" 3 --base /w --log "$work/large"
told 3 "" "awkbox: line 798916 of the log is none that a run writes$line"
verdict "the cut line of a log of 16 MiB"
truncate -s $((798915 * 21)) "$work/large"
within 20 "a log of 16 MiB, less a cut line" 0 --base /w --log "$work/large"
rm "$work/large"
{
    printf 'version = 1\nbase = "/w"\n#'
    head -c $((16777216 - 26)) /dev/zero | tr '\0' x
    echo
} >"$work/large"
printf '1:1 read none "b"\n' >"$work/log"
within 20 "a policy of 16 MiB that would grow" 3 --policy "$work/large" --log "$work/log"
told 3 "" "awkbox: the policy would have more than 16777216 bytes$line"
verdict "a policy of 16 MiB that would grow is told of in one line"
within 20 "a policy of 16 MiB" 0 --policy "$work/large"
cmp -s "$work/large" "$work/output"
verdict "a policy of 16 MiB stays as it is"
echo >>"$work/large"
within 10 "a policy of more than 16 MiB" 3 --policy "$work/large"
told 3 "" "awkbox: cannot read \"$work/large\"$line"
verdict "a policy of more than 16 MiB is told of in one line"
rm "$work/large"
seq -f '1:1 read none "in/%05.0f"' 44000 >"$work/log"
within 10 "44,000 lines, and too many rules" 3 --base /w --log "$work/log"
sed 's/none/1/' "$work/log" >"$work/more"
printf 'version = 1\nbase = "/w"\n[[rule]]\neffect = "deny"\nkind = "read"\nmatch = "in/**"\n' >"$p"
within 10 "44,000 lines that a rule denies" 0 --policy "$p" --log "$work/more"
[ "$(grep -c ': rule 1 denies it$' "$work/output")" -eq 44000 ]
verdict "each of 44,000 lines is told of"
for spelling in . ./. ././.; do
    sed -n "1,1000s|\"in/|\"$spelling/in/|p" "$work/log"
done >"$work/more"
sed -n 1,1000p "$work/log" >>"$work/more"
within 10 "1,000 names in four spellings" 0 --base /w --log "$work/more"
[ "$(grep -c '^\[\[rule\]\]$' "$work/output")" -eq 1000 ]
verdict "a name in four spellings has one rule"
script 'BEGIN { print > }'
proposed "a proposal for a script that is refused" "" 3 "awkbox: script 1:17 S4$line" --base /w -f "$f"

# The examples of docs/POLICY.md, over its first policy.
page=$work/page
mkdir "$page"
sed -n '/^```toml$/,/^```$/{/^```toml/d;/^```/q;p}' "$top/docs/POLICY.md" >"$page/reports.toml"
cat >"$page/report.awk" <<'END'
BEGIN {
	while ((getline < "rates.txt") > 0) rate[$1] = $2
	print "total 12" > "out/totals.txt"
	print "total 13" > "out/archive/2025.txt"
	"date -d " month | getline day
}
END
echo '7:3 read none "in/*.csv"' >"$page/denials.log"
# shown COMMAND: what the page shows of it
shown() { sed -n "/^\\$ awkbox $1 /,/^\`\`\`/{/^[\$\`]/!p}" "$top/docs/POLICY.md"; }
: >"$work/errors"
(
    cd "$page" || exit 1
    "$program" why --policy reports.toml write ./out//archive/2025.txt >"$work/output" 2>&1
    holds "$work/output" "$(shown why)$line" || exit 1
    "$program" propose --policy reports.toml -f report.awk --log denials.log 2>&1 | tail -n 11 >"$work/output"
    holds "$work/output" "$(shown propose)$line"
)
verdict "the examples of docs/POLICY.md"

script 'BEGIN { system("id") }'
"$program" list -f "$work/script.awk" >/dev/full 2>"$work/errors"
status=$?
: >"$work/output"
told 0 "" ""
verdict "a listing that cannot be written"

# What commands give back, and a pipe that nobody reads.

policy 'effect = "allow"
kind = "run"
match = "**"'
for command in 'exit 0' 'exit 3' 'exit 255' 'kill -9 $$' 'kill -13 $$'; do
    script "BEGIN { system(\"$command\"); print \"on\" }"
    run
    is 0 "on$line" "" ""
    verdict "a command that ends by $command"
done

script 'BEGIN { system("echo told >&2; echo said"); print "on" }'
run
is 0 "said${line}on$line" "told$line" ""
verdict "a command shares standard output and standard error"

script 'BEGIN { system("cat"); print "on" }'
echo fed | run
status=0
is 0 "fed${line}on$line" "" ""
verdict "a command shares standard input"

script 'BEGIN { print "a" }'
: >"$work/output"
{
    sleep 0.5 # by then nobody reads
    "$program" "${words[@]}" 2>"$work/errors"
    echo $? >"$work/status"
} | :
status=$(cat "$work/status")
is 2 "" "awkbox: 1:9 F7 cannot open or write output$line" ""
verdict "a standard output that is a pipe that nobody reads"

# Numbers: whole ones, or doubles where the words ask for them.
no_rules
script 'BEGIN { x = 1.5; print x + 1e3, 7 / 2, 2 ^ .5; printf "%.2f %d\n", 10 / 3, 2.9 }'
run --numbers double
is 0 "1001.5 3.5 1.41421${line}3.33 2$line" "" ""
verdict "a run with doubles"
script 'BEGIN { OFMT = "%.2f"; CONVFMT = "%.1f"; x = 3.14159; a[x] = 2; print x, x "", 3, 3 "", a[3.1], ("3.1" in a) }'
run --numbers double
is 0 "3.14 3.1 3 3 2 1$line" "" ""
verdict "a run with OFMT and CONVFMT"
script 'BEGIN { print 2 / 3, 2.5 "", 2 ^ 53 }'
run --numbers double -v OFMT=%.3f -v CONVFMT=%d
is 0 "0.667 2 9007199254740992$line" "" ""
verdict "OFMT and CONVFMT of the command line"
script 'BEGIN { OFMT = "%s"; print 1; print 1.5 }'
run --numbers double
is 2 "1$line" "awkbox: 1:31 F4 bad format$line" ""
verdict "an OFMT that is no format of a number"
policy "effect = \"allow\"
kind = \"write\"
match = \"$base/out/0.50\""
script 'BEGIN { CONVFMT = "%.2f"; print 1.5 > "out/" 0.5 }'
run --numbers double
is 0 "" "" "" && holds out/0.50 "1.5$line"
verdict "a file that CONVFMT names"
rm -f out/0.50
no_rules
script 'BEGIN { print srand(), srand(), int(rand()) }'
run --numbers double --seed 7
is 0 "0 7 0$line" "" ""
verdict "a script that seeds by --seed"
script 'BEGIN { srand(); x = srand(); print (x > 1700000000) }'
run --numbers double
is 0 "1$line" "" ""
verdict "a script that seeds by the time"
for seed in '' x -1 1.5 18446744073709551616; do
    run --numbers double "--seed=$seed"
    [ "$status" -eq 3 ] && grep -q '^error: the value of --seed is not a whole number' "$work/errors"
    verdict "no seed: '$seed'"
done
script 'BEGIN { x = 1.5; print x + 1e3, 7 / 2, 2 ^ .5; printf "%.2f %d\n", 10 / 3, 2.9 }'
for words in '' '--numbers whole' '--numbers=whole'; do
    # shellcheck disable=SC2086
    run $words
    is 3 "" "awkbox: script 1:13 S3$line" ""
    verdict "a run without doubles, by '$words'"
done
run --numbers decimal
[ "$status" -eq 3 ] && grep -q "^error: invalid value 'decimal' for '--numbers <PROFILE>'" "$work/errors"
verdict "numbers that no script has"
reports 0 '{"denials":0,"exit_status":0,"fault":null,"log":"whole","numbers":"double","outcome":"status","refusal":null,"steps":3}' \
    --numbers double
verdict "the report of a run with doubles"
printf 'function half(x) { return x / 2 }\n' >lib.awk
awkbox run --numbers double --policy "$work/policy.toml" --log "$work/log" -f lib.awk -e 'BEGIN { print half(2.5) }'
is 0 "1.25$line" "" ""
verdict "several files with doubles"
awkbox run --policy "$work/policy.toml" --log "$work/log" -f lib.awk -e 'BEGIN { print half(2.5) }'
is 3 "" "awkbox: script -e 1:1:20 S3$line" ""
verdict "several files without doubles"
awkbox run --numbers double --policy "$work/policy.toml" --log "$work/log" -e 'BEGIN { print 1e999 }'
is 3 "" "awkbox: script 1:15 S3$line" "" && grep -q 'note: a number is at most 1.79' "$work/errors"
verdict "a number beyond the largest double"
text='BEGIN { print 1.5 > "out/a" }'
awkbox list --numbers double -e "$text"
told 0 "1:19 write \"out/a\"$line" ""
verdict "a listing with doubles"
awkbox check --numbers double --policy "$work/policy.toml" -e "$text"
told 1 "refused${line}1:19 write \"out/a\"$line" ""
verdict "a check with doubles"
awkbox propose --numbers double --base "$base" -e "$text"
[ "$status" -eq 0 ] && grep -q '^# 1:19' "$work/output"
verdict "a proposal with doubles"
for command in list "check --policy $work/policy.toml" "propose --base $base" lint; do
    # shellcheck disable=SC2086
    awkbox $command -e "$text"
    told 3 "" "awkbox: script 1:15 S3$line"
    verdict "${command%% *} without doubles"
done
awkbox lint --numbers double -e 'BEGIN { n = 7; print n / 2; printf "%f", n }'
told 0 "" ""
verdict "a lint with doubles knows of no fraction that is dropped"
awkbox lint -e 'BEGIN { n = 7; print n / 2; printf "%f", n }'
[ "$status" -eq 0 ] && [ "$(cut -d ' ' -f 1 "$work/output" | tr '\n' ' ')" = '1:24 1:36 ' ]
verdict "a lint without doubles knows of both"

# The words of the command line: the help, the manual page and the completions say what
# docs/options.txt says.

awkbox --help
[ "$status" -eq 0 ] && grep -q '^Usage: awkbox <COMMAND>' "$work/output" && [ ! -s "$work/errors" ]
verdict "the help"

for command in run list check why lint propose; do
    awkbox "$command" --help
    [ "$status" -eq 0 ] && grep -q "^Usage: awkbox $command " "$work/output" && [ ! -s "$work/errors" ]
    verdict "the help of $command"
    cp "$work/output" "$work/help"
    awkbox help "$command"
    [ "$status" -eq 0 ] && cmp -s "$work/output" "$work/help" && [ ! -s "$work/errors" ]
    verdict "the same help, by help $command"
done

version=$(sed -n 's/^## \([0-9.]*\)$/\1/p' "$top/CHANGELOG.md" | head -n 1)
awkbox --version
: >"$work/log"
is 0 "awkbox $version$line" "" ""
verdict "the version is the newest of CHANGELOG.md"

awkbox run --policy p --log l --steps x -f f
[ "$status" -eq 3 ] && grep -q '^error: the value of --steps ' "$work/errors" &&
    grep -q '^Usage: awkbox run ' "$work/errors"
verdict "a bound of steps that is none is told with the usage of run"

# flat FILE..: the files' words in one line, without marks of layout
flat() {
    cat "$@" | sed 's/^\.It Fl Fl /--/; s/^\.It Fl /-/; s/^\.It Cm //; s/^\.It //; s/ Ar / /g' |
        tr -s ' \n' '  '
}
{
    "$program" --help
    "$program" run --help
    "$program" list --help
    "$program" check --help
    "$program" why --help
    "$program" lint --help
    "$program" propose --help
} >"$work/helps"
facts=0
differing=
while IFS=$'\t' read -r kind name value words; do
    case $kind in command | option | operand | status | told) ;; *) continue ;; esac
    facts=$((facts + 1))
    flat "$work/helps" | grep -qF -- "$words" || differing="$differing help:$name"
    flat "$top/man/awkbox.1" | grep -qF -- "$name${value:+ $value} $words" ||
        [[ $name = --help || $name = --version ]] || differing="$differing manual:$name"
    case $kind in operand | status | told) continue ;; esac
    grep -qF -- "$name" "$top/completions/awkbox.bash" || differing="$differing bash:$name"
    grep -qF -- "$words" "$top/completions/_awkbox" || differing="$differing zsh:$name"
done <"$top/docs/options.txt"
options() { grep -oE -- '(^|[ ,])--?[a-zA-Z][a-zA-Z-]*' | tr -d ' ,' | sort -u; }
said=$(options <"$work/helps" | grep -vx -e '-[hV]')
known=$(cut -f 2 <"$top/docs/options.txt" | grep '^-' | sort -u)
echo "differing:$differing; said:" $said "; known:" $known >"$work/output"
[ "$facts" -ge 18 ] && [ -z "$differing" ] && [ "$said" = "$known" ]
verdict "the words of the help, the manual page and the completions are those of docs/options.txt"

for page in awkbox.1 awkbox-policy.5; do
    checked=no
    : >"$work/output"
    if command -v mandoc >/dev/null; then
        mandoc -T lint -W warning "$top/man/$page" >"$work/output" 2>&1
        checked=yes
    elif man -l "$top/man/$page" >/dev/null 2>&1; then
        LC_ALL=C man -l --warnings=mac "$top/man/$page" 2>"$work/output" >/dev/null
        checked=yes
    fi
    [ "$checked" = no ] || [ ! -s "$work/output" ]
    verdict "the manual page $page (checked: $checked)"
done

if man -l "$top/man/awkbox.1" >/dev/null 2>&1; then
    MANWIDTH=300 MAN_KEEP_FORMATTING= man -l "$top/man/awkbox.1" 2>/dev/null >"$work/output"
    grep -qF -- '-f FILE | -e TEXT ... [-- OPERAND ...]' "$work/output"
    verdict "the manual page shows operands behind --"
fi

# installs STATUS OUTPUT ERRORS WORD..: whether the installation ended so
installs() {
    local wanted=$1 output=$2 errors=$3
    shift 3
    "$clone/install" "$@" >"$work/output" 2>"$work/errors"
    status=$?
    [ "$status" -eq "$wanted" ] && grep -qxF -- "$output" "$work/output" "$work/errors" &&
        { [ -z "$errors" ] && [ ! -s "$work/errors" ] || grep -qxF -- "$errors" "$work/errors"; }
}
usage='usage: ./install [PREFIX]'
(
    cd "$work" || exit 1
    installs 0 "$usage" "" --help && installs 0 "$usage" "" -h &&
        installs 2 "$usage" "install: unknown option --prefix" --prefix &&
        installs 2 "$usage" "install: unknown option -x" --uninstall -x &&
        installs 2 "$usage" "install: an empty PREFIX" "" &&
        installs 2 "$usage" "install: too many words" nowhere more && [ ! -e nowhere ]
)
verdict "the words of the installation"

prefix=$work/prefix
"$clone/install" "$prefix" >"$work/output" 2>&1
status=$?
[ "$status" -eq 0 ] && cmp -s "$prefix/bin/awkbox" "$program" && [ ! -L "$prefix/bin/awkbox" ] &&
    cmp -s "$prefix/share/man/man1/awkbox.1" "$top/man/awkbox.1" &&
    cmp -s "$prefix/share/man/man5/awkbox-policy.5" "$top/man/awkbox-policy.5" &&
    cmp -s "$prefix/share/zsh/site-functions/_awkbox" "$top/completions/_awkbox" &&
    cmp -s "$prefix/share/bash-completion/completions/awkbox" "$top/completions/awkbox.bash" &&
    cmp -s "$prefix/share/awkbox/awkbox-policy.schema.json" "$top/docs/awkbox-policy.schema.json"
verdict "the installation"

touch "$prefix/bin/other"
installs 0 "removed $prefix/bin/awkbox, its manual pages, its completions and its schema" "" --uninstall "$prefix" &&
    [ ! -e "$prefix/share/awkbox" ] && [ "$(find "$prefix" -type f)" = "$prefix/bin/other" ]
verdict "what was installed is taken away, and nothing else"

# The wrapper and the build, over three crates and a prover that are made up.
fresh=$work/fresh
kit=$work/kit
mkdir -p "$kit/bin" "$fresh/docs" "$fresh"/crates/{low,high,aside,awkbox_program}/src
cp "$top/awkbox" "$top/build" "$top/HANDLES" "$fresh"
cp "$top/docs/GATE.md" "$fresh/docs"
printf '%s\n' 'awkbox_program: high clap' 'aside: low' 'high: low' 'low: itoa' >"$fresh/crates.txt"
cat >"$kit/bin/rt" <<'END'
#!/bin/sh
case $1 in
version) exec echo "a kit" ;;
doc) exec echo "$(dirname "$0")/../START-HERE.md" ;;
esac
name=$(basename "$PWD")
echo "fn $name::main: proved"
[ "$name" != "${FAILS:-}" ] || exit 1
mkdir -p out/rlib
if [ "$1" = run ] && [ -d ../low/out/rlib ]; then
    printf '#!/bin/sh\necho ran "$@"\n' >out/awkbox_program
    chmod +x out/awkbox_program
    [ -z "${PROGRAM:-}" ] || cp "$PROGRAM" out/awkbox_program
fi
END
chmod +x "$kit/bin/rt"

# wrapper [NAME]: runs the wrapper, with a prover that fails at this crate
wrapper() {
    PATH=$kit/bin:$PATH FAILS=${1:-} "$fresh/awkbox" run "a b" >"$work/output" 2>"$work/errors"
    status=$?
}

# tells LINE..: whether standard error has these lines, but for what the prover says and the time
tells() {
    printf 'awkbox: %s\n' "$@" |
        cmp -s - <(grep -v '^fn' "$work/errors" | sed 's/ in [0-9]* min$//')
}
begins="proving and building the program"
at_once="on $(nproc) processors"
wrapper high
[ "$status" -eq 1 ] && holds "$work/output" "" && grep -qx 'fn high::main: proved' "$work/errors" &&
    tells "not built; run ./build" "$begins: 3 of 3 crates $at_once" "high failed; the end of $fresh/crates/high/out/build.log:" \
        "not built: 1 crates stand on what failed"
verdict "the wrapper where a crate is not proved"
wrapper
[ "$status" -eq 0 ] && holds "$work/output" "ran run a b$line" &&
    tells "not built; run ./build" "$begins: 2 of 3 crates $at_once" "built $fresh/crates/awkbox_program/out/awkbox_program"
verdict "the wrapper goes on where the build ended"
wrapper
[ "$status" -eq 0 ] && holds "$work/output" "ran run a b$line" && says ""
verdict "the wrapper once the program is built"
sleep 0.1
echo '// new' >"$fresh/crates/low/src/lib.rt"
wrapper
[ "$status" -eq 0 ] && holds "$work/output" "ran run a b$line" && tells "older than its sources; run ./build"
verdict "the wrapper where sources are newer"
PATH=$kit/bin:$PATH "$fresh/build" >"$work/output" 2>"$work/errors" && wrapper &&
    [ "$status" -eq 0 ] && says "" && [ -z "$(find "$work" -maxdepth 1 -name '.awkbox-build-*')" ]
verdict "the build of what has changed"
echo 'echo not proved' >>"$fresh/crates/awkbox_program/out/awkbox_program"
PATH=$kit/bin:$PATH "$fresh/build" >"$work/output" 2>"$work/errors" && tells "$begins: 1 of 3 crates $at_once" \
    "built $fresh/crates/awkbox_program/out/awkbox_program" && wrapper && holds "$work/output" "ran run a b$line"
verdict "the build where another program stands in the place of what was built"

# The release of that clone, with the built program in the place of the made-up one.

# releases FOLDER: makes a release
releases() {
    PATH=$kit/bin:$PATH "$fresh/release" "$1" >"$work/output" 2>"$work/errors"
    status=$?
}

# refuses TEXT: whether no release is made, for what this line says
refuses() {
    releases "$work/none"
    [ "$status" -eq 1 ] && [ ! -e "$work/none" ] && grep -qxF "release: $1" "$work/errors"
}

# commits: commits all that the clone holds
commits() {
    git -C "$fresh" add -A && git -C "$fresh" -c user.name="A maintainer" -c user.email=maintainer@awkbox.org \
        -c commit.gpgsign=no commit -qm "all of it"
}

# greets FOLDER AT EXAMPLES: whether the first example of a release that was unpacked in a folder prints what it is to;
# where bwrap runs, in a root of its own, in which the folder stands at another place and with the C library alone
greets() {
    local at=$1 log=$work/log command=()
    if bwrap --ro-bind / / true 2>/dev/null; then
        at=$2 log=/tmp/log
        command=(bwrap --unshare-all --ro-bind "$1" "$2" --ro-bind /lib /lib --ro-bind-try /lib64 /lib64 --tmpfs /tmp)
    fi
    (cd /tmp && "${command[@]}" "$at/bin/awkbox" run --policy "$at/$3/hi/policy.toml" --log "$log" \
        -f "$at/$3/hi/hi.awk") >"$work/output" 2>"$work/errors"
    status=$?
    : >"$work/log"
    is 0 "hi$line" "" ""
}

if command -v git >/dev/null; then
    cp -R "$top"/{release,CHANGELOG.md,LICENSE-MIT,LICENSE-APACHE,man,completions,examples} "$fresh"
    cp "$top/docs/awkbox-policy.schema.json" "$fresh/docs"
    echo out/ >"$fresh/.gitignore"
    mkdir -p "$kit"/{rattle/itoa,rattle/strsim,rlibs/clap.rlib}
    echo "dep strsim" >"$kit/rlibs/clap.rlib/format"
    echo "the licence of itoa" >"$kit/rattle/itoa/LICENSE"
    echo "the licence of strsim" >"$kit/rattle/strsim/LICENSE-MIT"
    git init -q "$fresh"
    refuses "the clone has changes that are not committed:"
    verdict "no release of what is not committed"
    echo '// newer' >"$fresh/crates/high/src/lib.rt"
    commits && refuses "not built of what the clone holds: high, awkbox_program; run ./build"
    verdict "no release of what is not built"
    PROGRAM=$program PATH=$kit/bin:$PATH "$fresh/build" 2>"$work/errors" && releases "$work/release" && releases "$work/again"
    [ "$status" -eq 0 ] && (cd "$work/again" && sha256sum --quiet -c "$work/release/SHA256SUMS") >>"$work/output" 2>&1 &&
        [ "$(find "$work/again" -type f | wc -l)" -eq "$(wc -l <"$work/output")" ]
    verdict "a release, and the same bytes once more"
    commit=$(git -C "$fresh" rev-parse HEAD)

    mkdir "$work/tar"
    tar -xzf "$work/release/awkbox-$version+git"*".${commit:0:8}-x86_64-linux.tar.gz" -C "$work/tar"
    unpacked=$(echo "$work"/tar/*)
    cmp -s "$unpacked/bin/awkbox" "$program" && diff -r "$unpacked/examples" "$top/examples" >"$work/output" &&
        cmp -s "$unpacked/LICENSE-MIT" "$top/LICENSE-MIT" && cmp -s "$unpacked/LICENSE-APACHE" "$top/LICENSE-APACHE" &&
        cmp -s "$unpacked/share/man/man1/awkbox.1" "$top/man/awkbox.1" &&
        cmp -s "$unpacked/share/man/man5/awkbox-policy.5" "$top/man/awkbox-policy.5" &&
        cmp -s "$unpacked/share/zsh/site-functions/_awkbox" "$top/completions/_awkbox" &&
        cmp -s "$unpacked/share/bash-completion/completions/awkbox" "$top/completions/awkbox.bash" &&
        cmp -s "$unpacked/share/awkbox/awkbox-policy.schema.json" "$top/docs/awkbox-policy.schema.json" &&
        [ "$(grep -c '^the licence of ' "$unpacked/LICENSE-LIBRARIES")" -eq 2 ]
    verdict "the files of the tarball"
    grep -qx "commit   $commit" "$unpacked/PROVED" && grep -qx "kit      a kit" "$unpacked/PROVED" &&
        grep -qx "program  $(sha256sum <"$program" | cut -d ' ' -f 1)" "$unpacked/PROVED" &&
        [ "$(grep -Ec '^(low|high|awkbox_program) +[0-9a-f]{64}$' "$unpacked/PROVED")" -eq 3 ]
    verdict "what the tarball says was proved"
    greets "$unpacked" /opt/awkbox examples
    verdict "the program of the tarball"

    package=$(echo "$work/release/awkbox_$version+git"*".${commit:0:8}_amd64.deb")
    if command -v dpkg-deb >/dev/null; then
        dpkg-deb -x "$package" "$work/deb"
        documents=$work/deb/usr/share/doc/awkbox
        cmp -s "$work/deb/usr/bin/awkbox" "$program" && cmp -s "$documents/PROVED" "$unpacked/PROVED" &&
            diff -r "$documents/examples" "$top/examples" >"$work/output" &&
            zcat "$work/deb/usr/share/man/man1/awkbox.1.gz" | cmp -s - "$top/man/awkbox.1" &&
            zcat "$work/deb/usr/share/man/man5/awkbox-policy.5.gz" | cmp -s - "$top/man/awkbox-policy.5" &&
            cmp -s "$work/deb/usr/share/awkbox/awkbox-policy.schema.json" "$top/docs/awkbox-policy.schema.json" &&
            [ "$(grep -c '^the licence of ' "$documents/copyright")" -eq 2 ] &&
            [ "$(dpkg-deb -f "$package" Version)" = "$(sed -n '1s/awkbox //p' "$unpacked/PROVED")" ]
        verdict "the files of the package"
        greets "$work/deb/usr" /usr share/doc/awkbox/examples
        verdict "the program of the package"
    else
        echo "no dpkg-deb: no package is tried"
    fi
    if command -v lintian >/dev/null && [ -e "$package" ]; then
        lintian "$package" >"$work/output" 2>"$work/errors" && ! grep '^E:' "$work/output"
        verdict "the package as Debian wants it"
    else
        echo "no lintian, or no package: whether it is as Debian wants it is not tried"
    fi
else
    echo "no git: no release is tried"
fi

# completed WORD..: what bash offers for the last of the words
completed() {
    bash -c '. "$1" && shift && COMP_WORDS=("$@") && COMP_CWORD=$(($# - 1)) && _awkbox &&
        echo "${COMPREPLY[@]}"' - "$top/completions/awkbox.bash" "$@" 2>&1
}
[ "$(completed awkbox r)" = run ] && [ "$(completed awkbox run --p)" = --policy ] &&
    [ "$(completed awkbox check --)" = "--policy --base --allow-open --json --numbers --help" ] &&
    [ "$(completed awkbox run --log-l)" = --log-limit ] && [ "$(completed awkbox run -C "$work/elsew")" = "$work/elsewhere" ] &&
    [ "$(completed awkbox list -f a -)" = "--files --json --numbers -f -e --help" ] &&
    [ "$(completed awkbox list --numbers d)" = double ] && [ "$(completed awkbox list --numbers = w)" = whole ] &&
    [ "$(completed awkbox run -f a -- "$work/kept.t")" = "$work/kept.toml" ] &&
    [ "$(completed awkbox run --policy "$work/kept.t")" = "$work/kept.toml" ]
verdict "the completions for bash"

# each command has the options of its help, and no others; zsh, where it is there, tells what it would show
zsh_offers() {
    zsh -f -c '_arguments() { print -rl -- "$@" }
        () { words=(awkbox "$2" ""); CURRENT=3; . "$1" } "$@"' zsh "$top/completions/_awkbox" "$1" | sed 's/^\*//'
}
differing=
for command in run list check why lint propose; do
    said=$("$program" "$command" --help | sed -n '/^Options:/,/^$/p' | options | grep -vx -e -h)
    [ "$(completed awkbox "$command" "" | tr ' ' '\n' | options)" = "$said" ] || differing="$differing bash:$command"
    command -v zsh >/dev/null || continue
    [ "$(zsh_offers "$command" | grep -oE -- '^--?[a-zA-Z][a-zA-Z-]*' | sort -u)" = "$said" ] || differing="$differing zsh:$command"
done
echo "differing:$differing" >"$work/output"
[ -z "$differing" ]
verdict "the completions offer each command the options of its help"

# typed SHELL TEXT WORD..: whether the shell, where it is there, makes these words of the text and a tab
typed() {
    local shell=$1 text=$2
    shift 2
    (cd "$work/names" && python3 "$top/scripts/typed.py" "$shell" "$text") >"$work/output" 2>&1
    status=$?
    [ "$status" -eq 0 ] && holds "$work/output" "$(printf '%s\n' "$@")$line"
}
mkdir "$work/names"
touch "$work/names/policy.toml"
for shell in bash zsh; do
    command -v "$shell" >/dev/null && [ -e /dev/ptmx ] || continue
    typed "$shell" "run --policy=pol" run --policy=policy.toml &&
        typed "$shell" "check --policy=" check --policy=policy.toml &&
        typed "$shell" "run --log pol" run --log policy.toml &&
        typed "$shell" "run -f pol" run -f policy.toml
    verdict "$shell finds the files of options"
    typed "$shell" "run --report pol" run --report policy.toml
    verdict "$shell finds the file of a report"
    typed "$shell" "run -f f -- pol" run -f f -- policy.toml && typed "$shell" "run -f f pol" run -f f pol
    verdict "$shell finds operands behind -- alone"
    typed "$shell" "help pro" help propose
    verdict "$shell finds the commands behind help"
done

script 'BEGIN { print "hi" }'
no_rules
cp "$work/script.awk" "$base/-a.awk"
awkbox run -f -a.awk "--log=$work/log" --policy "$work/policy.toml"
is 0 "hi$line" "" ""
verdict "words in another order, a value behind =, and one that begins with -"

cp "$work/script.awk" "$base/=x"
cp "$work/script.awk" "$base/--"
for words in '-f=x' '-f =x' '-f--' '-f --' '-f-a.awk'; do
    # shellcheck disable=SC2086
    awkbox run --policy "$work/policy.toml" --log "$work/log" $words
    is 0 "hi$line" "" ""
    verdict "a file by the words $words"
done

# fault NAME WORD..: the words are at fault
fault() {
    local name=$1
    shift
    awkbox "$@"
    [ "$status" -eq 3 ] && [ ! -s "$work/output" ] && grep -q '^error: ' "$work/errors"
    verdict "$name"
}
fault "no word"
fault "an unknown command" walk
fault "an option that is missing" run --policy p --log l
fault "an unknown option" run --policy p --log l -f f --more
fault "an option twice" run --policy p --policy q --log l -f f
fault "-E behind another script" run --policy p --log l -f f -E g
fault "a script that is the standard input twice" run --policy p --log l -f - -f -
fault "a text that is no value" run --policy p --log l -e
fault "a word too many" run --policy p g --log l -f f
fault "an operand without --" list -f f g
fault "a policy and a script that are the standard input" run --policy - --log l -f -
fault "a check of a policy and a script that are the standard input" check --policy - -f -
fault "a report twice" run --policy p --log l --report a --report b -f f
fault "a report of check" check --policy p --report a -f f
fault "a word that is not UTF-8" run --policy p --log l -f $'\xff'
fault "a separator twice" run --policy p --log l -F a -F b -f f
for steps in +5 -1 1e3 1000000000001 99999999999999999999 ''; do
    fault "a bound of '$steps' steps" run --policy p --log l --steps "$steps" -f f
done
for bytes in +5 -1 1e3 18446744073709551616 ''; do
    fault "a limit of '$bytes' bytes" run --policy p --log l --log-limit "$bytes" -f f
done
fault "a value of --log-append" run --policy p --log l --log-append=x -f f
fault "a folder twice" run --policy p --log l -C a -C b -f f
fault "a folder of check" check --policy p -C a -f f
fault "an operand of list" list -f f -- a
fault "an operand of check" check --policy p -f f -- a
fault "a policy of list" list --policy p -f f
fault "a kind that is not known" why --policy p open a
fault "a text that is missing" why --policy p read
fault "a lint of nothing" lint --strict
fault "a lint of a policy and a script that are the standard input" lint --policy - -f -
fault "a proposal under no base" propose -f f
fault "an operand of a proposal" propose --base /w -- a
fault "a policy and a script of a proposal that are the standard input" propose --policy - -f -
fault "a script and a log of a proposal that are the standard input" propose --base /w --log - -f -

# Nests.

if command -v python3 >/dev/null; then
    (ulimit -s 8192 && "$top/scripts/stack-of-forms.py" --nests "$program") >"$work/output" 2>"$work/errors"
    verdict "each form nested too deep ends by itself"
fi

echo "$passed passed, $failed failed"
[ "$failed" -eq 0 ]
