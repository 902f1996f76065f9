# shellcheck shell=bash disable=SC2154
# The recipe of docs/HOSTING.md, which says what each of its lines stops.

# log_of FOLDER: the log of the runs in this folder, named by the folder's whole path, so that no two share one
log_of() {
    local path
    path=$(CDPATH='' cd -- "$1" && pwd -P) || return
    path=${path//%/%25}
    printf '%s\n' "$logs/${path//\//%2F}.log"
}

# host FOLDER SCRIPT [OPERAND..]: runs a script that is not trusted in this folder
host() (
    folder=$1 script=$2
    log=$(log_of "$folder") || exit 3
    shift 2
    ulimit -v 500000
    ulimit -f 20000
    ulimit -n 64
    ulimit -t 10
    ulimit -c 0
    trap '' XFSZ
    exec timeout -k 2 15 env -i PATH=/usr/bin:/bin LC_ALL=C "${box[@]}" \
        "$awkbox" run --policy "$policy" --log "$log" --log-limit 1000000 --report "${log%.log}.json" \
        --steps "${steps:-100000000}" --base . -C "$folder" -f "$script" -- "$@"
)
