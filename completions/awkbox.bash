# Completion of awkbox for bash.
_awkbox() {
    local word=${COMP_WORDS[COMP_CWORD]} before=${COMP_WORDS[COMP_CWORD-1]} options
    local commands='run list check why lint propose'
    COMPREPLY=()
    # bash cuts a word at each = into three
    if [ "$word" = = ]; then
        word=
    elif [ "$before" = = ]; then
        before=${COMP_WORDS[COMP_CWORD-2]}
    fi
    case $before in
    -C | --base)
        compopt -o filenames 2>/dev/null
        mapfile -t COMPREPLY < <(compgen -d -- "$word")
        return
        ;;
    --policy | --log | --audit | --report | -f | -E)
        compopt -o filenames 2>/dev/null
        mapfile -t COMPREPLY < <(compgen -f -- "$word")
        return
        ;;
    --numbers)
        mapfile -t COMPREPLY < <(compgen -W 'whole double' -- "$word")
        return
        ;;
    --log-limit | --steps | --seed | -F | -v | -e) return ;;
    esac
    if [ "$COMP_CWORD" -eq 1 ]; then
        mapfile -t COMPREPLY < <(compgen -W "$commands help --help --version" -- "$word")
        return
    fi
    case " ${COMP_WORDS[*]:2:COMP_CWORD-2} " in
    *' -- '*) # OPERAND
        compopt -o filenames 2>/dev/null
        mapfile -t COMPREPLY < <(compgen -f -- "$word")
        return
        ;;
    esac
    case ${COMP_WORDS[1]} in
    run) options='--policy --base --log --log-append --log-limit --audit --report -C --steps --seed --block-buffered -F -v --numbers -f -e -E --help --' ;;
    list) options='--files --json --numbers -f -e --help' ;;
    check) options='--policy --base --allow-open --json --numbers -f -e --help' ;;
    why) options='--policy --base --given read write append run env assign --help' ;;
    lint) options='--policy --base --strict --numbers -f -e --help' ;;
    propose) options='--base --policy --log --numbers -f -e --help' ;;
    help) options=$commands ;;
    *) options= ;;
    esac
    mapfile -t COMPREPLY < <(compgen -W "$options" -- "$word")
}
complete -F _awkbox awkbox
