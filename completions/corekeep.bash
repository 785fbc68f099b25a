# Completion of corekeep's words for bash. `make install` puts it where bash looks for it.
_corekeep() {
    local word=${COMP_WORDS[COMP_CWORD]}
    local before=${COMP_WORDS[COMP_CWORD-1]}
    local commands="format run store handle list info groups report search ask wants prune look extract digest unpack check copy resize salvage memory"
    local lines="list free delete pin unpin label retire upgrade header notes threads regs process signal auxv files maps dump at find strings bt unwind lines frame builds used symbol line"
    local session="--template --uses-pid --limit"
    COMPREPLY=()
    if [ "$COMP_CWORD" -eq 1 ]; then
        COMPREPLY=($(compgen -W "$commands --help --version" -- "$word"))
        return
    fi
    case $before in
    --half | --data | --template | --limit | --length | --sha256 | --stall | --id | --keep | --cores | --bytes | --before | --exec | --label | --text | --name | --pid | --since | --until | --last | --user | --program) return ;;
    --kind)
        COMPREPLY=($(compgen -W "core exec" -- "$word"))
        return
        ;;
    --signal)
        COMPREPLY=($(compgen -W "SIGSEGV SIGABRT SIGBUS SIGFPE SIGILL SIGTRAP SIGSYS SIGQUIT" -- "$word"))
        return
        ;;
    --log | --archive | --spool)
        COMPREPLY=($(compgen -f -- "$word"))
        return
        ;;
    --sort)
        COMPREPLY=($(compgen -W "time size name" -- "$word"))
        return
        ;;
    --layout)
        COMPREPLY=($(compgen -W "1 2" -- "$word"))
        return
        ;;
    esac
    local options=--help
    case ${COMP_WORDS[1]} in
    format) options="--half --data --sparse --layout --quiet --help" ;;
    run) options="--builds --no-wait $session --help" ;;
    store) options="--exec --name --pin --label --escape --keep --bytes --before --fit --fair --cut --length --sha256 --stall --spool --build --id --debug --log --no-wait --quiet $session --help" ;;
    handle) options="--check --flush --archive --length --stall --help" ;;
    list) options="--json --json-lines --local --sort --kind --name --user --program --pid --signal --since --until --label --pinned --last --no-wait --help" ;;
    info) options="--threads --json --local --metrics --no-wait --help" ;;
    search) options="--text --json --json-lines --local --sort --kind --name --user --program --pid --signal --since --until --label --pinned --last --no-wait --help" ;;
    groups) options="--json --json-lines --local --name --user --program --pid --signal --since --until --label --pinned --last --no-wait --help" ;;
    report) options="--no-wait --help" ;;
    ask) options="--text --plain --words --json --builds --no-wait --help" ;;
    wants) options="--ids --json --no-wait --help" ;;
    prune) options="--cores --bytes --before --yes --no-wait --help" ;;
    look) options="--builds --no-wait --help" ;;
    extract | digest | unpack) options="--no-wait --quiet --help" ;;
    salvage) options="--half --data --no-wait --quiet --help" ;;
    check) options="--images --no-wait --help" ;;
    copy) options="--half --data --layout --sparse --no-wait --quiet --help" ;;
    resize) options="--half --data --sparse --drop-rights --no-wait --quiet --help" ;;
    memory) options="--half --data --builds $session --help" ;;
    esac
    case $word in
    -*)
        COMPREPLY=($(compgen -W "$options" -- "$word"))
        return
        ;;
    esac
    if [ "${COMP_WORDS[1]}" = ask ] && [ "$COMP_CWORD" -eq 3 ]; then
        COMPREPLY=($(compgen -W "$lines would-retire" -- "$word"))
        return
    fi
    # A case: its number, `last` or `latest`.
    if { [ "${COMP_WORDS[1]}" = ask ] && [ "$COMP_CWORD" -eq 4 ]; } || { [[ ${COMP_WORDS[1]} = @(extract|unpack|info|groups|wants) ]] && [ "$COMP_CWORD" -eq 3 ]; } || { [[ ${COMP_WORDS[1]} = @(digest|report) ]] && [ "$COMP_CWORD" -ge 3 ]; }; then
        COMPREPLY=($(compgen -W "last latest $(corekeep ask "${COMP_WORDS[2]}" list --no-wait 2>/dev/null | sed -n 's/^\([0-9][0-9]*\) .*/\1/p')" -- "$word"))
        return
    fi
    if [ "${COMP_WORDS[1]}" = store ] && [ "$COMP_CWORD" -ge 4 ]; then
        compopt -o nospace 2>/dev/null
        COMPREPLY=($(compgen -W "comm= exe= host= pid= tid= sig= uid= gid= mode= time= limit=" -- "$word"))
        return
    fi
    COMPREPLY=($(compgen -f -- "$word"))
}
complete -o filenames -F _corekeep corekeep
