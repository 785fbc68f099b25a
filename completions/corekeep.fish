# Completion of corekeep's words for fish, by that for bash, which bash runs.
function __corekeep_words
    set -l words (commandline -opc) (commandline -ct)
    bash -c '
        source /usr/share/bash-completion/completions/corekeep || exit
        COMP_WORDS=("$@")
        COMP_CWORD=$(($# - 1))
        _corekeep
        printf "%s\n" "${COMPREPLY[@]}"
    ' bash $words 2>/dev/null
end
complete -c corekeep -f -a "(__corekeep_words)"
