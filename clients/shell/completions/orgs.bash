# Completes orgs(1) in bash: commands, options, the folder's files, headings by their paths, states, dates.
# Put it into /usr/share/bash-completion/completions/orgs, or source it. `orgs complete` has what may stand there.

# A word without its quotes and backslashes.
_orgs_plain() {
    local word=$1
    case $word in
        [\'\"]*) word=${word:1} ;;
        *) word=${word//\\/} ;;
    esac
    printf '%s' "$word"
}

_orgs() {
    local -a words=() found=()
    local word current
    COMPREPLY=()
    for word in "${COMP_WORDS[@]:1:COMP_CWORD}"; do words+=("$(_orgs_plain "$word")"); done
    current=$(_orgs_plain "${COMP_WORDS[COMP_CWORD]}")
    mapfile -t found < <(command "${COMP_WORDS[0]/#\~/$HOME}" complete -- "${words[@]}" 2> /dev/null)
    case ${found[0]-} in
        directories) mapfile -t COMPREPLY < <(compgen -d -- "$current") ;;
        paths) mapfile -t COMPREPLY < <(compgen -f -- "$current") ;;
        *) COMPREPLY=("${found[@]:1}") && COMPREPLY=("${COMPREPLY[@]%%$'\t'*}") ;;
    esac
    if [[ ${found[0]-} != words ]]; then compopt -o filenames 2> /dev/null; fi
}

complete -F _orgs orgs
