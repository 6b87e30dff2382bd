# Completions of d64sh, made by scripts/completions of what its help says.

_d64sh_take() {
    compopt -o filenames 2>/dev/null
    mapfile -t COMPREPLY
}

_d64sh() {
    local word=${COMP_WORDS[COMP_CWORD]} before=${COMP_WORDS[COMP_CWORD - 1]} command=${COMP_WORDS[1]} options=
    COMPREPLY=()
    if [ "$COMP_CWORD" -eq 1 ]; then
        mapfile -t COMPREPLY < <(compgen -W "shell petcat crunch check files extract map diff merge catalogue help -h --help -V --version" -- "$word")
        return
    fi
    case "$command $before" in
    "shell --tracks") mapfile -t COMPREPLY < <(compgen -W "35 40" -- "$word"); return ;;
    "shell --resume" | "petcat -o" | "petcat --output" | "crunch -o" | "crunch --output" | "check --files-from" | "files --files-from" | "extract --files-from" | "merge -o" | "merge --output" | "catalogue --files-from") _d64sh_take < <(compgen -f -- "$word"); return ;;
    "shell -c" | "shell --command" | "crunch --start" | "catalogue --title") :; return ;;
    "check --format" | "files --format" | "extract --format") mapfile -t COMPREPLY < <(compgen -W "text json csv" -- "$word"); return ;;
    "extract --into" | "catalogue --links") _d64sh_take < <(compgen -d -- "$word"); return ;;
    "map --format") mapfile -t COMPREPLY < <(compgen -W "text svg" -- "$word"); return ;;
    "diff --format" | "merge --format") mapfile -t COMPREPLY < <(compgen -W "text json" -- "$word"); return ;;
    "help "*) mapfile -t COMPREPLY < <(compgen -W "shell petcat crunch check files extract map diff merge catalogue help" -- "$word"); return ;;
    esac
    case $command in
    shell) options="--tracks --resume -c --command -e --stop-at-refusal -h --help" ;;
    petcat) options="-o --output -h --help" ;;
    crunch) options="--start -o --output -h --help" ;;
    check) options="--digest --format --files-from --null -h --help" ;;
    files) options="--deleted --orphans --format --files-from --null -h --help" ;;
    extract) options="--into --part --skip-existing --deleted --orphans --format --files-from --null -h --help" ;;
    map) options="--format -h --help" ;;
    diff) options="--format -h --help" ;;
    merge) options="-o --output --plain --majority --first --format -h --help" ;;
    catalogue) options="--maps --title --links --files-from --null -h --help" ;;
    esac
    if [[ $word == -* && " ${COMP_WORDS[*]:0:COMP_CWORD} " != *" -- "* ]]; then
        mapfile -t COMPREPLY < <(compgen -W "$options" -- "$word")
        return
    fi
    case $command in
    shell | check | files | extract | map | diff | merge | catalogue) _d64sh_take < <(compgen -f -X '!*.[dD]64' -- "$word"; compgen -d -- "$word") ;;
    petcat) _d64sh_take < <(compgen -f -X '!*.[pP][rR][gG]' -- "$word"; compgen -d -- "$word") ;;
    crunch) _d64sh_take < <(compgen -f -- "$word") ;;
    esac
}

complete -F _d64sh d64sh
