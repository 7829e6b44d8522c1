# Completion of mlsign for bash: its commands, and the options that their help names.
_mlsign() {
    local cur prev words cword
    _init_completion || return
    if [[ $cur == -* ]]; then
        mapfile -t COMPREPLY < <(compgen -W "$(_parse_help "$1" "${words[1]} --help")" -- "$cur")
    elif ((cword == 1)); then
        mapfile -t COMPREPLY < <(compgen -W "keygen public sign verify show convert help" -- "$cur")
    else
        _filedir
    fi
} && complete -F _mlsign mlsign
