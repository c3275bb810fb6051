# Completion of n2kdec's words in bash; ./install puts it below PREFIX/share/bash-completion/completions.
_n2kdec() {
    local now=${COMP_WORDS[COMP_CWORD]} before=${COMP_WORDS[COMP_CWORD - 1]} words
    COMPREPLY=()
    if [ "$COMP_CWORD" -eq 1 ]; then
        mapfile -t COMPREPLY < <(compgen -W 'plain decode frames encode --help --version' -- "$now")
        return
    fi
    case $before in
    --table | --resume | --save)
        mapfile -t COMPREPLY < <(compgen -f -- "$now")
        return
        ;;
    --candump)
        # The interfaces of the system, where it lists them.
        mapfile -t COMPREPLY < <(compgen -W "$(cd /sys/class/net 2>/dev/null && echo *)" -- "$now")
        return
        ;;
    esac
    case ${COMP_WORDS[1]} in
    plain) words='--help' ;;
    decode) words='--table --resume --save --window --in-order --empty --whole --help' ;;
    frames) words='--table --candump --help' ;;
    encode) words='--table --nearest --help' ;;
    *) return ;;
    esac
    case $now in
    -*) mapfile -t COMPREPLY < <(compgen -W "$words" -- "$now") ;;
    *) mapfile -t COMPREPLY < <(compgen -f -- "$now") ;;
    esac
}
complete -o filenames -F _n2kdec n2kdec
