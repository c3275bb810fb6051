# Completion of n2k's words in bash; ./install puts it below PREFIX/share/bash-completion/completions.
_n2k() {
    local now=${COMP_WORDS[COMP_CWORD]} bus buses=''
    case $now in
    -*)
        mapfile -t COMPREPLY < <(compgen -W '--degrees --knots --named --last --csv --page --health --compare --and --trip --share --move --json --local --gpx --nmea0183 --live --speed --from --to --jobs --table --also --print-table --any-order
            --whole --empty --window --resume --save --anyway --help --version' -- "$now")
        ;;
    *)
        # The CAN interfaces of the system, and files.
        for bus in /sys/class/net/*; do
            [ "$(cat -- "$bus/type" 2>/dev/null)" != 280 ] || buses+=" ${bus##*/}"
        done
        mapfile -t COMPREPLY < <(
            compgen -W "$buses" -- "$now"
            compgen -f -- "$now"
        )
        ;;
    esac
}
complete -o filenames -F _n2k n2k
