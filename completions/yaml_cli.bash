# bash completion for yaml_cli: source this file. Written by tools/help.py from the program's own help.
_yaml_cli() {
    local now=${COMP_WORDS[COMP_CWORD]} before=${COMP_WORDS[COMP_CWORD - 1]} options='' words=''
    COMPREPLY=()
    if [ "$COMP_CWORD" -eq 1 ]; then
        COMPREPLY=($(compgen -W 'fmt norm docs events same diff check help -h --help -V --version' -- "$now"))
        return
    fi
    # a value behind a = is a word of its own
    if [ "$before" = = ]; then before=${COMP_WORDS[COMP_CWORD - 2]}; fi
    if [ "$now" = = ]; then before=${COMP_WORDS[COMP_CWORD - 1]} now=''; fi
    case $before in
        --from) words='auto utf8 utf16le utf16be' ;;
        --break) words='lf cr crlf' ;;
        --encoding) words='utf8 utf16le utf16be' ;;
        --format) words='full line github json' ;;
        --exclude|--include|--indent|--limit|--stdin-filename|--width) return ;;
    esac
    if [ -n "$words" ]; then
        COMPREPLY=($(compgen -W "$words" -- "$now"))
        return
    fi
    case ${COMP_WORDS[1]} in
        fmt) options='--from --check -q --quiet -v --verbose --include --exclude --stdin-filename --pretty --indent --width --ascii --break --encoding --limit -h --help' ;;
        norm) options='--from --check -w --write --drop-comments -q --quiet -v --verbose --include --exclude --stdin-filename --indent --width --ascii --break --encoding --limit -h --help' ;;
        docs) options='--from --indent --width --ascii --break --encoding --limit -h --help' ;;
        events) options='--from -h --help' ;;
        same) options='--from -q --quiet -h --help' ;;
        diff) options='--from --all --documents -q --quiet -h --help' ;;
        check) options='--from -q --quiet -v --verbose --include --exclude --files0-from --unique-keys --stdin-filename --format -h --help' ;;
        help) COMPREPLY=($(compgen -W 'fmt norm docs events same diff check help' -- "$now")); return ;;
        *) return ;;
    esac
    case $now in
        -*) COMPREPLY=($(compgen -W "$options" -- "$now")) ;;
        *) compopt -o filenames 2>/dev/null; mapfile -t COMPREPLY < <(compgen -f -- "$now") ;;
    esac
}
complete -F _yaml_cli yaml_cli
