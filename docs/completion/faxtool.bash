# Completion of faxtool's commands, options and files in bash. Load it by `. faxtool.bash`, or put it as `faxtool` into
# ~/.local/share/bash-completion/completions. Written by docs/man/make.py from the help of the program.

# The options of a command.
_faxtool_options() {
    case $1 in
        code) echo --code --order --explain --help ;;
        show) echo --code --width --order --explain --help ;;
        decode) echo --code --width --order --fine --salvage --repair --whole --verbose --json --page --each --from --null --resume --most-pages --most-octets --explain --help ;;
        frames) echo --data --order --pages --salvage --json --diagram --caller --answerer --explain --help ;;
        call) echo --script --lose --spoil --busy --seed --calls --times --code --frame --modems --fine --out --expect --bits --diagram --json --explain --help ;;
        identify) echo --json --explain --help ;;
        judge) echo --strict --json --explain --help ;;
        station) echo --answer --call --out --code --modems --standard --widest --limit --mode --most-pages --most-octets --most-seconds --refuse --no-refuse --hold --frame --fine --from --t1 --t2 --t4 --t5 --hear --frames --late --trace --trace-frames --json --explain --help ;;
        version) echo --proof --help ;;
        *) echo --help ;;
    esac
}

# The values of an option, and nothing where it has none or is the name of a file.
_faxtool_values() {
    case $1 in
        --code) echo mh mmr t4 t6 ;;
        --order) echo msb lsb ;;
        --width) echo 1728 2048 2432 ;;
        --from) echo 2 ;;
        --most-pages) echo 100 ;;
        --most-octets) echo 100000000 ;;
        --data) echo 8 ;;
        --lose) echo 1% 5% 10% ;;
        --spoil) echo 1% 5% ;;
        --busy) echo 10% 50% ;;
        --seed) echo 1 ;;
        --calls) echo 3 ;;
        --times) echo 100 1000 ;;
        --frame) echo 256 64 ;;
        --modems) echo v17 v27v29 v29 v27 fallback ;;
        --expect) echo normal ;;
        --widest) echo 1728 2048 2432 ;;
        --limit) echo 2 10 ;;
        --mode) echo 0600 0640 ;;
        --most-seconds) echo 3600 ;;
        --t1) echo 35000 ;;
        --t2) echo 7000 ;;
        --t4) echo 3000 ;;
        --t5) echo 60000 ;;
    esac
}

_faxtool() {
    local word=${COMP_WORDS[COMP_CWORD]} before=${COMP_WORDS[COMP_CWORD - 1]} values
    COMPREPLY=()
    if [ "$COMP_CWORD" = 1 ]; then
        mapfile -t COMPREPLY < <(compgen -W "code show decode frames call identify judge station version help --help" -- "$word")
        return
    fi
    # bash takes --code=mh as three words
    [ "$word" != = ] || word=
    [ "$before" != = ] || before=${COMP_WORDS[COMP_CWORD - 2]}
    values=$(_faxtool_values "$before")
    if [ -n "$values" ]; then
        mapfile -t COMPREPLY < <(compgen -W "$values" -- "$word")
    elif [ "${COMP_WORDS[1]}" = help ]; then
        mapfile -t COMPREPLY < <(compgen -W "code show decode frames call identify judge station version" -- "$word")
    elif [ "${word#-}" != "$word" ]; then
        mapfile -t COMPREPLY < <(compgen -W "$(_faxtool_options "${COMP_WORDS[1]}")" -- "$word")
    else
        mapfile -t COMPREPLY < <(compgen -f -- "$word")
    fi
}

complete -o filenames -F _faxtool faxtool
