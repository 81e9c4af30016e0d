# Completions for bash of ./fx, and of fx_cli, the program itself. Written by tools/pages from tools/command/table.py.
# In a shell: source share/completions/fx.bash
_fx() {
    local current=${COMP_WORDS[COMP_CWORD]} before=${COMP_WORDS[COMP_CWORD - 1]} at=0 choices=
    COMPREPLY=()
    case $before in
        '<' | '>' | '>>')
            compopt -o filenames 2> /dev/null
            mapfile -t COMPREPLY < <(compgen -f -- "$current")
            return ;;
        --workers) choices='1 2 4 8 16 32 64' ;;
    esac
    if [ "$COMP_CWORD" = 1 ]; then
        choices='serial run check load clients payments watch keep restart'
        [ "${COMP_WORDS[0]##*/}" = fx_cli ] || choices+=' build package help'
    elif [ "${COMP_WORDS[1]} $COMP_CWORD" = 'payments 2' ]; then
        choices='bilateral net'
    elif [ "${COMP_WORDS[1]} $COMP_CWORD" = 'package 2' ]; then
        compopt -o filenames 2> /dev/null
        mapfile -t COMPREPLY < <(compgen -d -- "$current")
        return
    fi
    case ${COMP_WORDS[1]} in
        run) at=2 ;;
        load) at=6 ;;
    esac
    [ "$COMP_CWORD" = "$at" ] && choices=--workers
    mapfile -t COMPREPLY < <(compgen -W "$choices" -- "$current")
}
complete -F _fx fx ./fx fx_cli
