# bash completion for alm_server
_alm_server() {
    local cur=${COMP_WORDS[COMP_CWORD]} prev=${COMP_WORDS[COMP_CWORD - 1]}
    COMPREPLY=()
    if [ "$COMP_CWORD" -eq 1 ]; then
        mapfile -t COMPREPLY < <(compgen -W "desk export format serve show upgrade --help --version" -- "$cur")
    elif [ "$prev" = --sockets ]; then
        mapfile -t COMPREPLY < <(compgen -d -- "$cur")
    elif [ "$prev" = --port ] || [ "$prev" = --conns ] || [ "$prev" = --patience ] || [ "$prev" = --scrub ]; then
        :
    elif [ "${COMP_WORDS[1]}" = serve ] && [ "$COMP_CWORD" -gt 2 ]; then
        mapfile -t COMPREPLY < <(compgen -W "--port --sockets --conns --patience --scrub" -- "$cur")
    elif [ "$prev" = --version ]; then
        mapfile -t COMPREPLY < <(compgen -W "02 03" -- "$cur")
    elif [ "${COMP_WORDS[1]}" = upgrade ] && [ "$COMP_CWORD" -gt 2 ]; then
        mapfile -t COMPREPLY < <(compgen -W "--version" -- "$cur")
    elif [ "${COMP_WORDS[1]}" = format ] && [ "$COMP_CWORD" -gt 3 ]; then
        mapfile -t COMPREPLY < <(compgen -W "--version" -- "$cur")
    elif [ "${COMP_WORDS[1]}" = format ] && [ "$COMP_CWORD" -eq 3 ]; then
        mapfile -t COMPREPLY < <(compgen -f -X '!*.toml' -- "$cur"; compgen -d -- "$cur")
    elif [ "$COMP_CWORD" -eq 2 ]; then
        mapfile -t COMPREPLY < <(compgen -f -X '!*.device' -- "$cur"; compgen -d -- "$cur")
    fi
}
complete -o filenames -F _alm_server alm_server
