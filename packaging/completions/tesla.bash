# This file is generated of `tesla --help` by packaging/generate.
_tesla()
{
    # The line is cut at spaces alone: bash would cut an address at its colon.
    local line=${COMP_LINE:0:COMP_POINT} words kinds=() before=
    read -ra words <<< "${line}_"
    local place=$((${#words[@]} - 1)) word=${words[-1]%_}
    COMPREPLY=()
    if [ "$place" -eq 1 ]; then
        COMPREPLY=($(compgen -W "replay chain chain2 send lag stress roll weave early trace audit receive relay play record capture feed watch watch-relay follow ask reply show seeds info --help --version" -- "$word"))
        return
    fi
    case ${words[1]} in
        replay) kinds=(file number number file file) ;;
        chain) kinds=(file file number number number number number number number number) ;;
        chain2) kinds=(file file number number number number number number number number number number number number number) ;;
        send) kinds=(file file file file) ;;
        lag) kinds=(file file file number) ;;
        stress) kinds=(number number) ;;
        roll) kinds=(file number number file file) ;;
        weave) kinds=(file file file number) ;;
        early) kinds=(file number number file file) ;;
        trace) kinds=(file number number file file) ;;
        audit) kinds=(file number number file) ;;
        receive) kinds=(file number number address files) ;;
        relay) kinds=(number address address) ;;
        play) kinds=(file address) ;;
        record) kinds=(file number number address files number file) ;;
        capture) kinds=(address file) ;;
        feed) kinds=(files files address address file number) ;;
        watch) kinds=(file number number address files file number) ;;
        watch-relay) kinds=(number address address file number) ;;
        follow) kinds=(file number number address files file number) ;;
        ask) kinds=(number file) ;;
        reply) kinds=(file file number file) ;;
        show) kinds=(file) ;;
        seeds) kinds=(number file) ;;
        info) kinds=(file number) ;;
    esac
    case ${kinds[place - 2]} in
        file) ;;
        files) [[ $word == *,* ]] && before=${word%,*}, && compopt -o nospace ;;
        *) return ;;
    esac
    compopt -o filenames
    mapfile -t COMPREPLY < <(compgen -P "$before" -f -- "${word##*,}")
}
complete -F _tesla tesla
