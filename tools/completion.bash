# Completion for bash of parcours and the tools around it. The modes and their options are those of modes.txt.
_parcours_table=$(dirname -- "$(readlink -f -- "${BASH_SOURCE[0]}")")/modes.txt

_parcours() {
    local word=${COMP_WORDS[COMP_CWORD]} before=${COMP_WORDS[COMP_CWORD - 1]} name needs options modes='' offered=''
    local words=" ${COMP_WORDS[*]:1:COMP_CWORD - 1} "
    case $before in
        -C) mapfile -t COMPREPLY < <(compgen -d -- "$word"); return ;;
        --picker) mapfile -t COMPREPLY < <(compgen -W "first last turn each" -- "$word"); return ;;
        --days | --term | --start | --wish | --school | --number) return ;;
    esac
    while read -r name needs options _; do
        [[ $name != \#* ]] || continue
        modes+=" $name"
        [[ $words != *" $name "* ]] || offered=$needs,$options
    done < "$_parcours_table"
    [[ $offered ]] || offered="$modes -C --help --version"
    mapfile -t COMPREPLY < <(compgen -X - -W "${offered//,/ }" -- "$word")
}
complete -F _parcours parcours

_parcours_tool() {
    local word=${COMP_WORDS[COMP_CWORD]} before=${COMP_WORDS[COMP_CWORD - 1]}
    case $before in
        --dates) mapfile -t COMPREPLY < <(compgen -W "day-first month-first" -- "$word"); return ;;
        --rates) mapfile -t COMPREPLY < <(compgen -W "percent fraction" -- "$word"); return ;;
        --lang) mapfile -t COMPREPLY < <(compgen -W "en fr" -- "$word"); return ;;
        --dialect) mapfile -t COMPREPLY < <(compgen -W "semicolons commas tabs plain" -- "$word"); return ;;
    esac
    case ${COMP_WORDS[0]##*-}$word in
        prepare-*) mapfile -t COMPREPLY < <(compgen -W "--dates --rates --column --leave-out --ids --lang --help" -- "$word") ;;
        next_day-*) mapfile -t COMPREPLY < <(compgen -W "--start --term --lang --help" -- "$word") ;;
        take_in-*) mapfile -t COMPREPLY < <(compgen -W "--replace --start --term --dates --column --leave-out --lang --help" -- "$word") ;;
        why-*) mapfile -t COMPREPLY < <(compgen -W "--candidate --help" -- "$word") ;;
        tables-*) mapfile -t COMPREPLY < <(compgen -W "--names --dialect --lang --help" -- "$word") ;;
        in_words*) mapfile -t COMPREPLY < <(compgen -W "en fr --help" -- "$word") ;;
        *) mapfile -t COMPREPLY < <(compgen -f -- "$word") ;;
    esac
}
complete -o filenames -F _parcours_tool parcours-prepare parcours-next_day parcours-take_in parcours-why \
    parcours-tables parcours-in_words
