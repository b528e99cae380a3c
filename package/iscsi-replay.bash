# bash completion for iscsi-replay
_iscsi_replay() {
    local word=${COMP_WORDS[COMP_CWORD]} before=${COMP_WORDS[COMP_CWORD - 1]}
    case $before in
        --level) mapfile -t COMPREPLY < <(compgen -W "1 2" -- "$word") ;;
        --cpu) mapfile -t COMPREPLY < <(compgen -W "x86-64-v3" -- "$word") ;;
        --first | --window | --units | --depth) COMPREPLY=() ;;
        *)
            if [[ $word == -* ]]; then
                mapfile -t COMPREPLY < <(compgen -W "--first --window --units --depth --level --threads --help" -- "$word")
            else
                mapfile -t COMPREPLY < <(compgen -f -- "$word")
            fi
            ;;
    esac
}
complete -o filenames -F _iscsi_replay iscsi-replay
