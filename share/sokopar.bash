# bash completion for sokopar; written by build/share
_sokopar() {
    local word=${COMP_WORDS[COMP_CWORD]} options
    COMPREPLY=()
    case ${COMP_WORDS[1]} in
        check) options="--help" ;;
        explain) options="--help" ;;
        show) options="--from --to --help" ;;
        dead) options="--help" ;;
        replay) options="--solutions --from --to --table --help" ;;
        solve) options="--workers --locks --limit --max-pushes --lurd --help" ;;
        best) options="--from --to --workers --limit --seconds --max-pushes --moves --table --lurd --progress --help" ;;
        prove) options="--solutions --from --to --workers --limit --seconds --moves --table --lurd --progress --help" ;;
        help) options="check explain show dead replay solve best prove"; compopt +o default ;;
        *) options= ;;
    esac
    if [ "$COMP_CWORD" = 1 ]; then
        options="check explain show dead replay solve best prove help --help --version"
        compopt +o default
    fi
    case ${COMP_WORDS[COMP_CWORD - 1]} in
        --from | --to | --workers | --locks | --limit | --max-pushes | --seconds) compopt +o default; return ;; # a number
        --solutions) compopt -o filenames; mapfile -t COMPREPLY < <(compgen -d -- "$word"); return ;;
    esac
    if [ "$COMP_CWORD" = 1 ] || [[ $word == -* || ${COMP_WORDS[1]} == help ]]; then
        mapfile -t COMPREPLY < <(compgen -W "$options" -- "$word")
    fi
}
complete -o default -F _sokopar sokopar
