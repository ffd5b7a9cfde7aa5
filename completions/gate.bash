# Completion of gate(1) for bash: commands, options, and files.
_gate() {
    local current=${COMP_WORDS[COMP_CWORD]} before=${COMP_WORDS[COMP_CWORD - 1]} options='--workers --piece --help'
    local place=0 at
    COMPREPLY=()
    if ((COMP_CWORD == 1)); then
        mapfile -t COMPREPLY < <(compgen -W 'check check-all explain exports run stream help --help --version' -- "$current")
        return
    fi
    case ${COMP_WORDS[1]} in
        check) ;;
        check-all) options="$options --null --recursive --progress" ;;
        explain) options=--json\ --help ;;
        exports) options=--help ;;
        run | stream)
            options+=' --fuel --frames --pages'
            [[ ${COMP_WORDS[1]} == run ]] || options="$options --progress"
            ;;
        help)
            ((COMP_CWORD > 2)) || mapfile -t COMPREPLY < <(compgen -W 'check check-all explain exports run stream' -- "$current")
            return
            ;;
        *) return ;;
    esac
    # A number comes next.
    if [[ $before == --@(workers|piece|fuel|frames|pages) || $before == = || $current == = ]]; then
        return
    fi
    if [[ $current == -* ]]; then
        mapfile -t COMPREPLY < <(compgen -W "$options" -- "$current")
        return
    fi
    # The files before this word. A number stands after its option, or after the option and `=`.
    for ((at = 2; at < COMP_CWORD; at++)); do
        case ${COMP_WORDS[at]} in
            --workers | --piece | --fuel | --frames | --pages)
                at=$((at + 1))
                [[ ${COMP_WORDS[at]} != = ]] || at=$((at + 1))
                ;;
            -*) ;;
            *) place=$((place + 1)) ;;
        esac
    done
    if ((place == 0)) || [[ ${COMP_WORDS[1]} == check-all ]]; then
        mapfile -t COMPREPLY < <(compgen -f -X '!*.wasm' -- "$current"; compgen -d -- "$current")
    elif ((place == 1)) && [[ ${COMP_WORDS[1]} == @(run|explain|stream) ]]; then
        mapfile -t COMPREPLY < <(compgen -f -- "$current")
    fi
}
complete -o filenames -F _gate gate
