# What bash completes behind `regedit` and `regdiff`: their options, and files for paths.
_rovneath() {
    local word=${COMP_WORDS[COMP_CWORD]} option=${COMP_WORDS[COMP_CWORD - 1]} before
    local options='--rdl --header --edited --session --top --history --strict --quiet --explain --help --version -h -V'
    [[ ${1##*/} != regdiff ]] || options='--top --each --breaking --ignore --format --help --version -h -V'
    COMPREPLY=()
    # bash makes three words of `--rdl=out.rdl`
    if [[ $word == = ]]; then
        word=''
    elif [[ $option == = ]]; then
        option=${COMP_WORDS[COMP_CWORD - 2]}
    fi
    for before in "${COMP_WORDS[@]:1:COMP_CWORD - 1}"; do
        # behind it all words are files
        [[ $before != -- ]] || option=--
    done
    case $option in
        --format)
            mapfile -t COMPREPLY < <(compgen -W 'text markdown json' -- "$word")
            return
            ;;
        --top | --history | --ignore | --explain) return ;;
        --rdl | --header | --edited | --session | --) ;;
        *)
            if [[ $word == -* ]]; then
                mapfile -t COMPREPLY < <(compgen -W "$options" -- "$word")
                return
            fi
            ;;
    esac
    compopt -o filenames 2> /dev/null
    mapfile -t COMPREPLY < <(compgen -f -- "$word")
}
complete -F _rovneath regedit regdiff
