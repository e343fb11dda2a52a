# Completions of bash for drat-forward, lrat-check and model-check.
_gazhumbe() {
    local word=${COMP_WORDS[COMP_CWORD]} options
    case ${1##*/} in
        drat-forward) options='--binary --trace --strict --pr --keep-units --help --version' ;;
        lrat-check) options='--trace --help --version' ;;
        model-check) options='--help --version' ;;
    esac
    if [[ $word == -* ]]; then
        mapfile -t COMPREPLY < <(compgen -W "$options" -- "$word")
    fi
}
complete -o default -F _gazhumbe drat-forward lrat-check model-check
