# Completion of stencilc's words for bash.
_stencilc() {
    local word="${COMP_WORDS[COMP_CWORD]}" before="${COMP_WORDS[COMP_CWORD - 1]}" command="${COMP_WORDS[1]}"
    if [ "$COMP_CWORD" -eq 1 ]; then
        mapfile -t COMPREPLY < <(compgen -W "check code scopes save load verify trial churn" -- "$word")
        return
    fi
    case "$before" in
    --want) mapfile -t COMPREPLY < <(compgen -W "all none" -- "$word") && return ;;
    --order) mapfile -t COMPREPLY < <(compgen -W "first large reverse" -- "$word") && return ;;
    --workers) mapfile -t COMPREPLY < <(compgen -W "1 2 4 8 16" -- "$word") && return ;;
    esac
    case "$command:$word" in
    load:* | verify:*) compopt -o default ;;
    trial:* | churn:*) mapfile -t COMPREPLY < <(compgen -W "--workers" -- "$word") ;;
    *:-*) mapfile -t COMPREPLY < <(compgen -W "--want --workers --order" -- "$word") ;;
    *) compopt -o default ;;
    esac
}
complete -F _stencilc stencilc
