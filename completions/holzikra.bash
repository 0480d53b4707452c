# Completion of holzikra's words for bash, made by .ci/options of what `holzikra --help` says.
_holzikra() {
    local word="${COMP_WORDS[COMP_CWORD]}" before="${COMP_WORDS[COMP_CWORD - 1]}" command="${COMP_WORDS[1]}" words=""
    case "$COMP_CWORD:$command:$before" in
    1:*) words="check code scopes stats diff report save load verify explain help --help --version" ;;
    2:help:*) words="check code scopes stats diff report save load verify explain" ;;
    *:check:--color) words="auto always never" ;;
    *:check:--format) words="human json github sarif" ;;
    *:check:--unsupported) words="error warn skip" ;;
    *:code:--color) words="auto always never" ;;
    *:code:--format) words="human plain json" ;;
    *:scopes:--color) words="auto always never" ;;
    *:scopes:--format) words="human plain json dot" ;;
    *:stats:--color) words="auto always never" ;;
    *:stats:--format) words="human json" ;;
    *:stats:--sort) words="file functions closed instructions code-bytes depth nested source-bytes" ;;
    *:diff:--color) words="auto always never" ;;
    *:diff:--format) words="human json" ;;
    *:load:--color) words="auto always never" ;;
    *:load:--format) words="human plain json" ;;
    *:verify:--color) words="auto always never" ;;
    *:verify:--format) words="human json" ;;
    *:explain:--color) words="auto always never" ;;
    *)
        case "$command:$word" in
        check:-*) words="--all --color --exclude --ext --format --help -h --max --quiet -q --stdin-name --unsupported" ;;
        code:-*) words="--all --at --color --exclude --ext --format --function --help -h --no-source --only --quiet -q --stdin-name" ;;
        scopes:-*) words="--all --at --color --exclude --ext --format --function --help -h --only --quiet -q --stdin-name" ;;
        stats:-*) words="--all --color --exclude --ext --format --help -h --quiet -q --sort --stdin-name" ;;
        diff:-*) words="--color --format --help -h --stdin-name" ;;
        report:-*) words="--all --at --exclude --ext --function --help -h --only --output -o --quiet -q --stdin-name" ;;
        save:-*) words="--help -h --output -o --stdin-name" ;;
        load:-*) words="--all --color --exclude --ext --format --help -h --quiet -q --stdin-name" ;;
        verify:-*) words="--all --color --exclude --ext --format --help -h --quiet -q --stdin-name" ;;
        explain:-*) words="--color --help -h" ;;
        esac ;;
    esac
    if [ -n "$words" ]; then
        mapfile -t COMPREPLY < <(compgen -W "$words" -- "$word")
    else
        compopt -o default
    fi
}
complete -F _holzikra holzikra
