#compdef holzikra
# Completion of holzikra's words for zsh, made by .ci/options of what `holzikra --help` says.
_holzikra() {
    if (( CURRENT == 2 )); then
        local -a commands=(
            'check:say whether each file is a script without errors'
            'code:list the code, with names, jumps and source lines'
            'scopes:draw functions and scopes, and who closes over what'
            'stats:count functions, closed names, instructions, bytes'
            'diff:compare the code of two scripts'
            'report:write one page for a browser'
            'save:compile a script to an image'
            'load:list the code of images'
            'verify:say whether the code of images is sound'
            'explain:say what a code means'
            'help:Print this message or the help of the given subcommand(s)'
        )
        _describe command commands
        _arguments '--help[Print help]' '--version[Print version]'
        return
    fi
    shift words
    (( CURRENT-- ))
    case "$words[1]" in
    help) _arguments '1:command:(check code scopes stats diff report save load verify explain)' ;;
    check)
        _arguments \
            '*--all[enter node_modules and what begins with a point]' \
            '*--color[when what is printed for people has colours]:color:(auto always never)' \
            '*--exclude[what of a folder is passed over; may be given again]:GLOB:' \
            '*--ext[which files of a folder are taken]:LIST:' \
            '*--format[how the answers are written]:format:(human json github sarif)' \
            '(-h --help)'{-h,--help}'[Print help]' \
            '*--max[how many refusals are shown; 0 is no limit]:N:' \
            '(-q --quiet)'{-q,--quiet}'[no summary, and no progress on a terminal]' \
            '*--stdin-name[what - is called]:NAME:' \
            '*--unsupported[what a form outside the profile counts as]:unsupported:(error warn skip)' \
            '*:file:_files'
        ;;
    code)
        _arguments \
            '*--all[enter node_modules and what begins with a point]' \
            '*--at[the innermost function there; may be given again]:LINE\[\:COLUMN\]:' \
            '*--color[when what is printed for people has colours]:color:(auto always never)' \
            '*--exclude[what of a folder is passed over; may be given again]:GLOB:' \
            '*--ext[which files of a folder are taken]:LIST:' \
            '*--format[how code is listed]:format:(human plain json)' \
            '*--function[a number or a name; may be given again]:FUNCTION:' \
            '(-h --help)'{-h,--help}'[Print help]' \
            '*--no-source[no lines of the source]' \
            '*--only[without the functions inside those that are named]' \
            '(-q --quiet)'{-q,--quiet}'[no progress on a terminal]' \
            '*--stdin-name[what - is called]:NAME:' \
            '*:file:_files'
        ;;
    scopes)
        _arguments \
            '*--all[enter node_modules and what begins with a point]' \
            '*--at[the innermost function there; may be given again]:LINE\[\:COLUMN\]:' \
            '*--color[when what is printed for people has colours]:color:(auto always never)' \
            '*--exclude[what of a folder is passed over; may be given again]:GLOB:' \
            '*--ext[which files of a folder are taken]:LIST:' \
            '*--format[how scopes are drawn]:format:(human plain json dot)' \
            '*--function[a number or a name; may be given again]:FUNCTION:' \
            '(-h --help)'{-h,--help}'[Print help]' \
            '*--only[without the functions inside those that are named]' \
            '(-q --quiet)'{-q,--quiet}'[no progress on a terminal]' \
            '*--stdin-name[what - is called]:NAME:' \
            '*:file:_files'
        ;;
    stats)
        _arguments \
            '*--all[enter node_modules and what begins with a point]' \
            '*--color[when what is printed for people has colours]:color:(auto always never)' \
            '*--exclude[what of a folder is passed over; may be given again]:GLOB:' \
            '*--ext[which files of a folder are taken]:LIST:' \
            '*--format[how counts are written]:format:(human json)' \
            '(-h --help)'{-h,--help}'[Print help]' \
            '(-q --quiet)'{-q,--quiet}'[no summary, and no progress on a terminal]' \
            '*--sort[what the lines of the table are sorted by]:COLUMN:(file functions closed instructions code-bytes depth nested source-bytes)' \
            '*--stdin-name[what - is called]:NAME:' \
            '*:file:_files'
        ;;
    diff)
        _arguments \
            '*--color[when what is printed for people has colours]:color:(auto always never)' \
            '*--format[how differences are written]:format:(human json)' \
            '(-h --help)'{-h,--help}'[Print help]' \
            '*--stdin-name[what - is called]:NAME:' \
            '*:file:_files'
        ;;
    report)
        _arguments \
            '*--all[enter node_modules and what begins with a point]' \
            '*--at[the innermost function there; may be given again]:LINE\[\:COLUMN\]:' \
            '*--exclude[what of a folder is passed over; may be given again]:GLOB:' \
            '*--ext[which files of a folder are taken]:LIST:' \
            '*--function[a number or a name; may be given again]:FUNCTION:' \
            '(-h --help)'{-h,--help}'[Print help]' \
            '*--only[without the functions inside those that are named]' \
            '(-o --output)'{-o,--output}'[where the page is written; - is standard output]:PAGE:_files' \
            '(-q --quiet)'{-q,--quiet}'[no progress on a terminal]' \
            '*--stdin-name[what - is called]:NAME:' \
            '*:file:_files'
        ;;
    save)
        _arguments \
            '(-h --help)'{-h,--help}'[Print help]' \
            '(-o --output)'{-o,--output}'[where the image is written; - is standard output]:IMAGE:_files' \
            '*--stdin-name[what - is called]:NAME:' \
            '*:file:_files'
        ;;
    load)
        _arguments \
            '*--all[enter node_modules and what begins with a point]' \
            '*--color[when what is printed for people has colours]:color:(auto always never)' \
            '*--exclude[what of a folder is passed over; may be given again]:GLOB:' \
            '*--ext[which files of a folder are taken]:LIST:' \
            '*--format[how code is listed]:format:(human plain json)' \
            '(-h --help)'{-h,--help}'[Print help]' \
            '(-q --quiet)'{-q,--quiet}'[no progress on a terminal]' \
            '*--stdin-name[what - is called]:NAME:' \
            '*:file:_files'
        ;;
    verify)
        _arguments \
            '*--all[enter node_modules and what begins with a point]' \
            '*--color[when what is printed for people has colours]:color:(auto always never)' \
            '*--exclude[what of a folder is passed over; may be given again]:GLOB:' \
            '*--ext[which files of a folder are taken]:LIST:' \
            '*--format[how the answers are written]:format:(human json)' \
            '(-h --help)'{-h,--help}'[Print help]' \
            '(-q --quiet)'{-q,--quiet}'[images that are sound have no line; no progress on a terminal]' \
            '*--stdin-name[what - is called]:NAME:' \
            '*:file:_files'
        ;;
    explain)
        _arguments \
            '*--color[when what is printed for people has colours]:color:(auto always never)' \
            '(-h --help)'{-h,--help}'[Print help]' \
            '*:code:'
        ;;
    esac
}
_holzikra "$@"
