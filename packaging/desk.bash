# Completions of desk(1) for bash: subcommands, files, roles and exports, as the program's own help has them.
_desk() {
    local word=${COMP_WORDS[COMP_CWORD]} subcommand='' help name
    COMPREPLY=()
    if [ "$COMP_CWORD" -gt 1 ] && [ "${COMP_WORDS[1]}" != help ]; then subcommand=${COMP_WORDS[1]}; fi
    help=$(command desk help ${subcommand:+"$subcommand"} 2> /dev/null) || return 0
    if [ -z "$subcommand" ]; then
        mapfile -t COMPREPLY < <(compgen -W "$(sed -n 's/^  \([a-z]\{2,\}\)  .*/\1/p' <<< "$help")" -- "$word")
        return 0
    fi
    # As `Usage: desk person <DB> <NAME> <ROLE> <KEY>` has the words.
    name=$(sed -n 's/^Usage: //p' <<< "$help" | cut -d ' ' -f "$((COMP_CWORD + 1))")
    case $name in
        '<DB>' | '<FILE>')
            compopt -o filenames 2> /dev/null
            mapfile -t COMPREPLY < <(compgen -f -- "$word")
            ;;
        '<ROLE>')
            mapfile -t COMPREPLY < <(compgen -W "$(sed -n 's/^  <ROLE> *//p' <<< "$help" | sed 's/,\| or / /g')" -- "$word")
            ;;
        '[EXPORT]')
            mapfile -t COMPREPLY < <(compgen -W "$(sed -n 's/^  \[EXPORT\] *\([^:]*\):.*/\1/p' <<< "$help" | sed 's/,\| or / /g')" -- "$word")
            ;;
    esac
}
complete -F _desk desk
