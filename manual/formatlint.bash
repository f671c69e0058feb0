# completion of formatlint for bash
_formatlint() {
    local words="--exclude --stdin-path --edition --macro --message-format --stats -q --quiet --literal --text --fix --inline --mixed --diff --check --tokens --all --list --args --format --mode --color --width --list-ids --explain -h --help -V --version"
    case ${COMP_WORDS[COMP_CWORD - 1]} in
    --edition) words="2015 2018 2021 2024" ;;
    --message-format) words="human short json github sarif" ;;
    --format) words="text json" ;;
    --mode) words="format asm diagnostic diagnostic-named" ;;
    --color) words="auto always never" ;;
    esac
    COMPREPLY=($(compgen -W "$words" -- "${COMP_WORDS[COMP_CWORD]}"))
}
complete -o default -F _formatlint formatlint
