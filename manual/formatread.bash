# completion of formatread for bash
_formatread() {
    local words="format asm diagnostic diagnostic-named --literal --args"
    case ${COMP_WORDS[COMP_CWORD - 1]} in
    esac
    COMPREPLY=($(compgen -W "$words" -- "${COMP_WORDS[COMP_CWORD]}"))
}
complete -o default -F _formatread formatread
