# Completion of noticed(8) and noticed-postfix(8) for bash: commands and options are those that the program's help has.
_noticed() {
    local word=${COMP_WORDS[COMP_CWORD]} found=
    if [[ $1 == *noticed-postfix ]]; then
        [[ $COMP_CWORD == 1 ]] && found="check enable test disable run"
    elif [[ $COMP_CWORD == 1 ]]; then
        found=$(noticed --help | sed -n '/^Commands:/,/^$/ s/^  \([a-z-]*\) .*/\1/p')
    elif [[ $word == -* ]]; then
        found=$(noticed "${COMP_WORDS[1]}" --help | grep -o -e '--[a-z-]*')
    fi
    mapfile -t COMPREPLY < <(compgen -W "$found" -- "$word")
}
complete -o bashdefault -o default -F _noticed noticed noticed-postfix
