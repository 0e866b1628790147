#compdef noticed noticed-postfix
# Commands and options are those that the program's help has.
if [[ $service == noticed-postfix ]]; then
    (( CURRENT == 2 )) && compadd check enable test disable run
elif (( CURRENT == 2 )); then
    compadd -- $(noticed --help | sed -n '/^Commands:/,/^$/ s/^  \([a-z-]*\) .*/\1/p')
elif [[ $words[CURRENT] == -* ]]; then
    compadd -- $(noticed $words[2] --help | grep -o -e '--[a-z-]*')
else
    _files
fi
