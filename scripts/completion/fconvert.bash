# SPDX-License-Identifier: MIT
# Completion of fconvert's words for bash: a format, then files. Put it where bash-completion looks, or source it.

_fconvert()
{
    local word=${COMP_WORDS[COMP_CWORD]} IFS=$'\n'
    if [ "$COMP_CWORD" -eq 1 ]; then
        COMPREPLY=($(compgen -W $'E\nF\nD\nL\nE+\nF+' -- "$word"))
    elif [ "$COMP_CWORD" -le 3 ]; then
        COMPREPLY=($(compgen -f -- "$word"))
    fi
}

complete -o filenames -F _fconvert fconvert
