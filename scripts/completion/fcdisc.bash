# SPDX-License-Identifier: MIT
# Completion of fcdisc's words for bash: jobs, options, formats, and files. Put it where bash-completion looks, or source it.

_fcdisc()
{
    local word=${COMP_WORDS[COMP_CWORD]} before=${COMP_WORDS[COMP_CWORD-1]} job=${COMP_WORDS[1]} options='--help' words=
    # made by tools/run checks/jobs --write
    local jobs='list ls get extract check new adl strip put add mkdir rm mv cp access compact reclaim undo convert catalogue find diff types rescue mend'
    local formats='E F D L E+ F+'
    case $job in
        list|ls|catalogue) options='--offset --order --json --help' ;;
        get) options='--offset --order --help' ;;
        extract) options='--offset --order --each --inf --types --help' ;;
        check) options='--offset --order --json --damaged --help' ;;
        new|strip|types) options='--help' ;;
        adl|undo) options='--back --help' ;;
        put) options='--offset --order --backup --in-place --no-safe --replace --type --types --help' ;;
        add) options='--offset --order --backup --in-place --no-safe --fit --verbose --types --replace --help' ;;
        mkdir) options='--offset --order --backup --in-place --no-safe -p --help' ;;
        rm|cp) options='--offset --order --backup --in-place --no-safe -r --help' ;;
        mv|access|compact|reclaim) options='--offset --order --backup --in-place --no-safe --help' ;;
        convert) options='--offset --order --fit --verbose --help' ;;
        find) options='--offset --order --type --holds --sha256 --help' ;;
        diff) options='--offset --order --verbose --help' ;;
        rescue) options='--offset --order --as --deleted --all --report --to --each --help' ;;
        mend) options='--offset --order --guess --help' ;;
    esac
    case $before in
        --as) words='E F D L E+ F+' ;;
        --backup) words='first each' ;;
        --order) words='auto disc adl' ;;
    esac
    # end of what checks/jobs makes

    if [ "$COMP_CWORD" -eq 1 ]; then
        COMPREPLY=($(compgen -W "$jobs --help --version" -- "$word"))
        return
    fi
    case $before in
        --types) COMPREPLY=($(compgen -W default -- "$word") $(compgen -f -- "$word")); return ;;
        --to) words=$formats ;;
        --offset|--type|--holds|--sha256) return ;;
    esac
    case $job in
        new|convert) [ "$COMP_CWORD" -ne 2 ] || words=$formats ;;
    esac
    case $word in
        -*) words=$options ;;
    esac
    if [ "$words" ]; then
        COMPREPLY=($(compgen -W "$words" -- "$word"))
        return
    fi
    local IFS=$'\n'
    COMPREPLY=($(compgen -f -- "$word"))
}

complete -o filenames -F _fcdisc fcdisc
