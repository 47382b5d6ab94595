# Completion of crsdesk's command line for bash. Where neither a command nor an option, a level or a word of --first may
# stand the shell offers files: those of check, canon, digest and group, after --files of same and explain, after
# --rules and --used, and those of rules.

_crsdesk() {
    local word=${COMP_WORDS[COMP_CWORD]} before=${COMP_WORDS[COMP_CWORD - 1]} words= front= at=1

    # bash cuts --level=WORD and --first=WORDS at their equals signs.
    if [[ $word == = && ($before == --level || $before == --first) ]]; then
        word=
    elif [[ $before == = ]]; then
        before=${COMP_WORDS[COMP_CWORD - 2]}
    fi
    # The command stands behind -v where that is first.
    [[ ${COMP_WORDS[1]} == @(-v|--verbose) ]] && ((COMP_CWORD > 1)) && at=2
    if ((COMP_CWORD == at)); then
        words='canon digest check group same explain rules help -h --help -v --verbose -V --version'
    elif [[ " ${COMP_WORDS[*]:at + 1:COMP_CWORD-at-1} " == *' -- '* ]]; then
        : # After -- no word is an option.
    elif [[ $before == --level ]]; then
        words='full definition'
    elif [[ $before == --first ]]; then
        words='accuracy anchor anchorepoch axis base conversion datum dimension direction dynamic ellipsoid epoch flattening'
        words+=' geoid horizontal id kind longitude members meridian method model name parameters remark semimajor system type'
        words+=' unit usage vertical'
        # Of several words, with commas between them, the last one is completed.
        [[ $word == *,* ]] && front=${word%,*},
    elif [[ ${COMP_WORDS[at]} == help ]]; then
        ((COMP_CWORD == at + 1)) && words='canon digest check group same explain rules help'
    elif [[ $word == -* ]]; then
        case ${COMP_WORDS[at]} in
        canon | digest) words='--level --lines --rules -H --with-name -h --help' ;;
        group) words='--level --rules --json --repeated --names --files -H --with-name -h --help' ;;
        same) words='--files --json --level --rules -h --help' ;;
        explain) words='--files --first --json --level --rules -h --help' ;;
        check) words='--json --lines -H --with-name -h --help' ;;
        rules) words='--used -H --with-name -h --help' ;;
        esac
        words+=' -v --verbose'
    fi
    # Where one of these words must stand no files are offered.
    [[ $words ]] && compopt +o bashdefault +o default
    mapfile -t COMPREPLY < <(compgen -P "$front" -W "$words" -- "${word#"$front"}")
}

complete -o bashdefault -o default -F _crsdesk crsdesk
