#compdef crsdesk
# Completion of crsdesk's command line for zsh.

_crsdesk() {
    local -a commands level rules lines repeated names files whole name json first used verbose help
    local file=_files
    commands=(
        'canon:write the canonical text'
        'digest:write the SHA-256 of the canonical text'
        'check:tell what kind of CRS a text spells, or where it is refused'
        'group:group lines or files by the CRSs that they spell'
        'same:compare two texts'
        'explain:explain a refusal, or all parts in which two texts differ'
        'rules:tell what rules files say, or where they are refused'
        'help:print help'
    )
    level=('--level=[what counts]:level:(full definition)')
    rules=('*--rules=[count as the same what the rules in a file say]:file:_files')
    lines=('--lines[take each line as a text]')
    repeated=('--repeated[write the groups of two texts or more alone]')
    names=('--names[take names from the fronts of lines, and write them for numbers]')
    files=('--files[take the operands as names of files]')
    whole=('--files[take each file as a text]')
    name=('(-H --with-name)'{-H,--with-name}'[begin each line with the name of the file]')
    json=('--json[write objects of JSON, one per line]')
    first=('*--first=[tell the parts first whose paths have these words]:words:_sequence compadd - accuracy anchor anchorepoch axis base conversion datum dimension direction dynamic ellipsoid epoch flattening geoid horizontal id kind longitude members meridian method model name parameters remark semimajor system type unit usage vertical')
    used=('*--used=[tell what matches nothing in the texts of a file]:file:_files')
    verbose=('(-v --verbose)'{-v,--verbose}'[also write the reason of a fault]')
    help=('(- *)'{-h,--help}'[print help]')

    # -v may stand before the command.
    if [[ CURRENT -gt 2 && $words[2] == (-v|--verbose) ]]; then
        shift words
        (( CURRENT-- ))
    fi
    if (( CURRENT == 2 )); then
        _describe command commands
        _arguments $help $verbose '(- *)'{-V,--version}'[print the version]'
        return
    fi
    local command=$words[2]
    shift words
    (( CURRENT-- ))
    # A word that begins with - is a file after -- alone.
    [[ $PREFIX == -* && ${words[(i)--]} -ge CURRENT ]] && file=false
    case $command in
        canon|digest) _arguments -S $level $rules $lines $name $verbose $help '*:file:'$file ;;
        check) _arguments -S $json $lines $name $verbose $help '*:file:'$file ;;
        group) _arguments -S $level $rules $json $repeated $names $whole $name $verbose $help '*:file:'$file ;;
        same) _arguments -S $files $json $level $rules $verbose $help '1:first:'$file '2:second:'$file ;;
        explain) _arguments -S $files $first $json $level $rules $verbose $help '1:first:'$file '2:second:'$file ;;
        rules) _arguments -S $used $name $verbose $help '*:file:'$file ;;
        help) (( CURRENT == 2 )) && _describe command commands ;;
    esac
}

# compinit loads this file as the function itself; it may be read by source too.
if [[ $funcstack[1] == _crsdesk ]]; then
    _crsdesk "$@"
else
    compdef _crsdesk crsdesk
fi
