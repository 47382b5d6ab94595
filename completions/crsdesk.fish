# Completion of crsdesk's command line for fish.

set -l commands canon digest check group same explain rules help
set -l words accuracy anchor anchorepoch axis base conversion datum dimension direction dynamic ellipsoid epoch
set -a words flattening geoid horizontal id kind longitude members meridian method model name parameters remark semimajor
set -a words system type unit usage vertical
set -l none "not __fish_seen_subcommand_from $commands"

complete -c crsdesk -n $none -f
complete -c crsdesk -n $none -a canon -d 'Write the canonical text'
complete -c crsdesk -n $none -a digest -d 'Write the SHA-256 of the canonical text'
complete -c crsdesk -n $none -a check -d 'Tell what kind of CRS a text spells, or where it is refused'
complete -c crsdesk -n $none -a group -d 'Group lines or files by the CRSs that they spell'
complete -c crsdesk -n $none -a same -d 'Compare two texts'
complete -c crsdesk -n $none -a explain -d 'Explain a refusal, or all parts in which two texts differ'
complete -c crsdesk -n $none -a rules -d 'Tell what rules files say, or where they are refused'
complete -c crsdesk -n $none -a help -d 'Print help'
complete -c crsdesk -n $none -s V -l version -d 'Print the version'
# A word that begins with - is a file after -- alone.
complete -c crsdesk -n "string match -q -- '-*' (commandline -ct); and not contains -- -- (commandline -opc)" -f
complete -c crsdesk -s h -l help -d 'Print help'
complete -c crsdesk -n 'not __fish_seen_subcommand_from help' -s v -l verbose -d 'Also write the reason of a fault'
complete -c crsdesk -n '__fish_seen_subcommand_from canon digest group same explain' -l level -x -a 'full definition' -d 'What counts'
complete -c crsdesk -n '__fish_seen_subcommand_from canon digest group same explain' -l rules -r -d 'Count as the same what the rules in a file say'
complete -c crsdesk -n '__fish_seen_subcommand_from canon digest check' -l lines -d 'Take each line as a text'
complete -c crsdesk -n '__fish_seen_subcommand_from canon digest check group rules' -s H -l with-name -d 'Begin each line with the name of the file'
complete -c crsdesk -n '__fish_seen_subcommand_from group' -l repeated -d 'Write the groups of two texts or more alone'
complete -c crsdesk -n '__fish_seen_subcommand_from group' -l names -d 'Take names from the fronts of lines, and write them for numbers'
complete -c crsdesk -n '__fish_seen_subcommand_from group' -l files -d 'Take each file as a text'
complete -c crsdesk -n '__fish_seen_subcommand_from same explain' -l files -d 'Take the operands as names of files'
complete -c crsdesk -n '__fish_seen_subcommand_from explain' -l first -x -a "(__fish_append , $words)" -d 'Tell the parts first whose paths have these words'
complete -c crsdesk -n '__fish_seen_subcommand_from check group same explain' -l json -d 'Write objects of JSON, one per line'
complete -c crsdesk -n '__fish_seen_subcommand_from rules' -l used -r -d 'Tell what matches nothing in the texts of a file'
complete -c crsdesk -n '__fish_seen_subcommand_from help' -f -a "$commands"
