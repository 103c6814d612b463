# Completion of cborc for fish: copy this file to ~/.config/fish/completions.
set -l commands show events check canon compare
set -l first "not __fish_seen_subcommand_from $commands help"
set -l helped "__fish_seen_subcommand_from help; and not __fish_seen_subcommand_from $commands"
set -l asked "__fish_seen_subcommand_from help"
set -l working "not $asked; and __fish_seen_subcommand_from"
complete -c cborc -n "$first" -f
complete -c cborc -n "$asked" -f
complete -c cborc -n "$first" -l version -s V -d 'Print the version'
for when in "$first" "$helped"
    complete -c cborc -n "$when" -a show -d 'Write the diagnostic text of an item, or of each item of a sequence'
    complete -c cborc -n "$when" -a events -d 'Write a line for each event of an item, or of each item of a sequence'
    complete -c cborc -n "$when" -a check -d 'Check that each file is one valid item, or a sequence'
    complete -c cborc -n "$when" -a canon -d 'Write the canonical bytes of an item, or of each item of a sequence'
    complete -c cborc -n "$when" -a compare -d 'Report whether two items have the same value'
end
complete -c cborc -n "$first" -a help -d 'Print help'
complete -c cborc -n "not $asked" -l help -s h -d 'Print help'
complete -c cborc -n "$working $commands" -l depth -x -d 'How deep arrays, maps and tags may nest'
complete -c cborc -n "$working $commands" -l bytes -x -d 'How many bytes an item may have, for example 300M'
complete -c cborc -n "$working $commands" -l keys -x -a 'any basic' -d 'Which keys maps may have'
complete -c cborc -n "$working $commands" -l hex -d 'Read hex digits'
complete -c cborc -n "$working $commands" -l quiet -d 'Print no messages; the exit status reports the result'
complete -c cborc -n "$working $commands" -l explain -d 'After a refusal or an error, explain what it means and where it is'
complete -c cborc -n "$working show" -l indent -d 'Write one member or pair per line'
complete -c cborc -n "$working events" -l annotate -d 'Write the bytes of each event and what they mean'
complete -c cborc -n "$working check canon" -l order -x -a 'bytewise length length-first' -d 'The order of map keys'
complete -c cborc -n "$working check" -l strict -d 'Accept only canonical bytes'
complete -c cborc -n "$working show events check canon" -l seq -d 'Read a sequence of items'
complete -c cborc -n "$working canon" -l hex-out -d 'Write hex digits and a line feed'
