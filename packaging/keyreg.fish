# Completion of keyreg for fish.
set -l commands init run import export report serve
complete -c keyreg -f
complete -c keyreg -s h -l help -d 'Print help'
complete -c keyreg -n "not __fish_seen_subcommand_from $commands" -s V -l version -d 'Print the version'
complete -c keyreg -n "not __fish_seen_subcommand_from $commands" -a init -d 'Make an empty register in a file'
complete -c keyreg -n "not __fish_seen_subcommand_from $commands" -a run -d 'Apply the request lines of standard input'
complete -c keyreg -n "not __fish_seen_subcommand_from $commands" -a import -d 'Register a key for each row of a CSV'
complete -c keyreg -n "not __fish_seen_subcommand_from $commands" -a export -d 'Write all keys as CSV'
complete -c keyreg -n "not __fish_seen_subcommand_from $commands" -a report -d 'Write which keys are due for rotation'
complete -c keyreg -n "not __fish_seen_subcommand_from $commands" -a serve -d 'Serve HTTP exchanges on 127.0.0.1'
complete -c keyreg -n "__fish_seen_subcommand_from $commands" -l file -r -F -d 'The file of the register'
complete -c keyreg -n '__fish_seen_subcommand_from import' -l moment -x -d 'Seconds since 1970'
complete -c keyreg -n '__fish_seen_subcommand_from import' -l caller -x -d 'Who asks'
complete -c keyreg -n '__fish_seen_subcommand_from import' -l first -x -d 'Request number of the first row'
complete -c keyreg -n '__fish_seen_subcommand_from report' -l days -x -d 'How many days ahead'
complete -c keyreg -n '__fish_seen_subcommand_from serve' -l port -x -d 'The port'
complete -c keyreg -n '__fish_seen_subcommand_from serve' -l exchanges -x -d 'How many to serve'
