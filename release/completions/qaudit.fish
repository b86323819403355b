# Completion of qaudit for fish.

complete -c qaudit -f
complete -c qaudit -n __fish_use_subcommand -a check -d 'Audit each trace'
complete -c qaudit -n __fish_use_subcommand -a explain -d 'Write a row for each line that is admitted, and the report'
complete -c qaudit -n '__fish_seen_subcommand_from check' -F
complete -c qaudit -n '__fish_seen_subcommand_from explain; and test (count (commandline -opc)) -eq 2' -F
