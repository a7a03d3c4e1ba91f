# Completion of lwaftr for fish.
complete -c lwaftr -n __fish_use_subcommand -f -a run -d 'Judge each record of a capture'
complete -c lwaftr -n __fish_use_subcommand -f -a check -d 'Say whether a table is valid'
complete -c lwaftr -n __fish_use_subcommand -f -a who -d 'Say who owns a port of an address'
complete -c lwaftr -n __fish_use_subcommand -f -a demo -d 'Run over generated records'
complete -c lwaftr -n __fish_use_subcommand -f -a migrate -d 'Write a table anew'
complete -c lwaftr -n __fish_use_subcommand -f -a help -d 'Print help'
complete -c lwaftr -n __fish_use_subcommand -f -l help -d 'Print help'
complete -c lwaftr -n __fish_use_subcommand -f -l version -d 'Print the version'
complete -c lwaftr -n '__fish_seen_subcommand_from run' -l workers -x -a '1 2 4 8 16' -d 'How many workers judge'
complete -c lwaftr -n '__fish_seen_subcommand_from run' -l errors -x -d 'How many errors may be sent a second'
complete -c lwaftr -n '__fish_seen_subcommand_from demo' -f
