# Completions of sdd for fish: the command, and then files.
complete -c sdd -n __fish_use_subcommand -f -a '(sdd --commands 2>/dev/null)'
complete -c sdd -n __fish_use_subcommand -f -l help -d 'List the commands'
complete -c sdd -n __fish_use_subcommand -f -l version -d 'Print the version, and which programs are found'
