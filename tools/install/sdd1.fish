# Completions of sdd1 for fish.
for program in sdd1 sdd1-unproved
    complete -c $program -n __fish_use_subcommand -f -a check -d 'Judge a catalogue, and say what is in it'
    complete -c $program -n __fish_use_subcommand -f -a graph -d 'Print the conflict graph of the classes'
    complete -c $program -n __fish_use_subcommand -f -a table -d 'Print which reads follow which protocol'
    complete -c $program -n __fish_use_subcommand -f -a advise -d 'Print why each read has its protocol'
    complete -c $program -n __fish_use_subcommand -f -a plain -d 'Run a workload on one plain database'
    complete -c $program -n __fish_use_subcommand -f -a run -d 'Run a workload on the distributed system'
    complete -c $program -n __fish_use_subcommand -f -a make -d 'Run drawn transactions, and print a summary'
    complete -c $program -n __fish_use_subcommand -f -a verify -d 'Judge a report against one plain database'
    complete -c $program -n __fish_use_subcommand -f -a control -d 'Carry out a file of transaction control'
end
