# Completion of naplps for fish.
complete -c naplps -f
complete -c naplps -n __fish_use_subcommand -a list -d 'Print a line for each entry'
complete -c naplps -n __fish_use_subcommand -a check -d 'Say whether the page is accepted, or why it is refused'
complete -c naplps -n __fish_use_subcommand -a canon -d 'Print the canonical stream'
complete -c naplps -n __fish_use_subcommand -a make -d 'Make the page of lines as list prints them'
complete -c naplps -n __fish_use_subcommand -a batch -d 'Answer requests, one after another'
complete -c naplps -n __fish_use_subcommand -a help -d 'Print help'
complete -c naplps -n '__fish_seen_subcommand_from list check canon' -l hex -d 'The page is hexadecimal digits'
complete -c naplps -n '__fish_seen_subcommand_from list check canon' -l budget -x \
    -d 'How many bytes of macro bodies the page may be charged with'
complete -c naplps -n '__fish_seen_subcommand_from canon make' -l stream -d 'Print while the page or its lines are read'
complete -c naplps -n 'not __fish_seen_subcommand_from help' -s h -l help -d 'Print help'
complete -c naplps -n __fish_use_subcommand -s V -l version -d 'Print the version'
complete -c naplps -n '__fish_seen_subcommand_from help' -a 'list check canon make batch'
