# Completions of sa for fish.
set -l commands run threads vp load migrate debug kernel check explore
complete -c sa -n "not __fish_seen_subcommand_from $commands" -f -a "$commands"
complete -c sa -n '__fish_seen_subcommand_from run threads vp load debug kernel' -x -l budget -d 'events at most'
complete -c sa -n '__fish_seen_subcommand_from run vp kernel' -x -l schedule -a 'rr given seed: hold:' -d 'whose turn it is'
complete -c sa -n '__fish_seen_subcommand_from run explore' -x -l package -a 'fast prio' -d 'the user level'
complete -c sa -n '__fish_seen_subcommand_from check' -x -l package -a 'fast prio any' -d 'the rules'
complete -c sa -n '__fish_seen_subcommand_from threads' -x -l burst -d 'instructions run ahead'
complete -c sa -n '__fish_seen_subcommand_from explore' -x -l states -d 'states at most'
complete -c sa -n '__fish_seen_subcommand_from explore' -x -l give -a 'alldone stuck endless' -d 'the end wanted'
