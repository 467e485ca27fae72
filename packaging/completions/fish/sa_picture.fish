# Completions of sa_picture for fish.
complete -c sa_picture -f
complete -c sa_picture -x -l form -a 'svg events page' -d 'what is written'
complete -c sa_picture -x -l package -a 'fast prio any' -d 'whose rules judge a page'
complete -c sa_picture -x -l from -d 'the first event drawn'
complete -c sa_picture -x -l to -d 'the last event drawn'
complete -c sa_picture -x -l width -d pixels
