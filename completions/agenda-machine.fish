# Completion of agenda-machine for fish: that of `agenda machine`.

complete -c agenda-machine --wraps 'agenda machine'
