# Prints a line for each user: the name, the number of starts, and the jobs. A timer has no user.
group_by(.user)[] | [.[0].user // "none", length, (map(.job) | unique | join(" "))] | @tsv
