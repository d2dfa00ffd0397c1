# Completion of agenda for fish.

complete -c agenda -f

# Prints UTC and the names of the time zone database.
function __fish_agenda_zones
    set -l database /usr/share/zoneinfo
    echo UTC
    if test -r $database/tzdata.zi
        awk '$1 == "Z" { print $2 } $1 == "L" { print $3 }' $database/tzdata.zi
    else if test -r $database/zone.tab
        awk '!/^#/ { print $3 }' $database/zone.tab
    end
end

set -l none 'not __fish_seen_subcommand_from next plan upcoming quiet downtime clear changes week check describe machine steps explain'
complete -c agenda -n $none -a next -d 'Print the next starts of one rule'
complete -c agenda -n $none -a plan -d 'Print every start in a span of time'
complete -c agenda -n $none -a upcoming -d 'Print when each job of crontabs and timers starts next'
complete -c agenda -n $none -a quiet -d 'Print the gaps in which no job starts'
complete -c agenda -n $none -a downtime -d 'Print what a machine misses while it is down'
complete -c agenda -n $none -a clear -d 'Succeed if no job starts in a span'
complete -c agenda -n $none -a changes -d 'Compare a plan with one that was made before'
complete -c agenda -n $none -a week -d 'Show how many jobs start in each hour'
complete -c agenda -n $none -a check -d 'Print errors and likely mistakes in crontabs and timers'
complete -c agenda -n $none -a describe -d 'Say in words when a rule or each job starts'
complete -c agenda -n $none -a machine -d 'Answer questions about a machine\'s crontabs and timers'
complete -c agenda -n $none -a steps -d 'Run a script of steps on a mailbox'
complete -c agenda -n $none -a explain -d 'Explain the code of an error or a warning'
complete -c agenda -s h -l help -d 'Print help'
complete -c agenda -n $none -s V -l version -d 'Print the version'

set -l after '__fish_seen_subcommand_from next upcoming; or begin; __fish_seen_subcommand_from machine; and __fish_seen_subcommand_from scripts; end'
complete -c agenda -n $after -l after -x -d 'Only starts later than this time'

# machine has a command check of its own
set -l zone 'not __fish_seen_subcommand_from machine; and __fish_seen_subcommand_from next plan upcoming quiet downtime clear changes week check describe'
complete -c agenda -n $zone -l zone -r -F -d 'The time zone of the rules [UTC]' -a '(__fish_agenda_zones)'
complete -c agenda -n $zone -l event-zones -d 'Read events that end with a time zone'
complete -c agenda -n "$zone; and not __fish_seen_subcommand_from clear" -l json -d 'Print each line as a JSON object'

set -l check '__fish_seen_subcommand_from check'
complete -c agenda -n $check -l deny -x -d 'Print this warning as an error' -a 'all (agenda explain 2>/dev/null)'
complete -c agenda -n $check -l allow -x -d 'Don\'t print this warning' -a '(agenda explain 2>/dev/null)'

set -l times '__fish_seen_subcommand_from next plan upcoming quiet; or begin; not __fish_seen_subcommand_from machine; and __fish_seen_subcommand_from clear changes; end'
complete -c agenda -n $times -l local -d 'Print times in the time zone of the rules'

set -l next 'not __fish_seen_subcommand_from machine; and __fish_seen_subcommand_from next'
complete -c agenda -n $next -l count -x -d 'How many starts, from 1 to 1000 [1]'

set -l rule 'not __fish_seen_subcommand_from machine; and __fish_seen_subcommand_from next describe'
complete -c agenda -n $rule -l cron -x -d 'A cron rule' \
    -a '@yearly @annually @monthly @weekly @daily @midnight @hourly @reboot'
complete -c agenda -n $rule -l calendar -x -d 'A calendar event' \
    -a 'minutely hourly daily weekly monthly quarterly semiannually yearly annually'

set -l span '__fish_seen_subcommand_from plan quiet downtime clear week'
complete -c agenda -n $span -l since -x -d 'The start of the span'
complete -c agenda -n $span -l until -x -d 'The end of the span, not included'
complete -c agenda -n $span -l upto -x -d 'The end of the span, not included'

set -l searching '__fish_seen_subcommand_from plan quiet downtime clear changes week'
complete -c agenda -n $searching -l planners -x -d 'How many threads search [2]' -a '1 2 3 4 5 6 7 8'
complete -c agenda -n $searching -l room -x -d 'How many messages of each thread may wait, from 1 to 1024 [16]'

set -l plan '__fish_seen_subcommand_from plan changes'
complete -c agenda -n $plan -l limit -x -d 'The maximum number of starts, from 1 to 1000000 [10000]'

set -l counted '__fish_seen_subcommand_from quiet downtime week'
complete -c agenda -n $counted -l limit -x -d 'The maximum number of starts, from 1 to 1000000 [1000000]'

set -l quiet '__fish_seen_subcommand_from quiet'
complete -c agenda -n $quiet -l least -x -d 'The minimum length of a gap in seconds [1800]'

set -l keeping 'not __fish_seen_subcommand_from machine; and __fish_seen_subcommand_from plan upcoming quiet downtime clear changes week describe'
complete -c agenda -n $keeping -l keep-going -d 'Skip what is invalid or can\'t be read, and report it'

set -l jobs '__fish_seen_subcommand_from plan upcoming quiet'
complete -c agenda -n $jobs -l delays -d 'Include the delays of timers'

set -l sources 'not __fish_seen_subcommand_from machine; and __fish_seen_subcommand_from plan upcoming quiet downtime clear changes week check describe'
complete -c agenda -n $sources -l crontab -r -F -d 'A user\'s crontab'
complete -c agenda -n $sources -l system-crontab -r -F -d 'The system\'s crontab'
complete -c agenda -n $sources -l cron-d -r -F -d 'A crontab of a package'
complete -c agenda -n $sources -l spool -r -F -d 'A user\'s crontab, named by the user'
complete -c agenda -n $sources -k -a '(__fish_complete_suffix .timer)'
complete -c agenda -n '__fish_seen_subcommand_from changes' -F

set -l machine '__fish_seen_subcommand_from machine; and not __fish_seen_subcommand_from upcoming plan quiet downtime clear changes week scripts check sources next describe'
complete -c agenda -n $machine -a upcoming -d 'Print when each job of a machine starts next'
complete -c agenda -n $machine -a plan -d 'Print every start of a machine\'s jobs in a span of time'
complete -c agenda -n $machine -a quiet -d 'Print the gaps in which no job of a machine starts'
complete -c agenda -n $machine -a downtime -d 'Print what a machine misses while it is down'
complete -c agenda -n $machine -a clear -d 'Succeed if no job of a machine starts in a span'
complete -c agenda -n $machine -a changes -d 'Compare a machine\'s plan with one made before'
complete -c agenda -n $machine -a week -d 'Show how many jobs of a machine start in each hour'
complete -c agenda -n $machine -a scripts -d 'List the scripts that run-parts starts, with the next start of each'
complete -c agenda -n $machine -a check -d 'Print errors and likely mistakes in a machine\'s crontabs and timers'
complete -c agenda -n $machine -a sources -d 'List a machine\'s crontabs and timers'
complete -c agenda -n $machine -a next -d 'Print the next starts of a rule by the machine\'s clock'
complete -c agenda -n $machine -a describe -d 'Say in words when each job of a machine starts'

set -l question '__fish_seen_subcommand_from machine; and not __fish_seen_subcommand_from next'
complete -c agenda -n $question -l root -x -d 'The root directory of the machine [/]' -a '(__fish_complete_directories)'
complete -c agenda -n $question -l all -d 'Include timers that aren\'t enabled'
complete -c agenda -n '__fish_seen_subcommand_from machine; and not __fish_seen_subcommand_from clear scripts' -l json \
    -d 'Print each line as a JSON object'
complete -c agenda -n '__fish_seen_subcommand_from machine; and __fish_seen_subcommand_from next' -l count -x \
    -d 'How many starts, from 1 to 1000 [5]'

set -l zoned '__fish_seen_subcommand_from machine; and not __fish_seen_subcommand_from sources'
complete -c agenda -n $zoned -l zone -r -F -d 'The time zone of the rules, if not that of the machine' \
    -a '(__fish_agenda_zones)'
complete -c agenda -n $zoned -l utc -d 'Read the rules in UTC'
set -l planned '__fish_seen_subcommand_from machine; and not __fish_seen_subcommand_from check sources next'
complete -c agenda -n $planned -l except -x -d 'Ignore the jobs and crontabs with such a name'
complete -c agenda -n $planned -l only -x -d 'Ignore all other jobs'
complete -c agenda -n $planned -l idle -d 'Include idle jobs, whose commands do nothing'
complete -c agenda -n $planned -l strict -d 'Let an error in a file stop the answer'
set -l formed '__fish_seen_subcommand_from machine; and not __fish_seen_subcommand_from check sources clear week scripts'
complete -c agenda -n $formed -l table -d 'Print a table, also if this isn\'t a terminal'
complete -c agenda -n $formed -l text -d 'Print text, also on a terminal'
complete -c agenda -n '__fish_seen_subcommand_from clear; or begin; __fish_seen_subcommand_from machine; and __fish_seen_subcommand_from quiet; end' -l nominal \
    -d 'Don\'t count the delays of timers'

complete -c agenda -n '__fish_seen_subcommand_from steps' -F
complete -c agenda -n '__fish_seen_subcommand_from explain' -a '(agenda explain 2>/dev/null)'
