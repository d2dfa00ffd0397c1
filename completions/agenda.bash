# Completion of agenda for bash. It needs the package bash-completion.

# Prints UTC and the names of the time zone database.
_agenda_zones() {
    local database=/usr/share/zoneinfo
    echo UTC
    if [[ -r $database/tzdata.zi ]]; then
        awk '$1 == "Z" { print $2 } $1 == "L" { print $3 }' "$database/tzdata.zi"
    elif [[ -r $database/zone.tab ]]; then
        awk '!/^#/ { print $3 }' "$database/zone.tab"
    fi
}

_agenda() {
    local cur prev words cword split
    _init_completion -s || return

    local command=
    local at
    for ((at = 1; at < cword; at++)); do
        case ${words[at]} in
            machine)
                command=machine
                # a command of this one may follow
                ((at + 1 == cword)) || command="machine ${words[at + 1]}"
                # without a question, the options are those of upcoming
                [[ $command != machine\ -* ]] || command='machine upcoming'
                break
                ;;
            next | plan | upcoming | quiet | downtime | clear | changes | week | check | describe | steps | explain)
                command=${words[at]}
                break
                ;;
        esac
    done

    case $command:$prev in
        next:--cron | describe:--cron)
            mapfile -t COMPREPLY < <(compgen -W '@yearly @annually @monthly @weekly @daily @midnight @hourly @reboot' -- "$cur")
            return
            ;;
        next:--calendar | describe:--calendar)
            mapfile -t COMPREPLY < <(compgen -W 'minutely hourly daily weekly monthly quarterly semiannually yearly annually' -- "$cur")
            return
            ;;
        machine\ *:--root)
            _filedir -d
            return
            ;;
        *:--crontab | *:--system-crontab | *:--cron-d | *:--spool)
            _filedir
            return
            ;;
        *:--zone)
            if [[ $cur == [/.]* ]]; then
                _filedir
            else
                mapfile -t COMPREPLY < <(compgen -W "$(_agenda_zones)" -- "$cur")
            fi
            return
            ;;
        *check:--deny)
            mapfile -t COMPREPLY < <(compgen -W "all $(agenda explain 2>/dev/null | cut -f 1)" -- "$cur")
            return
            ;;
        *check:--allow)
            mapfile -t COMPREPLY < <(compgen -W "$(agenda explain 2>/dev/null | cut -f 1)" -- "$cur")
            return
            ;;
        *:--planners)
            mapfile -t COMPREPLY < <(compgen -W '1 2 3 4 5 6 7 8' -- "$cur")
            return
            ;;
        *:--after | *:--count | *:--since | *:--upto | *:--until | *:--least | *:--room | *:--limit | *:--except | *:--only)
            # a time, a number or a pattern of names: nothing to complete
            return
            ;;
    esac
    $split && return

    local sources='--zone= --event-zones --crontab= --system-crontab= --cron-d= --spool= --help'
    local jobs="--keep-going --delays --json --local $sources"
    local search='--since= --until= --upto= --planners= --room='
    local span="$search --limit="
    local sizes='--limit= --planners= --room='
    local machine='--root= --all --zone= --utc --json --help'
    local form='--table --text'
    case $command:$cur in
        :-*)
            mapfile -t COMPREPLY < <(compgen -W '--help --version' -- "$cur")
            ;;
        :*)
            mapfile -t COMPREPLY < <(compgen -W 'next plan upcoming quiet downtime clear changes week check describe machine explain steps' -- "$cur")
            ;;
        next:*)
            mapfile -t COMPREPLY < <(compgen -W '--after= --zone= --event-zones --count= --cron= --calendar= --json --local --help' -- "$cur")
            [[ ${COMPREPLY-} == *= ]] && compopt -o nospace
            ;;
        plan:-*)
            mapfile -t COMPREPLY < <(compgen -W "$span $jobs" -- "$cur")
            [[ ${COMPREPLY-} == *= ]] && compopt -o nospace
            ;;
        upcoming:-*)
            mapfile -t COMPREPLY < <(compgen -W "--after= $jobs" -- "$cur")
            [[ ${COMPREPLY-} == *= ]] && compopt -o nospace
            ;;
        quiet:-*)
            mapfile -t COMPREPLY < <(compgen -W "$span --least= $jobs" -- "$cur")
            [[ ${COMPREPLY-} == *= ]] && compopt -o nospace
            ;;
        downtime:-* | week:-*)
            mapfile -t COMPREPLY < <(compgen -W "$span --keep-going --json $sources" -- "$cur")
            [[ ${COMPREPLY-} == *= ]] && compopt -o nospace
            ;;
        clear:-*)
            mapfile -t COMPREPLY < <(compgen -W "$search --keep-going --nominal --local $sources" -- "$cur")
            [[ ${COMPREPLY-} == *= ]] && compopt -o nospace
            ;;
        changes:-*)
            mapfile -t COMPREPLY < <(compgen -W "$sizes --keep-going --json --local $sources" -- "$cur")
            [[ ${COMPREPLY-} == *= ]] && compopt -o nospace
            ;;
        check:-*)
            mapfile -t COMPREPLY < <(compgen -W "--deny= --allow= --json $sources" -- "$cur")
            [[ ${COMPREPLY-} == *= ]] && compopt -o nospace
            ;;
        describe:-*)
            mapfile -t COMPREPLY < <(compgen -W "--cron= --calendar= --keep-going --json $sources" -- "$cur")
            [[ ${COMPREPLY-} == *= ]] && compopt -o nospace
            ;;
        machine:-* | machine\ upcoming:*)
            mapfile -t COMPREPLY < <(compgen -W "--after= --except= --only= --idle --delays --strict $form $machine" -- "$cur")
            [[ ${COMPREPLY-} == *= ]] && compopt -o nospace
            ;;
        machine:*)
            mapfile -t COMPREPLY < <(compgen -W 'upcoming plan quiet downtime clear changes week scripts check sources next describe' -- "$cur")
            ;;
        machine\ plan:*)
            mapfile -t COMPREPLY < <(compgen -W "$span --except= --only= --idle --delays --strict $form $machine" -- "$cur")
            [[ ${COMPREPLY-} == *= ]] && compopt -o nospace
            ;;
        machine\ quiet:*)
            mapfile -t COMPREPLY < <(compgen -W "$span --least= --except= --only= --idle --nominal --strict $form $machine" -- "$cur")
            [[ ${COMPREPLY-} == *= ]] && compopt -o nospace
            ;;
        machine\ downtime:*)
            mapfile -t COMPREPLY < <(compgen -W "$span --except= --only= --idle --strict $form $machine" -- "$cur")
            [[ ${COMPREPLY-} == *= ]] && compopt -o nospace
            ;;
        machine\ clear:*)
            mapfile -t COMPREPLY < <(compgen -W "$search --except= --only= --idle --nominal --strict ${machine/--json /}" -- "$cur")
            [[ ${COMPREPLY-} == *= ]] && compopt -o nospace
            ;;
        machine\ changes:-*)
            mapfile -t COMPREPLY < <(compgen -W "$sizes --except= --only= --idle --strict $form $machine" -- "$cur")
            [[ ${COMPREPLY-} == *= ]] && compopt -o nospace
            ;;
        machine\ week:*)
            mapfile -t COMPREPLY < <(compgen -W "$span --except= --only= --idle --strict $machine" -- "$cur")
            [[ ${COMPREPLY-} == *= ]] && compopt -o nospace
            ;;
        machine\ scripts:*)
            mapfile -t COMPREPLY < <(compgen -W "--after= --except= --only= --idle --strict ${machine/--json /}" -- "$cur")
            [[ ${COMPREPLY-} == *= ]] && compopt -o nospace
            ;;
        machine\ sources:*)
            mapfile -t COMPREPLY < <(compgen -W '--root= --all --json --help' -- "$cur")
            [[ ${COMPREPLY-} == *= ]] && compopt -o nospace
            ;;
        machine\ check:*)
            mapfile -t COMPREPLY < <(compgen -W "--deny= --allow= $machine" -- "$cur")
            [[ ${COMPREPLY-} == *= ]] && compopt -o nospace
            ;;
        machine\ next:*)
            mapfile -t COMPREPLY < <(compgen -W "--after= --count= --zone= --utc --json --help $form" -- "$cur")
            [[ ${COMPREPLY-} == *= ]] && compopt -o nospace
            ;;
        machine\ describe:*)
            mapfile -t COMPREPLY < <(compgen -W "--except= --only= --idle --strict $form $machine" -- "$cur")
            [[ ${COMPREPLY-} == *= ]] && compopt -o nospace
            ;;
        plan:* | upcoming:* | quiet:* | downtime:* | clear:* | week:* | check:* | describe:*)
            _filedir timer
            ;;
        steps:-*)
            mapfile -t COMPREPLY < <(compgen -W '--help' -- "$cur")
            ;;
        steps:* | changes:* | machine\ changes:*)
            _filedir
            ;;
        explain:-*)
            mapfile -t COMPREPLY < <(compgen -W '--help' -- "$cur")
            ;;
        explain:*)
            mapfile -t COMPREPLY < <(compgen -W "$(agenda explain 2>/dev/null | cut -f 1)" -- "$cur")
            ;;
    esac
} && complete -F _agenda agenda
