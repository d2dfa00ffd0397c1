# Completion of agenda-machine for bash: that of `agenda machine`. It needs the package bash-completion.

_agenda_machine() {
    local line=${COMP_LINE:0:COMP_POINT}
    declare -F _agenda >/dev/null || _completion_loader agenda
    declare -F _agenda >/dev/null || return
    COMP_LINE="agenda machine${COMP_LINE#"${COMP_WORDS[0]}"}"
    COMP_POINT=$((${#line} - ${#COMP_WORDS[0]} + 14))
    COMP_WORDS=(agenda machine "${COMP_WORDS[@]:1}")
    ((++COMP_CWORD))
    _agenda
} && complete -F _agenda_machine agenda-machine
