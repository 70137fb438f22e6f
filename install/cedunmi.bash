# Completion of the command cedunmi, for bash. Where it gives nothing, bash completes the names of files.

# _cedunmi_words WORDS: those of them that begin as the word at the cursor; and no names of files.
_cedunmi_words() {
    compopt +o default 2>/dev/null
    mapfile -t COMPREPLY < <(compgen -W "$1" -- "${COMP_WORDS[COMP_CWORD]}")
}

# _cedunmi_options COMMAND: the options of a command, or of all of them.
_cedunmi_options() {
    local options='-h --help'
    case $1 in
    '') options+=' --version -q --quiet --force --in-place --unverified --for --plain' ;;
    repair) options+=' -q --quiet --force --in-place' ;;
    read) options+=' -q --quiet --force --unverified' ;;
    table) options+=' -q --quiet --force --for' ;;
    code) options+=' -q --quiet --force --plain' ;;
    recode | typed | sample) options+=' -q --quiet --force' ;;
    help | explain) ;;
    *) options+=' -q --quiet' ;;
    esac
    _cedunmi_words "$options"
}

# _cedunmi_argument COMMAND PLACE FOR: an argument of a command, its first at place 0; FOR is 1 after --for. Where a depth may stand or be
# left out, the names of files are more to the point.
_cedunmi_argument() {
    local commands='table check-table code recode record typed sample check-sample check repair check-proof read explain sha256 help'
    case $1:$2 in
    :* | help:0) _cedunmi_words "$commands" ;;
    explain:0) _cedunmi_words '0 1 2 3 4 5 6 7 8 9 10 11 12 13 14 30 31 32 33 43 64 65 66 70 73 74' ;;
    help:* | explain:* | sample:0 | check-sample:0) _cedunmi_words '' ;;
    table:0) [[ $3 ]] || _cedunmi_words '1 2 3 4 5 6 7 8 9' ;;
    esac
}

_cedunmi() {
    local command='' place=0 options=1 for='' i
    COMPREPLY=()
    for ((i = 1; i < COMP_CWORD; i++)); do
        case $options:${COMP_WORDS[i]} in
        1:--) options=0 ;;
        1:--for) for=1 ;;
        1:-?*) ;;
        *)
            if [[ $command ]]; then
                place=$((place + 1))
            else
                command=${COMP_WORDS[i]}
            fi
            ;;
        esac
    done
    case $options:${COMP_WORDS[COMP_CWORD]} in
    1:-*) _cedunmi_options "$command" ;;
    *) _cedunmi_argument "$command" "$place" "$for" ;;
    esac
}

complete -o default -F _cedunmi cedunmi
