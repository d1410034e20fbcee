# Sourced by the script pf: help, and calls of a wrong form, by the texts of help.txt. There a command has a paragraph: its
# form and what it does, with two blanks or more between them, and lines on what else there is to say. The last one is of all.
texts=$top/tools/help.txt

# find_form COMMAND: its form; nothing if there is no such command.
find_form() {
    form=
    case $1 in
    '' | *[!a-z]*) return ;;
    esac
    while IFS= read -r line; do
        case $line in
        "pf $1 "*) form=${line%%  *} ;;
        esac
    done <"$texts"
}

# The form that was found, or how to find one.
wrong_call() {
    fail "wrong call, the form is: ${form:-pf COMMAND ..., and pf help lists the commands}"
}

# takes COUNT WORD...: whether a form with these words after the command's name takes so many; one in brackets may be left out.
takes() {
    count=$1
    shift
    fewest=0
    for word; do
        case $word in
        '['*) ;;
        *) fewest=$((fewest + 1)) ;;
        esac
    done
    [ "$fewest" -le "$count" ] && [ "$count" -le $# ]
}

# check_form COMMAND WORD...: ends a call of a wrong form.
check_form() {
    find_form "$1"
    set -f
    [ -n "$form" ] && takes $(($# - 1)) ${form#pf * } || wrong_call
    set +f
}

# help_on COMMAND: tells of the command, or of all if that is help, and ends.
help_on() {
    find_form "$1"
    case $1:$form in
    *:) wrong_call ;;
    help:*) lines='/^pf /p' ;;
    *) lines="/^pf $1 /,/^\$/{/./p;}" ;;
    esac
    text=$(sed -n -e "$lines" -e '/^FILE, /,$p' "$texts")
    printf '%s\n' "$text" 2>/dev/null || fail 'standard output cannot be written'
    exit
}

# check_call WORD...: answers a call for help and ends, as a call of a wrong form does; any other is the program's.
check_call() {
    [ $# -gt 0 ] || help_on help
    case $1 in
    -h | --help)
        shift
        set -- help "$@"
        ;;
    esac
    case $#:${2-} in
    2:-h | 2:--help) help_on "$1" ;;
    esac
    check_form "$@"
    [ "$1" != help ] || help_on "${2-help}"
}
