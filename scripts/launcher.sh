# What the launchers have in common. Each of them sets here, the top of the tree, reads this file, defines print_help
# and judge_arguments, and ends with a call of launch.

# The status of a failed build. No program ever ends with it.
not_built=70

# Prints a line and ends with a status.
stop() {
    echo "svnhist: $2" >&2
    exit "$1"
}

# Whether $1 is one or more digits with a value from $2 to $3.
is_number() {
    case $1 in
        '' | *[!0123456789]*) return 1 ;;
    esac
    digits=${1#"${1%%[!0]*}"}
    [ "${#digits}" -le "${#3}" ] && [ "${digits:-0}" -ge "$2" ] && [ "${digits:-0}" -le "$3" ]
}

can_read() {
    [ -r "$1" ] && [ ! -d "$1" ]
}

# Whether the program of the crate was built from the sources by their contents, whatever their times.
is_current() {
    # What the program was made from, and its own checksum.
    made_from=crates/$crate/out/made-from
    [ -x "$here/$program" ] && [ -f "$here/$made_from" ] &&
        (cd -- "$here" && scripts/list-sources "$crate" "$program" | cmp -s - "$made_from")
}

# Does what a call of $1, the program of the crate $2, asks for by the other arguments.
launch() {
    name=$1
    crate=$2
    shift 2
    program=crates/$crate/out/$crate
    if [ "$#" -eq 1 ]; then
        case $1 in
            -h | --help) print_help; exit ;;
            -V | --version) echo "$name $(cat -- "$here/ask/svnask/VERSION")"; exit ;;
        esac
    fi
    ! is_current || exec "$here/$program" "$@"
    judge_arguments "$@"
    rt=$(command -v rt || echo /opt/rattle/bin/rt)
    [ -x "$rt" ] ||
        stop "$not_built" "the Rattle toolchain is needed to build: no command rt, and no /opt/rattle/bin/rt"
    command -v python3 >/dev/null || stop "$not_built" "Python 3 is needed to build: no command python3"
    exec "$here/scripts/build" "$rt" "$crate" "$@"
}
