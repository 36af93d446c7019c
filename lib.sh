# Shared by run, test, wrong, oracle/ and bench/: plain words for what is missing, and the lock of this clone. POSIX sh, but for `apart`,
# which is bash's; the script that reads it in has set `top` to the repository's folder.

# refuse WORDS..: says them, and ends with status 2
refuse() {
    printf '%s: %s\n' "${0##*/}" "$*" >&2
    exit 2
}

# need COMMAND..: goes on only where each is on PATH
need() {
    for tool; do
        command -v "$tool" >/dev/null 2>&1 && continue
        case $tool in
        rt) refuse "the command rt is missing. It comes with the Rattle kit: unpack the kit and put its bin folder on PATH" ;;
        esac
        refuse "the command $tool is missing. On Debian: apt-get install coreutils diffutils grep mawk python3 sed util-linux"
    done
}

# lock: from here to its end this process works in the clone alone. The lock is descriptor 9 and ends with the last process that
# has it open; a script that another of ours started has it open already, and is let through. Two short runs wait for each other.
lock() {
    need flock
    [ /proc/self/fd/9 -ef "$top/.lock" ] || exec 9>>"$top/.lock" || exit 2
    flock -w 3 9 || refuse "another run is under way here ($top)"
}

# unlock: gives up this process's share of the lock; a script that started it keeps its own
unlock() { exec 9>&-; }

# make_room: $room is a temporary folder. It goes when this process ends or a signal ends it, and with it what runs apart.
make_room() {
    need mktemp
    room=$(mktemp -d) || exit 2
    child=''
    trap '[ -z "$child" ] || kill -- "-$child" 2>/dev/null; rm -rf "$room"' EXIT
    for signal in 1 2 13 15; do trap "exit $((128 + signal))" "$signal"; done
}

# apart COMMAND..: runs it, with no input, as a process group of its own, so that a signal is answered at once and ends the group
apart() {
    set -m
    { set +m && "$@"; } </dev/null &
    child=$!
    set +m
    wait "$child"
    set -- $?
    child=''
    return "$1"
}
