# shellcheck shell=sh
# What the scripts of checks/ and bench/ share. A script reads it after `set -eu`:
#
#     . "$(dirname -- "$(readlink -f -- "$0")")/common.sh"
#
# `root` is the repository's folder. The room that a script makes and the processes that it names in
# `started` go with it, however it ends.
root=$(CDPATH='' cd -- "$(dirname -- "$(readlink -f -- "$0")")/.." && pwd -P)
self=$(readlink -f -- "$0")
self=${self#"$root"/}
room='' started='' program='' server='' port='' ports=''

fail() {
    echo "$self: $*" >&2
    exit 1
}

# needs TOOL..: each is installed.
needs() {
    lacking=
    for tool in "$@"; do command -v "$tool" > /dev/null || lacking="$lacking $tool"; done
    [ -z "$lacking" ] || fail "it needs$lacking"
}

# find_program [PROGRAM ..]: `program` is the named one, or the one that ./desk runs, built if need
# be. bench/ measures no trial program.
find_program() {
    if [ $# -gt 0 ]; then
        program=$(readlink -f -- "$1") || program=$1
    else
        program=$("$root/desk" --which) || fail "there is no program"
        case $self:$program in
            bench/*:*/out/trial/desk) fail "a trial program's speed says nothing: ./prove desk leaves a proved one" ;;
        esac
    fi
    [ -x "$program" ] || fail "there is no program $program"
}

# enter_room: makes a folder, `room`, and goes there.
enter_room() {
    room=$(mktemp -d)
    cd "$room" || exit 1
    room=$(pwd -P)
}

leave() {
    for process in $started; do kill "$process" 2> /dev/null || :; done
    for process in $started; do wait "$process" 2> /dev/null || :; done
    [ -z "$room" ] || rm -rf "$room"
}
trap leave EXIT
trap 'exit 1' HUP INT TERM

# within SECONDS COMMAND WORD..: runs a command that ends with this script, or after so long.
within() {
    limit=$1
    shift
    timeout --foreground -k 20 "$limit" "$@" &
    started="$started $!"
    wait "$!"
}

# ---- the desk's server

is_running() { [ -e "/proc/$1/exe" ]; }

# listens PROCESS PORT: whether the process, or its child, listens at this port of 127.0.0.1, without
# a run of Python for each look.
listens() {
    inode=$(awk -v at="$(printf '0100007F:%04X' "$2")" '$2 == at && $4 == "0A" { print $10 }' /proc/net/tcp)
    [ -n "$inode" ] || return 1
    for process in "$1" $(cat "/proc/$1/task/$1/children" 2> /dev/null); do
        for file in "/proc/$process/fd/"*; do
            [ "$(readlink "$file")" != "socket:[$inode]" ] || return 0
        done
    done
    return 1
}

# hold COUNT: `ports` are so many ports of 127.0.0.1 that this script holds until it ends, for servers
# that it starts and stops. Nobody else is given them: see support/ports.py. It needs python3.
hold() {
    needs python3
    mkfifo holding
    python3 -B "$root/checks/support/ports.py" "$1" > holding &
    started="$started $!"
    read -r ports < holding || fail 'no port is free'
    rm holding
}

# until_listens PROCESS PORT: waits until the process listens at the port; fails if it ends before that.
until_listens() {
    started="$started $1"
    while is_running "$1"; do
        if listens "$1" "$2"; then return 0; fi
        sleep 0.01
    done
    return 1
}

# serve DB COUNT [SECONDS]: serves so many connections in the background, for five minutes at most, or
# for SECONDS (0: without end), always at the same port. `server` is the process, `port` its port,
# `served` and `served.err` have what it writes.
serve() {
    if [ -z "$port" ]; then
        hold 1
        port=$ports
    fi
    timeout -k 5 "${3:-300}" "$program" serve "$1" "$port" "$2" > served 2> served.err &
    server=$!
    until_listens "$server" "$port" || fail "serve $1: $(cat served served.err)"
}

# served: the server has served them all, and ends.
served() {
    got=0
    wait "$server" || got=$?
    if [ "$got" -ne 0 ] || [ -s served ] || [ -s served.err ]; then fail "serve: status $got, $(cat served served.err)"; fi
}
