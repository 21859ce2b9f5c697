#!/bin/sh
# Runs one command of `controller` with servers that are reached over TCP:
#
#     over_tcp.sh HOSTS FOLDER N OWN NAME USERS COMMAND [ARGUMENT]
#
# HOSTS is a file with a line for each server, in the order of their numbers: host:port. Each command gets new pipes and new connections, since
# a pipe may still hold the answer to a command that was killed. `controller` and `socat` must be on the path. A command waits for as long as
# a server is silent; `timeout 60 over_tcp.sh ..` ends it.
hosts=$1 folder=$2 servers=$3 own=$4 name=$5 users=$6
shift 6
links=$(mktemp -d) || exit 1
processes=
end() {
    kill $processes 2>/dev/null
    rm -rf "$links"
}
trap end EXIT
trap 'exit 1' HUP INT TERM
number=0
while read -r host; do
    number=$((number + 1))
    mkfifo "$links/$number.in" "$links/$number.out" || exit 1
    (exec socat - "TCP:$host" <"$links/$number.in" >"$links/$number.out") &
    processes="$processes $!"
done <"$hosts"
controller "$folder" "$servers" "$own" "$name" "$users" "$links/" "$@"
