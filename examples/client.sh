#!/bin/sh
# client.sh DESK COMMANDS JOURNAL sends a file of commands, one a line, to a desk, as 127.0.0.1:8080, and writes the answers. It
# does what client.py does, with curl. A front is asked as https://HOST:PORT, with its user and cacert in ~/.curlrc;
# behind one of several desks DESK is as https://HOST:PORT/north.
set -eu
desk=$1 commands=$2 journal=$3
answer=$journal.answer

# a line that was cut short was not kept; the name of the list is made once, and kept before anything is sent
touch "$journal"
head -n "$(wc -l <"$journal")" "$journal" >"$journal.new"
[ -s "$journal.new" ] || od -An -N12 -tx1 /dev/urandom | tr -d ' ' >"$journal.new"
sync "$journal.new"
mv "$journal.new" "$journal"
read -r name <"$journal"
answers=$(($(wc -l <"$journal") - 1))

# The status. Without an answer nobody knows whether it was done: it is asked again, under the same key.
ask() {
    for _ in 1 2 3 4 5 6 7 8 9 10; do
        status=$(curl --silent --max-time 10 --output "$answer" --write-out '%{http_code}' \
            --data "{\"key\":\"$1\",\"command\":\"$2\"}" "$desk/v1/commands") || status=000
        case $status in
        000 | 408 | 429 | 500 | 502 | 503 | 504) sleep 0.5 ;;
        *) return ;;
        esac
    done
    echo "$1 has no answer: call again" >&2
    exit 1
}

number=0
while read -r command || [ -n "$command" ]; do
    number=$((number + 1))
    [ "$number" -gt "$answers" ] || continue
    ask "$name-$number" "$command"
    case $status in
    200) told="is done:" ;;
    409) told="is refused:" ;;
    *) # the list is at fault, or the user
        echo "$command: $status $(cat "$answer")" >&2
        exit 1
        ;;
    esac
    echo "$status $(cat "$answer")" >>"$journal"
    sync "$journal"
    echo "$command $told $(cat "$answer")"
done <"$commands"
rm -f "$answer"
