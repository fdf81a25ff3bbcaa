#!/usr/bin/env bash
# Talks to `jmapd stdio` or to `jmapd listen` by curl, over TCP on one kept connection: the session object, then a day with calendars, one that is created, read, renamed and
# destroyed, and what changed meanwhile, and a team's event that is created, moved and fetched by its changes, and a weekly meeting with its
# week that is otherwise and is then asked for by its occurrences, a week of the agenda, searches, a sorted list that is kept in step by what changed of it, and a room with a weekly booking,
# one that would meet it, whose first such second is told, and one that no room takes, the hours of a week that are taken, and the first slot
# that is free each month, which is then booked. The answers are compared with examples/over_http.answers, in which NOW stands for the moments at which
# events were created and updated. For `stdio` socat relays one connection of a port to the program's standard streams; `listen` needs no relay.
#
#     examples/over_http.sh [PATH_OF_THE_PROGRAM [stdio|listen]]        PORT=8080 by default
set -u
cd "$(dirname "$0")/.." || exit 1
program=${1:-crates/jmapd/out/jmapd}
command=${2:-stdio}
port=${PORT:-8080}
me="examples/over_http.sh $command"

tools=(curl)
[ "$command" = stdio ] && tools+=(socat)
for tool in "${tools[@]}"; do
    if ! command -v "$tool" >/dev/null; then
        echo "$me: skipped, since $tool isn't here"
        exit 0
    fi
done
if ! [ -x "$program" ]; then
    (cd crates/jmapd && rt run -- batch <../../examples/first.json >/dev/null) || exit 1
fi

case $command in
stdio) socat "TCP-LISTEN:$port,bind=127.0.0.1,reuseaddr" EXEC:"$program stdio --config examples/site.json" & ;;
listen) "$program" listen --config examples/site.json --port "$port" --workers 2 & ;;
*)
    echo "$me: stdio or listen"
    exit 2
    ;;
esac
server=$!
trap 'kill "$server" 2>/dev/null' EXIT

shown='%{stderr}%{http_code} %{content_type}, %{num_connects} new connections\n%{stdout}\n'
common=(--silent --show-error --max-time 20 --retry 20 --retry-connrefused --retry-delay 1 -H 'Authorization: Bearer t-ann' -w "$shown")
sent=("${common[@]}" "http://127.0.0.1:$port/.well-known/jmap")
for request in set get rename changes destroy event move sync weekly weeks week agenda search list room free slot book; do
    sent+=(--next "${common[@]}" --data-binary "@examples/over_http/$request.json" "http://127.0.0.1:$port/jmap")
done
answers=$(curl "${sent[@]}") || exit 1
without_moments=$(sed -E 's/"(created|updated)":"[0-9T:-]+Z"/"\1":"NOW"/g' <<<"$answers")
if diff <(printf '%s\n' "$without_moments") examples/over_http.answers; then
    echo "$me: the answers are those of examples/over_http.answers"
else
    echo "$me: other answers than those of examples/over_http.answers"
    exit 1
fi
