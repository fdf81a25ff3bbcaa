#!/usr/bin/env bash
# Shows that what `jmapd kept` answered is there after a kill: a request is answered, the program is killed with signal 9, and the next run finds what the first one added. Then a room is booked for an hour
# each week, and `jmapd slot` finds when it is next free for one in the same journal.
#
#     examples/kept.sh [PATH_OF_THE_PROGRAM]
set -eu
cd "$(dirname "$0")/.."
program=$(realpath "${1:-crates/jmapd/out/jmapd}")
folder=$(mktemp -d)
trap 'rm -rf "$folder"' EXIT
options=(--config examples/site.json --journal "$folder/journal.db")
words=(kept "${options[@]}")
using='"using":["urn:ietf:params:jmap:core","urn:ietf:params:jmap:calendars"]'

coproc server { exec "$program" "${words[@]}"; }
pid=$server_PID
echo "{$using,\"methodCalls\":[[\"Calendar/set\",{\"accountId\":\"A1\",\"create\":{\"k\":{\"name\":\"Work\"}}},\"a\"]]}" >&"${server[1]}"
read -r answer <&"${server[0]}"
kill -9 "$pid"
wait "$pid" 2>/dev/null || true
echo "$answer"

found=$(echo "{$using,\"methodCalls\":[[\"Calendar/get\",{\"accountId\":\"A1\",\"ids\":null,\"properties\":[\"name\"]},\"a\"]]}" | "$program" "${words[@]}")
echo "$found"
case $found in
*'"list":[{"id":"C1","name":"Work"}]'*'"state":"0-1"'*) echo "examples/kept.sh: what was answered is there" ;;
*) echo "examples/kept.sh: it isn't there" && exit 1 ;;
esac

{
    echo "{$using,\"methodCalls\":[[\"Calendar/set\",{\"accountId\":\"A1\",\"create\":{\"k\":{\"name\":\"Room\",\"resourceZone\":\"Etc/UTC\"}}},\"a\"]]}"
    echo "{$using,\"methodCalls\":[[\"CalendarEvent/set\",{\"accountId\":\"A1\",\"create\":{\"k\":{\"calendarIds\":{\"C2\":true},\"start\":\"2026-03-02T09:00:00\",\"duration\":\"PT1H\",\"timeZone\":\"Etc/UTC\",\"recurrenceRules\":[{\"frequency\":\"weekly\"}]}}},\"a\"]]}"
} | "$program" "${words[@]}" >/dev/null
slot=$(echo '{"accountId":"A1","calendarId":"C2","duration":"PT1H","after":"2026-03-02T09:30:00","before":"2026-03-02T12:00:00","recurrenceRules":[{"frequency":"weekly"}]}' | "$program" slot "${options[@]}")
echo "$slot"
case $slot in
'{"slot":"2026-03-02T10:00:00","tried":[{"day":20514,"second":34200,"start":"2026-03-02T09:30:00","with":"E1"},{"day":20514,"second":35100,"start":"2026-03-02T09:45:00","with":"E1"}]}') echo "examples/kept.sh: the slot is found" ;;
*) echo "examples/kept.sh: another slot" && exit 1 ;;
esac
