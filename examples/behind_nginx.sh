#!/usr/bin/env bash
# Puts nginx before `jmapd listen`, with examples/nginx.conf and a certificate of its own, and has curl send the requests of examples/over_http.sh over TLS. The answers are compared with
# examples/over_http.answers. Then a handshake of a WebSocket and a stream of events go the same way, to the port of sockets. Skipped with a line where nginx, openssl or curl isn't there.
#
#     examples/behind_nginx.sh [PATH_OF_THE_PROGRAM]
set -u
cd "$(dirname "$0")/.." || exit 1
program=${1:-crates/jmapd/out/jmapd}
me=examples/behind_nginx.sh

for tool in nginx openssl curl; do
    if ! command -v "$tool" >/dev/null; then
        echo "$me: skipped, since $tool isn't here"
        exit 0
    fi
done
if ! [ -x "$program" ]; then
    (cd crates/jmapd && rt run -- batch <../../examples/first.json >/dev/null) || exit 1
fi

folder=$(mktemp -d) || exit 1
jmapd_port=$((20000 + RANDOM % 10000))
tls_port=$((30000 + RANDOM % 10000))
sockets_port=$((40000 + RANDOM % 10000))
trap 'kill "${server:-}" "${proxy:-}" 2>/dev/null; wait 2>/dev/null; rm -rf "$folder"' EXIT
openssl req -x509 -newkey ec -pkeyopt ec_paramgen_curve:prime256v1 -nodes -subj /CN=localhost -days 1 \
    -keyout "$folder/key.pem" -out "$folder/certificate.pem" 2>/dev/null || exit 1
sed -e "s|FOLDER|$folder|g" -e "s|PAGE|$PWD/web|" -e "s|JMAPD_PORT|$jmapd_port|" -e "s|TLS_PORT|$tls_port|" -e "s|SOCKETS_PORT|$sockets_port|" examples/nginx.conf >"$folder/nginx.conf"

"$program" listen --config examples/site.json --port "$jmapd_port" --workers 2 --sockets-port "$sockets_port" --socket-workers 2 &
server=$!
nginx -p "$folder" -c "$folder/nginx.conf" 2>"$folder/errors" &
proxy=$!

shown='%{stderr}%{http_code} %{content_type}\n%{stdout}\n'
common=(--silent --show-error --cacert "$folder/certificate.pem" --max-time 20 --retry 20 --retry-connrefused --retry-all-errors --retry-delay 1 -H 'Authorization: Bearer t-ann' -w "$shown")
sent=("${common[@]}" "https://localhost:$tls_port/.well-known/jmap")
for request in set get rename changes destroy event move sync weekly weeks week agenda search list room free slot book; do
    sent+=(--next "${common[@]}" --data-binary "@examples/over_http/$request.json" "https://localhost:$tls_port/jmap")
done
if ! answers=$(curl "${sent[@]}"); then
    cat "$folder/errors"
    exit 1
fi
without_moments=$(sed -E 's/"(created|updated)":"[0-9T:-]+Z"/"\1":"NOW"/g' <<<"$answers")
if diff <(printf '%s\n' "$without_moments") examples/over_http.answers; then
    echo "$me: the answers are those of examples/over_http.answers"
else
    echo "$me: other answers than those of examples/over_http.answers"
    exit 1
fi
# The socket stays open, so curl gives up behind the head of the answer.
handshake=(-H 'Connection: Upgrade' -H 'Upgrade: websocket' -H 'Sec-WebSocket-Version: 13' -H 'Sec-WebSocket-Key: dGhlIHNhbXBsZSBub25jZQ==' -H 'Sec-WebSocket-Protocol: jmap')
head=$(curl --silent --http1.1 --include --no-buffer --cacert "$folder/certificate.pem" --max-time 3 -H 'Authorization: Bearer t-ann' "${handshake[@]}" "https://localhost:$tls_port/jmap/ws")
if grep -qi '^sec-websocket-accept: s3pPLMBiTxaQ9kYGzzhZRbK+xOo=' <<<"$head"; then
    echo "$me: a WebSocket is opened"
else
    printf '%s\n' "$me: no WebSocket is opened" "$head"
    exit 1
fi
# The stream stays open too: its first event comes at once, and curl gives up behind it.
events=$(curl --silent --no-buffer --cacert "$folder/certificate.pem" --max-time 3 -H 'Authorization: Bearer t-ann' "https://localhost:$tls_port/events?types=*&closeafter=no&ping=300")
if grep -q '^data: {"@type":"StateChange",' <<<"$events"; then
    echo "$me: a stream of events is opened"
else
    printf '%s\n' "$me: no stream of events is opened" "$events"
    exit 1
fi
