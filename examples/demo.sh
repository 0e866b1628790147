#!/bin/sh
# Shows the daemon at work: two clients at once on two agents, the notices that come of it, and how they reach a mailbox.
#
#     sh examples/demo.sh NOTICED        NOTICED is the built program
set -eu
noticed=$(realpath "${1:?usage: demo.sh NOTICED}")
examples=$(realpath "$(dirname "$0")")
room=$(mktemp -d)
trap 'kill "${daemon:-}" 2> /dev/null || true; rm -rf "$room"' EXIT
cd "$room"

cp "$examples/demo/first.requests" "$examples/demo/second.requests" .

echo "== Daemon: noticed serve socket mx.example.net 2 1 > outbox 2> notes"
"$noticed" serve socket mx.example.net 2 1 > outbox 2> notes &
daemon=$!
while [ ! -S socket ] && kill -0 "$daemon"; do sleep 0.05; done

for client in first second; do
    python3 "$examples/../vectors/frames.py" "$client.requests" | "$noticed" send socket > "$client.answers" &
    clients="${clients:-} $!"
done
for client in $clients; do wait "$client"; done
status=0
wait "$daemon" || status=$?

for client in first second; do
    echo
    echo "== The $client client of two at once: frames.py $client.requests | noticed send socket"
    i=0
    while read -r request; do
        i=$((i + 1))
        echo "$request"
        echo "    -> $(sed -n "${i}p" "$client.answers")"
    done < "$client.requests"
done
echo
echo "== Notes of the daemon, which has served its connections (exit status $status)"
cat notes
echo
echo "== Outbox"
cat outbox
exit "$status"
