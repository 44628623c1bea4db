#!/bin/sh
# The transactions beside the same over one lock, run by turns: measure.sh FOLDER [RUNS]. Of each it prints the best run: how many groups it
# did in a second, and the time of processor that the server took for a group, in microseconds.
set -eu
here=$1
runs=${2:-5}
room=$(mktemp -d)
server=
trap 'status=$?; [ -z "$server" ] || kill "$server" 2>/dev/null || true; rm -rf "$room"; exit $status' EXIT

# load NAME THREADS DEPTH [--one-lock]: one run, which it writes down under the name.
load() {
    groups=$(((20000 + 3000 * $3) / $2))
    : >"$room/said"
    "$here/server" --threads "$2" ${4:-} >"$room/said" &
    server=$!
    until port=$(sed -n 's/^listening on .*://p' "$room/said") && [ -n "$port" ]; do sleep 0.02; done
    "$here/client" "$port" load "$2" "$groups" "$3" | sed 's/^load: \([0-9]*\) .*/\1/' >>"$room/$1.rate"
    kill -TERM "$server"
    wait "$server"
    server=
    sed -n 's/ s of processor//p' "$room/said" | awk "{ print \$1 * 1000000 / ($groups * $2) }" >>"$room/$1.time"
}

most() { sort -n "$room/$1" | tail -n 1; }
least() { sort -n "$room/$1" | head -n 1; }

echo 'threads depth | groups a second: transactions, one lock, ratio | processor for a group: transactions, one lock, ratio'
for threads in 1 4; do
    for depth in 1 16; do
        for _ in $(seq "$runs"); do
            load transactions "$threads" "$depth"
            load one_lock "$threads" "$depth" --one-lock
        done
        echo "$threads $depth $(most transactions.rate) $(most one_lock.rate) $(least transactions.time) $(least one_lock.time)" |
            awk '{ printf "%7s %5s | %14s %8s %5.2f | %14.1f %8.1f %5.1f\n", $1, $2, $3, $4, $3 / $4, $5, $6, $5 / $6 }'
        rm "$room"/*.rate "$room"/*.time
    done
done
