#!/bin/sh
# The client on servers of each kind: test.sh FOLDER. Each trial has a server of its own, which is to end well when it is told to.
set -eu
here=$1
room=$(mktemp -d)
server=
trap 'status=$?; [ -z "$server" ] || kill "$server" 2>/dev/null || true; rm -rf "$room"; exit $status' EXIT

fail() {
    echo "test: $1" >&2
    exit 1
}

# begin OPTIONS: begins a server, and finds its port.
begin() {
    : >"$room/said"
    "$here/server" "$@" >"$room/said" &
    server=$!
    port=
    for _ in $(seq 500); do
        port=$(sed -n 's/^listening on .*://p' "$room/said")
        [ -z "$port" ] || return 0
        sleep 0.02
    done
    fail 'the server does not begin'
}

end() {
    kill -TERM "$server"
    wait "$server" || fail 'the server did not end well'
    server=
}

# trial "OPTIONS" WORDS OF THE CLIENT (the options are words)
trial() {
    begin $1
    shift
    "$here/client" "$port" "$@" || fail "the client is not content: $*"
    end
    sed '1d; / of processor/d' "$room/said"
}

# The same, where the client is to see that the server is another than it was told.
refused() {
    begin $1
    shift
    ! "$here/client" "$port" "$@" >"$room/client" 2>&1 || fail "the client does not see what is wrong: $*"
    end
    cat "$room/client"
}

for kind in '' --one-lock; do
    for threads in 1 2 4; do trial "--keys 40 --threads $threads $kind" check 4 1000 40; done
    trial "--keys 3 $kind" check 6 500 3 2
    trial "--threads 2 $kind" malformed
    trial "--threads 2 $kind" vanish
    trial "$kind" load 4 1000 4
    refused "--keys 39 $kind" check 4 1000 40
    refused "--keys 41 $kind" check 4 1000 40
done
echo 'test: all is well'
