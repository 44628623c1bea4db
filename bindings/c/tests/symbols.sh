#!/bin/sh
# Sees that the libraries show the functions of the two headers, and nothing else, and that the shared one has its name: symbols.sh FOLDER
set -eu
declared=$(cat ../../include/sto.h sto_atomic.h | grep -v 'static inline\|typedef' | grep -o '\bsto_[a-z_]*(' | tr -d '(' | sort -u)
for shown in "$(nm -D --defined-only "$1/libsto.so")" "$(nm -g --defined-only "$1/libsto.a")"; do
    echo "$shown" | awk 'NF == 3 && $3 !~ /^DW\.ref\./ { print $3 }' | sort -u >"$1/symbols"
    if wrong=$(grep -v '^sto_[a-z_]*$' "$1/symbols"); then
        echo "symbols: shown besides: $wrong" >&2
        exit 1
    fi
    for name in $declared; do
        grep -qx "$name" "$1/symbols" || { echo "symbols: not shown: $name" >&2; exit 1; }
    done
done
readelf -d "$1/libsto.so" | grep -q 'SONAME.*\[libsto\.so\.[0-9]*\]'
echo "symbols: $(grep -c . "$1/symbols") functions, no other name"
