#!/bin/sh
# Installs into a folder, and builds and runs a program with what was installed, by pkg-config and by CMake where these are there:
# installed.sh MAKE FOLDER
set -eu
room=$(mktemp -d)
trap 'rm -rf "$room"' EXIT
"$1" --no-print-directory -s install PREFIX="$room/usr" >"$room/log" 2>&1 || { cat "$room/log" >&2; exit 1; }
if command -v pkg-config >/dev/null; then
    export PKG_CONFIG_PATH="$room/usr/lib/pkgconfig"
    # shellcheck disable=SC2046
    ${CC:-cc} -std=c11 examples/pay.c $(pkg-config --cflags --libs sto) -lpthread -o "$room/pay"
    LD_LIBRARY_PATH="$room/usr/lib" "$room/pay" | grep -q '^moved: done$'
    echo "installed: pkg-config $(pkg-config --modversion sto)"
fi
if command -v cmake >/dev/null; then
    mkdir "$room/project"
    cp examples/pay.c "$room/project"
    cat >"$room/project/CMakeLists.txt" <<'END'
cmake_minimum_required(VERSION 3.16)
project(pay C)
find_package(sto 0.1 REQUIRED)
add_executable(shared pay.c)
target_link_libraries(shared sto::sto)
add_executable(static pay.c)
target_link_libraries(static sto::static)
END
    (cmake -S "$room/project" -B "$room/made" -DCMAKE_PREFIX_PATH="$room/usr" && cmake --build "$room/made") >"$room/log" 2>&1 || { cat "$room/log" >&2; exit 1; }
    for how in shared static; do "$room/made/$how" | grep -q '^moved: done$'; done
    echo "installed: CMake"
fi
