#!/bin/sh
# Installs the package for Debian, builds and runs the first program of the page with it by pkg-config and by CMake, and removes it:
# package.sh MAKE FOLDER. It wants root, and a machine without the package: elsewhere it looks only at what the package has.
set -eu
room=$(mktemp -d)
installed=
trap 'status=$?; [ -z "$installed" ] || dpkg -P libsto-dev >/dev/null 2>&1 || true; rm -rf "$room"; exit $status' EXIT

if ! command -v dpkg-deb >/dev/null; then
    echo 'package: not tried, since dpkg-deb is not there'
    exit 0
fi
"$1" --no-print-directory -s deb B="$2" >"$room/log" 2>&1 || { cat "$room/log" >&2; exit 1; }
package=$(ls "$2"/libsto-dev_*.deb)
dpkg-deb -c "$package" | awk '{ print $6 }' >"$room/files"
for it in include/sto.h include/sto_atomic.h share/doc/libsto-dev/copyright; do grep -qx "./usr/$it" "$room/files"; done
version=$(dpkg-deb -f "$package" Version)
if [ "$(id -u)" != 0 ] || dpkg -s libsto-dev >/dev/null 2>&1; then
    echo "package: libsto-dev $version is made, and not installed, since this wants root, and a machine without it"
    exit 0
fi

installed=yes
dpkg -i "$package" >"$room/log" 2>&1 || { cat "$room/log" >&2; exit 1; }
if command -v pkg-config >/dev/null; then
    # shellcheck disable=SC2046
    ${CC:-cc} -std=c11 examples/first.c $(pkg-config --cflags --libs sto) -lpthread -o "$room/first"
    "$room/first" | grep -q '^done, on the .* library$'
    [ "$(pkg-config --modversion sto)" = "$version" ]
fi
if command -v cmake >/dev/null; then
    cp examples/first.c "$room"
    cat >"$room/CMakeLists.txt" <<'END'
cmake_minimum_required(VERSION 3.16)
project(first C)
find_package(sto REQUIRED)
add_executable(first first.c)
target_link_libraries(first sto::sto)
END
    (cmake -S "$room" -B "$room/made" && cmake --build "$room/made") >"$room/log" 2>&1 || { cat "$room/log" >&2; exit 1; }
    "$room/made/first" | grep -q '^done, on the .* library$'
fi
dpkg -P libsto-dev >"$room/log" 2>&1 || { cat "$room/log" >&2; exit 1; }
installed=
while read -r file; do
    case $file in *[!/]) [ ! -e "/${file#./}" ] || { echo "package: left behind: $file" >&2; exit 1; } ;; esac
done <"$room/files"
echo "package: libsto-dev $version was installed, used and removed"
