#!/usr/bin/env bash
# install_test.sh [NAME=FILE..]: the installed tree as a C developer meets it: what the libraries export, the first host built by pkg-config and by CMake, with the
# shared library and with the static one, and the man pages.
set -euo pipefail
cd "$(dirname "$0")/../.."
folder=$(mktemp -d)
trap 'rm -rf "$folder"' EXIT
prefix=$folder/usr

fail() {
    printf 'install_test: %s\n' "$1" >&2
    exit 1
}
same() { # WHAT GOT WANTED
    [ "$2" = "$3" ] || fail "$(printf '%s is\n%s\nwanted:\n%s' "$1" "$2" "$3")"
}

make --silent install DESTDIR="$folder" PREFIX=/usr "$@"
lib=$prefix/lib
version=$(sed -n 's/^Version: //p' "$lib/pkgconfig/moult.pc")
major=${version%%.*}

# The libraries have the header's functions, nothing else to be seen, and ask for two of the C library's. The texts stand in the header.
declared=$(grep -oE '^[a-z].*\bmoult_[a-z_]+\(' include/moult.h | grep -v '^static' | grep -oE 'moult_[a-z_]+\(' | tr -d '(' | sort)
asked=$'memcpy\nmemset'
same "the shared library's symbols" "$(nm -D --defined-only "$lib/libmoult.so" | awk '{print $NF}' | sort)" "$declared"
same "the static library's symbols" "$(nm -g --defined-only "$lib/libmoult.a" | awk 'NF > 1 {print $NF}' | sort)" "$declared"
same "what the shared library asks for" "$(nm -D --undefined-only "$lib/libmoult.so" | awk '{sub(/@.*/, "", $NF); print $NF}' | sort)" "$asked"
same "what the static library asks for" "$(nm -g --undefined-only "$lib/libmoult.a" | awk 'NF > 1 {print $NF}' | sort)" "$asked"
dynamic=$(readelf -dW "$lib/libmoult.so")
same "the name" "$(sed -n 's/.*(SONAME).*\[\(.*\)\]/\1/p' <<<"$dynamic")" "libmoult.so.$major"
same "what it needs" "$(sed -n 's/.*(NEEDED).*\[\(.*\)\]/\1/p' <<<"$dynamic")" "libc.so.6"
grep -qF '(TEXTREL)' <<<"$dynamic" && fail "the shared library writes into its code"
[ "$(readlink -f "$lib/libmoult.so.$major")" = "$(readlink -f "$lib/libmoult.so.$version")" ] || fail "no libmoult.so.$major"
grep -rqF "$folder" "$prefix" && fail "a file names the folder that it was installed into"

# The first host, and what it prints.
payload='01 02 03 04 05 06 07 AA 01 FF 00 A0'
printed='2 frames, 180 ticks of 1/8000 second
TSVCIS: 01 02 03 04 05 06 07 AA
comfort noise: 00 00'
runs() { # PROGRAM: with the shared library where it needs it
    # shellcheck disable=SC2086
    same "what $1 prints" "$(LD_LIBRARY_PATH=$lib "$1" $payload)" "$printed"
    same "what $1 prints" "$(LD_LIBRARY_PATH=$lib "$1" 00 A0 00 A0)" "refused 6 (comfort noise not last), place 2"
}
is_shared() { # PROGRAM
    readelf -dW "$1" | grep -F "[libmoult.so.$major]" >/dev/null
}

export PKG_CONFIG_PATH=$lib/pkgconfig
same "pkg-config's version" "$(pkg-config --modversion moult)" "$version"
words='-std=c99 -Wall -Wextra -Wpedantic -Werror examples/c/first.c'
# shellcheck disable=SC2046,SC2086
gcc $words $(pkg-config --cflags --libs moult) -o "$folder/first"
runs "$folder/first"
is_shared "$folder/first" || fail "pkg-config's program does not name libmoult.so.$major"
# shellcheck disable=SC2046,SC2086
gcc $words $(pkg-config --cflags moult) "$(pkg-config --variable=libdir moult)/libmoult.a" -o "$folder/first_static"
runs "$folder/first_static"
is_shared "$folder/first_static" && fail "the program with the library inside names libmoult.so.$major"
# shellcheck disable=SC2046
g++ -std=c++17 -Wall -Wextra -Wpedantic -Werror -x c++ examples/c/first.c -x none $(pkg-config --cflags --libs moult) -o "$folder/first_cxx"
runs "$folder/first_cxx"

builds() {
    cmake -S examples/cmake -B "$folder/build" -DCMAKE_PREFIX_PATH="$prefix" && cmake --build "$folder/build"
}
builds >"$folder/said" 2>&1 || fail "$(cat "$folder/said")"
runs "$folder/build/first"
runs "$folder/build/first_static"
is_shared "$folder/build/first" || fail "CMake's program does not name libmoult.so.$major"
is_shared "$folder/build/first_static" && fail "CMake's program with the library inside names libmoult.so.$major"
finds() { # VERSION
    mkdir -p "$folder/find"
    printf 'cmake_minimum_required(VERSION 3.16)\nproject(find C)\nfind_package(moult %s REQUIRED)\n' "$1" >"$folder/find/CMakeLists.txt"
    cmake -S "$folder/find" -B "$folder/find/build" -DCMAKE_PREFIX_PATH="$prefix" >/dev/null 2>&1
}
finds "$version" || fail "CMake does not find version $version"
finds "$major" || fail "CMake does not find version $major"
finds "$version.1" && fail "CMake finds a later version than $version"
finds "$((major + 1)).0" && fail "CMake finds version $((major + 1)).0"

# The listing program runs, and the man pages have every function and number, and the first host as it stands.
same "what list prints" "$("$prefix/bin/list" </dev/null)" "end 0"
page=$prefix/share/man/man3/moult.3
names=$(grep -oE '\b(moult|MOULT)_[A-Za-z0-9_]+' include/moult.h | sort -u | grep -vx 'MOULT_H')
for name in $names; do
    grep -qE "$name([^A-Za-z0-9_]|$)" "$page" || fail "moult.3 says nothing of $name"
done
[ "$(sed -n '/^A whole host/,/^\.EE/p' "$page" | sed -e '1,/^\.EX/d' -e '/^\.EE/d' -e 's/\\e/\\/g' -e 's/^\\&//')" = "$(cat examples/c/first.c)" ] ||
    fail "the program in moult.3 is not examples/c/first.c"
if command -v groff >/dev/null; then
    for page in "$prefix"/share/man/man3/moult.3 "$prefix"/share/man/man1/list.1; do
        groff -t -man -Tutf8 -ww "$page" 2>&1 >"$folder/page" | grep . && fail "groff has warnings of $(basename "$page")"
    done
fi
for function in $declared moult_refusal_text moult_kind_text; do
    same "the page of $function" "$(cat "$prefix/share/man/man3/$function.3")" ".so man3/moult.3"
done
echo "installed: libmoult $version by pkg-config and by CMake, shared and static; man pages"
