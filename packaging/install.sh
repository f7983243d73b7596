#!/usr/bin/env bash
# install.sh FOLDER STATIC SHARED LIST: puts the header, the libraries, the listing program, moult.pc, the CMake package and the
# man pages into a folder. Nothing there names the folder, so it can be moved.
set -euo pipefail
folder=$1 static=$2 shared=$3 list=$4
cd "$(dirname "$0")/.."

number=$(sed -n 's/^#define MOULT_VERSION //p' include/moult.h)
major=$((number / 10000))
version=$major.$((number / 100 % 100)).$((number % 100))

put() { # MODE FILE PLACE
    install -d -m 755 "$(dirname "$folder/$3")"
    install -m "$1" "$2" "$folder/$3"
}

# filled FILE: a file with the version, and the man page with the first host.
filled() {
    sed -e "s/@VERSION@/$version/g" -e "s/@MAJOR@/$major/g" -e '/^@FIRST@$/{
        r /dev/fd/3
        d
    }' "$1" 3< <(sed -e 's/\\/\\e/g' -e "s/^[.']/\\\\\&&/" examples/c/first.c)
}

made=$(mktemp)
trap 'rm -f "$made"' EXIT
put_filled() { # FILE PLACE
    filled "$1" >"$made"
    put 644 "$made" "$2"
}

put 644 include/moult.h include/moult.h
put 644 "$static" lib/libmoult.a
put 755 "$shared" "lib/libmoult.so.$version"
ln -sfn "libmoult.so.$version" "$folder/lib/libmoult.so.$major"
ln -sfn "libmoult.so.$major" "$folder/lib/libmoult.so"
put 755 "$list" bin/list
put_filled packaging/moult.pc.in lib/pkgconfig/moult.pc
put_filled packaging/moult-config.cmake.in lib/cmake/moult/moult-config.cmake
put_filled packaging/moult-config-version.cmake.in lib/cmake/moult/moult-config-version.cmake
put_filled packaging/list.1 share/man/man1/list.1
put_filled packaging/moult.3 share/man/man3/moult.3

# Each function has its page.
echo '.so man3/moult.3' >"$made"
for function in $(grep -o '\bmoult_[a-z_]*(' include/moult.h | tr -d '(' | sort -u); do
    put 644 "$made" "share/man/man3/$function.3"
done
