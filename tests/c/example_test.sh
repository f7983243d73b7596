#!/usr/bin/env bash
# example_test.sh LIST: the listing example with a file, and with files that can't be read or written. What it lists is held to the
# recorded cases by listing_test.
set -euo pipefail
list=$1
folder=$(mktemp -d)
trap 'rm -rf "$folder"' EXIT

fails() { # where its lines go, then its arguments: it says why, and lists nothing, no `end` either
    local out=$1
    shift
    : >"$folder/listed"
    if "$list" "$@" >"$out" 2>"$folder/said" ||
        [ ! -s "$folder/said" ] || [ -s "$folder/listed" ]; then
        printf 'list %s > %s is to fail and say why: it said "%s" and listed "%s"\n' "$*" "$out" \
            "$(<"$folder/said")" "$(<"$folder/listed")" >&2
        exit 1
    fi
}

printf '\x00\x02\x00\xA0\x01\xFF' >"$folder/payloads"
if [ "$("$list" "$folder/payloads")" != "$("$list" <"$folder/payloads")" ]; then
    echo "the example lists a file in another way than standard input" >&2
    exit 1
fi
fails "$folder/listed" "$folder/missing"
fails "$folder/listed" "$folder"
fails "$folder/listed" "$folder" "$folder"
if [ -c /dev/full ]; then
    fails /dev/full "$folder/payloads"
fi
echo "the listing example says what it can't read or write"
