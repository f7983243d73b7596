#!/usr/bin/env bash
# make_test.sh [NAME=FILE..]: make does what its help says. Nothing is proved again, listings have nothing else in them, and file
# names may have spaces and other signs.
set -euo pipefail
cd "$(dirname "$0")/../.."
folder=$(mktemp -d)
trap 'rm -rf "$folder"' EXIT

fail() {
    printf 'make_test: %s\n' "$1" >&2
    exit 1
}
same() { # WHAT GOT WANTED
    [ "$2" = "$3" ] || fail "$(printf '%s is\n%s\nwanted:\n%s' "$1" "$2" "$3")"
}

help=$(make --no-print-directory help)
same "what make prints by itself" "$(make --no-print-directory)" "$help"
for target in test list host install dist example host-test vectors fuzz bench clean; do
    grep -q "^  $target " <<<"$help" || fail "make help says nothing of $target"
done

make --no-print-directory host list "$@" >"$folder/made"
make --no-print-directory -n host list "$@" | grep -w rt && fail "what was proved is proved again"

listing='1 ok 0 0
2 ok 1 0
3 refused 2 1
end 3'
same "make list" "$(make --no-print-directory list "$@" 2>/dev/null)" "$listing"
# shellcheck disable=SC2016
name="$folder/a file with \$(signs), 'these' & \"those\""
printf '\x00\x02\x00\xA0\x01\xFF\x01\xFF' >"$name"
same "make list IN=.." "$(make --no-print-directory list IN="$name" "$@" 2>/dev/null)" "${listing/end 3/4 refused 2 1
end 4}"

make --no-print-directory example "$@" >"$folder/said"
for line in '2 frames, 180 ticks of 1/8000 second' 'end 3'; do
    grep -qx "$line" "$folder/said" || fail "make example does not print '$line'"
done
echo "make does what it says"
