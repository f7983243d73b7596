#!/usr/bin/env bash
# dist.sh TAR STATIC SHARED LIST [GIVEN]: the installed tree as a tar file with a MANIFEST: version, commit, the kit that proved it,
# and the SHA-256 of each file. The same commit and kit give the same octets. GIVEN names what was not built here.
set -euo pipefail
tar=$(realpath "$1") given=${5:-}
name=$(basename "$tar" .tar)
cd "$(dirname "$0")/.."

stage=$(mktemp -d)
trap 'rm -rf "$stage"' EXIT
install -d -m 755 "$stage/$name"
packaging/install.sh "$stage/$name" "${@:2:3}"

commit=unknown when=0
if git rev-parse --verify -q HEAD >/dev/null 2>&1; then
    commit=$(git rev-parse HEAD)
    when=$(git log -1 --format=%ct)
    [ -z "$(git status --porcelain)" ] || commit="$commit, with changes"
fi

(
    cd "$stage/$name"
    echo "version $(sed -n 's/^Version: //p' lib/pkgconfig/moult.pc)"
    echo "commit $commit"
    echo "proved by $(rt version)${given:+, but for what was not built here: $given}"
    echo
    find . -type f | LC_ALL=C sort | xargs -d '\n' sha256sum
) >"$stage/MANIFEST"
install -m 644 "$stage/MANIFEST" "$stage/$name/MANIFEST"

tar --format=ustar --sort=name --owner=0 --group=0 --numeric-owner --mtime="@$when" -cf "$tar" -C "$stage" "$name"
