#!/usr/bin/env bash
# dist_test.sh [NAME=FILE..]: the tar file. The same octets from a second build of the commit, in another folder; a manifest that has
# every file; and a tree that works where it is unpacked. NAME=FILE names what is not built here.
set -euo pipefail
cd "$(dirname "$0")/../.."
folder=$(mktemp -d)
trap 'rm -rf "$folder"' EXIT

fail() {
    printf 'dist_test: %s\n' "$1" >&2
    exit 1
}

make --silent dist "$@"
tar=$(ls target/dist/moult-*.tar)
[ -f "$tar" ] || fail "not one tar file in target/dist: $tar"

# The second build: the files of the repository alone, so that the library and the listing program are compiled and linked again. rt
# may begin with the proofs that it keeps on this machine.
copy=$folder/second
mkdir -p "$copy"
git ls-files -z --cached --others --exclude-standard | while IFS= read -r -d '' file; do
    if [ -e "$file" ]; then printf '%s\0' "$file"; fi
done | xargs -0 cp -p --parents -t "$copy"
cp -R .git "$copy/.git"
sleep 1
make --silent -C "$copy" dist "$@"
cmp "$tar" "$copy/$tar" || fail "two builds differ"

tar -xf "$tar" -C "$folder"
tree=$folder/$(basename "$tar" .tar)
(cd "$tree" && sed '1,/^$/d' MANIFEST | sha256sum --check --quiet) || fail "a file is not what MANIFEST says"
[ "$(cd "$tree" && find . -type f ! -name MANIFEST | sort)" = "$(sed '1,/^$/d' "$tree/MANIFEST" | cut -c67- | sort)" ] ||
    fail "MANIFEST does not name every file"
grep -qx "version $(sed -n 's/^Version: //p' "$tree/lib/pkgconfig/moult.pc")" "$tree/MANIFEST" || fail "MANIFEST has no version"
grep -q "^commit $(git rev-parse HEAD)" "$tree/MANIFEST" || fail "MANIFEST has no commit"
grep -qF "$(rt version)" "$tree/MANIFEST" || fail "MANIFEST does not name the kit"

# shellcheck disable=SC2046
gcc examples/c/first.c $(PKG_CONFIG_PATH=$tree/lib/pkgconfig pkg-config --cflags --libs moult) -o "$folder/first"
LD_LIBRARY_PATH=$tree/lib "$folder/first" 00 A0 >/dev/null || fail "the unpacked tree does not work"

make --silent -C "$copy" clean
[ -z "$(ls -d "$copy"/target "$copy"/crates/*/out 2>/dev/null)" ] || fail "make clean leaves what was made"
echo "$tar: two builds are the same, and its manifest holds"
