#!/usr/bin/env bash
# The functions that are measured, each at eight places: where a function stands in memory moves a line of the benchmark by up to
# a half, for each implementation. Its place within a page of 4,096 octets is another in each copy, and another than that of the
# functions beside it.
# places.sh OUT NAME=PREFIX:FILE...: of each implementation the object or archive FILE, whose functions are PREFIX_count and so on.
# Makes the archive OUT with a table places_NAME of its functions, place by place.
set -euo pipefail

# In the order of `Calls`, in rust/src/bin/bench/calls.rs.
functions="count read write packet_ticks ptime augmentation frame_or settings_read settings_write unpack pack journal_entry_at journal_write_entry body_octets record_empty record_push record_start"
places="0 1 2 3 4 5 6 7"

out=$(realpath "$1")
shift
work=$(mktemp -d)
trap 'rm -rf "$work"' EXIT

# moved OBJECT PLACE STEP: a section of a function's name before its own moves that function, and the linker joins the two.
moved() {
    objdump -h "$1" | awk -v place="$2" -v step="$3" '
        $2 ~ /^\.text\./ && $3 !~ /^0+$/ {
            printf ".section \"%s\",\"ax\",@progbits\n.p2align 12\n", $2
            octets = 16 * ((place * step + functions++ * 101) % 256)
            if (octets) printf ".skip %d\n", octets
        }
        END { print ".section .note.GNU-stack,\"\",@progbits" }' >"$work/before.s"
    gcc -c "$work/before.s" -o "$work/before.o"
    ld -r -o "$work/moved.o" "$work/before.o" "$1"
}

# renamed NAME PREFIX PLACE: the functions' names with the implementation's and the place's, all other names kept from view.
renamed() {
    local words=()
    for function in $functions; do
        words+=(--redefine-sym "$2_$function=$1_${function}_$3" --keep-global-symbol "$1_${function}_$3")
    done
    objcopy "${words[@]}" "$work/moved.o" "$work/$1_$3.o"
}

# table NAME: the table's text.
table() {
    printf '.section .data.rel.ro,"aw",@progbits\n.p2align 3\n.globl places_%s\nplaces_%s:\n' "$1" "$1"
    for place in $places; do
        for function in $functions; do
            echo ".quad $1_${function}_$place"
        done
    done
}

step=37
for pair in "$@"; do
    name=${pair%%=*}
    from=${pair#*=}
    prefix=${from%%:*}
    ld -r --whole-archive -o "$work/whole.o" "${from#*:}"
    for place in $places; do
        moved "$work/whole.o" "$place" "$step"
        renamed "$name" "$prefix" "$place"
    done
    table "$name" >>"$work/tables.s"
    step=$((step + 22))
done
echo '.section .note.GNU-stack,"",@progbits' >>"$work/tables.s"
gcc -c "$work/tables.s" -o "$work/tables.o"
rm -f "$out" "$work/before.o" "$work/moved.o" "$work/whole.o"
ar rcs "$out" "$work"/*.o
