#!/usr/bin/env bash
# The program list, as it is built: several recordings, options, a bad length, and files that cannot be read or written.
#
#   list_program_test.sh PROGRAM
set -euo pipefail
list=$(realpath "$1")
folder=$(mktemp -d)
trap 'rm -rf "$folder"' EXIT
cd "$folder"

fail() { # what was run, and what is wrong
    printf '%s: %s\nit listed:\n%s\nit said:\n%s\n' "$1" "$2" "$(< out)" "$(< err)" >&2
    exit 1
}
lists() { # what was run, the lines wanted
    [ "$(< out)" = "$(printf '%b' "$2")" ] || fail "$1" "wanted $2"
}
says() { # what was run, what standard error has to have; nothing, where that is empty
    if [ -z "$2" ]; then
        [ ! -s err ] || fail "$1" 'wanted nothing on standard error'
    else
        grep -qF -- "$2" err || fail "$1" "wanted '$2' on standard error"
    fi
}
run() { # the lines wanted, what is to be said, then the arguments; standard input is the file `in`
    local lines=$1 said=$2
    shift 2
    timeout 20 "$list" "$@" < in > out 2> err || fail "list $*" 'it failed, or did not end'
    lists "list $*" "$lines"
    says "list $*" "$said"
}

printf '\x00\x02\x00\xA0\x01\xFF' > sample
printf '' > empty
printf '\x00' > one
printf '\x00\x07\x00' > cut
printf '\x02\x00\xA0\x80\x00\x00' > bad
mkdir folder
sample='1 ok 0 0\n2 ok 1 0\n3 refused 2 1\nend 3'

# One recording has no line before it.
cp sample in
run "$sample" ''
run "$sample" '' -
run "$sample" '' sample
run 'end 0' '' empty
run '1 ok 0 0\ncut 1' '' cut
run '1 ok 1 0\ncut 1' '' bad
printf '\x87\x80\x00' > in && run 'cut 0' ''
printf '\xF9\x0A' > in && run 'cut 0' ''
cp sample in

# Each of several is a listing of its own: a cut one does not run into the next.
run "==> sample <==\n$sample\n==> cut <==\n1 ok 0 0\ncut 1\n==> one <==\n1 ok 0 0\nend 1" '' sample cut one
run "==> one <==\n1 ok 0 0\nend 1\n==> standard input <==\n$sample" '' one -

# One that is missing, or cannot be read, is said; those behind it are listed.
run '' 'missing: No such file' missing
run '==> one <==\n1 ok 0 0\nend 1\n==> empty <==\nend 0' 'missing: No such file' one missing empty
run '' 'folder: Is a directory' folder
run '==> folder <==\n==> empty <==\nend 0' 'folder: Is a directory' folder empty
run '==> empty <==\nend 0' 'argument: File name too long' "$(printf 'x%.0s' $(seq 5000))" empty
run '' '-x: No such file' -x

# Standard input that is closed, and standard output that takes nothing: said once, and no last line.
timeout 20 "$list" <&- > out 2> err
lists 'list with closed input' ''
says 'list with closed input' 'standard input: Bad file descriptor'
for output in /dev/full closed; do
    if [ "$output" = closed ]; then
        timeout 20 "$list" sample one >&- 2> err
    else
        timeout 20 "$list" sample one > "$output" 2> err
    fi
    : > out
    says "list > $output" 'standard output: '
    [ "$(wc -l < err)" = 1 ] || fail "list > $output" 'wanted one line on standard error'
done

# Behind a bad length it ends at once, though more may come: the pipe stays open for writing here.
mkfifo pipe
exec 3<> pipe
printf '\x00\x80\x00' >&3
timeout 20 "$list" < pipe > out 2> err || fail 'list of a bad length in a pipe' 'it reads on'
lists 'list of a bad length in a pipe' '1 ok 0 0\ncut 1'
printf '\x00\x80\x00' >&3
timeout 20 "$list" pipe one > out 2> err || fail 'list of a bad length in a pipe, and a file' 'it reads on'
lists 'list of a bad length in a pipe, and a file' '==> pipe <==\n1 ok 0 0\ncut 1\n==> one <==\n1 ok 0 0\nend 1'
exec 3>&-

# Options: nothing is listed, wherever they stand.
run 'list 0.1.0' '' --version
run 'list 0.1.0' '' sample --version one
for arguments in --help 'sample --help'; do
    timeout 20 "$list" $arguments < in > out 2> err
    says "list $arguments" ''
    grep -q '^Usage: list' out && grep -q -- '--version' out && ! grep -q '^end' out || fail "list $arguments" 'wanted help, and nothing listed'
done
run '' '--next: unknown option' sample --next one
run '' '--: unknown option' --
