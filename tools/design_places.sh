#!/usr/bin/env bash
# Counts the places that docs/DESIGN-PASS.md speaks of, point by point, in the crates' code. `-l` lists them too.
set -euo pipefail
cd "$(dirname "$0")/.."

list=${1:-}
code=$(git ls-files 'crates/*/src/*.rt')

# places POINT WHAT PATTERN: the lines of code that match.
places() {
    local found
    found=$(grep -nE "$3" $code || true)
    printf '%s  %4d  %s\n' "$1" "$(printf '%s' "$found" | grep -c '' || true)" "$2"
    [ "$list" != -l ] || [ -z "$found" ] || printf '%s\n' "$found" | sed 's/^/           /'
}

# repeated POINT WHAT LEAST: the lines of standard input that come at least so often, with how often each.
repeated() {
    local found
    found=$(sort | uniq -c | awk -v least="$3" '$1 >= least')
    printf '%s  %4d  %s\n' "$1" "$(printf '%s' "$found" | grep -c '' || true)" "$2"
    [ "$list" != -l ] || [ -z "$found" ] || printf '%s\n' "$found" | sed 's/^/       /'
}

places 1 'variants that say refused, unknown, missing, none, bad or failed' '^ +(Refused|Unknown|Missing|Nowhere|Bad|Short|End|None|Failed|Stopped|Malformed|Uncounted)\b *(\(.*\))?,$'
places 1 'numbers for refusals: constants and fields' '(const [A-Z_0-9]+: u8 = [0-9]+;|\bnumber: u8\b|refusal::[A-Z_]+\b)'
places 1 'a flag beside a value, or a bool that says how a call went' '(^ +(pub )?is_[a-z_]+: bool,$|^(pub )?fn (write|say|list|follow)_?[a-z_]*(<.*>)?\(.*-> bool|^\) -> bool)'
places 1 'numbers of which 0 stands for none' '// .*\b0 (stands for|where (there|framing|none)|if what|for no|of a number|at any other)'
grep -hoE '^(pub(\(crate\))? )?fn [a-z_0-9]+' $code | sed 's/.*fn //' | grep -vE '^(main|from|try_from|fmt)$' | repeated 2 'names of free functions in more than one module' 2
grep -hoE '^(pub(\(crate\))? )?const [A-Z_0-9]+: [a-z0-9]+ = .*;' $code | sed 's/^pub //; s/^pub(crate) //' | repeated 2 'constants of one name and value in more than one module' 2
places 3 'while and loop' '^ +(while|loop)\b'
places 4 'casts' ' as (u8|u16|u32|u64|usize|i32)\b'
places 4 'derives of Clone and Copy alone' '^#\[derive\(Clone, Copy\)\]$'
places 4 'tests of equality answered by hand' '^ +return (true|false);'
grep -hoE '^ +requires \{ .* \}' $code | sed 's/^ *requires { //; s/ }$//' | sed 's/ × /\n/g' | sed 's/^(\(.*\))$/\1/' | repeated 5 'parts of a requires in three functions or more' 3
places 5 'a slice and an index into it, or its length, as parameters' '\b[a-z]+: &(mut )?\[u(8|16)\], (at|from|n|start): usize'
places 6 'fields that are arrays' '^ +(pub )?[a-z]+: \[[a-z0-9]+; '
places 7 'function pointers, dyn and closures as parameters' '(\bfn\(|\bdyn\b|impl Fn|: Fn(Once|Mut)?\()'
printf '8  %4d  %s\n' "$(git ls-files 'crates/*/proofs/*' | grep -E '(Answers|Invariants)\.antt$' | xargs grep -hE '^pub [^:]* : goal\.' | wc -l)" 'answers to goals'
printf '8  %4d  %s\n' "$(git ls-files 'crates/*/proofs/*' | grep '\.antt$' | xargs cat | wc -l)" 'lines of proofs'
printf '8  %4d  %s\n' "$(cat $code | wc -l)" 'lines of code'
printf '8  %4d  %s\n' "$(git ls-files 'crates/*/specs/*' | grep '\.antt$' | xargs cat | wc -l)" 'lines of specs'
