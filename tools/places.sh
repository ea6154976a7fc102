#!/usr/bin/env bash
# The places in crates/*/src at which an older form of the language may still stand: the commands of docs/DESIGN-PASS.md.
# usage: tools/places.sh [-l]     how many lines each command prints; with -l the lines too
set -uo pipefail
cd "$(dirname "$0")/.."
show=${1:-}

count() {
    local name=$1 lines
    lines=$(cat)
    printf '%-58s %s\n' "$name" "$(grep -c . <<<"$lines")"
    if [ "$show" = -l ]; then sed 's/^/    /' <<<"$lines"; fi
}

src() { grep -rnE --include=*.rt "$1" crates/*/src; }
repeated() { grep -rhoE --include=*.rt "^ *$1[^{]*\{.*\}" crates/*/src | sed -E "s/^ *$1 *[a-z_]* *\{/$1 {/" | sort | uniq -c | awk '$1 >= 3'; }

src '^ *(pub(\([a-z]+\))? )?enum ' | count '1 enums'
src '^ +(pub(\([a-z]+\))? )?[a-z_]+: bool,$' | count '1 fields and parameters that are flags'
src '\-> u8|value: u8' | count '1 numbers answered, values as bytes'
src 'Result<Result<' | count '1 results in results'
python3 tools/twins.py 0.85 | grep -v 'pairs of' | count '2 functions alike (tools/twins.py 0.85)'
python3 tools/twins.py 0.85 30 | grep -v 'pairs of' | count '2 of 30 tokens or more (tools/twins.py 0.85 30)'
src '^\s*(while|loop)\b|for .* in .*\.\.|[a-z] \+= 1;' | count '3 loops that count, or that go over numbers'
grep -rnB3 -E --include=*.rt '^ +return (true|false|i|Some\(.*\)|Err\(.*\));' crates/*/src | grep -E 'for .* in ' | count '3 loops that look for one item'
src 'fn (at_or_before|is_same|is_same_time|text|read|named|byte_of|digit|digit_of|value|at|is_letter|is_digit|push_number|push_bytes|push_vector|push_refused|push_worst|push_settled|refused)\b' | count '4 comparison, conversion and printing by hand'
repeated requires | count '5 clauses of callers that three functions or more repeat'
repeated ensures | count '5 promises that three functions or more repeat'
src '\[[A-Za-z<>]+; ?[A-Z0-9_]+\]|(count|len|depth|inputs|lines): usize|names: Vec|ceilings: Vec' | count '6 fixed buffers, lengths beside, parallel lists'
src 'match (call|step|word|pin|words\.word\(\)\?)|fn\(|dyn |impl Fn|: Fn(Once|Mut)?\(' | count '7 switches, closures taken'
printf '%-58s %s\n' '8 files of proofs' "$(find crates/*/proofs -name '*.antt' | wc -l)"
printf '%-58s %s\n' '8 lines of proofs' "$(find crates/*/proofs -name '*.antt' -print0 | xargs -0 cat | wc -l)"
