#!/bin/bash
# tests/compare.sh SEED LINES [PROGRAM]: LINES random lines of the figures with floats of any bits
# (build/figure_lines), LINES of the formats and values (build/value_lines), LINES of calls that are spelled in any
# way (build/spelled_lines), then LINES of served functions and of meters made, answered by the published Rust
# (built here) and by PROGRAM (build/pwscript); byte for byte the same?
set -u -o pipefail
cd "$(dirname "$0")/.." || exit 1
. tests/answers.sh

seed=${1-} lines=${2-} program=${3-build/pwscript}
[[ $seed =~ ^[0-9]{1,18}$ && $lines =~ ^[1-9][0-9]{0,8}$ ]] || fail "usage: tests/compare.sh SEED LINES [PROGRAM]"
work=$(mktemp -d) || exit 1
trap 'rm -rf "$work"' EXIT

# compare WHAT: the two programs' answers to $work/questions
compare() {
    [ "$(wc -l < "$work/questions")" -eq "$lines" ] || fail "there are not $lines lines of $1"
    "$oracle_folder/pworacle" < "$work/questions" > "$work/oracle" || fail "the oracle failed"
    "$program" < "$work/questions" > "$work/answers" || fail "$program failed"
    same_answers "$work/questions" "$work/oracle" "$work/answers" || fail "seed $seed, $1: $program and the oracle differ"
}

# compare_spelled: the same; here a line may have no answer, or one of many lines, or `?`. Each of these there must be.
compare_spelled() {
    local answer
    "$oracle_folder/pworacle" < "$work/questions" | grep -a -v '^#' > "$work/oracle" || fail "the oracle failed"
    "$program" < "$work/questions" > "$work/answers" || fail "$program failed"
    if ! cmp -s "$work/oracle" "$work/answers"; then
        diff -a "$work/oracle" "$work/answers" | head -n 4
        fail "seed $seed, lines spelled in any way: $program and the oracle differ"
    fi
    for answer in '?' 0 1 2 3 4 5 7 8 R D0 H; do
        [ "$lines" -lt 100000 ] || grep -a -q -e "^$answer" "$work/oracle" || fail "no line answered $answer"
    done
}

build_oracle
build/figure_lines "$seed" "$lines" > "$work/questions" || fail "figure_lines failed"
compare "figures with floats of any bits"
echo "compare: seed $seed, $lines lines of figures with floats of any bits, no difference"
build/value_lines "$seed" "$lines" > "$work/questions" || fail "value_lines failed"
compare "formats and values"
echo "compare: seed $seed, $lines lines of formats and values, no difference"
build/spelled_lines "$seed" "$lines" > "$work/questions" || fail "spelled_lines failed"
compare_spelled
echo "compare: seed $seed, $lines lines of calls spelled in any way, no difference"
served_lines "$seed" "$lines" > "$work/questions" || fail "pwgen failed"
compare "served functions"
echo "compare: seed $seed, $lines lines, $(meters "$work/questions") of them meters, and as many of figures, of formats and values and of calls spelled in any way, no difference ($("$oracle_folder/pworacle" --source))"
