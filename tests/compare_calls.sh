#!/bin/bash
# tests/compare_calls.sh SEED SEEDS CALLS [PROGRAM]: of so many seeds from SEED on, so many random calls to a meter
# each, and before them those of tests/limits_calls.script and a counted time that is full. They are made to the
# published Rust (built here) and to PROGRAM (build/pwscript), with a hash of the whole state after
# each; byte for byte the same answers? Two seeds of three are of physical signals, jobs and orders (pwgen script), the
# third is of tests/frame_lines.c. At the first difference the shortest script that shows it is printed
# (tests/shrink.sh).
#
# What was met is counted in the dumps of the published Rust after each call (tests/coverage.c). From 100,000 random
# calls on, every refusal, every end of a job and of a phase calibration, every path, and settings while on, while off
# and in a job must be among it.
set -euo pipefail
cd "$(dirname "$0")/.." || exit 1
. tests/answers.sh

seed=${1-} seeds=${2-} calls=${3-} program=${4-build/pwscript}
[[ $seed =~ ^[0-9]{1,17}$ && $seeds =~ ^[1-9][0-9]{0,5}$ && $calls =~ ^[1-9][0-9]{0,8}$ ]] \
    || fail "usage: tests/compare_calls.sh SEED SEEDS CALLS [PROGRAM]"
work=$(mktemp -d) || exit 1
trap 'rm -rf "$work"' EXIT

# compare WHAT: the two programs' answers to the calls of $work/script.
compare() {
    local oracle
    calls "$work/script" > "$work/calls" || fail "$1: there is no call"
    with_hashes "$work/calls" > "$work/questions"
    wc -l < "$work/calls" >> "$work/numbers"
    oracle_answers "$work/questions" "$work/met" > "$work/expected" &
    oracle=$!
    "$program" < "$work/questions" > "$work/got" || echo "$program failed"
    wait "$oracle" || fail "$1: the oracle or coverage failed"
    cmp -s "$work/expected" "$work/got" && return
    echo "$1: $program and the oracle differ"
    tests/shrink.sh "$work/calls" "$program"
    fail "$1: $program and the oracle differ"
}

# full_time: a meter that measures nothing, at 0 ms and at 2^48 - 1 ms in turn: 32,768 such times fit in the counted
# one, and no more until energy reset.
full_time() {
    plain_meter
    awk 'BEGIN {
        print "on 0\nranges 0 3 5"
        for (k = 0; k < 65550; k++) {
            if (k == 65545) print "ereset"
            print "frame " (k % 2 ? "281474976710655" : "0") " 1c 0000000000000000000000000000"
        }
    }'
}

build_oracle
cp tests/limits_calls.script "$work/script" || exit 1
compare "tests/limits_calls.script"
full_time > "$work/script"
compare "a counted time that is full"
tail -n 30 "$work/expected" | grep -q '^6 ' || fail "the counted time is not full"
for ((k = 0; k < seeds; k++)); do
    plain_meter > "$work/script"
    if [ $((k % 3)) -eq 2 ]; then
        build/frame_lines $((seed + k)) "$calls" >> "$work/script" || fail "frame_lines failed"
    else
        "$oracle_folder/pwgen" script $((seed + k)) "$calls" 0 >> "$work/script" || fail "pwgen failed"
    fi
    compare "seed $((seed + k))"
    [ $(((k + 1) % 50)) -ne 0 ] || echo "compare: $((k + 1)) seeds, no difference"
done

all=$(awk '{ n += $1 } END { print n }' "$work/numbers")
summed "$work/met" > "$work/summed"
missing=$(not_met "$work/summed")
if [ -n "$missing" ]; then
    echo "not met in $all calls:"
    echo "$missing"
    [ $((seeds * calls)) -lt 100000 ] || fail "a case was not met"
fi
echo "compare: seeds $seed to $((seed + seeds - 1)), $all calls with a hash after each, no difference;" \
    "met by the dumps of the published Rust after each: $(paste -s -d , "$work/summed" | sed 's/,/, /g')" \
    "($("$oracle_folder/pworacle" --source))"
