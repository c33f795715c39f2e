#!/bin/bash
# tests/replay.sh PROGRAM SCRIPT ANSWERS: PROGRAM's answers to SCRIPT are those that record.sh wrote
# to ANSWERS, byte for byte. Needs no oracle.
set -u -o pipefail
cd "$(dirname "$0")/.." || exit 1
. tests/answers.sh

[ $# -eq 3 ] || fail "usage: tests/replay.sh PROGRAM SCRIPT ANSWERS"
program=$1 script=$2 answers=$3
work=$(mktemp -d) || exit 1
trap 'rm -rf "$work"' EXIT

grep -q '^# .* fnv1a64 [0-9a-f]\{16\} (unchanged)$' "$answers" || fail "$answers does not name its source"
questions "$script" > "$work/questions" || fail "no question in $script"
questions "$answers" > "$work/recorded" || fail "no answer in $answers"
"$program" < "$script" > "$work/answers" || fail "$program failed"
same_answers "$work/questions" "$work/recorded" "$work/answers" || fail "$script: $program differs from the record"
echo "replay: $script, $(wc -l < "$work/questions") lines, no difference"
