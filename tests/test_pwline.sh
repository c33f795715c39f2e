#!/bin/bash
# tests/test_pwline.sh PROGRAM: document 01's pwline. Its answers to tests/pwline.lines are those that
# record.sh wrote, byte for byte; and inputs that no file of lines shows: none, one that comes in parts, a
# last line without a line feed, many lines, lines of a megabyte. Needs no oracle.
set -euo pipefail
cd "$(dirname "$0")/.."
. tests/answers.sh

[ $# -eq 1 ] || fail "usage: tests/test_pwline.sh PROGRAM"
program=$1 lines=tests/pwline.lines answers=tests/recorded/pwline.answers
work=$(mktemp -d)
trap 'rm -rf "$work"' EXIT
checks=0 failed=0

# answers_are WHAT: PROGRAM's answers to standard input are those of $work/expected, and its status 0.
answers_are() {
    checks=$((checks + 1))
    if timeout 60 "$program" > "$work/got" 2> "$work/err" && [ ! -s "$work/err" ] && cmp -s "$work/expected" "$work/got"; then
        return
    fi
    failed=$((failed + 1))
    echo "FAILED $1"
    diff -a "$work/expected" "$work/got" | head -n 3 || true
}

# says INPUT EXPECTED, both with escapes.
says() {
    printf '%b' "$2" > "$work/expected"
    answers_are "$1" < <(printf '%b' "$1")
}

# bytes COUNT CHARACTER: that many of it.
bytes() { head -c "$1" /dev/zero | tr '\0' "$2"; }

# What is recorded: an answer to each line, the last of which has no line feed.
grep -q '^# .* fnv1a64 [0-9a-f]\{16\} (unchanged)$' "$answers" || fail "$answers does not name its source"
grep -v '^#' "$answers" > "$work/expected" || fail "no answer in $answers"
recorded=$(wc -l < "$work/expected")
[ -n "$(tail -c 1 "$lines" | tr -d '\n')" ] || fail "the last line of $lines has a line feed"
[ "$recorded" -eq $(($(wc -l < "$lines") + 1)) ] || fail "$answers has not one answer to each line of $lines"
answers_are "$lines" < "$lines"

# Document 01's example, with and without the last line feed.
example='(on 0)\n(poll 9 00 00)\n(zero 10)\n(zero 11)' example_is='(1 0 0)\n(2 4 0)\n(3 0 1)\n(4 2 1)\n'
says "$example\n" "$example_is"
says "$example" "$example_is"

# No line, empty lines, a line that has only begun.
says '' ''
says '\n' '(1 - 0)\n'
says '\n\n\n' '(1 - 0)\n(2 - 0)\n(3 - 0)\n'
says '\n(on 0)' '(1 - 0)\n(2 0 0)\n'
says '(' '(1 - 0)\n'
says '(on 0)\n(on 0' '(1 0 0)\n(2 - 0)\n'
says '\0' '(1 - 0)\n'
says '(on 0)\r\n(zero 1)\r\n' '(1 - 0)\n(2 - 0)\n'

# An input that comes in parts.
printf '(1 0 0)\n(2 0 1)\n' > "$work/expected"
answers_are "an input in parts" < <(for part in '(' 'on 0' ')' '\n' '(ze' 'ro 10)'; do printf '%b' "$part"; sleep 0.05; done)

# Many lines: each has its number, wherever a read ends.
seq 1 100000 | sed 's/.*/(& 0 0)/' > "$work/expected"
answers_are "100000 lines" < <(yes '(on 0)' | head -n 100000)
seq 1 100000 | sed 's/.*/(& - 0)/' > "$work/expected"
answers_are "100000 empty lines" < <(bytes 100000 '\n')

# Lines of a megabyte are another spelling, whatever they begin and end with.
printf '(1 - 0)\n(2 0 0)\n' > "$work/expected"
for begin in '' '(on ' '(poll 0 00 ' '(on 0)'; do
    answers_are "a megabyte behind '$begin'" < <(printf '%s' "$begin"; bytes 1048576 0; printf ')\n(on 0)\n')
done
printf '(1 0 0)\n(2 - 0)\n' > "$work/expected"
answers_are "a megabyte without a line feed" < <(printf '(on 0)\n'; bytes 1048576 '('; printf '(on 0)')

echo "test_pwline: $recorded recorded answers, $checks inputs, $failed failed"
[ "$failed" -eq 0 ]
