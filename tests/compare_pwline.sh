#!/bin/bash
# tests/compare_pwline.sh PROGRAM SEED LINES: PROGRAM (pwline) and the published Rust
# answer the same drawn lines: orders and frames at times at and beyond the limits, of right and wrong
# lengths, and one in eight with bytes changed, lost or put in.
set -euo pipefail
cd "$(dirname "$0")/.."
. tests/answers.sh

[ $# -eq 3 ] || fail "usage: tests/compare_pwline.sh PROGRAM SEED LINES"
program=$1 seed=$2 lines=$3
[[ $seed =~ ^[0-9]{1,9}$ && $lines =~ ^[1-9][0-9]{3,8}$ ]] || fail "SEED is a number, LINES is 1000 or more"
work=$(mktemp -d)
trap 'rm -rf "$work"' EXIT

# drawn SEED LINES: that many lines. The meter is first off, then on. Behind one zero job in three come frames of
# zeros, by which it ends well. Bytes are written one by one, whatever the locale.
drawn() {
    LC_ALL=C awk -v seed="$1" -v lines="$2" '
        function below(n) { return int(rand() * n) }
        function one_of(words,    word) { return word[1 + below(split(words, word, " "))] }
        function many(letters, n,    s) { while (n-- > 0) s = s substr(letters, 1 + below(length(letters)), 1); return s }
        function time_of() {
            if (below(10)) { t += one_of("0 1 10 100 250"); return t }
            return below(2) ? one_of("281474976710655 281474976710656 0000000000000000 00000000000007") : many("0123456789", below(18))
        }
        function frame(    n) {
            n = below(8) ? 28 : below(69)
            return many(one_of("0 0 0 0001f 0123456789abcdefABCDEF"), n)
        }
        function drawn_line(    k) {
            if (calm > 0) { calm--; return "(poll " t " 1c 0000000000000000000000000000)" }
            k = below(40)
            if (k < 2) return "(on " time_of() ")"
            if (k < 5) { if (!below(3)) calm = 60; return "(zero " time_of() ")" }
            return "(poll " time_of() " " (below(4) ? "1c" : many("0123456789abcdefABCDEF", 2)) " " frame() ")"
        }
        function changed(s,    at, b) {
            at = 1 + below(length(s) + 1)
            b = substr(" ()0aAgG/:@`\t\rz\200\377", 1 + below(17), 1)
            return substr(s, 1, at - 1) (below(3) ? b : "") substr(s, at + below(2))
        }
        BEGIN {
            srand(seed)
            print "(zero 0)\n(on 0)"
            for (n = 2; n < lines; n++) {
                s = drawn_line()
                if (!calm && !below(8)) s = changed(s)
                if (!below(40)) s = changed(s)
                if (!below(400)) s = s s s s
                print s
            }
        }'
}

build_oracle
drawn "$seed" "$lines" > "$work/lines"
[ "$(wc -l < "$work/lines")" -eq "$lines" ] || fail "there are not $lines lines"
"$oracle_folder/pworacle" --pwline < "$work/lines" > "$work/expected"
"$program" < "$work/lines" > "$work/got"
if ! cmp -s "$work/expected" "$work/got"; then
    first_difference "$work/lines" "$work/expected" "$work/got"
    fail "$program differs from the published Rust"
fi
[ "$(wc -l < "$work/got")" -eq "$lines" ] || fail "not $lines answers"
# Each refusal that pwline can give is among them but 6, and 3, which needs the order `method`; so are lines of
# another spelling, jobs that run, end well, with a signal, and by an order, and a meter that has had none.
for answer in '0 [0-9]' '1 [0-9]' '2 [0-9]' '4 [0-9]' '5 [0-9]' '- [0-9]' '. 0' '. 1' '. 2' '. 3' '. 8'; do
    grep -q "^([0-9]* $answer)$" "$work/got" || fail "no answer is (N $answer)"
done
echo "compare_pwline: seed $seed, $lines lines, no difference"
