#!/bin/bash
# tests/test_bench.sh BENCH RECORDING: the bench host BENCH over the day's RECORDING, whose figures must be the
# published Rust's: live where its package and cargo are there, and as recorded in tests/recorded/day.figures;
# over recordings that are short, damaged or wrong; and how it is called.
set -euo pipefail
cd "$(dirname "$0")/.." || exit 1
. tests/answers.sh
. tests/day.sh

bench=${1-} day=${2-}
[ -x "$bench" ] && [ -f "$day" ] || fail "usage: tests/test_bench.sh BENCH RECORDING"
bench=$(realpath "$bench") day=$(realpath "$day")
work=$(mktemp -d) || exit 1
trap 'rm -rf "$work"' EXIT
checks=0 wrong=0

# check WHAT COMMAND..: one more check.
check() {
    local what=$1
    shift
    checks=$((checks + 1))
    "$@" || { wrong=$((wrong + 1)); echo "wrong: $what"; }
}

# ---- recordings ----

# fnv FILE: its FNV-1a of 64 bits. For small files.
fnv() {
    local byte hash=$((0xcbf29ce484222325))
    for byte in $(od -A n -v -t u1 "$1"); do hash=$(((hash ^ byte) * 0x100000001b3)); done
    printf '%016x' "$hash"
}

# closed FILE: the lines of FILE with their closing line, in $work/rec.
closed() {
    { cat "$1"; echo "end $(wc -l < "$1") $(fnv "$1")"; } > "$work/rec"
}

# recording LINES: a recording of these lines, in $work/rec; \n as in printf.
recording() {
    printf '%b' "$1" > "$work/lines"
    closed "$work/lines"
}

one=3f800000
meter="meter $one $one $one $one $one $one 0 0 z73\n"
first="pw-recording 1\n"

# ---- figures ----

# sheet_figures SHEET: what is compared, one a line.
sheet_figures() {
    sed -n '/^in bits/,$ { s/^in bits//; s/^ *//; p }' "$1" | tr ' ' '\n'
    sed -n 's/^readings  *\([0-9]*\)$/readings=\1/p; s/^marks  *\([0-9]*\);.*/marks=\1/p' "$1"
    sed -n 's/^  \([1-8]\) [a-z]*  *\([0-9]*\), first in line.*/refused_\1=\2/p' "$1"
}

# The recorded figures begin with the closing line of the recording, which is the same wherever it is made.
"$bench" "$day" > "$work/sheet" 2> "$work/errors" || fail "$bench fails over the day"
{ tail -n 1 "$day"; sheet_figures "$work/sheet"; } > "$work/figures"
check "the day's figures as recorded from the published Rust" diff tests/recorded/day.figures "$work/figures"
check "there are figures" test "$(wc -l < "$work/figures")" -ge 16
check "no progress where standard error is no terminal" test ! -s "$work/errors"
live="recorded figures"
if [ -f "$oracle_manifest" ] && command -v cargo > /dev/null && command -v rustc > /dev/null; then
    build_oracle
    oracle_figures "$day" > "$work/oracle" || fail "the oracle fails over the day"
    check "the day's figures beside the published Rust" diff "$work/oracle" "$work/figures"
    live="the published Rust's figures, live and recorded"
fi

# The sheet: for people.
kwh=$(awk -F '[=,]' '$1 == "e" { printf "%.4f", $2 / 3.6e9 }' tests/recorded/day.figures)
check "the energy is shown" grep -q "^energy  *$kwh kWh\$" "$work/sheet"
vah=$(awk -F '[=,]' '$1 == "va" { printf "%.1f", $2 / 3.6e6 }' tests/recorded/day.figures)
check "the apparent energy is shown" grep -q "^apparent energy  *$vah VAh\$" "$work/sheet"
check "no frame before its deadline" grep -q '; 0 frames before a deadline$' "$work/sheet"
check "no frame while a re-apply is asked for" grep -q '; 0 frames while one was asked for$' "$work/sheet"
for name in '1 off' '2 busy' '3 method' '4 frame' '5 late'; do
    check "refusal $name is told" grep -q "^  $name  *[1-9][0-9]*, first in line [0-9]*\$" "$work/sheet"
done

# ---- the output ----

"$bench" "$day" > "$work/again"
check "the same sheet again" cmp "$work/sheet" "$work/again"
"$bench" -q -o "$work/out" "$day" > "$work/stdout"
check "-o writes the same sheet" cmp "$work/sheet" "$work/out"
check "-o leaves nothing else" test ! -s "$work/stdout" -a ! -e "$work/out.tmp"
echo old > "$work/out"
"$bench" -o "$work/out" -- "$day"
check "-o replaces a file" cmp "$work/sheet" "$work/out"

# status NUMBER ARGUMENT..: whether bench ends with it.
status() {
    local expected=$1 got=0
    shift
    "$bench" "$@" > "$work/stdout" 2> "$work/errors" || got=$?
    [ "$got" -eq "$expected" ] || { echo "status $got for $expected: $*"; return 1; }
}

check "a folder that is not there" status 1 -o "$work/none/out" "$day"
check "it is named" grep -q "none/out.tmp: No such file" "$work/errors"
mkdir "$work/folder"
check "a folder in the sheet's place" status 1 -o "$work/folder" "$day"
check "nothing is left beside it" test ! -e "$work/folder.tmp"
got=0
"$bench" "$day" > /dev/full 2> "$work/errors" || got=$?
check "a full disk" test "$got" -eq 1 -a -s "$work/errors"
if command -v script > /dev/null; then
    TERM=dumb script -q -e -c "'$bench' -o '$work/out' '$day'" /dev/null > "$work/terminal" < /dev/null || true
    check "progress on a terminal" grep -q '100* *%  *[0-9]* frames  *[0-9][0-9]:[0-9][0-9]:[0-9.]*  *[0-9.]* W' <(tr '\r' '\n' < "$work/terminal")
    TERM=dumb script -q -e -c "'$bench' -q -o '$work/out' '$day'" /dev/null > "$work/terminal" < /dev/null || true
    check "none with -q" test ! -s "$work/terminal"
fi

# ---- bad recordings ----

# bad WHAT LINE MESSAGE: $work/rec is refused with status 1, at LINE (empty for none) and with MESSAGE; a sheet
# of before stays, and nothing is written.
bad() {
    local what=$1 place=$work/rec${2:+:$2} got=0
    echo old > "$work/out"
    rm -f "$work/out.tmp"
    "$bench" -o "$work/out" "$work/rec" > "$work/stdout" 2> "$work/errors" || got=$?
    check "$what: status $got" test "$got" -eq 1
    check "$what: $(cat "$work/errors")" grep -q -F "bench: $place: $3" "$work/errors"
    check "$what: one line of message" test "$(wc -l < "$work/errors")" -eq 1
    check "$what: nothing is written" test "$(cat "$work/out")" = old -a ! -e "$work/out.tmp" -a ! -s "$work/stdout"
}

lines=$(wc -l < "$day")
rm -f "$work/rec"
bad 'missing' '' 'No such file or directory'
mkdir "$work/rec"
bad 'a folder' '' 'Is a directory'
rmdir "$work/rec"
: > "$work/rec"
bad 'empty' 1 'empty'
echo > "$work/rec"
bad 'a line feed' 1 'no recording'
head -c 1000000 "$day" > "$work/rec"
bad 'cut off' "$(($(wc -l < "$work/rec") + 1))" 'short'
head -n -1 "$day" > "$work/rec"
bad 'no closing line' "$((lines - 1))" 'short'
head -c -1 "$day" > "$work/rec"
bad 'a closing line without its line feed' "$lines" 'short'
head -c -9 "$day" > "$work/rec"
bad 'half a closing line' "$lines" 'short'
printf 'pw-recording 1' > "$work/rec"
bad 'a first line alone' 1 'no recording'
printf 'pw-recording 1\n' > "$work/rec"
bad 'a first line and no other' 1 'short'
sed '5000s/0/1/' "$day" > "$work/rec"
bad 'a changed digit' "$lines" 'damaged: checksum'
sed '5000d' "$day" > "$work/rec"
bad 'a line is gone' "$((lines - 1))" "damaged: $((lines - 2)) lines before the closing line, which says $((lines - 1))"
sed '5000p' "$day" > "$work/rec"
bad 'a line twice' "$((lines + 1))" 'damaged'
sed '5000{h;d};5001G' "$day" > "$work/rec"
bad 'two lines changed about' "$lines" 'damaged: checksum'
cp "$day" "$work/rec"
printf '\000' | dd of="$work/rec" bs=1 seek=600000 conv=notrunc status=none
bad 'a zero byte' "$lines" 'damaged: checksum'
{ cat "$day"; printf 'x'; } > "$work/rec"
bad 'a byte behind the closing line' "$((lines + 1))" 'damaged: there are bytes behind the closing line'
{ cat "$day"; echo; } > "$work/rec"
bad 'a line feed behind the closing line' "$((lines + 1))" 'damaged: there are bytes behind the closing line'
cat "$day" "$day" > "$work/rec"
bad 'two recordings in one' "$((2 * lines))" 'damaged'
sed '$s/ [0-9]* / 7 /' "$day" > "$work/rec"
bad 'another count' "$lines" 'damaged: '
sed '$s/.$/x/' "$day" > "$work/rec"
bad 'no checksum' "$lines" 'short'
sed '1s/1/2/' "$day" > "$work/rec"
bad 'another version' 1 'version 2: this program reads version 1'
for line in 'pw-recording' 'pw-recording x' 'pw-recording 1 ' 'pw-recordings 1' 'PW-RECORDING 1' ' pw-recording 1'; do
    recording "$line\n$meter"
    bad "first line '$line'" 1 'no recording'
done
sed 1d "$day" > "$work/rec"
bad 'no first line' 1 'no recording'

# Lines that are not understood, in a recording that is whole.
wrong_line() {
    recording "$first$meter# a line\n$1\non 5\n"
    bad "line '$1'" 4 "${2-not understood}"
}
for line in x 'on' 'on ' 'on x' 'on 1 ' 'on  1' ' on 1' 'on 1 1' 'on -1' 'on +1' 'on 1.0' 'on 0x1' 'On 1' 'on\t1' 'on 1\r' \
    'on 18446744073709551616' 'on 99999999999999999999' 'end 1' 'end' dump hash 'f sqrt 40400000' '?' '= 1' 'off' 'zero' 'gain 1 1' \
    'reapply' 'method 1' 'method 1 2' 'method 1 01' 'coupling 1' 'coupling 1 256' 'coupling 1 -1' 'coupling 1 a' 'ranges 1 k' \
    'ranges 1 k b' 'ranges 1 256 k' 'ranges 1 k k k' 'ranges 1 kk k' 'phase 1' 'phases' 'ereset 0' 'run' 'run 2' 'run 1 0' \
    'set' 'set 0' 'set 0 3c23d70a 3f000000 423e0000 40a00000 60' 'set 0 3c23d70a 3f000000 423e0000 40a00000 60 1 0' \
    'set 0 3c23d70a 3f000000 423e0000 60 1' 'set 2 3c23d70a 3f000000 423e0000 40a00000 60 1' \
    'set 01 3c23d70a 3f000000 423e0000 40a00000 60 1' 'set 0 3c23d70 3f000000 423e0000 40a00000 60 1' \
    'set 0 3c23d70a 3f000000g 423e0000 40a00000 60 1' 'set 0 3c23d70a 3f000000 nan 40a00000 60 1' \
    'set 0 3c23d70a 3f000000 423e0000 +0a00000 60 1' 'set 0 3c23d70a 3f000000 423e0000 40a00000 65536 1' \
    'set 0 3c23d70a 3f000000 423e0000 40a00000 -1 1' 'set 0 3c23d70a 3f000000 423e0000 40a00000 60 256' \
    'set 0 3c23d70a 3f000000 423e0000 40a00000 60 +1' 'set 0  3c23d70a 3f000000 423e0000 40a00000 60 1' \
    'set 5 0 3c23d70a 3f000000 423e0000 40a00000 60 1' 'Set 0 3c23d70a 3f000000 423e0000 40a00000 60 1' \
    'frame 1' 'frame 1 1c' 'frame 1 1c ' 'frame 1 1 00' 'frame 1 1g 00' 'frame 1 1c 0' 'frame 1 1c 000' 'frame 1 1c 0g' \
    'frame 1 1c -0' 'frame 1 1c 00 00' 'frame 1c 00' 'frame 1 01c 00' 'frame 1 1c\0000'; do
    wrong_line "$line"
done
wrong_line "${meter%\\n}" 'a second meter'

# The meter: before every call, made once, and refused by name.
recording "${first}on 1\n$meter"
bad 'a call before the meter' 2 'a call before the meter is made'
recording "$first# nothing\n\n"
bad 'no meter' 4 'no meter is made in it'
for six in "nan" "$one $one $one $one $one" "$one $one $one $one $one $one $one" "$one $one $one $one $one 3f80000" \
    "$one $one $one $one $one 3f80000g"; do
    recording "${first}meter $six 0 0 z73\n"
    bad "a meter of '$six'" 2 'not understood'
done
for rest in '0 0' '0 z73' '2 0 z73' '0 2 z73' '0 0 z' '0 0 z-1' '0 0 73' '0 0 z73 ' '0 0 3f80000' '0 0 z18446744073709551616'; do
    recording "${first}meter $one $one $one $one $one $one $rest\n"
    bad "a meter with '$rest'" 2 'not understood'
done
for bits in 00000000 357fffff 49800001 bf800000 7f800000 7fc00000; do
    recording "${first}meter $bits $one $one $one $one $one 0 0 z73\n"
    bad "a description with $bits" 2 'no meter is made: refusal 7, description'
    recording "$first# a comment\nmeter $one $one $one $one $one $bits 0 0 z72\n"
    bad "a description that ends with $bits" 3 'no meter is made: refusal 7, description'
done
for words in - "$one" z0 z72 z74 z18446744073709551615 "$(printf '3f800000%.0s' {1..72})" "$(printf '3f800000%.0s' {1..74})"; do
    recording "${first}meter $one $one $one $one $one $one 0 1 $words\n"
    bad "words '${words:0:20}'" 2 'no meter is made: refusal 8, words'
done

# ---- small recordings that are whole ----

# good WHAT TEXT..: $work/rec has a sheet with each TEXT as a line, spaces run together.
good() {
    local what=$1
    shift
    if ! "$bench" "$work/rec" > "$work/small" 2> "$work/errors"; then
        check "$what: $(cat "$work/errors")" false
        return
    fi
    tr -s ' ' < "$work/small" > "$work/plain"
    for text in "$@"; do check "$what: $text" grep -q -x -e "$text" "$work/plain"; done
}

recording "$first$meter"
good 'a meter alone' 'energy 0.0000 mWh' 'apparent energy 0.0000 VAh' 'time counted 0 ms, 00:00:00.000' 'zeros none is stored' \
    'jobs none' 'calls 0, of them 0 frames' 'readings 0' 'refusals met none' 'mean power none: .*' \
    'in bits e=0,00000000 va=0,00000000 t_int=0 p_avg=nan'
recording "$first# x\n\n${meter}on 0\noff 1\nmethod 2 1\nmethod 3 0\nranges 4 k a\nranges 5 255 0\ncoupling 6 255\nzero 7\ngain 8\n\
phase\nereset\nrun 0\nrun 1\nset 0 3c23d70a 3f000000 423e0000 40a00000 60 1\nset 1 7FC00000 ff800001 80000000 7f800000 65535 255\n\
reapply 9\nframe 10 fF 0aFF\nframe 11 00 -\n\
frame 281474976710656 00 -\non 18446744073709551615\n"
good 'every kind of call' 'calls 20, of them 3 frames' ' 1 off 3, first in line 12' ' 4 frame 2, first in line 21' \
    ' 5 late 2, first in line 23'

# The drop over 10 ohms taken off from the fourth second on, then over a resistance that is no number, at which nothing is
# counted: the published Rust's figures.
watts="1c ffff7f0000001027000000000000"
rest="3f000000 423e0000 40c00000 30 0"
recording "$first${meter}on 0\nranges 0 3 5\nframe 1000 $watts\nframe 2000 $watts\nframe 3000 $watts\nset 1 41200000 $rest\n\
frame 4000 $watts\nframe 5000 $watts\nset 1 7fc00000 $rest\nframe 6000 $watts\nframe 7000 $watts\n"
good 'settings' 'in bits e=2610515,00000000 va=2610514,3f600000 t_int=5000 p_avg=44028698' 'readings 6' 'refusals met none'

# A current that no energy can hold: refused as full, and the energy as before.
words=$(printf '497423f0%.0s' {1..73}) tiny=35800000
full="frame 1000 1c ffff7f000000ffff030000000000\nframe 2000 1c ffff7f000000ffff030000000000\n"
recording "${first}meter $tiny $tiny $tiny $tiny $tiny 49800000 0 1 ${words}\non 0\n$full${full//000 1c/500 1c}"
good 'full' ' 6 full 1, first in line 7' 'readings 2'

# ---- how it is called ----

check "no argument" status 2
check "two recordings" status 2 "$day" "$day"
check "an unknown option" status 2 --no-such-option "$day"
check "-o without a file" status 2 "$day" -o
check "-o twice" status 2 -o "$work/a" -o "$work/b" "$day"
check "usage is told" grep -q '^usage: bench' "$work/errors"
check "nothing on standard output" test ! -s "$work/stdout"
check "--help" status 0 --help
check "--help tells of the options" grep -q -e '-o FILE' "$work/stdout"
check "--version" status 0 --version
check "--version tells of the recordings" grep -q 'pw-recording 1' "$work/stdout"

[ "$wrong" -eq 0 ] || fail "$wrong of $checks checks wrong"
echo "test_bench: $checks checks of $1, $live"
