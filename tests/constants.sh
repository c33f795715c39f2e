#!/bin/bash
# tests/constants.sh: the constants of crates/tables are spelled as in the published Rust: those of
# constants.rt under the same name, and of window.rt the comparator's two tables, whose pairs are two
# arrays here, and M. White space, underscores in numbers and the case of their letters do not count.
# So are those of pw.h, where its names follow the published ones, the flags' bits too. The names of the units
# in pw_names.c are those that the published functions use, the micro sign as u, and so are the texts of
# pw_partial there and in tests/shown.h. It only reads the published text.
set -u -o pipefail
cd "$(dirname "$0")/.." || exit 1
. tests/answers.sh

published=$papers/src/firmware/src/powermeter.rs
chip=$papers/src/firmware/src/hy3131.rs
constants=crates/tables/src/constants.rt
window=crates/tables/src/window.rt
header=include/pw.h
names=host/pw_names.c
shown=tests/shown.h
for file in "$published" "$chip" "$constants" "$window" "$header" "$names" "$shown"; do [ -f "$file" ] || fail "$file is not there"; done

# The one name that the published text does not have: there its number, 450, has no name.
own_name=VCAL_DC_SETTLE_MS

# declared FILE: a line `NAME VALUE` for each constant of FILE, the value without white space, a number in
# it in small letters and without underscores. Comments are left out; a value may go over several lines.
declared() {
    awk '
        function spelled(value,    out, word) {
            gsub(/[ \t]/, "", value)
            sub(/,\]$/, "]", value)
            while (match(value, /[A-Za-z0-9_]+/)) {
                word = substr(value, RSTART, RLENGTH)
                if (word ~ /^[0-9]/) { gsub(/_/, "", word); word = tolower(word) }
                out = out substr(value, 1, RSTART - 1) word
                value = substr(value, RSTART + RLENGTH)
            }
            return out value
        }
        { sub(/\/\/.*/, "") }
        !name && /^ *(pub )?const [A-Z][A-Z0-9_]*:/ {
            name = $0; sub(/^ *(pub )?const /, "", name); sub(/:.*/, "", name)
            text = ""
        }
        name { text = text " " $0 }
        # the semicolon that ends it, and not the one in an array type
        name && /; *$/ {
            sub(/^[^=]*=/, "", text); sub(/; *$/, "", text)
            print name, spelled(text)
            name = ""
        }' "$1"
}

# value NAME: its value among the lines read.
value() { awk -v name="$1" '$1 == name { print $2 }'; }

# pairs CODES LEVELS: two arrays as one of pairs.
pairs() {
    paste -d ',' <(tr -d '[]' <<< "$1" | tr ',' '\n') <(tr -d '[]' <<< "$2" | tr ',' '\n') \
        | sed 's/.*/(&)/' | paste -s -d ',' | sed 's/.*/[&]/'
}

theirs=$(declared "$published") ours=$(declared "$constants") tables=$(declared "$window")
compared=0 failed=0

# same NAME OURS: one constant compared with the published one of that name.
same() {
    local published_value
    published_value=$(value "$1" <<< "$theirs")
    compared=$((compared + 1))
    [ -n "$2" ] && [ "$2" = "$published_value" ] && return
    failed=$((failed + 1))
    echo "$1 is '$2', in the published text '$published_value'"
}

while read -r name number; do
    [ "$name" = "$own_name" ] || same "$name" "$number"
done <<< "$ours"
for table in CMP_RH CMP_RL; do
    same "$table" "$(pairs "$(value "${table}_CODE" <<< "$tables")" "$(value "${table}_LEVEL" <<< "$tables")")"
done
same M "$(value M <<< "$tables")"

# Those of pw.h: PW_ and the published name, but that the published text calls the gain job JOB_VCAL and has no
# names for no job and no hint.
while read -r name number; do
    case $name in
        JOB_NONE | HINT_NONE) ;;
        JOB_GAIN) same JOB_VCAL "${number,,}" ;;
        *) same "$name" "${number,,}" ;;
    esac
done < <(sed -nE 's/^#define PW_((MAIN|R34|R20|COUP|JR|CAL|HINT|JOB)_[A-Z0-9_]+) ([0-9A-Fx]+).*/\1 \3/p' "$header")
same RING_N "$(sed -n 's/^enum { PW_RING = \([0-9]*\) };$/\1/p' "$header")"
theirs=$(declared "$chip")
for flag in INTF_AD1 INTF_LPF INTF_RMS; do
    number=$(sed -nE "s/^#define PW_$flag (0x[0-9A-F]+).*/\\1/p" "$header")
    for bit in 0 1 2 3 4 5 6 7; do [ "$((number))" -ne $((1 << bit)) ] || same "$flag" "1<<$bit"; done
done

# literals: the string literals of the lines read, each once, without their marks, the micro sign as u.
# Comments are left out.
literals() { sed 's,//.*,,' | grep -o '"[^"]*"' | sed 's/^"//; s/"$//; s/\\u{b5}/u/' | sort -u; }

# body FUNCTION: the lines of a published function, up to the bracket below its first letter.
body() {
    awk -v name="fn $1(" '
        !inside && index($0, name) { inside = 1; match($0, /^ */); indent = RLENGTH }
        inside
        inside && match($0, /^ *}/) && RLENGTH == indent + 1 { exit }' "$published"
}

# same_texts WHAT NUMBER OURS THEIRS: as many texts, each of them on both sides.
same_texts() {
    compared=$((compared + $2))
    [ "$(wc -l <<< "$3")" -eq "$2" ] && [ "$3" = "$4" ] && return
    failed=$((failed + 1))
    echo "$1: ours are $(paste -s -d , <<< "$3"), the published text's $(paste -s -d , <<< "$4")"
}
array() { sed -n "/$1\[.*\] = {/,/};/p" "$2"; }
named() { sed -n "/^const char \*$1(/,/^}/p" "$names" | grep '\[PW_'; }
units=$(for name in energy_format p_format reading_vals bt_main; do body "$name"; done | literals)
same_texts "names of units" 16 "$(named pw_unit_name | literals)" "$units"
texts=$(body pw_partial | literals | grep -v '^V$')
same_texts "texts of pw_partial" 3 "$(named pw_partial_name | literals | grep .)" "$texts"
same_texts "texts of pw_partial in $shown" 3 "$(array 'const partial_texts' "$shown" | literals | grep .)" "$texts"

# All that constants.rt declares was read, and that is not too little.
[ "$(grep -c '^pub const ' "$constants")" -eq "$(wc -l <<< "$ours")" ] || fail "not every constant of $constants was read"
[ "$compared" -ge 117 ] || fail "only $compared constants were compared"
echo "constants: $compared compared with the published text, $failed differ"
[ "$failed" -eq 0 ]
