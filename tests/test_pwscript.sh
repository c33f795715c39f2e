#!/bin/bash
# tests/test_pwscript.sh PROGRAM: how pwscript reads lines. A bad line answers `?` and changes nothing:
# the good lines around it answer as they do alone, and the meter made before it is kept. What calls answer is
# compared with the published Rust (compare_calls.sh, recorded/calls.answers).
set -u -o pipefail
cd "$(dirname "$0")/.." || exit 1
. tests/answers.sh

[ $# -eq 1 ] || fail "usage: tests/test_pwscript.sh PROGRAM"
program=$1
work=$(mktemp -d) || exit 1
trap 'rm -rf "$work"' EXIT
checks=0 failed=0

# count WHAT STATUS: one check, held if STATUS is 0.
count() {
    checks=$((checks + 1))
    [ "$2" -eq 0 ] && return
    failed=$((failed + 1))
    echo "FAILED $1"
}

# answers WHAT EXPECTED: PROGRAM's answer to $work/in is EXPECTED (escapes as printf %b), and its status 0.
answers() {
    printf '%b' "$2" > "$work/expected"
    "$program" < "$work/in" > "$work/out" 2> "$work/err" && [ ! -s "$work/err" ] && cmp -s "$work/expected" "$work/out"
    count "$1" $?
}

# says INPUT EXPECTED, both with escapes.
says() {
    printf '%b' "$1" > "$work/in"
    answers "$1" "$2"
}

# Document 01: AD1 00 00 80; the root of 3.
ad1='f ad1 000080\n' ad1_is='= -8388608\n'
root='f sqrt 40400000\n' root_is='= 3fddb3d8\n'

# tiled TEXT COUNT: TEXT over and over, COUNT characters in all.
tiled() { yes "$1" | tr -d '\n' | head -c "$2"; }

# A meter whose words are all 1.1: the gain shows that it is still the one in force.
one=3f800000
six="$one $one $one $one $one $one"
words73=$(tiled 3f8ccccd 584)
meter="meter $six 0 1 $words73\n" made='0 mark=- used=0 reading=0\n'
gain='f v_gain 1\n' gain_is='= 3f8ccccd\n'

before=$meter$root before_is=$made$root_is after=$ad1$gain after_is=$ad1_is$gain_is
good() { says "$before$1\n$after" "$before_is$2\n$after_is"; }
bad() { good "$1" '?'; }
silent() { says "$before$1\n$after" "$before_is$after_is"; }

# The lines that are replayed are those of the served functions, of each and of no other, and meters.
[ -s tests/served ] || fail "tests/served is missing or empty"
for script in tests/limits.script tests/recorded/functions.script; do
    cmp -s <(sort tests/served) <(questions "$script" | grep -a -v '^meter ' | sed -n 's/^f \([^ ]*\)\( .*\|\)$/\1/; p' | sort -u)
    count "$script has the functions of tests/served" $?
    [ "$(meters "$script")" -gt 0 ]
    count "$script has meters" $?
done

# Every served function answers a figure, and `?` with an argument too few, too many or malformed. One
# without arguments has its name in the place of the last one.
while read -r name; do
    grep -e "^f $name " -e "^f $name\$" -e '^meter ' tests/limits.script > "$work/in"
    "$program" < "$work/in" > "$work/out"
    same_answers "$work/in" "$work/out" "$work/out" > /dev/null
    count "$name is served" $?
    line=$(grep -m 1 -e "^f $name " -e "^f $name\$" "$work/in")
    bad "${line% *}"
    bad "$line 00000000"
    bad "$line nan"
    bad "${line}x"
    bad "${line}-"
    bad "${line}\0000"
    bad "${line% *} -"
    bad "${line% *} ?"
    bad "${line/f $name/f ${name}x}"
    bad "${line/f $name/f ${name^^}}"
    bad "${line/f $name/f$name}"
    bad "${line/f $name/F $name}"
    bad "${line/f $name/f f $name}"
done < tests/served

# A line of the protocol that is not served.
bad 'f knobs'

# Bytes: too few, too many, half of one, no hex digit.
for bytes in 0000 00 0 000080ff 00008 00008g 0x0080 '+00080' '-00080' '00 0080' '00\0000080'; do bad "f ad1 $bytes"; done
for bytes in ffff 00000004 00004; do bad "f lpf $bytes"; done
for bytes in ffffffff ffffffff1f00 fffffff1f ffffffff1g ffff03; do bad "f rms $bytes"; done

# Whole numbers: the ends and one past them, signs, no digit.
good 'f i2f 9223372036854775807' '= 5f000000'
good 'f i2f -9223372036854775808' '= df000000'
good 'f u2f 18446744073709551615' '= 5f800000'
good 'f i2f +1' '= 3f800000'
for number in 9223372036854775808 -9223372036854775809 99999999999999999999 18446744073709551616 - + +-1 -+1 --1 \
    1- 1.0 1e3 0x1 1f nan '1\0000' ' ' ''; do bad "f i2f $number"; done
for number in 18446744073709551616 18446744073709551617 36893488147419103232 184467440737095516150 -1 -0 + 1.0 a; do
    bad "f u2f $number"
done

# Of a byte, of eight bits with a sign, of 32 bits.
for name in iu_ir next_coupling v_gain_factory v_gain; do
    for number in 256 -1 -0 +256 99999999999999999999 + +-1 1.0 0x1 a ''; do bad "f $name $number"; done
done
good 'f iu_ir +255' '= 0 1'
good 'f iu_ir 000000000000000000000000255' '= 0 1'
good 'f r36 +127' '= 255'
good 'f r36 -128' '= 127'
for number in 128 -129 255 -256 18446744073709551488 - + +-1 -+1 --1 1.0 0x1 a ''; do bad "f r36 $number"; done
good 'f coup_of +4294967295' '= 3'
for number in 4294967296 4294967297 -1 -0 - + 18446744073709551617 0x1 a ''; do
    bad "f coup_of $number"
    bad "f cal $number 00000000"
done

# Offsets at which the oracle panics: the word that the byte lies in, or the default past the last one.
good 'f cal 291 00000000' '= 3f8ccccd'
good 'f cal 5 00000000' '= 3f8ccccd'
good 'f cal 292 40000000' '= 40000000'
good 'f cal 4294967295 40000000' '= 40000000'

# Floats: exactly 8 hex digits of either case, or a plus sign and 7 of them, or nan.
good 'f sqrt 40C00000' '= 401cc470'
good 'f sqrt 40c00000' '= 401cc470'
good 'f sqrt +4040000' '= 21b7d375'
good 'f max +0000000 bf800000' '= 00000000'
good 'f sqrt nan' '= nan'
good 'f sqrt ffc00001' '= nan'
for float in 0 4040000 404000000 0x404000 4040000g -4040000 +40400000 ++404000 +404000 NaN NAN nan0 inf 3.0 '4040\0000000' '\0300404000'; do
    bad "f sqrt $float"
    bad "f max $float 00000000"
    bad "f max 00000000 $float"
done

# Figures. spoiled NAME ARGUMENT..: with any argument left out, doubled, or neither a float nor a whole
# number, the line is not understood.
spoiled() {
    local name=$1 k word
    local -a arguments
    shift
    for ((k = 1; k <= $#; k++)); do
        bad "f $name ${*:1:k-1} ${*:k+1}"
        bad "f $name ${*:1:k} ${*:k}"
        for word in 3f80000 3f8000000 3f80000g 0x3f8000 +3f800000 -3f80000 NaN nan0 inf full 1.0 - '3f80\0000000'; do
            arguments=("$@")
            arguments[k - 1]=$word
            bad "f $name ${arguments[*]}"
        done
    done
}
spoiled totals 40400000 40a00000 00000000 3f800000 00000000 00000000
spoiled ema 3f800000 3f000000 40400000 40000000
spoiled ema_rel 3f000000 41a00000 40400000 40000000
spoiled acc 0 00000000 3a800000
spoiled acc_wh 3600000 00000000
spoiled energy_format 3f000000 0
spoiled p_format 3f800000 3f800000 1
spoiled no_neg_zero 80000000 3
spoiled bt_mode 0 3
spoiled cal_outcome 42fefae1
spoiled vals 1 1 0 0 0 0 3f800000 3f800000 3f800000 3f800000 3f800000 3f800000

# Each argument in its place; of six answers each in its place.
good 'f totals 40400000 40a00000 00000000 3f800000 00000000 00000000' '= 40400000 40a00000 40800000 3f19999a 40a00000 3f800000'
good 'f totals c0c00000 40400000 40800000 00000000 C0000000 3F800000' '= c1900000 4171983e 00000000 bf800000 40f1983e 40000000'
good 'f ema 3f800000 3f000000 40400000 40000000' '= 40200000'
good 'f ema 3F800000 3F000000 40400001 40000000' '= 40400001'
good 'f ema_rel 3f000000 41a00000 40400000 40000000' '= 40200000'
good 'f ema_rel 3f000000 40000000 40400000 40000000' '= 40400000'
good 'f acc 0 3f7a0000 3a800000' '= 1 3f740000'
good 'f acc_wh 3600000 00000000' '= 3f800000'

# nan in each place where a float may be.
good 'f ema nan 3f000000 40400000 40000000' '= 40200000'
good 'f ema 3f800000 nan 40400000 40000000' '= nan'
good 'f ema 3f800000 3f000000 nan 40000000' '= nan'
good 'f ema 3f800000 3f000000 40400000 nan' '= nan'
good 'f ema_rel nan 41a00000 40400000 40000000' '= nan'
good 'f ema_rel 3f000000 nan 41a00000 41980000' '= 419c0000'
good 'f ema_rel 3f000000 41a00000 nan nan' '= nan'
good 'f totals nan 40a00000 00000000 3f800000 00000000 00000000' '= nan 00000000 00000000 00000000 00000000 3f800000'
good 'f totals 40400000 nan 00000000 3f800000 00000000 00000000' '= 40400000 00000000 00000000 00000000 00000000 3f800000'
good 'f totals 40400000 40a00000 00000000 nan 00000000 00000000' '= nan nan 00000000 00000000 00000000 nan'
good 'f acc 0 nan 3a800000' '= full'
good 'f acc 0 3f7a0000 nan' '= full'
good 'f acc_wh 0 nan' '= nan'

# Millijoules: both ends of 64 bits, and what is not understood one past them.
good 'f acc 9223372036854775807 00000000 00000000' '= 9223372036854775807 00000000'
good 'f acc 9223372036854775807 00000000 3a83126f' '= full'
good 'f acc -9223372036854775808 80000000 80000000' '= -9223372036854775808 80000000'
good 'f acc +0009223372036854775807 00000000 ba83126f' '= 9223372036854775806 00000000'
good 'f acc -0 00000000 00000000' '= 0 00000000'
good 'f acc_wh 9223372036854775807 00000000' '= 5415217d'
good 'f acc_wh -9223372036854775808 00000000' '= d415217d'
good 'f acc_wh -0 80000000' '= 00000000'
for number in 9223372036854775808 -9223372036854775809 18446744073709551616 - + +-1 -+1 --1 1.0 1e3 0x1 1f nan '1\0000' ''; do
    bad "f acc $number 00000000 00000000"
    bad "f acc_wh $number 00000000"
done

# Formats and values: each argument in its place, each answer in its place, and nan where a float may be.
good 'f energy_format 3f000000 0' '= 43fa0000 2 mWh'
good 'f energy_format 3F000000 1' '= 3f000000 4 VAh'
good 'f energy_format nan 0' '= nan 1 kWh'
good 'f p_format 3eb851ec bf000000 1' '= c3fa0000 2 mW'
good 'f p_format 42100000 bf000000 0' '= bf000000 3 VA'
good 'f p_format nan 3f000000 1' '= 3f000000 1 W'
good 'f p_format 42100000 nan 1' '= nan 3 W'
good 'f no_neg_zero bf000000 0' '= bf000000'
good 'f no_neg_zero beffffff +000' '= 00000000'
good 'f no_neg_zero 80000000 255' '= 80000000'
good 'f no_neg_zero nan 3' '= nan'
good 'f cal_outcome 42fefae1' '= ok 127'
good 'f cal_outcome C2FEFAE1' '= ok -127'
good 'f cal_outcome 42ff0000' '= err 5'
good 'f cal_outcome 7f800000' '= err 3'
good 'f cal_outcome nan' '= err 3'
good 'f cal_outcome 80000000' '= ok 0'
good 'f bt_mode 1 0' '= 40'
good 'f bt_mode 0 +002' '= 24'
good 'f bt_mode 0 255' '= 32'
values='3f800000 40000000 40400000 40800000 40a00000 40c00000'
good "f vals 1 4 0 0 0 0 $values" '= 3f800000,2,W,0 40400000,3,V,0 40800000,4,A,0 3f800000 40a00000,4,Wh,0 3f800000,2,V,0'
good "f vals 2 3 1 0 1 1 $values" '= 40c00000,4,VAh,0 00000000,2,V,1 457a0000,2,mA,0 00000000 00000000,2,VA,1 00000000,2,V,1'
good "f vals 0 0 0 1 0 2 $values" '= 40c00000,4,VAh,0 40400000,4,V,0 00000000,2,uA,1 00000000 00000000,4,mW,1 00000000,4,mV,1'
good "f vals +003 255 0 0 0 +255 nan nan nan nan nan nan" '= nan,3,kW,0 nan,1,V,0 nan,3,A,0 nan nan,3,kW,0 00000000,0,V,1'
good 'f zero' "= p=00000000 s=00000000 q=00000000 pf=00000000 v=00000000 i=00000000 vdc=00000000 idc=00000000 f_ok=0 \
burden_v=00000000 e_wh=00000000 vah=00000000 secs=0 p_avg=nan vr=3 ik=5 v_auto=1 i_auto=1 alt=0 dc=0 coup=1 comp=0 run=1 \
v_ol=0 i_ol=0 over=0 over_left=0 sph=0 main=0 hint=0 vp=00000000,00000000 ip=00000000,00000000 pp=00000000,00000000"

# Bools are 0 or 1; a range, a number of decimals and the main readout are bytes.
for mark in 2 -1 +1 00 01 10 true yes 0x1 - nan '1\0000'; do
    bad "f energy_format 3f000000 $mark"
    bad "f p_format 3f800000 3f800000 $mark"
    bad "f bt_mode $mark 3"
    bad "f vals 1 1 $mark 0 0 0 $values"
    bad "f vals 1 1 0 $mark 0 0 $values"
    bad "f vals 1 1 0 0 $mark 0 $values"
done
for number in 256 -1 -0 +256 99999999999999999999 + +-1 1.0 0x1 a nan '1\0000'; do
    bad "f no_neg_zero 80000000 $number"
    bad "f bt_mode 0 $number"
    bad "f vals $number 1 0 0 0 0 $values"
    bad "f vals 1 $number 0 0 0 0 $values"
    bad "f vals 1 1 0 0 0 $number $values"
done
for line in 'f zero 0' 'f zero zero' 'f zero -' 'zero' 'f zeros' 'f ZERO' 'f zero\0000'; do bad "$line"; done

# Meters. Before one is made, and after a refused one, there is no gain in force.
says "$gain" '?\n'
says "meter $six 0 1 z72\n$gain" '8 mark=- used=0 reading=0\n?\n'
says "meter nan ${six#* } 0 1 z73\n$gain" '7 mark=- used=0 reading=0\n?\n'
says "$meter$gain" "$made$gain_is"
says "meter $six 1 0 z73\n$gain" "$made= 3f800000\n"
says "meter $six 0 1 z73\nf cal 4 3f800000\n" "$made= 00000000\n"

# A refused one keeps the former; 7 comes before 8. A number of words that no memory holds is not 73
# either: the oracle ends there, at the room that it asks for.
seven='7 mark=- used=0 reading=0' eight='8 mark=- used=0 reading=0'
good "meter nan ${six#* } 0 1 z73" "$seven"
good "meter nan ${six#* } 0 1 z72" "$seven"
for number in 0 1 72 74 100 4294967369 18446744073709551615 +72 000000000000000000000000000074; do
    good "meter $six 0 1 z$number" "$eight"
    good "meter ${six% *} 00000000 0 1 z$number" "$seven"
done
good "meter $six 0 1 -" "$eight"
good "meter $six 0 1 3f800000" "$eight"
good "meter $six 0 1 ${words73#????????}" "$eight"
good "meter $six 0 1 $words73$one" "$eight"

# One that is not understood: words of the line too few and too many, floats, marks, counts, digits.
bad meter
bad "meter $six"
bad "meter $six 0"
bad "meter $six 0 1"
bad "meter ${six#* } 0 1 z73"
bad "meter $six $one 0 1 z73"
bad "meter $six 0 1 z73 z73"
bad "meter $six 0 1 z73 0 0 0 0 0"
bad "meter $six 0 1 z 73"
bad "meters $six 0 1 z73"
bad "Meter $six 0 1 z73"
bad "f meter $six 0 1 z73"
for float in 0 3f80000 3f8000000 3f80000g +3f800000 NaN nan0 1.0 -; do
    bad "meter $float ${six#* } 0 1 z73"
    bad "meter ${six% *} $float 0 1 z73"
    bad "meter ${six% *} $float 0 1 z72"
done
for mark in 2 -1 +1 00 01 10 true yes 0x1 - '1\0000'; do
    bad "meter $six $mark 1 z73"
    bad "meter $six 0 $mark z73"
done
for list in z zx z-1 z-0 z+ z73x z7.3e1 z0x49 zz73 Z73 z18446744073709551616 z18446744073709551689 z99999999999999999999 \
    nan none 0 73 -- 3f80000 3f8000000 3f80000g "${words73%?}" "${words73}0" "${words73%?}g" "g${words73#?}" "++${words73#??}" \
    "$words73$words73${words73%?}g" "0x$words73" 'z73\0000'; do
    bad "meter $six 0 1 $list"
    bad "meter ${six% *} nan 0 1 $list"
done

# Calls to a meter. `hash` before and after says that a line which is not understood has changed nothing.
on='0 mark=555 used=0 reading=0\n' hash='H f582f26fe1caf57e\n'
taken() { says "${meter}on 5\n$1\n" "$made$on$2\n"; }
refused_call() { says "${meter}on 5\nhash\n$1\nhash\n" "$made$on$hash$2 mark=- used=0 reading=0\n$hash"; }
not_understood() { says "${meter}on 5\nhash\n$1\nhash\n" "$made$on$hash?\n$hash"; }
frame14=00112233445566778899aabbccdd
calls=('on 9' 'off 9' 'method 9 1' 'ranges 9 1 2' 'coupling 9 3' 'zero 9' 'gain 9' 'phase' 'ereset' 'run 0' \
    'set 1 3c23d70a 3f000000 423e0000 40c00000 30 0' 'reapply 9' "frame 9 1c $frame14" 'frame 9 1c -')

# None before a meter is made, nor after a refused one; nor a dump or a hash.
for line in "${calls[@]}" dump hash 'f ring_text'; do
    says "$line\n" '?\n'
    says "meter $six 0 1 z72\n$line\n$ad1" "$eight\n?\n$ad1_is"
done

# A word too few or too many, another case, another name.
for line in "${calls[@]}"; do
    not_understood "$line 0"
    not_understood "$line -"
    not_understood "$line # no comment"
    not_understood "x$line"
    not_understood "${line^}"
    not_understood "${line}\0000"
    not_understood "f $line"
    [ "$line" = "${line% *}" ] || not_understood "${line% *}"
    [ "$line" = "${line#* }" ] || not_understood "${line/ /}"
done

# Times: below 2^64, with a plus sign and zeros before them as one likes; 2^48 and more are refused.
taken 'on +000007' '0 mark=557 used=0 reading=0'
taken 'on 281474976710655' '0 mark=281474976711205 used=0 reading=0'
for time in 281474976710656 18446744073709551615 +00018446744073709551615; do
    for line in "${calls[@]}"; do
        case $line in *\ 9*) refused_call "${line/ 9/ $time}" 5 ;; esac
    done
done
for time in -1 -0 + - 18446744073709551616 99999999999999999999 1.0 1e3 0x9 9a nan k '9\0000'; do
    for line in "${calls[@]}"; do
        case $line in *\ 9*) not_understood "${line/ 9/ $time}" ;; esac
    done
done

# Settings: a mark, four floats, 16 bits and 8. settings_are LINE EXPECTED: those of the dump after it.
settings_are() {
    printf '%b' "${meter}on 5\n$1\ndump\n" > "$work/in"
    "$program" < "$work/in" > "$work/out"
    [ "$(sed -n 3p "$work/out")" = '0 mark=- used=0 reading=0' ] && grep -q "^D3 .* $2\$" "$work/out"
    count "$1" $?
}
settings_are 'set 1 3c23d70a 3f000000 423e0000 40c00000 30 0' 'comp=1 r_path=3c23d70a,3f000000,423e0000 i_cont=40c00000 t_lim=30 main=0'
settings_are 'set 0 BF800000 80000000 00000001 ff7fffff 65535 255' \
    'comp=0 r_path=bf800000,80000000,00000001 i_cont=ff7fffff t_lim=65535 main=255'
settings_are 'set 1 +f800000 7f800000 ff800000 +0000000 +00000 +000' \
    'comp=1 r_path=0f800000,7f800000,ff800000 i_cont=00000000 t_lim=0 main=0'
settings_are 'set 0 nan 7f800001 ffffffff 7FC00000 00000000000000000000065535 3' 'comp=0 r_path=nan,nan,nan i_cont=nan t_lim=65535 main=3'
set_bad() { not_understood "set $*"; }
for mark in 2 -1 +1 +0 00 01 10 true yes nan - k a '1\0000'; do set_bad "$mark" "$one" "$one" "$one" "$one" 30 0; done
for float in 0 3f80000 3f8000000 3f80000g 0x3f8000 -3f80000 +3f800000 ++f80000 NaN nan0 inf 1.0 - '3f80\0000000'; do
    set_bad 1 "$float" "$one" "$one" "$one" 30 0
    set_bad 1 "$one" "$float" "$one" "$one" 30 0
    set_bad 1 "$one" "$one" "$float" "$one" 30 0
    set_bad 1 "$one" "$one" "$one" "$float" 30 0
done
for number in -1 -0 + - ++1 +-1 99999999999999999999 18446744073709551616 1.0 1e1 0x1 1a a nan '1\0000'; do
    set_bad 1 "$one" "$one" "$one" "$one" "$number" 0
    set_bad 1 "$one" "$one" "$one" "$one" 30 "$number"
done
for number in 65536 +65536 131072 4294967296; do set_bad 1 "$one" "$one" "$one" "$one" "$number" 0; done
for number in 256 +256 65535 65536; do set_bad 1 "$one" "$one" "$one" "$one" 30 "$number"; done
for words in '' 1 "1 $one" "1 $one $one $one $one" "1 $one $one $one 30 0" "1 $one $one $one $one $one 30 0" "9 1 $one $one $one $one 30 0" \
    "$one $one $one $one 30 0 1" "1 $one $one $one $one 0 0 0" "1 $one,$one,$one $one 30 0" "1 $one$one$one $one 30 0"; do
    set_bad "$words"
done
for name in sets SET settings setting se t; do not_understood "$name 1 $one $one $one $one 30 0"; done

# Marks, ranges, couplings.
for mark in 2 -1 +1 +0 00 01 10 true yes - k a; do
    not_understood "method 9 $mark"
    not_understood "run $mark"
done
taken 'ranges 9 +002 k' '0 mark=559 used=0 reading=0'
taken 'ranges 9 a 000255' '0 mark=- used=0 reading=0'
taken 'ranges 9 255 a' '0 mark=- used=0 reading=0'
taken 'coupling 9 +0255' '0 mark=559 used=0 reading=0'
for range in 256 -1 -0 + - K A ka kk aa auto keep 1.0 0x1 nan '1\0000'; do
    not_understood "ranges 9 $range k"
    not_understood "ranges 9 a $range"
    not_understood "coupling 9 $range"
done
not_understood 'coupling 9 k'
not_understood 'coupling 9 a'

# Flags: a byte in hex digits, as many as one likes. Bytes: whole ones, in either case; not 14 are refused.
for flags in 0 c 1c 1C +1c 00000000001c ff +0ff; do taken "frame 9 $flags $frame14" '0 mark=- used=0 reading=0'; done
for flags in 100 001ff -1 -0 + - ++1 g 1g 0x1c nan '1c\0000'; do not_understood "frame 9 $flags $frame14"; done
taken "frame 9 1c ${frame14^^}" '0 mark=- used=0 reading=0'
for bytes in - 00 "${frame14%??}" "${frame14}00" "$frame14$frame14"; do refused_call "frame 9 1c $bytes" 4; done
for bytes in 0 "${frame14%?}" "${frame14}0" "${frame14%?}g" "g${frame14#?}" "+${frame14#?}" "+0${frame14#??}" "0x$frame14" -- -00 nan \
    "${frame14%?}\0000"; do
    not_understood "frame 9 1c $bytes"
done

# Dumps and hashes. shape INPUT EXPECTED: the first word of each line of the answer.
shape() {
    printf '%b' "$1" > "$work/in"
    [ "$("$program" < "$work/in" | cut -d ' ' -f 1 | paste -s -d ' ')" = "$2" ]
    count "$1" $?
}
dump='D0 D1 D2 D3 D4 D5 D6 D7 D8 D9 D10 D11'
shape "${meter}dump\n" "0 $dump"
shape "dump on\n${meter}on 5\ndump off\non 6\n" "0 0 $dump 0"
shape "${meter}dump on again and again\non 281474976710656\nset\nhash\ndump\n$ad1$meter" "0 5 $dump ? H $dump = 0"
shape "${meter}dump on\ndump offf\ndump\non 5\ndump off it\non 6\n" "0 ? $dump 0 $dump 0"
for word in ON Off of onn 0 1 - now '#' 'x on'; do not_understood "dump $word"; done
for line in 'hash' 'hash on' 'hash # of the dump' 'hash 1 2 3 4 5 6 7 8 9 10 11 12 13 14 15 16 17 18'; do
    says "${meter}on 5\n$line\n" "$made$on$hash"
done
for line in hashes Hash HASH 'dumps' 'Dump'; do not_understood "$line"; done

# Bad lines of other kinds.
for line in f 'f ' x '?' '=' sqrt 'sqrt 40400000' ';' '= 3fddb3d8' 'f # sqrt' 'f sqrt # 40400000' 'f sqrt 40400000 # three' \
    '\0000' '\0377' '\0000f sqrt 40400000' 'f\0000 sqrt 40400000' 'f\vsqrt\v40400000' 'f,sqrt,40400000' \
    '//' '-- f sqrt 40400000' '\0000# no comment'; do
    bad "$line"
done

# White space around and between words, and line ends of carriage return and line feed.
for line in ' f sqrt 40c00000' 'f  sqrt   40c00000' 'f\tsqrt\t40c00000' '\t f sqrt 40c00000 \t' 'f sqrt 40c00000\r' \
    'f\fsqrt\r40c00000' '\vf sqrt 40c00000\v'; do
    good "$line" '= 401cc470'
done

# No answer: comments and empty lines.
for line in '' ' ' '\t' '\r' '\v' ' \v\f\t\r ' '#' '# f sqrt 40400000' '  # f sqrt 40400000' '#\0000' '#\0377' '#f'; do
    silent "$line"
done

# The end of the input, with and without a line feed.
says '' ''
says '\n' ''
says '\n\n\n' ''
says "$ad1" "$ad1_is"
says "$ad1${root%\\n}" "$ad1_is$root_is"
says "${ad1}f sqrt" "${ad1_is}?\n"
says "${ad1}f ad1 0000" "${ad1_is}?\n"
says "${ad1}# comment" "$ad1_is"
says "${ad1} " "$ad1_is"
says "$ad1\0000" "${ad1_is}?\n"

# Long lines. long WHAT EXPECTED reads the line (not from a pipe, which would count the check in a
# process of its own).
long() {
    { printf '%b' "$before"; cat; printf '\n%b' "$after"; } > "$work/in"
    answers "$1" "$before_is$2$after_is"
}
long 'five with three million zeros before it' '= 40a00000\n' < <(printf 'f i2f '; tiled 0 3000000; printf 5)
long 'three million digits' '?\n' < <(printf 'f i2f '; tiled 9 3000000)
long 'three million hex digits' '?\n' < <(printf 'f sqrt '; tiled 40400000 3000000)
long 'one and a half million bytes' '?\n' < <(printf 'f rms '; tiled 00 3000000)
long 'three million spaces at the end' '= 401cc470\n' < <(printf 'f sqrt 40c00000'; tiled ' ' 3000000)
long 'three million spaces between' '= 401cc470\n' < <(printf 'f'; tiled ' ' 3000000; printf 'sqrt 40c00000')
long 'a third of a million arguments' '?\n' < <(printf 'f max 00000000'; tiled ' 3f800000' 2999997)
long 'a long comment' '' < <(printf '#'; tiled ' f sqrt 40400000' 3000000)
long 'a long word' '?\n' < <(printf 'f sqrt 40400000'; tiled z 3000000)
long 'a meter of 375,000 words' "$eight\n" < <(printf 'meter %s 0 1 ' "$six"; tiled 3f8ccccd 3000000)
long 'a meter of 375,000 words with a bad digit' '?\n' < <(printf 'meter %s 0 1 ' "$six"; tiled 3f8ccccd 2999999; printf x)
long 'a meter of 73 words with three million zeros before it' "$made$made" \
    < <(printf 'meter %s 0 1 z' "$six"; tiled 0 3000000; printf '73\n%b' "${meter%\\n}")
long 'three million zero bytes' '?\n' < <(head -c 3000000 /dev/zero)
for words in 12 13 14 15 16 17; do
    long "f max with $words arguments" '?\n' < <(printf 'f max'; tiled ' nan' $((4 * words)))
done

# The status: 2 for a wrong option, 1 where the input cannot be read or the answers not written.
"$program" --no-such-option < /dev/null > "$work/out" 2> /dev/null
[ $? -eq 2 ] && [ ! -s "$work/out" ]
count 'a wrong option' $?
"$program" < . > /dev/null 2>&1
[ $? -eq 1 ]
count 'a folder as input' $?
printf '%b' "$ad1" > "$work/in"
"$program" < "$work/in" > /dev/full 2> /dev/null
[ $? -eq 1 ]
count 'a full disk' $?

# --echo: each line, then its answer.
printf '# roots\n\n%bbad' "$root" > "$work/in"
printf '# roots\n\n%b%bbad\n?\n' "$root" "$root_is" > "$work/expected"
"$program" --echo < "$work/in" > "$work/out" && cmp -s "$work/expected" "$work/out"
count '--echo' $?

echo "test_pwscript: $checks checks, $failed failed"
[ "$failed" -eq 0 ]
