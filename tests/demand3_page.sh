#!/bin/bash
# demand3_page.sh: docs/DEMAND3.md quotes the definitions as they stand, each in the file named above its table; its
# tables of edits have those of crates/book and crates/host_calls, in their words; and the C functions have the contracts
# of those in crates/pw that crates/host_calls calls, whose contracts state the theorem of them: one function for each call,
# on its own arguments in their order.
set -euo pipefail
cd "$(dirname "${BASH_SOURCE[0]}")/.."
page=docs/DEMAND3.md

fail() {
    echo "demand3_page: $*"
    exit 1
}

# squeeze: one line, one space between words
squeeze() { tr -s ' \n' ' '; }

# rows: of each row of a table the file last named as "Of FILE", the heading of its second column, and both its cells.
rows() {
    awk -F ' [|] ' -v OFS='\037' '
        match($0, /Of crates\/[A-Za-z0-9_\/]*\.(antt|rt)/) {file = substr($0, RSTART + 3, RLENGTH - 3)}
        !/^\|/ {heading = ""; next}
        /^\|---/ {next}
        {sub(/^\|/, ""); sub(/ *\|$/, ""); sub(/^ +/, "", $1)}
        heading == "" {heading = $2; next}
        {print file, heading, $1, $2}' "$page"
}

# Each row has a quotation. Comments may stand between the lines that one joins.
quoted=0 edits=0
while IFS=$'\037' read -r file heading first second; do
    case $heading in
        "in the logic")
            specs=$(sed -e 's/^ *--.*//' -e 's/^ *\/\/.*//' "$file" | squeeze)
            found=0
            while IFS= read -r quotation; do
                [[ $specs == *"$quotation"* ]] || fail "not in $file: $quotation"
                found=$((found + 1))
            done < <(grep -o '`[^`]*`' <<< "$second" | tr -d '`' | sed 's/  */ /g')
            [ $found -gt 0 ] || fail "a row quotes nothing: $first"
            quoted=$((quoted + found))
            ;;
        wrong)
            [ "$(cat crates/{book,host_calls}/must-fail/"$first.edit" 2> /dev/null | head -n 1)" = "# $second" ] || fail "the edit $first says something else"
            edits=$((edits + 1))
            ;;
        "its contract says") ;;
        *) fail "a table headed $heading" ;;
    esac
done < <(rows)
there=$(find crates/{book,host_calls}/must-fail -name '*.edit' | wc -l)
[ "$edits" -eq "$there" ] || fail "$edits edits on the page, $there in crates/book and crates/host_calls"
[ "$quoted" -gt 0 ] || fail "no quotation was found"

# What crates/pw_c exports has the contract of the function of crates/pw that it calls, word for word: the theorems are
# over that crate's.
contracts() { sed -n '/^pub .*fn /,/^{$/{/^{$/!p}' "$1" | sed 's/^pub extern "C" fn/pub fn/'; }
exports=0
for file in calls shown lib; do
    diff <(contracts crates/pw/src/$file.rt) <(contracts crates/pw_c/src/$file.rt) || fail "contracts of crates/pw and crates/pw_c differ in $file.rt"
    exports=$((exports + $(contracts crates/pw_c/src/$file.rt | grep -c '^pub fn')))
done
[ "$exports" -eq "$(grep -c 'no_mangle' crates/pw_c/src/*.rt | awk -F: '{n += $2} END {print n}')" ] || fail "$exports contracts were read"

# The functions that hand back a meter: name, parameters behind the meter, and the call whose step they return.
returned=$(sed -n '/^pub extern "C" fn .*-> HostStep$/{N;s/^pub extern "C" fn \([a-z_]*\)(meter: Pw\(.*\)) -> HostStep\n *ensures { result ≡ host_step (step meter \(.*\)) }$/\1\2 = \3/;s/, \([a-z]*\): [^,=]*[^,= ]/ \1/g;p}' crates/pw_c/src/calls.rt)
diff <(cat << 'END'
pw_on time = (On time)
pw_off time = (Off time)
pw_method time alt = (Method time alt)
pw_ranges time v i = (SetRanges time (ask_of v) (ask_of i))
pw_coupling time coup = (Coupling time coup)
pw_zero_job time = (ZeroJob time)
pw_gain_job time = (GainJob time)
pw_phase_start = PhaseStart
pw_energy_reset = EnergyReset
pw_run run = (Run run)
pw_set_settings settings = (SetSettings settings)
pw_reapply time = (Reapply time)
pw_frame time flags bytes = (Frame time flags bytes.now)
END
) <(echo "$returned") || fail "a contract of the C interface is another"
grep -q -F -x '    ensures { result ≡ host_made (make description words.now valid) }' crates/pw_c/src/calls.rt || fail "the contract of pw_make is another"

# Each C function that hands back a meter is one that a host's calls are run by, and they are all the calls there are.
calls=$(sed -n 's/^pub extern "C" fn \([a-z_]*\)(.*-> HostStep$/\1/p' crates/pw_c/src/calls.rt | sort)
diff <(echo "$calls") <(sed -n 's/.*=> pw::calls::\([a-z_]*\)(meter.*/\1/p' crates/host_calls/src/lib.rt | sort) || fail "the calls of crates/host_calls are others"
diff <(sed -n '/^pub data Call /,/^$/s/^  \([A-Za-z]*\) : .*/\1/p' crates/meter/specs/Calls.antt | sort) \
    <(sed -n 's/^call_of .* = \([A-Za-z]*\).*/\1/p' crates/host_calls/specs/Calls.antt | sort) || fail "the calls are others"
echo "demand3_page: $quoted quotations, $edits edits, $exports contracts, $(wc -w <<< "$calls") calls"
