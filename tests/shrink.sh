#!/bin/bash
# tests/shrink.sh SCRIPT [PROGRAM]: the calls of SCRIPT, to which PROGRAM (build/pwscript) and the published Rust
# answer differently or are left with a different meter: the fewest lines of it that still show a difference, with
# both answers and the words of the dumps that differ. Each try is one run of both programs, 600 at the most.
set -euo pipefail
cd "$(dirname "$0")/.." || exit 1
. tests/answers.sh

script=${1-} program=${2-build/pwscript} most_runs=600 runs=0 first=0
[ -f "$script" ] || fail "usage: tests/shrink.sh SCRIPT [PROGRAM]"
work=$(mktemp -d) || exit 1
trap 'rm -rf "$work"' EXIT

# runs_through CALLS: whether the program answers them all, to $work/got. One that does not end within a minute does not.
runs_through() {
    with_hashes "$1" > "$work/questions"
    timeout 60 "$program" < "$work/questions" > "$work/got" 2> /dev/null
}

# gives_up CALLS: the number of the call that it does not run through, found by halves: what it wrote before may be lost.
gives_up() {
    local low=1 high middle
    high=$(wc -l < "$1")
    while [ "$low" -lt "$high" ]; do
        middle=$(((low + high) / 2))
        head -n "$middle" "$1" > "$work/half"
        if runs_through "$work/half"; then low=$((middle + 1)); else high=$middle; fi
    done
    echo "$low"
}

# differs CALLS: whether the programs differ, and then at which call for the first time, in `first`.
differs() {
    runs=$((runs + 1))
    if ! runs_through "$1"; then
        first=$(gives_up "$1")
        return
    fi
    "$oracle_folder/pworacle" < "$work/questions" > "$work/expected" 2> /dev/null || fail "the oracle failed"
    ! cmp -s "$work/expected" "$work/got" || return 1
    first=$((($(first_question "$work/questions" "$work/expected" "$work/got") + 1) / 2))
}

# shorter CALLS: if they differ too, they are kept up to the first difference.
shorter() {
    differs "$1" || return 1
    head -n "$first" "$1" > "$work/kept"
}

# without FROM TO: the calls kept but for these.
without() {
    sed "$1,$2d" "$work/kept" > "$work/try"
}

# drop SIZE: drops as many groups of so many calls as can be spared. The first, which makes the meter, and the last
# stay.
drop() {
    local at=2 to last
    while last=$(wc -l < "$work/kept"); [ "$at" -lt "$last" ] && [ "$runs" -lt "$most_runs" ]; do
        to=$((at + $1 - 1 < last ? at + $1 - 1 : last - 1))
        without "$at" "$to"
        shorter "$work/try" || at=$((to + 1))
    done
}

build_oracle
calls "$script" > "$work/try"
shorter "$work/try" || fail "$script: no difference"

# From the last meter on, where that shows it too; then halves, quarters and so on down to single calls, until none
# can be spared.
meter=$(grep -n '^meter ' "$work/kept" | tail -n 1 | cut -d : -f 1) || meter=1
if [ "$meter" -gt 1 ]; then
    without 1 $((meter - 1))
    shorter "$work/try" || true
fi
size=$(wc -l < "$work/kept")
while size=$(((size + 1) / 2)); drop "$size"; [ "$size" -gt 1 ]; do :; done
while lines=$(wc -l < "$work/kept"); drop 1; [ "$(wc -l < "$work/kept")" -lt "$lines" ] && [ "$runs" -lt "$most_runs" ]; do :; done

echo "shrink: $(wc -l < "$work/kept") calls left after $runs runs, expected (the published Rust) and got ($program):"
{ echo "dump on"; cat "$work/kept"; } > "$work/questions"
! tail -n 1 "$work/kept" | grep -q '^meter ' || echo dump >> "$work/questions"
"$oracle_folder/pworacle" < "$work/questions" 2> /dev/null | grep -a -v '^#' > "$work/expected"
timeout 60 "$program" < "$work/questions" 2> /dev/null > "$work/got" || true
awk -v expected="$work/expected" -v got="$work/got" '
    # the next line of a program; "" at its end
    function line_of(file,    line) { return (getline line < file) > 0 ? line : "" }
    # answers, readings and dumps as an array: its lines by their first word
    function block(file, lines,    line, key) {
        delete lines
        if (!(file in ahead)) ahead[file] = line_of(file)
        for (line = ahead[file]; line != ""; line = ahead[file]) {
            key = substr(line, 1, index(line " ", " ") - 1)
            if (key !~ /^[DR]/) key = "answer"
            if (key in lines) break
            lines[key] = line
            ahead[file] = line_of(file)
            if (key == "D11") break
        }
    }
    function show(key, e, g,    n, k, a, b) {
        if (e == g || g == "") return
        n = split(e, a, " ")
        split(g, b, " ")
        for (k = 1; k <= n; k++) if (a[k] != b[k]) printf "    %s expected %s, got %s\n", key, a[k], b[k]
    }
    {
        print
        block(expected, e)
        block(got, g)
        print "  " e["answer"]
        if (e["answer"] != g["answer"]) print "  got " (g["answer"] == "" ? "no answer" : g["answer"])
        if (("R" in e) != ("R" in g)) print "  a reading of one alone"
        for (k = 0; k <= 12; k++) { key = k == 12 ? "R" : "D" k; if (key in e) show(key, e[key], g[key]) }
    }' "$work/kept"
