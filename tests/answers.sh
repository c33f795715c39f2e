# shellcheck shell=bash
# Sourced by the scripts of this folder and by host/speed.sh, from the repository's root.
# tests/served holds the names of the functions that pwscript serves. The lines of these functions are
# compared, and the `meter` lines between them, from which some of them read; nothing else says which.

. tests/where.sh
oracle_folder=build/oracle/release

fail() {
    echo "$0: $*" >&2
    exit 1
}

# build_oracle: pworacle and pwgen, in build/oracle; nothing is done where they are up to date.
build_oracle() {
    [ -f "$oracle_manifest" ] || fail "$oracle_manifest is not there"
    CARGO_TARGET_DIR=build/oracle cargo build --quiet --release --offline --manifest-path "$oracle_manifest" \
        || fail "the oracle does not build"
}

# plain_meter: a call that makes one.
plain_meter() {
    echo "meter 3f800000 3f800000 3f800000 3f800000 3f800000 3f800000 0 0 z73"
}

# served_lines SEED LINES: that many lines, from `pwgen funcs SEED`: those of served functions, and every
# `meter` line between them, which counts as a line. The first line makes a plain meter, since the one
# that pwgen starts with may be refused, and `f v_gain` asks for a meter; then come lines of the functions
# that are not drawn. pwgen is asked for twice as many lines, since it may draw other functions as
# well.
served_lines() {
    "$oracle_folder/pwgen" funcs "$1" $((2 * $2 + 1000)) | awk -v lines="$2" -v meter="$(plain_meter)" '
        function take(line) { if (n < lines) { print line; n++ } }
        BEGIN { take(meter); take("f zero"); take("f ring_text"); take("f coup_name 3") }
        NR == FNR { served[$1]; next }
        $1 == "meter" || $1 == "f" && ($2 in served) { take($0) }' tests/served -
}

# meters QUESTIONS: how many of them are `meter` lines.
meters() {
    grep -a -c '^meter ' "$1"
}

# questions SCRIPT: its lines without comments and empty lines.
questions() {
    grep -a -v -e '^#' -e '^$' "$1"
}

# The next answer of a file, for awk: its line and those that go on with it, a reading or the rest of a dump.
next_answer='
    function answer(file,    whole, line) {
        if (!(file in ahead) && (getline line < file) > 0) ahead[file] = line
        if (!(file in ahead)) return "(no answer)"
        whole = ahead[file]
        delete ahead[file]
        while ((getline line < file) > 0) {
            if (line !~ /^(R |D[1-9])/) { ahead[file] = line; break }
            whole = whole "\n           " line
        }
        return whole
    }'

# first_difference QUESTIONS EXPECTED GOT
first_difference() {
    awk -v expected="$2" -v got="$3" "$next_answer"'
        {
            e = answer(expected)
            g = answer(got)
            if (e "" != g "") { printf "line %d: %s\n  expected %s\n  got      %s\n", NR, $0, e, g; exit }
        }' "$1"
}

# first_question QUESTIONS EXPECTED GOT: the number of the first one that is answered differently.
first_question() {
    awk -v expected="$2" -v got="$3" "$next_answer"'
        { if (answer(expected) "" != answer(got) "") { found = NR; exit } }
        END { print found ? found : NR }' "$1"
}

# calls SCRIPT: the calls to a meter among its lines.
calls() {
    grep -a -E '^(meter|on|off|method|ranges|coupling|zero|gain|phase|ereset|run|set|reapply|frame)( |$)' "$1"
}

# with_hashes CALLS: each call, and behind it `hash`.
with_hashes() {
    sed 'a hash' "$1"
}

# answered ANSWERS: how many answers there are.
answered() {
    grep -a -c -v -e '^R ' -e '^D[1-9]' "$1"
}

# same_answers QUESTIONS EXPECTED GOT: true if there is a question, both have one answer to each of
# them, byte for byte the same, and none is `?` or a panic; otherwise it says what is wrong.
same_answers() {
    local lines file bad
    lines=$(wc -l < "$1")
    [ "$lines" -gt 0 ] || { echo "there is no question"; return 1; }
    if ! cmp -s "$2" "$3"; then
        first_difference "$1" "$2" "$3"
        echo "$lines questions, $(answered "$2") answers expected, $(answered "$3") got"
        return 1
    fi
    for file in "$2" "$3"; do
        [ "$(answered "$file")" -eq "$lines" ] || { echo "not $lines answers in $file"; return 1; }
        if bad=$(grep -a -n -m 1 -e '^?$' -e PANIC -e '^$' "$file"); then
            echo "no figure in $file, line $bad"
            return 1
        fi
    done
}

# What calls of every kind meet: the refusals, each end that a job of each kind and a phase calibration can have,
# the paths that a frame can take, and settings while on, while off and in a job.
every_case=(refusal\ {1..8} "set "{on,off,job} "end zero "{OK,SIGNAL,ABORT,METHOD} "end gain "{OK,SMALL,BIG,UNSTABLE,RANGE,ABORT,METHOD}
    "path "{B,alternating,DC,job} "phase "{OK,FLAT,NOT_REACTIVE,RANGE})

# oracle_answers QUESTIONS MET: the published Rust's answers, and what was met is added to MET (tests/coverage.c).
# shellcheck disable=SC2094 # QUESTIONS are read twice, not written
oracle_answers() {
    "$oracle_folder/pworacle" --dump < "$1" | build/coverage "$1" "$2"
}

# summed MET: what was met, each with the sum of its numbers.
summed() {
    awk '{ n = $1; sub(/^[0-9]+ /, ""); sum[$0] += n } END { for (what in sum) print what " " sum[what] }' "$1" | sort -V
}

# not_met SUMMED: each case that is not in it.
not_met() {
    local what
    for what in "${every_case[@]}"; do grep -q "^$what " "$1" || echo "$what"; done
}

# frame_script SEED SIGNALS LIMITS [SEED..]: a plain meter, so many calls of physical signals, jobs and orders
# (pwgen script), and so many of tests/frame_lines.c, for each of the seeds behind where there are any.
frame_script() {
    local seed=$1 signals=$2 limits=$3
    shift 3
    plain_meter
    "$oracle_folder/pwgen" script "$seed" "$signals" 0 || return
    for seed in "${@:-$seed}"; do build/frame_lines "$seed" "$limits" || return; done
}

# transcript SCRIPT: the calls of SCRIPT, each behind `> `, with the published Rust's answers, and of each dump
# the words that are not as in the dump before (tests/transcript.h). A conversion of the ring is a word. The
# state (D9) is left out where it is as the values (D8), and D11 where it is as before. The script begins with a
# meter that is made, since there is no dump without one.
transcript() {
    questions "$1" | sed '/^meter /a dump' | "$oracle_folder/pworacle" --dump | awk -v calls="$1" '
        # the word, if its value is not the last one
        function changed(last, key, value) {
            if (key in last && last[key] "" == value "") return ""
            last[key] = value
            return " " key "=" value
        }
        # such words of the line, from word number k on
        function words_of(last, k,    at, words) {
            for (; k <= NF; k++) {
                at = index($k, "=")
                words = words changed(last, substr($k, 1, at - 1), substr($k, at + 1))
            }
            return words
        }
        function put_dump() {
            if (words != "") print "D" words
            printf "%s", lines
            words = lines = ""
        }
        function next_call() {
            do { if ((getline call < calls) <= 0) return 0 } while (call == "" || call ~ /^#/)
            return 1
        }
        /^[0-9] mark=/ {
            put_dump()
            if (!next_call()) { print "more answers than calls"; exit 1 }
            print "> " call
            print
            next
        }
        # Where there are values, the state is they.
        /^D9 / && measured {
            as_vals = 1
            if (substr($0, length("D9 state ") + 1) != substr(whole["D8"], length("D8 vals ") + 1)) lines = lines $0 "\n"
            next
        }
        /^D9 / && as_vals {
            for (key in vals) state[key] = vals[key]
            as_vals = 0
            whole["D9"] = ""
        }
        /^D[0-9]+ / {
            if (whole[$1] == $0) next
            whole[$1] = $0
        }
        /^D8 / {
            measured = $3 != "none"
            lines = lines "D8 vals" (measured ? words_of(vals, 3) : " none") "\n"
            next
        }
        /^D9 / { lines = lines "D9 state" words_of(state, 3) "\n"; next }
        /^D10 / { lines = lines "D10" words_of(shown, 2) "\n"; next }
        /^D11 / { lines = lines $0 "\n"; next }
        /^D7 / {
            slots = split(substr($4, length("ring=") + 1), slot, ",")
            NF = 3
            words = words words_of(meter, 2)
            for (j = 1; j <= slots; j++) words = words changed(meter, "ring." (j - 1), slot[j])
            next
        }
        /^D/ { words = words words_of(meter, 2); next }
        /^\?/ { print }
        END { put_dump(); if (next_call()) { print "more calls than answers"; exit 1 } }'
}
