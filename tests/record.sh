#!/bin/bash
# tests/record.sh [SEED [LINES]]: writes the samples that replay.sh replays, the one of frames that
# replay_frames.sh does, the answers that test_pwline.sh expects, and the licence figures of the day that
# test_bench.sh replays. All answers are those of the published Rust; neither pwscript nor
# frames nor pwline has a part in it.
set -u -o pipefail
cd "$(dirname "$0")/.." || exit 1
. tests/answers.sh
. tests/day.sh

seed=${1-20260} lines=${2-4000}
[[ $seed =~ ^[0-9]{1,18}$ && $lines =~ ^[1-9][0-9]{0,8}$ ]] || fail "usage: tests/record.sh [SEED [LINES]]"
work=$(mktemp -d) || exit 1
trap 'rm -rf "$work"' EXIT

build_oracle
source=$("$oracle_folder/pworacle" --source)
[[ $source == *" (unchanged)" ]] || fail "the oracle was not built from the published source: $source"

# record NAME SCRIPT COMMENT: the oracle's answers to SCRIPT, to tests/recorded/NAME.answers
record() {
    questions "$2" > "$work/questions" || fail "no question in $2"
    "$oracle_folder/pworacle" < "$2" | grep -a -v '^#' > "$work/answers" || fail "the oracle failed on $2"
    same_answers "$work/questions" "$work/answers" "$work/answers" || fail "the oracle did not answer all of $2"
    { echo "# $3"; echo "# answers of $source"; cat "$work/answers"; } > "tests/recorded/$1.answers"
}

served_lines "$seed" "$lines" > "$work/lines" || fail "pwgen failed"
[ "$(wc -l < "$work/lines")" -eq "$lines" ] || fail "pwgen did not give $lines lines of served functions"
origin="tests/record.sh $seed $lines: pwgen funcs, seed $seed, $lines lines of the functions in tests/served and of meters"
{ echo "# $origin"; echo "# answered by $source"; cat "$work/lines"; } > tests/recorded/functions.script
record functions tests/recorded/functions.script "$origin"
record limits tests/limits.script "tests/record.sh: tests/limits.script, $(questions tests/limits.script | wc -l) lines"

# The calls: those at the limits, and of seeds by which each case of tests/coverage.c is met, whatever SEED is.
make --no-print-directory build/frame_lines build/coverage || fail "frame_lines or coverage does not build"
signals_seeds=(90 60 17 62) signals=400 limits_seeds=(96 16 82 46) limits=300
{
    cat tests/limits_calls.script
    for k in "${signals_seeds[@]}"; do plain_meter; "$oracle_folder/pwgen" script "$k" "$signals" 0; done
    for k in "${limits_seeds[@]}"; do build/frame_lines "$k" "$limits"; done
} > "$work/script"
calls "$work/script" > "$work/calls"
with_hashes "$work/calls" > "$work/questions"
oracle_answers "$work/questions" "$work/met" > "$work/expected" || fail "the oracle or coverage failed"
summed "$work/met" > "$work/summed"
[ -z "$(not_met "$work/summed")" ] || fail "not met by the calls: $(not_met "$work/summed")"
origin="tests/record.sh: tests/limits_calls.script, pwgen script, $signals calls each of seeds ${signals_seeds[*]}, frame_lines, $limits each of ${limits_seeds[*]}"
{
    echo "# $origin"
    echo "# answered by $source"
    sed -e 'a hash' -e '0~200a dump\nf ring_text\nf v_gain 0\nf v_gain 1\nf v_gain 2\nf v_gain 3' "$work/calls"
} > tests/recorded/calls.script
record calls tests/recorded/calls.script "$origin"

# pwline's lines, which test_pwline.sh replays.
{
    echo "# tests/record.sh: tests/pwline.lines"
    echo "# answers of $source"
    "$oracle_folder/pworacle" --pwline < tests/pwline.lines || fail "the oracle failed on tests/pwline.lines"
} > tests/recorded/pwline.answers

# The frames: seeds by which each case of tests/frames.c, tests/jobs.c and tests/values.c is met, whatever SEED is.
signals_seed=7 signals=600 limits_seeds=(1757 362 1216 2394 1656 550 1305 338 1287 713 2045) limits=200
frame_script "$signals_seed" "$signals" "$limits" "${limits_seeds[@]}" > "$work/script" || fail "there is no script of frames"
transcript "$work/script" > "$work/transcript" || fail "the oracle did not answer all of the frames"
{
    echo "# tests/record.sh: pwgen script, seed $signals_seed, $signals calls, and frame_lines, $limits calls each of seeds ${limits_seeds[*]}"
    echo "# answers of $source"
    cat "$work/transcript"
} > tests/recorded/frames.transcript
# The day of make run.
make --no-print-directory build/day.rec || fail "there is no recording of a day"
oracle_figures build/day.rec > tests/recorded/day.figures || fail "the oracle failed over the day"
echo "record: seed $seed, $lines lines, tests/limits.script, $(wc -l < "$work/calls") calls, and $((signals + limits * ${#limits_seeds[@]})) calls of frames ($source)"
