#!/bin/bash
# tests/frames.sh SEED CALLS [PROGRAM]: CALLS random calls of physical signals, jobs and orders (pwgen script) and
# twice CALLS of tests/frame_lines.c, made to the published Rust (built here) with a dump after each;
# does PROGRAM (build/frames) find that the leaves of a frame, of an apply, of the jobs and of the phase calibration
# do the same, and that the same values are read off the meter after each? From 10,000 calls on each of its cases
# must be met, the oftener the more calls there are.
set -u -o pipefail
cd "$(dirname "$0")/.." || exit 1
. tests/answers.sh

seed=${1-} calls=${2-} program=${3-build/frames}
[[ $seed =~ ^[0-9]{1,18}$ && $calls =~ ^[1-9][0-9]{0,8}$ ]] || fail "usage: tests/frames.sh SEED CALLS [PROGRAM]"
work=$(mktemp -d) || exit 1
trap 'rm -rf "$work"' EXIT
least=$((calls / 10000))

build_oracle
frame_script "$seed" "$calls" $((2 * calls)) > "$work/script" || fail "there is no script"
transcript "$work/script" | "$program" "$least" \
    || fail "seed $seed: $program and the oracle differ, or a case was not met $least times"
echo "frames: seed $seed, three times $calls calls, no difference ($("$oracle_folder/pworacle" --source))"
