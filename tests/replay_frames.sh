#!/bin/bash
# tests/replay_frames.sh PROGRAM TRANSCRIPT: PROGRAM (build/frames) finds no difference in the transcript that
# record.sh wrote, and meets each of its cases: three times, and those of the jobs, which take many frames, once.
# Needs no oracle.
set -u -o pipefail
cd "$(dirname "$0")/.." || exit 1
. tests/answers.sh

[ $# -eq 2 ] || fail "usage: tests/replay_frames.sh PROGRAM TRANSCRIPT"
grep -q '^# .* fnv1a64 [0-9a-f]\{16\} (unchanged)$' "$2" || fail "$2 does not name its source"
"$1" 3 1 < "$2" || fail "$2: $1 differs from the record, or a case was not met so many times"
