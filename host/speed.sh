#!/bin/bash
# host/speed.sh: nanoseconds a call through the C interface, and where the oracle is there nanoseconds a frame beside
# the published Rust, both in one process. make bench builds what it needs. SPEED_LIBRARIES names archives to measure in
# place of build/proved/libpw_c.a.
set -euo pipefail
cd "$(dirname "$0")/.." || exit 1
. tests/answers.sh

build/speed_alone
if ! [ -f "$oracle_manifest" ] || ! command -v cargo > /dev/null || ! command -v rustc > /dev/null; then
    echo "no oracle here ($oracle_manifest, cargo, rustc): no times beside the published Rust"
    exit 0
fi
SPEED_ARCHIVES="$PWD/build/speed/libspeed.a ${SPEED_LIBRARIES:-$PWD/build/proved/libpw_c.a}" CARGO_TARGET_DIR=build/speed/cargo \
    cargo build --quiet --release --offline --manifest-path host/speed/Cargo.toml || fail "host/speed does not build"
echo
build/speed/cargo/release/speed
