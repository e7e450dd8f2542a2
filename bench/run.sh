#!/bin/sh
# Builds this package and runs the comparison and the timing. The program is taken in where `rt run` in crates/paydesk builds
# it, and so is a static library paybook, once there is one. Arguments go to `diff`: --cases N, --seed S.
set -eu
cd "$(dirname "$0")"
features=
if [ -f "${PAYBOOK_LIB:-../crates/paybook/out}/libpaybook.a" ]; then features="--features library"; fi
cargo build --release --offline $features
cargo test --release --offline --quiet $features --test examples --test files --test derivations
target/release/diff "$@"
if [ -x ../crates/paydesk/out/paydesk ]; then target/release/diff --program ../crates/paydesk/out/paydesk "$@"; fi
target/release/speed
