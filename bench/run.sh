#!/usr/bin/env bash
# Speed of one evaluation, of a whole listing and of a formula beside the same written plainly in Rust:
#     bench/run.sh [BENCH_EVALUATE [RANGES [FORMULA]]]
# All are in target/bin/, where `tools/build bench_evaluate ranges formula` builds them. Needs cargo, valgrind, strace, python3.
set -eu
cd "$(dirname "${BASH_SOURCE[0]}")/.."
bench_evaluate=$(realpath "${1:-target/bin/bench_evaluate}")
ranges=$(realpath "${2:-target/bin/ranges}")
formula=$(realpath "${3:-target/bin/formula}")
cargo build --release --offline --quiet --manifest-path bench/rust/Cargo.toml --target-dir target/bench
plain=target/bench/release
python3 bench/agree.py "$bench_evaluate" $plain/plain_evaluate "$ranges" $plain/plain_listing
python3 bench/agree_formula.py "$formula" $plain/plain_formula
python3 bench/measure.py "$bench_evaluate" $plain/plain_evaluate "$ranges" $plain/plain_listing "$formula" $plain/plain_formula
