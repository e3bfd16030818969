#!/bin/sh
# Builds the static library of the proved calls, and times runs of it beside the second program's interpreter and loops written by hand.
#
#     tools/bench_runs.sh [TIMES [full|quiet|growth|lists|counts|bands|memory]]
#
# The best of TIMES runs counts (default 3).
set -e
cd "$(dirname "$0")/.."
tools/archive.py >&2
cargo build --release --offline --quiet --manifest-path bench/Cargo.toml
exec bench/target/release/bench "$@"
