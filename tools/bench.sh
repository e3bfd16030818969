#!/usr/bin/env bash
# Makes all benchmarks of docs/BENCHMARKS.md again: reading, full runs, quiet runs, growth, value lists, row counts, and bands of rows.
set -eu
cd "$(dirname "$0")/.."
(cd crates/vectors && rt run </dev/null >&2)
python3 tools/bench_checks.py
tools/bench_runs.sh
