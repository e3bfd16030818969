#!/usr/bin/env bash
# Compares the library's calls on bands of rows with the second program on generated cases, and says how many agreed, by reply: every number that is returned,
# and every entry of every room. Runs under a plan are compared with the library's own full run too. It is the test bands_compared of the Rust crate,
# with other cases than the test has by itself.
#
#     tools/agree_bands.sh SEED COUNT [plans|planners|band_calls|runs]
#
# COUNT cases of each kind, or of the kind named: plan checks, each with a question for the border rows; planner calls; band calls; runs under a plan.
# Needs `tools/archive.py` to have been run.
set -euo pipefail
cd "$(dirname "$0")/.."
[ -f target/staticlib/libcellang.a ] || { echo 'the static library is missing: run `tools/archive.py` first' >&2 && exit 1; }
export CELLANG_SEED=${1:-1} CELLANG_CASES=${2:-200000}
for kind in ${3:-plans planners band_calls runs}; do
    cargo test --quiet --release --offline --manifest-path bindings/rust/Cargo.toml --test bands_compared -- --exact "$kind" --nocapture |
        grep 'compared; by reply'
done
echo "all agreed (seed $CELLANG_SEED)"
