#!/usr/bin/env bash
# Compares the proved checker with the second program on generated sources, and says how many agreed: the reply; the sums of every word of the word table
# and of the name list, each word times its number; and the rule of the profile of 6/13 that is missed (crates/vectors).
#
#     tools/agree_checks.sh SEED COUNT [checks|near]
#
# `near` has sources that are in the profile, or one or two changes away from it.
# Needs `rt run </dev/null` in crates/vectors, or `rt ci`, to have been run, which leaves the program in crates/vectors/out.
set -eu
cd "$(dirname "$0")/.."
seed=${1:-1}
count=${2:-1000000}
kind=${3:-checks}
case $kind in
checks) said='checks agreed' ;;
near) said='checks of sources near the profile agreed' ;;
*) echo "no such kind: $kind" >&2 && exit 2 ;;
esac
vectors=crates/vectors/out/vectors
[ -x "$vectors" ] || { echo "$vectors is missing: run \`rt run </dev/null\` in crates/vectors first" >&2 && exit 1; }
cargo build --quiet --release --offline --manifest-path reference/Cargo.toml
reference=reference/target/release/reference
same=$(cmp <("$reference" stream "$kind" "$seed" "$count" | "$vectors") \
  <("$reference" stream "$kind" "$seed" "$count" --replies) && echo yes)
[ "$same" = yes ]
echo "$count $said (seed $seed)"
