#!/usr/bin/env bash
# Compares the proved runs, full and quiet, paused and resumed, and the proved writer with the second program on generated cases, and says how many
# agreed.
#
#     tools/agree_runs.sh SEED COUNT [runs|lists|writings|chains|resumed|counted|moving|shown]
#
# COUNT cases of each kind, or of the kind named: runs, of which half have a list; runs whose list is at a limit or damaged in most cases; writings;
# chains of calls that resume one another, each chain with the run at once that it has to equal; runs that are resumed with any marks; runs in every
# manner that count the zeros of their rows; runs in every manner, and writings, of rules that move a pixel once, few of them near such a rule.
# Needs `rt run </dev/null` in crates/vectors, or `rt ci`, to have been run, which leaves the program in crates/vectors/out.
set -euo pipefail
cd "$(dirname "$0")/.."
seed=${1:-1}
count=${2:-100000}
vectors=crates/vectors/out/vectors
[ -x "$vectors" ] || { echo "$vectors is missing: run \`rt run </dev/null\` in crates/vectors first" >&2 && exit 1; }
cargo build --quiet --release --offline --manifest-path reference/Cargo.toml
reference=reference/target/release/reference
work=$(mktemp -d)
trap 'rm -r "$work"' EXIT
for kind in ${3:-runs lists writings chains resumed counted moving shown}; do
    "$reference" stream "$kind" "$seed" "$count" | "$vectors" >"$work/proved"
    "$reference" stream "$kind" "$seed" "$count" --replies >"$work/second"
    cmp "$work/proved" "$work/second"
    lines=$(wc -l <"$work/proved")
    expected=$count
    case $kind in
    writings) said='writings agreed' ;;
    chains) said="chains of $((lines - count)) calls agreed, and with each the run at once" expected=$((lines < 2 * count ? 2 * count : lines)) ;;
    resumed) said='resumed runs agreed' ;;
    counted) said='runs that count agreed' ;;
    moving) said='runs of rules that move a pixel once agreed' ;;
    shown) said='writings of rules that move a pixel once agreed' ;;
    lists) said='runs with lists agreed, full and quiet' expected=$((2 * count)) ;;
    *) said='runs agreed, full and quiet' expected=$((2 * count)) ;;
    esac
    [ "$lines" = "$expected" ]
    echo "$count $said (seed $seed)"
done
