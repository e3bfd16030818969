#!/usr/bin/env bash
# Proves and builds run_rule, check_one_move and compare_grids, runs the command of each example in a copy of its folder, and compares what it writes with the
# stored output. Then the second program runs the same rules, and its grids are compared too. With --built the programs are taken as they are.
set -eu
cd "$(dirname "$0")/.."
root=$PWD
# `rt run` proves, builds and runs a program, here with no input; what it proved is kept.
[ "${1:-}" = --built ] || for program in run_rule check_one_move compare_grids; do
    (cd "crates/$program" && rt run </dev/null >/dev/null)
done
room=$(mktemp -d)
trap 'rm -rf "$room"' EXIT
mkdir "$room/bin"
for program in run_rule check_one_move compare_grids; do
    cp "crates/$program/out/$program" "$room/bin/$program"
done
cp tools/picture.py "$room/bin/picture.py"
chmod +x "$room/bin/picture.py"
for example in life shift edge difference refused fault archive badlist pause zeros bands one_move; do
    cp -R "examples/$example" "$room/$example"
    (cd "$room/$example" && PATH="$room/bin:$PATH" sh ./command >wrote)
    cmp "$room/$example/wrote" "examples/$example/output"
    python3 examples/second.py "$root" "$room/$example"
    echo "$example: the output is the stored one"
done
