#!/usr/bin/env bash
# Builds the static library, and runs the tests of the C header and of the Rust crate over it, and the example that compares what it does. With --built the
# crates below it are taken as `rt ci` has left them.
set -eu
cd "$(dirname "$0")/.."
tools/archive.py "$@"
bindings/c/test.sh
cargo test --quiet --release --offline --manifest-path bindings/rust/Cargo.toml
cargo run --quiet --release --offline --manifest-path bindings/rust/Cargo.toml --example stream
