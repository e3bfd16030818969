#!/bin/sh
# Builds the C test with the static library, as C11 and as C++11, and runs both; then the example, whose output is compared.
set -eu
cd "$(dirname "$0")/../.."
library=target/staticlib/libcellang.a
if [ ! -f "$library" ]; then
    echo "$library is missing: run \`tools/archive.py\` first" >&2
    exit 1
fi
folder=$(mktemp -d)
trap 'rm -r "$folder"' EXIT
flags='-Wall -Wextra -Wpedantic -Werror -O2 -Iinclude'
"${CC:-cc}" -std=c11 $flags bindings/c/test.c "$library" -o "$folder/test_c"
"${CXX:-c++}" -std=c++11 $flags -x c++ bindings/c/test.c -x none "$library" -o "$folder/test_cpp"
"$folder/test_c"
"$folder/test_cpp"
"${CC:-cc}" -std=c11 $flags bindings/c/life.c "$library" -o "$folder/life"
"$folder/life" | diff bindings/c/life.stdout -
