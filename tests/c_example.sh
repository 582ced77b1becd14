#!/usr/bin/env bash
# Compiles examples/check.c against include/bleiwurzel.h, links the static library, runs it and compares what it prints. Then the same for
# tests/c_interface.c, which calls every function of the header and prints nothing where all is well.
set -eu
cd "$(dirname "$0")/.."
library=crates/bleiwurzel/out/libbleiwurzel.a
[ -f "$library" ] || { echo "$library is missing: run 'rt lib' in crates/bleiwurzel first" >&2; exit 1; }
folder=$(mktemp -d)
trap 'rm -rf "$folder"' EXIT
build() { cc -Wall -Wextra -Werror -std=c11 -Iinclude "$1" "$library" -o "$2"; }
build examples/check.c "$folder/check"
"$folder/check" >"$folder/out"
diff "$folder/out" tests/c_example.out
build tests/c_interface.c "$folder/interface"
"$folder/interface"
