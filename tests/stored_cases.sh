#!/bin/sh
# What the program stored_cases must print: the table tests/captures_expected.tsv in another form. A line of the table is a capture's name,
# a tab, and the whole output with \n for each line's end. The captures stand in crates/stored_cases/data, and the names in its args.
set -e
cd "$(dirname "$0")"
while IFS="$(printf '\t')" read -r name output; do
    printf '%s\n' "$name"
    printf '%b' "$output"
done <captures_expected.tsv
