#!/usr/bin/env bash
# The longest capture that the program launch_check reads: one of 65,536 bytes is answered, and with one byte more it is 30, whether the byte
# is part of the window or stands behind the capture. The captures are examples/any.cap with zeros at the end of its window, of version 1, and of version 2
# with 16 reserved ranges of no bytes; with a 17th it is 30. Then the most pages that MLE Size may say: the program lends 4,096 places, so that one page
# more is 13, and 16,385 pages are 12.
set -euo pipefail
cd "$(dirname "$0")/.."
example=examples/any.cap
program=$(tests/built.sh launch_check)
expected=crates/launch_check/stdout

# number AT: 32 bits of the example.
number() { od -An -tu4 --endian=little -j "$1" -N 4 "$example" | tr -d ' '; }

# grown BYTES: the example with a window so much longer that the capture has so many bytes. The window's length stands at offset 59, the window at 75.
grown() {
    local window more i
    window=$(number 59)
    more=$(($1 - $(stat -c %s "$example")))
    head -c 59 "$example"
    for i in 0 8 16 24; do printf '%b' "\\x$(printf %02x $((window + more >> i & 255)))"; done
    tail -c +64 "$example" | head -c $((12 + window))
    head -c "$more" /dev/zero
    tail -c +$((76 + window)) "$example"
}

# ranged COUNT FILE: a capture of version 1 as one of version 2 with so many reserved ranges of no bytes. The count stands at offset 59.
ranged() {
    head -c 3 "$folder/$2"
    printf '\2\0'
    head -c 59 "$folder/$2" | tail -c 54
    printf '%b' "\\x$(printf %02x "$1")\\0"
    head -c $((16 * $1)) /dev/zero
    tail -c +60 "$folder/$2"
}

# answers FILE EXPECTED: that the capture in a file is answered so.
answers() {
    diff <(printf '%s\n' "$2") <("$program" <"$folder/$1") || { echo "capture_limits: not what was expected of $1" >&2; exit 1; }
}

folder=$(mktemp -d)
trap 'rm -rf "$folder"' EXIT
grown 65536 >"$folder/longest"
grown 65537 >"$folder/longer"
{ cat "$folder/longest"; echo; } >"$folder/one-behind"
head -c 1000000 /dev/zero >"$folder/zeros"
[ "$(stat -c %s "$folder/longest")" -eq 65536 ] || { echo "capture_limits: no capture of 65536 bytes" >&2; exit 1; }
answers longest "$(cat "$expected")"
for bytes in 65536 65537; do # a count takes 2 bytes, and 16 ranges 256
    grown "$((bytes - 258))" >"$folder/plain"
    ranged 16 plain >"$folder/ranged-$bytes"
done
answers ranged-65536 "$(cat "$expected")"
answers ranged-65537 "refused 30"
cp "$example" "$folder/plain"
ranged 16 plain >"$folder/sixteen"
ranged 17 plain >"$folder/seventeen"
answers sixteen "$(cat "$expected")"
answers seventeen "refused 30"
for name in longer one-behind zeros; do answers "$name" "refused 30"; done
for line in 4096:21 4097:13 16384:13 16385:12; do
    cp "crates/stored_cases/data/12-pages-${line%:*}.cap" "$folder/pages"
    answers pages "refused ${line#*:}"
done
echo "captures of up to 65536 bytes are read, and no longer ones; 4096 places are lent for pages"
