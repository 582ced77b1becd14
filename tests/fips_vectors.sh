#!/bin/sh
# What the program fips_vectors must print, made with sha256sum instead: one digest a line.
set -e
file=$(mktemp)
trap 'rm -f "$file"' EXIT

digest() { sha256sum | cut -d ' ' -f 1; }

# The SHA-256 example messages of FIPS 180-4, the 896-bit one, one million times the letter a, and the empty message.
printf abc | digest
printf abcdbcdecdefdefgefghfghighijhijkijkljklmklmnlmnomnopnopq | digest
printf abcdefghbcdefghicdefghijdefghijkefghijklfghijklmghijklmnhijklmnoijklmnopjklmnopqklmnopqrlmnopqrsmnopqrstnopqrstu | digest
head -c 1000000 /dev/zero | tr '\0' a | digest
printf '' | digest

# The pattern: byte i is 7 * i + 3 modulo 256. awk writes each byte as an octal escape, of which printf makes the byte.
printf "$(awk 'BEGIN { for (i = 0; i < 19900; i++) printf "\\%03o", (7 * i + 3) % 256 }')" >"$file"

# Its first 0 to 200 bytes.
for n in $(seq 0 200); do
    head -c "$n" "$file" | digest
done

# The whole of it, once for each way in which the program absorbs it.
for way in growing whole 64 63 65; do
    digest <"$file"
done
