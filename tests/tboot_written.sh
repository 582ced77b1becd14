#!/usr/bin/env bash
# Holds what `bleiwurzel policy write` makes to tboot's own tools: for the same elements both write the same policy file and record, byte for byte; a
# file of theirs is written again from its description; theirs show a file of ours, and make the same file of a list that we wrote. Where the tools
# (Debian's package tboot) are not installed it says so and passes over.
set -euo pipefail
PATH=$PATH:/usr/sbin
top=$(cd "$(dirname "$0")/.." && pwd)
for name in lcp2_crtpolelt lcp2_crtpollist lcp2_crtpol; do
    if ! command -v "$name" >/dev/null; then
        echo "passed over: there is no $name (Debian's package tboot), so the policy files that we write were not held to tboot's"
        exit 0
    fi
done
cargo build --release --offline --quiet --manifest-path "$top/rust/Cargo.toml" -p bleiwurzel
bleiwurzel=${CARGO_TARGET_DIR:-$top/rust/target}/release/bleiwurzel
folder=$(mktemp -d)
trap 'rm -rf "$folder"' EXIT
cd "$folder"
compared=0

fail() {
    echo "tboot_written: $1" >&2
    exit 1
}

# digest NAME LENGTH: a digest of so many bytes that looks random, as digits.
digest() { printf '%s' "$(sha256sum <<<"$1" | cut -c 1-64)$(sha256sum <<<"$1 more" | cut -c 1-64)" | cut -c "1-$((2 * $2))"; }

# theirs LIST..: tboot's policy file and record of these lists, with a counter for each: 1, 2 and so on.
theirs() {
    lcp2_crtpol --create --type list --alg sha256 --polver 3.2 --minver 1 --rev "$(seq -s , $#)" --mask sha256 --sign rsa-2048-sha256 \
        --pol theirs.pol --data theirs.data "$@" >/dev/null
}

# ours DESCRIPTION: our policy file and record.
ours() {
    rm -f ours.data ours.pol
    "$bleiwurzel" policy write -o ours.data --record ours.pol "$1" >/dev/null || fail "not written: $(cat "$1")"
}

# same WHAT: that both have written the same.
same() {
    cmp theirs.data ours.data || fail "another policy file than tboot's: $1"
    cmp theirs.pol ours.pol || fail "another record than tboot's: $1"
    compared=$((compared + 1))
}

# shown WHAT: that tboot's tool shows our file with our record, and finds the record's PolicyHash right.
shown() {
    lcp2_crtpol --show ours.pol ours.data >shown.txt 2>&1 || fail "tboot does not show $1: $(cat shown.txt)"
    grep -q 'policy data hash matches policy hash' shown.txt || fail "tboot finds another PolicyHash: $1"
}

# again WHAT: that tboot's file is written again from its description.
again() {
    "$bleiwurzel" policy show --as-description theirs.data --policy-record theirs.pol >again.txt || fail "no description: $1"
    ours again.txt
    same "$1, by its description"
}

record="record sinit-min-version=1 counters=1"
for version in 0x200 0x201; do
    for kind in sha1:20 sha256:32 sha384:48; do
        algorithm=${kind%:*}
        first=$(digest "$kind first" "${kind#*:}")
        second=$(digest "$kind second" "${kind#*:}")
        printf '%s\n' "$first" "$second" | sed 's/../& /g' >digests.txt
        lcp2_crtpolelt --create --type mle2 --ctrl 0x5 --minver 3 --alg "$algorithm" --out "$algorithm.elt" digests.txt >/dev/null
        lcp2_crtpollist --create --listver "$version" --out one.lst "$algorithm.elt" >/dev/null
        theirs one.lst
        printf '%s\n' "$record" "list version=$version" \
            "launch control=5 sinit-min-version=3 hash-alg=$algorithm digest=$first digest=$second" >ours.txt
        ours ours.txt
        same "a list of version $version that names two digests of $algorithm"
        shown "a list of version $version with $algorithm"
        again "a list of version $version with $algorithm"
        # What stands behind the first 36 bytes is the list.
        tail -c +37 ours.data >ours.lst
        cmp one.lst ours.lst || fail "another list than tboot's"
        lcp2_crtpollist --show ours.lst >/dev/null || fail "tboot does not show a list of ours, of version $version with $algorithm"
        theirs ours.lst
        same "a list of ours, of version $version with $algorithm"
    done
    # Several elements in a list, and as many lists as there may be.
    lcp2_crtpollist --create --listver "$version" --out several.lst sha256.elt sha1.elt sha384.elt >/dev/null
    lcp2_crtpollist --create --listver "$version" --out empty.lst >/dev/null
    theirs several.lst one.lst
    again "two lists of version $version"
    shown "two lists of version $version"
    theirs several.lst one.lst several.lst one.lst empty.lst one.lst several.lst
    again "seven lists of version $version"
    shown "seven lists of version $version"
    # Eight are written alike, but tboot's tool shows no file of eight lists, its own neither.
    theirs several.lst one.lst several.lst one.lst empty.lst one.lst several.lst one.lst
    again "eight lists of version $version"
    if lcp2_crtpol --show theirs.pol theirs.data >/dev/null 2>&1; then fail "tboot shows eight lists now: have it show ours too"; fi
done

# What tboot's tools write of other types has no description.
head -c 20 /dev/zero >blob
lcp2_crtpolelt --create --type custom --uuid tboot --out custom.elt blob >/dev/null
lcp2_crtpollist --create --listver 0x201 --out custom.lst custom.elt >/dev/null
theirs custom.lst
if "$bleiwurzel" policy show --as-description theirs.data >again.txt 2>error.txt; then fail "a custom element of tboot's has a description"; fi
grep -q "element 0 of list 0 has type 0x13, as tboot's tools write custom elements" error.txt || fail "$(cat error.txt)"
[ "$compared" -eq 24 ] || fail "only $compared files were compared"
echo "tboot's tools and ours write the same policy files and records: $compared compared"
