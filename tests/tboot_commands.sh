#!/usr/bin/env bash
# Runs every command line of tboot's tools and of openssl that docs/REFUSALS.md recommends, as it stands there, and has the tool check an image
# under each policy that they make. Where these (Debian's packages tboot and openssl) are not installed it says so and passes over.
set -euo pipefail
PATH=$PATH:/usr/sbin
top=$(cd "$(dirname "$0")/.." && pwd)
for name in lcp2_crtpolelt lcp2_crtpollist lcp2_crtpol openssl; do
    if ! command -v "$name" >/dev/null; then
        echo "passed over: there is no $name (Debian's packages tboot and openssl), so the command lines of docs/REFUSALS.md were not run"
        exit 0
    fi
done
cargo build --release --offline --quiet --manifest-path "$top/rust/Cargo.toml" -p bleiwurzel
bleiwurzel=${CARGO_TARGET_DIR:-$top/rust/target}/release/bleiwurzel
capture=$top/examples/any.cap
folder=$(mktemp -d)
trap 'rm -rf "$folder"' EXIT
cd "$folder"

fail() {
    echo "tboot_commands: $1" >&2
    exit 1
}

# part NAME FILE: a part of the capture.
part() {
    local length at
    read -r length at < <("$bleiwurzel" capture show "$capture" | sed -nE "s/^# $1 +([0-9]+) bytes at file offset ([0-9]+)$/\1 \2/p")
    dd if="$capture" of="$2" bs=1 skip="$at" count="$length" status=none
}

# number FILE OFFSET VALUE: writes 64 bits.
number() {
    local i
    for i in 0 1 2 3 4 5 6 7; do printf '%b' "\\x$(printf %02x $(($3 >> 8 * i & 255)))"; done | dd of="$1" bs=1 seek="$2" conv=notrunc status=none
}

# check MODULE WORDS..: the tool's answer for the image with record.pol and policy.data, which is loaded behind the image.
check() {
    local base module=$1
    shift
    base=$("$bleiwurzel" capture show "$capture" | sed -n 's/^window_base = //p')
    cat window.bin policy.data >loaded.bin
    number heap.bin 88 $((base + $(stat -c %s window.bin)))
    number heap.bin 96 "$(stat -c %s policy.data)"
    "$bleiwurzel" check --window loaded.bin --heap heap.bin --sinit "$module" --policy-record record.pol --platform platform.txt "$@" || true
}

# expect MODULE ANSWER COMMAND WORDS..: that the answer begins so.
expect() {
    local answer
    answer=$(check "$1" "${@:4}" | tr -s '\n ' '  ')
    [[ $answer == "$2"* ]] || fail "'$2' was expected with $1 ${*:4} after: $3"$'\n'"$answer"
}

# commands NAME: the command lines on the page that begin with this.
commands() {
    grep -o '`[^`]*`' "$top/docs/REFUSALS.md" | tr -d '`' | grep "^$1 " | sort -u
}

# filled LINE: the same with values for the words in capitals.
filled() {
    local line=${1/STM-DIGEST/$stm_digest}
    line=${line/DIGEST/$digest}
    echo "${line/COUNTER/$counter}"
}

# run NAME: runs them. Of each list policies are made and judged, and then of the same list when it is signed.
run() {
    local line lines
    lines=$(commands "$1") || fail "the page has no command line of $1"
    while IFS= read -r line; do
        echo "+ $line"
        line=$(filled "$line")
        bash -euc "$line" || fail "refused by the tool: $line"
        case $1 in
        "lcp2_crtpollist --create")
            list=$line
            run lcp2_crtpol
            run "lcp2_crtpollist --sign"
            ;;
        "lcp2_crtpollist --sign") run lcp2_crtpol ;;
        lcp2_crtpol) judge "$line" "$list" ;;
        esac
    done <<<"$lines"
}

# judge COMMAND LIST: the record that it made permits the image with its STM; a debug module only where control bit 1 was asked for; without the
# STM only where the list has no element for one, or is not asked.
judge() {
    local stm=(--stm stm.bin)
    [ "$(stat -c %s record.pol)" -eq 70 ] || fail "the record has not 70 bytes after: $1"
    expect sinit.bin permitted "$1" "${stm[@]}"
    if [[ $1 == *--ctrl\ 0x02* ]]; then expect debug.bin permitted "$1" "${stm[@]}"; else expect debug.bin "refused 24" "$1" "${stm[@]}"; fi
    if [[ $1 == *--type\ list* && $2 == *stm.elt* ]]; then expect sinit.bin "refused 29" "$1"; else expect sinit.bin permitted "$1"; fi
}

part window window.bin
part heap heap.bin
part "SINIT module" sinit.bin
"$bleiwurzel" capture show "$capture" >platform.txt
cp sinit.bin debug.bin
printf '\x80' | dd of=debug.bin bs=1 seek=15 conv=notrunc status=none
digest=$("$bleiwurzel" check --capture "$capture" | sed -n 's/^  digest  //p')
head -c 8192 "$capture" >stm.bin
stm_digest=$(sha256sum stm.bin | cut -c 1-64)
counter=5

run echo
run lcp2_crtpolelt
run openssl
: >policy.data
run "lcp2_crtpollist --create"
commands lcp2_crtpollist | grep stm.elt >/dev/null || fail "the page has no command line for a list with an STM element"
commands lcp2_crtpol | grep -e '--ctrl 0x02' >/dev/null || fail "the page has no command line for a record that admits a debug module"

# What the page says of other elements: a legacy one does not permit, nor does a list with a custom element of tboot's.
again=$(commands lcp2_crtpol | grep -- '--type list --alg')
head -c 20 /dev/zero | od -An -v -w20 -tx1 | sed 's/^ //' >sha1.txt
lcp2_crtpolelt --create --type mle --out legacy.elt sha1.txt
lcp2_crtpollist --create --listver 0x201 --out policy.lst legacy.elt
bash -euc "$again"
expect sinit.bin "refused 29" "an element of type mle"
lcp2_crtpolelt --create --type custom --uuid tboot --out custom.elt sha1.txt
lcp2_crtpollist --create --listver 0x201 --out policy.lst mle.elt custom.elt
bash -euc "$again"
expect sinit.bin "refused 29" "a list with an element of type custom"
"$bleiwurzel" policy policy.data | grep -q "type: 'custom' (0x13)" || fail "tboot's custom element has another type"

# An STM element of tboot's is read, and asks for its own STM image.
lcp2_crtpollist --create --listver 0x201 --out policy.lst mle.elt stm.elt
bash -euc "$again"
"$bleiwurzel" policy policy.data | grep -q "hashes\[0\]: $stm_digest" || fail "tboot's STM element does not name the STM image"
expect sinit.bin "refused 29" "a list for another STM image" --stm sinit.bin

# What the page says of signed lists: signed with a lower counter, also under a record that asks for none, changed, signed with another hash, signed
# with a key of 3,072 bits.
sign=$(commands "lcp2_crtpollist --sign")
asking=$(filled "$(commands lcp2_crtpol | grep -- '--rev')")

# signed NAME VERIFIES ANSWER WORDS..: makes a list, signs it with these words more, and makes a record that asks for the counter.
signed() {
    lcp2_crtpollist --create --listver 0x201 --out policy.lst mle.elt
    bash -euc "$(filled "$sign") ${*:4}"
    bash -euc "$asking"
    judged "$@"
}

# judged NAME VERIFIES ANSWER: whether the tool says so of the signature, and the answer.
judged() {
    "$bleiwurzel" policy policy.data | grep -q "signature verifies: $2" || fail "'signature verifies: $2' was expected: $1"
    expect sinit.bin "$3" "$1"
}

low="its counter $((counter - 1)) is below $counter, which the record asks of list 0 (record offset 6)"
signed "the record's counter" yes permitted
signed "a greater counter" yes permitted --rev $((counter + 1))
signed "a lower counter" yes "refused 29" --rev $((counter - 1))
check sinit.bin | tr -s '\n ' '  ' | grep -qF "$low" || fail "the tool does not say: $low"
mv record.pol before.pol
bash -euc "$asking --minver 255"
judged "the same, and a SINITMinVersion above the AcmVersion" yes "refused 25"
bash -euc "$again"
judged "a lower counter under a record made without --rev and --minver" yes permitted
bash -euc "$(filled "$sign")"
bash -euc "$asking"
judged "the same list, signed again" yes permitted
cmp before.pol record.pol || fail "a list that is signed again makes another record"
printf '\x80' | dd of=policy.data bs=1 seek=52 conv=notrunc status=none # the control of element 0
judged "a list that was changed after it was signed" no "refused 29"

# behind COUNTERS: the policy of an empty list and the signed one, under a record that asks for these counters.
behind() {
    local line=${asking/--rev $counter/--rev $1}
    bash -euc "${line/%policy.lst/empty.lst policy.lst}"
}

lcp2_crtpollist --create --listver 0x201 --out empty.lst
behind "$((counter + 1)),$counter"
judged "the counter of list 1" yes permitted
behind "$counter,$((counter + 1))"
judged "a greater counter for list 1" yes "refused 29"
signed "another hash" no "refused 29" --hashalg sha384
bash -euc "$(commands "openssl genrsa" | sed 's/2048/3072/')"
bash -euc "$(commands "openssl rsa")"
asking=${asking/rsa-2048-sha256/rsa-3072-sha256}
signed "3,072 bits" yes permitted
echo "every command line of tboot's tools and of openssl in docs/REFUSALS.md was run"
