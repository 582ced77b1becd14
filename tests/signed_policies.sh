#!/usr/bin/env bash
# Makes the signed policy files and their records that rust/bleiwurzel/tests/signed.rs judges, with tboot's own tools (Debian's package tboot) and
# keys that openssl makes on the spot. It was run once, with tboot 1.10.5 and OpenSSL 3.0; what it wrote is stored in
# rust/bleiwurzel/tests/data/signed, and the tests need neither of the two. Another run makes other keys, and so other files that serve as well.
# The private keys are kept nowhere.
set -euo pipefail
PATH=$PATH:/usr/sbin
top=$(cd "$(dirname "$0")/.." && pwd)
folder=$top/rust/bleiwurzel/tests/data/signed
work=$(mktemp -d)
trap 'rm -rf "$work"' EXIT
cd "$work"

# Where tboot is not installed, its tools are taken out of the package, and nothing is installed.
if ! command -v lcp2_crtpol >/dev/null; then
    apt-get download -qq tboot
    dpkg -x tboot_*.deb tboot
    PATH=$PATH:$work/tboot/usr/sbin
fi

# signed NAME VERSION BITS COUNTER: a list of this version that names the image, signed with a key of so many bits that no other list has.
signed() {
    openssl genrsa -out private.pem "$3"
    openssl rsa -pubout -in private.pem -out public.pem
    lcp2_crtpollist --create --listver "$2" --sigalg rsa --out "$1" image.elt
    lcp2_crtpollist --sign --sigalg rsa --pub public.pem --priv private.pem --rev "$4" --out "$1"
    verified "$1" "$3"
}

# verified LIST BITS: that openssl, too, takes the end of the list for a signature of all bytes before it, once it is turned.
verified() {
    local size=$(($2 / 8))
    head -c "-$size" "$1" >message
    printf '%b' "$(tail -c "$size" "$1" | od -An -v -w1 -tx1 | tac | tr -d '\n' | sed 's/ /\\x/g')" >signature
    openssl dgst -sha256 -verify public.pem -signature signature message
}

# policy NAME COUNTERS LIST..: the policy file of these lists, and its record with these counters from list 0 on.
policy() {
    lcp2_crtpol --create --type list --alg sha256 --polver 3.2 --mask sha256 --sign rsa-2048-sha256 --sign rsa-3072-sha256 --rev "$2" \
        --pol "$folder/$1.pol" --data "$folder/$1.data" "${@:3}"
}

# The image's digest as the tools read it, and one that is not the image's: that of the file with the image's digest.
spaced() { cut -c 1-64 | sed 's/../& /g'; }
spaced <"$folder/image.sha256" >image.txt
sha256sum "$folder/image.sha256" | spaced >other.txt
# AcmVersion of the tests' module is 5.
lcp2_crtpolelt --create --type mle2 --alg sha256 --minver 5 --out image.elt image.txt
lcp2_crtpolelt --create --type mle2 --alg sha256 --minver 5 --out other.elt other.txt

for bits in 2048 3072; do
    signed "one-$bits.lst" 0x201 "$bits" 5
    policy "one-$bits" 5 "one-$bits.lst"
done
# Lists of the older version, whose counters differ. The tools make no file of lists of both versions.
lcp2_crtpollist --create --listver 0x200 --out other.lst other.elt
signed second.lst 0x200 2048 5
signed third.lst 0x200 3072 7
policy three 0,5,7 other.lst second.lst third.lst
