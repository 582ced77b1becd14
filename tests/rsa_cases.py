#!/usr/bin/env python3
"""Writes the table of cases for the RSA verification, rust/bleiwurzel/tests/data/rsa/cases.tsv, to standard output.

A line is: name, key, signature, message, yes or no, with tabs between them; bytes are in hexadecimal as a policy file stores them, key and
signature with their lowest byte first. A name is the key size in bytes, the kind of the case, and what is special about it.

Whether a signature verifies is worked out here by RFC 8017, section 8.2.2, with Python's own arithmetic, and each case also says what it was made
for; the two must agree. The numbers are drawn from a generator with a fixed seed, so every run writes the same table.
"""
import hashlib
import math
import random

EXPONENT = 65537
SIZES = (256, 384)
# RFC 8017, section 9.2, note 1: what stands before the digest.
SHA256 = bytes.fromhex("3031300d060960864801650304020105000420")
SHA1 = bytes.fromhex("3021300906052b0e03021a05000414")
SHA384 = bytes.fromhex("3041300d060960864801650304020205000430")
SHA512 = bytes.fromhex("3051300d060960864801650304020305000440")
SHA512_256 = bytes.fromhex("3031300d060960864801650304020605000420")
# The parameters NULL left out, so that two lengths are smaller by 2.
WITHOUT_NULL = bytes.fromhex("302f300b0609608648016503040201" + "0420")

generator = random.Random(8017)
SMALL_PRIMES = [p for p in range(3, 2000) if all(p % d for d in range(2, int(p**0.5) + 1))]


def drawn_bytes(count):
    return bytes(generator.getrandbits(8) for _ in range(count))


def is_prime(n):
    """Miller and Rabin's test, for an odd n. A composite would show in `Key.root`, which looks at what it gives."""
    if any(n % p == 0 for p in SMALL_PRIMES):
        return False
    odd, twos = n - 1, 0
    while odd % 2 == 0:
        odd, twos = odd // 2, twos + 1
    for base in (2, 3, 5, 7, 11, 13, 17, 19):
        powers = [pow(base, odd, n)]
        for _ in range(twos - 1):
            powers.append(powers[-1] ** 2 % n)
        if powers[0] != 1 and n - 1 not in powers:
            return False
    return True


def drawn_prime(least, end):
    """Of the range from least up to, not including, end; not 1 more than a multiple of the exponent, which so has an inverse."""
    while True:
        p = least + generator.getrandbits(end.bit_length() + 64) % (end - least) | 1
        if p < end and p % EXPONENT != 1 and is_prime(p):
            return p


class Key:
    """A key with the primes of its modulus. Verification does not ask how many there are, and small ones are found sooner."""

    def __init__(self, primes):
        self.primes = primes
        self.n = product(primes)

    def root(self, m):
        """The number whose power to the exponent is m modulo n, put together from the roots modulo each prime."""
        x, modulus = 0, 1
        for p in self.primes:
            part = pow(m % p, pow(EXPONENT, -1, p - 1) if p > 2 else 1, p)
            x += modulus * ((part - x) * pow(modulus, -1, p) % p)
            modulus *= p
        assert pow(x, EXPONENT, self.n) == m % self.n, "a factor that is not prime"
        return x

    def signature(self, em):
        return self.root(int.from_bytes(em, "big"))


def product(numbers):
    n = 1
    for number in numbers:
        n *= number
    return n


def drawn_key(bits):
    """A modulus of exactly so many bits, which the last prime sees to; the others have 256 each."""
    primes = [drawn_prime(1 << 255, 1 << 256) for _ in range(bits // 256 - 1)]
    others = product(primes)
    return Key(primes + [drawn_prime((1 << bits - 1) // others + 1, (1 << bits) // others)])


def emsa(k, message):
    """EMSA-PKCS1-v1_5, RFC 8017, section 9.2, with SHA-256."""
    t = SHA256 + hashlib.sha256(message).digest()
    return b"\x00\x01" + b"\xff" * (k - len(t) - 3) + b"\x00" + t


def verifies(key, signature, message):
    """RSASSA-PKCS1-v1_5, RFC 8017, section 8.2.2, for the lengths and moduli that are allowed here."""
    k = len(key)
    n, s = int.from_bytes(key, "little"), int.from_bytes(signature, "little")
    if k not in SIZES or len(signature) != k or n % 2 == 0 or s >= n:
        return False
    return pow(s, EXPONENT, n).to_bytes(k, "big") == emsa(k, message)


def stored(number, length):
    return number.to_bytes(length, "little")


class Table:
    """The cases of one key size; prints each."""

    def __init__(self, k):
        self.k = k

    def add(self, kind, special, expected, key, signature, message):
        """Key and signature are numbers, of the key size then, or bytes."""
        key = key if isinstance(key, bytes) else stored(key, self.k)
        signature = signature if isinstance(signature, bytes) else stored(signature, self.k)
        name = f"{self.k} {kind}: {special}"
        assert verifies(key, signature, message) == (expected == "yes"), name
        print(name, key.hex(), signature.hex(), message.hex(), expected, sep="\t")


def valid(table, key):
    """Lengths around the ends of a block of the digest."""
    for length in (0, 1, 55, 56, 63, 64, 65, 1000):
        message = drawn_bytes(length)
        table.add("valid", f"a message of {length} bytes", "yes", key.n, key.signature(emsa(table.k, message)), message)


def other_message(table, key):
    message = drawn_bytes(40)
    s = key.signature(emsa(table.k, message))
    changed = bytes([message[0] ^ 1]) + message[1:]
    for special, other in (("its first bit", changed), ("its last byte gone", message[:-1]), ("empty", b"")):
        table.add("other message", special, "no", key.n, s, other)


def other_key(table, key):
    message = drawn_bytes(32)
    s = key.signature(emsa(table.k, message))
    table.add("other key", "the key that signed", "yes", key.n, s, message)
    table.add("other key", "a key of the same size", "no", drawn_key(8 * table.k).n, s, message)


def signatures(table, key):
    """Numbers that stand out, as signatures of a message that has a good one."""
    n, bits = key.n, 8 * table.k
    message = drawn_bytes(32)
    while key.signature(emsa(table.k, message)) + n >= 1 << bits:
        message = drawn_bytes(32)
    em = emsa(table.k, message)
    s = key.signature(em)
    table.add("signature", "the good one", "yes", n, s, message)
    specials = {"0": 0, "1": 1, "2": 2, "n - 1": n - 1, "n": n, "n + 1": n + 1, "the greatest": (1 << bits) - 1}
    specials.update({"plus n": s + n, "n - s": n - s, "the encoded message": int.from_bytes(em, "big")})
    specials.update({"its lowest bit": s ^ 1, "its highest bit": s ^ 1 << bits - 1, "a middle bit": s ^ 1 << bits // 2})
    for special, number in specials.items():
        table.add("signature", special, "no", n, number, message)


def with_digest_of(k, message, even):
    """A message whose encoding is an even or an odd number."""
    while int.from_bytes(emsa(k, message), "big") % 2 != (0 if even else 1):
        message += b"."
    return message, int.from_bytes(emsa(k, message), "big")


def moduli(table, key):
    """Moduli that no key has, with signatures that a careless verifier might take."""
    k = table.k
    message = drawn_bytes(32)
    s = key.signature(emsa(k, message))
    for n in (0, 1, 2, 3):
        for number in (0, 1, 2):
            table.add("modulus", f"{n}, signature {number}", "no", n, number, message)
    table.add("modulus", "0, signature of another key", "no", 0, s, message)
    table.add("modulus", "one less than a key's", "no", key.n - 1, s, message)
    table.add("modulus", "2^" + str(8 * k - 1), "no", 1 << 8 * k - 1, s, message)
    twice = Key([2] + drawn_key(8 * k - 1).primes)
    table.add("modulus", "even, and the power is the encoded message", "no", twice.n, twice.signature(emsa(k, message)), message)


def near_the_encoding(table):
    """The encoded message m, or a neighbour, as the modulus. Modulo m + 1 it is -1, whose odd powers are -1 too."""
    odd, m = with_digest_of(table.k, b"odd", even=False)
    table.add("near the encoding", "modulus m, signature 0", "no", m, 0, odd)
    table.add("near the encoding", "modulus m + 1, even, signature m", "no", m + 1, m, odd)
    table.add("near the encoding", "modulus m + 2, signature m", "no", m + 2, m, odd)
    even, m = with_digest_of(table.k, b"even", even=True)
    table.add("near the encoding", "modulus m - 1, signature 1", "no", m - 1, 1, even)
    table.add("near the encoding", "modulus m + 1, signature m", "yes", m + 1, m, even)
    table.add("near the encoding", "modulus m + 1, signature 1", "no", m + 1, 1, even)


def replaced(em, at, byte):
    return em[:at] + bytes([byte]) + em[at + 1:]


def signed_encodings(table, key, kind, message, encodings):
    """All are signed with the private key, so that only the comparison refuses them."""
    for special, em in encodings.items():
        assert len(em) == table.k and em != emsa(table.k, message), special
        table.add(kind, special, "no", key.n, key.signature(em), message)


def padding(table, key):
    k, message = table.k, drawn_bytes(32)
    em = emsa(k, message)
    t = em[k - 51:]
    zero = k - 52
    nonzero = bytes(b % 255 + 1 for b in drawn_bytes(zero - 2))
    signed_encodings(table, key, "padding", message, {
        "first byte not ff": replaced(em, 2, 0xFE),
        "middle byte not ff": replaced(em, k // 2, 0x7F),
        "last byte not ff": replaced(em, zero - 1, 0xFE),
        "middle byte 00": replaced(em, k // 2, 0),
        "block type 0": replaced(em, 1, 0),
        "block type 2": replaced(em, 1, 2),
        "block type 2 with drawn bytes": b"\x00\x02" + nonzero + b"\x00" + t,
        "block type 1 with drawn bytes": b"\x00\x01" + nonzero + b"\x00" + t,
        "00 replaced by ff": replaced(em, zero, 0xFF),
        "00 replaced by 01": replaced(em, zero, 1),
        "00 gone, one byte more of ff": b"\x00\x01" + b"\xff" * (k - 53) + t,
        "leading byte 01": replaced(em, 0, 1),
        "leading byte 00 gone, a byte behind": em[1:] + b"\x00",
        "of 8 bytes, drawn bytes behind": b"\x00\x01" + b"\xff" * 8 + b"\x00" + t + drawn_bytes(k - 62),
        "of 8 bytes, zeros behind": b"\x00\x01" + b"\xff" * 8 + b"\x00" + t + bytes(k - 62),
        "none, drawn bytes behind": b"\x00\x01\x00" + t + drawn_bytes(k - 54),
        "one byte short, a byte behind": b"\x00\x01" + b"\xff" * (k - 55) + b"\x00" + t + b"\x00",
        "eight bytes short, eight behind": b"\x00\x01" + b"\xff" * (k - 62) + b"\x00" + t + drawn_bytes(8),
        "zeros instead": bytes(k - 51) + t,
    })


def digests(table, key):
    k, message = table.k, drawn_bytes(32)
    em = emsa(k, message)

    def of(t):
        return b"\x00\x01" + b"\xff" * (k - len(t) - 3) + b"\x00" + t

    digest = hashlib.sha256(message).digest()
    encodings = {f"byte {i} of DigestInfo": replaced(em, k - 51 + i, em[k - 51 + i] ^ 1) for i in (0, 1, 3, 9, 14, 16, 18)}
    encodings.update({f"byte {i} of the digest": replaced(em, k - 32 + i, em[k - 32 + i] ^ 0x80) for i in (0, 15, 31)})
    encodings.update({
        "without NULL": of(WITHOUT_NULL + digest),
        "SHA-1": of(SHA1 + hashlib.sha1(message).digest()),
        "SHA-384": of(SHA384 + hashlib.sha384(message).digest()),
        "SHA-512": of(SHA512 + hashlib.sha512(message).digest()),
        "named SHA-512/256": of(SHA512_256 + digest),
        "no DigestInfo": of(digest),
        "no digest": of(SHA256),
        "31 bytes of the digest": of(SHA256 + digest[:31]),
        "of the digest": of(SHA256 + hashlib.sha256(digest).digest()),
        "lowest byte first": of(SHA256 + digest[::-1]),
    })
    signed_encodings(table, key, "digest", message, encodings)


def byte_order(table, key):
    message = drawn_bytes(32)
    n, s = stored(key.n, table.k), stored(key.signature(emsa(table.k, message)), table.k)
    table.add("byte order", "lowest byte first", "yes", n, s, message)
    table.add("byte order", "key turned", "no", n[::-1], s, message)
    table.add("byte order", "signature turned", "no", n, s[::-1], message)
    table.add("byte order", "both turned", "no", n[::-1], s[::-1], message)
    turned = stored(key.signature(emsa(table.k, message)[::-1]), table.k)
    table.add("byte order", "encoded message turned", "no", n, turned, message)


def lengths(table, key):
    """Other lengths than the key size. Where a key of that length is made, its signature is valid by the standard."""
    k, message = table.k, drawn_bytes(32)
    for length in (128, k - 1, k + 1, 512):
        other = drawn_key(8 * length)
        s = other.signature(emsa(length, message))
        table.add("length", f"{length} bytes, valid", "no", stored(other.n, length), stored(s, length), message)
    n, s = stored(key.n, k), stored(key.signature(emsa(k, message)), k)
    table.add("length", "the key and signature of the others", "yes", n, s, message)
    table.add("length", "both empty", "no", b"", b"", message)
    table.add("length", "key empty", "no", b"", s, message)
    table.add("length", "signature empty", "no", n, b"", message)
    table.add("length", "a zero behind both", "no", n + b"\x00", s + b"\x00", message)
    table.add("length", "a zero behind the key", "no", n + b"\x00", s, message)
    table.add("length", "a zero behind the signature", "no", n, s + b"\x00", message)
    other = 640 - k
    table.add("length", f"{other} bytes of the key", "no", (n + bytes(128))[:other], s, message)
    table.add("length", f"{other} bytes of the signature", "no", n, (s + bytes(128))[:other], message)
    table.add("length", f"{other} bytes of both", "no", (n + bytes(128))[:other], (s + bytes(128))[:other], message)


def leading_zero(table, k):
    """A modulus with a leading zero byte in k bytes: the encoded message has k bytes all the same."""
    key, message = drawn_key(8 * k - 8), drawn_bytes(32)
    s, short = (key.signature(emsa(length, message)) for length in (k, k - 1))
    table.add("leading zero", "encoded in as many bytes as the key has", "yes", key.n, s, message)
    table.add("leading zero", "encoded in one byte less", "no", key.n, short, message)
    table.add("leading zero", "plus n", "no", key.n, s + key.n, message)
    table.add("leading zero", "left off the signature", "no", key.n, stored(s, k - 1), message)
    table.add("leading zero", "left off both", "no", stored(key.n, k - 1), stored(s, k - 1), message)
    table.add("leading zero", "left off both, encoded in one byte less", "no", stored(key.n, k - 1), stored(short, k - 1), message)


def repeated(word, width, bits):
    return sum(word << at for at in range(0, bits, width))


def shaped(bits):
    """Primes with long runs of ones or zeros, as moduli, for the carries of the arithmetic: name, start, step, and how many steps to the prime
    at 2,048 and at 3,072 bits. They were searched for once; that each is a prime shows where its signatures verify."""
    half = bits // 2
    rows = (
        ("ones", (1 << bits) - 1, -2, 778, 23),
        ("a one and zeros", (1 << bits - 1) + 1, 2, 959, 1145),
        ("ones and then zeros", (1 << bits) - (1 << half) + 1, 2, 53, 341),
        ("a one, zeros and then ones", (1 << bits - 1) + (1 << half) - 1, -2, 1920, 735),
        ("words of ones and of zeros in turn", repeated(0xFFFFFFFF << 32, 64, bits) + 1, 2, 119, 225),
        ("every second bit", repeated(2, 2, bits) + 1, 2, 253, 933),
        ("ones, and 64 at the end", (1 << bits) - 1 - (1 << 64), -(1 << 64), 673, 198),
        ("a one and zeros, and 1 in the last 64 bits", (1 << bits - 1) + 1 + (1 << 64), 1 << 64, 396, 34),
        ("ones after a zero byte", (1 << bits - 8) - 1, -2, 179, 1493),
        ("ones, as long as the encoded message and above it", (1 << bits - 15) - 1, -2, 34, 711),
    )
    return {name: start + step * (at_2048 if bits == 2048 else at_3072) for name, start, step, at_2048, at_3072 in rows}


def carries(table):
    for special, n in shaped(8 * table.k).items():
        message = drawn_bytes(20)
        table.add("carries", special, "yes", n, Key([n]).signature(emsa(table.k, message)), message)


def below_the_encoding(table):
    """A prime below every encoded message m: the power is m modulo n, and so not m."""
    bits = 8 * table.k
    key = Key([(1 << bits - 16) + 1 + 2 * (112 if bits == 2048 else 408)])
    message = drawn_bytes(20)
    em = emsa(table.k, message)
    assert key.n < int.from_bytes(em, "big")
    table.add("below the encoding", "the power is the encoded message modulo n", "no", key.n, key.signature(em), message)


def exponents(table):
    """Signatures with another exponent, the neighbours of the right one among them. Modulo a prime n that is 3 modulo 4 the order of the squares is
    odd, so each square has a root for every exponent that has no factor in common with it."""
    for exponent, expected in ((EXPONENT, "yes"), (3, "no"), (EXPONENT - 1, "no"), (EXPONENT + 1, "no")):
        order, n = next((n // 2, n) for n in shaped(8 * table.k).values() if n % 4 == 3 and math.gcd(exponent, n // 2) == 1)
        message = drawn_bytes(20)
        while pow(int.from_bytes(emsa(table.k, message), "big"), order, n) != 1:
            message = drawn_bytes(20)
        m = int.from_bytes(emsa(table.k, message), "big")
        s = pow(m, pow(exponent, -1, order), n)
        assert pow(s, exponent, n) == m, exponent
        table.add("exponent", str(exponent), expected, n, s, message)


def drawn(table):
    bits = 8 * table.k
    for i in range(6):
        n = generator.getrandbits(bits) | 1 << bits - 1 | 1
        table.add("drawn", f"modulus and signature {i}", "no", n, generator.getrandbits(bits) % n, drawn_bytes(i))


def main():
    for k in SIZES:
        table, key = Table(k), drawn_key(8 * k)
        for cases in (valid, other_message, other_key, signatures, moduli, padding, digests, byte_order, lengths):
            cases(table, key)
        leading_zero(table, k)
        near_the_encoding(table)
        carries(table)
        below_the_encoding(table)
        drawn(table)
        exponents(table)


if __name__ == "__main__":
    main()
