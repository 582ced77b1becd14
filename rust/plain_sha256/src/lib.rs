//! SHA-256 in plain portable Rust, as one would write it for speed without proofs: the baseline of the benchmarks, and the
//! digest of `twin`.

#[rustfmt::skip]
const K: [u32; 64] = [
    0x428a2f98, 0x71374491, 0xb5c0fbcf, 0xe9b5dba5, 0x3956c25b, 0x59f111f1, 0x923f82a4, 0xab1c5ed5,
    0xd807aa98, 0x12835b01, 0x243185be, 0x550c7dc3, 0x72be5d74, 0x80deb1fe, 0x9bdc06a7, 0xc19bf174,
    0xe49b69c1, 0xefbe4786, 0x0fc19dc6, 0x240ca1cc, 0x2de92c6f, 0x4a7484aa, 0x5cb0a9dc, 0x76f988da,
    0x983e5152, 0xa831c66d, 0xb00327c8, 0xbf597fc7, 0xc6e00bf3, 0xd5a79147, 0x06ca6351, 0x14292967,
    0x27b70a85, 0x2e1b2138, 0x4d2c6dfc, 0x53380d13, 0x650a7354, 0x766a0abb, 0x81c2c92e, 0x92722c85,
    0xa2bfe8a1, 0xa81a664b, 0xc24b8b70, 0xc76c51a3, 0xd192e819, 0xd6990624, 0xf40e3585, 0x106aa070,
    0x19a4c116, 0x1e376c08, 0x2748774c, 0x34b0bcb5, 0x391c0cb3, 0x4ed8aa4a, 0x5b9cca4f, 0x682e6ff3,
    0x748f82ee, 0x78a5636f, 0x84c87814, 0x8cc70208, 0x90befffa, 0xa4506ceb, 0xbef9a3f7, 0xc67178f2,
];

#[rustfmt::skip]
const H0: [u32; 8] = [
    0x6a09e667, 0xbb67ae85, 0x3c6ef372, 0xa54ff53a, 0x510e527f, 0x9b05688c, 0x1f83d9ab, 0x5be0cd19,
];

#[inline(always)]
fn big_sigma0(x: u32) -> u32 {
    x.rotate_right(2) ^ x.rotate_right(13) ^ x.rotate_right(22)
}

#[inline(always)]
fn big_sigma1(x: u32) -> u32 {
    x.rotate_right(6) ^ x.rotate_right(11) ^ x.rotate_right(25)
}

#[inline(always)]
fn small_sigma0(x: u32) -> u32 {
    x.rotate_right(7) ^ x.rotate_right(18) ^ (x >> 3)
}

#[inline(always)]
fn small_sigma1(x: u32) -> u32 {
    x.rotate_right(17) ^ x.rotate_right(19) ^ (x >> 10)
}

// One round. The names of the variables move, not their values; `bc` is the xor of b and c, which was that of a and b before.
macro_rules! round {
    ($a:ident, $b:ident, $c:ident, $d:ident, $e:ident, $f:ident, $g:ident, $h:ident, $bc:ident, $k:expr, $w:expr) => {
        let t1 = $h.wrapping_add(big_sigma1($e)).wrapping_add($g ^ ($e & ($f ^ $g))).wrapping_add($k).wrapping_add($w);
        $d = $d.wrapping_add(t1);
        let ab = $a ^ $b;
        $h = t1.wrapping_add(big_sigma0($a)).wrapping_add($b ^ (ab & $bc));
        $bc = ab;
    };
}

// Sixteen rounds from round t on, with the word of place i by `word!(i)`.
macro_rules! sixteen {
    ($a:ident, $b:ident, $c:ident, $d:ident, $e:ident, $f:ident, $g:ident, $h:ident, $bc:ident, $t:expr, $one:ident) => {
        $one!($a, $b, $c, $d, $e, $f, $g, $h, $bc, $t, 0);
        $one!($h, $a, $b, $c, $d, $e, $f, $g, $bc, $t, 1);
        $one!($g, $h, $a, $b, $c, $d, $e, $f, $bc, $t, 2);
        $one!($f, $g, $h, $a, $b, $c, $d, $e, $bc, $t, 3);
        $one!($e, $f, $g, $h, $a, $b, $c, $d, $bc, $t, 4);
        $one!($d, $e, $f, $g, $h, $a, $b, $c, $bc, $t, 5);
        $one!($c, $d, $e, $f, $g, $h, $a, $b, $bc, $t, 6);
        $one!($b, $c, $d, $e, $f, $g, $h, $a, $bc, $t, 7);
        $one!($a, $b, $c, $d, $e, $f, $g, $h, $bc, $t, 8);
        $one!($h, $a, $b, $c, $d, $e, $f, $g, $bc, $t, 9);
        $one!($g, $h, $a, $b, $c, $d, $e, $f, $bc, $t, 10);
        $one!($f, $g, $h, $a, $b, $c, $d, $e, $bc, $t, 11);
        $one!($e, $f, $g, $h, $a, $b, $c, $d, $bc, $t, 12);
        $one!($d, $e, $f, $g, $h, $a, $b, $c, $bc, $t, 13);
        $one!($c, $d, $e, $f, $g, $h, $a, $b, $bc, $t, 14);
        $one!($b, $c, $d, $e, $f, $g, $h, $a, $bc, $t, 15);
    };
}

fn compress(state: &mut [u32; 8], block: &[u8]) {
    let mut w = [0u32; 16];
    for (word, bytes) in w.iter_mut().zip(block.chunks_exact(4)) {
        *word = u32::from_be_bytes(bytes.try_into().unwrap());
    }
    let [mut a, mut b, mut c, mut d, mut e, mut f, mut g, mut h] = *state;
    let mut bc = b ^ c;
    // A round, and the word that takes the place of the one it used.
    macro_rules! extending {
        ($a:ident, $b:ident, $c:ident, $d:ident, $e:ident, $f:ident, $g:ident, $h:ident, $bc:ident, $t:expr, $i:expr) => {
            round!($a, $b, $c, $d, $e, $f, $g, $h, $bc, K[$t + $i], w[$i]);
            w[$i] = w[$i]
                .wrapping_add(small_sigma0(w[($i + 1) % 16]))
                .wrapping_add(w[($i + 9) % 16])
                .wrapping_add(small_sigma1(w[($i + 14) % 16]));
        };
    }
    macro_rules! ending {
        ($a:ident, $b:ident, $c:ident, $d:ident, $e:ident, $f:ident, $g:ident, $h:ident, $bc:ident, $t:expr, $i:expr) => {
            round!($a, $b, $c, $d, $e, $f, $g, $h, $bc, K[$t + $i], w[$i]);
        };
    }
    let mut t = 0;
    while t < 48 {
        sixteen!(a, b, c, d, e, f, g, h, bc, t, extending);
        t += 16;
    }
    sixteen!(a, b, c, d, e, f, g, h, bc, 48, ending);
    let _ = bc;
    for (word, x) in state.iter_mut().zip([a, b, c, d, e, f, g, h]) {
        *word = word.wrapping_add(x);
    }
}

/// A digest that is worked out in parts.
pub struct Sha256 {
    state: [u32; 8],
    block: [u8; 64],
    total: u64,
}

impl Sha256 {
    pub fn new() -> Self {
        Sha256 { state: H0, block: [0; 64], total: 0 }
    }

    pub fn update(&mut self, mut part: &[u8]) {
        let fill = (self.total % 64) as usize;
        self.total = self.total.wrapping_add(part.len() as u64);
        if fill > 0 {
            let take = part.len().min(64 - fill);
            self.block[fill..fill + take].copy_from_slice(&part[..take]);
            part = &part[take..];
            if fill + take < 64 {
                return;
            }
            compress(&mut self.state, &self.block);
        }
        let blocks = part.chunks_exact(64);
        let rest = blocks.remainder();
        for block in blocks {
            compress(&mut self.state, block);
        }
        self.block[..rest.len()].copy_from_slice(rest);
    }

    pub fn finish(mut self) -> [u8; 32] {
        let bits = self.total.wrapping_mul(8);
        let zeros = (119 - self.total % 64) as usize % 64;
        let mut padding = [0u8; 72];
        padding[0] = 0x80;
        padding[zeros + 1..zeros + 9].copy_from_slice(&bits.to_be_bytes());
        self.update(&padding[..zeros + 9]);
        let mut digest = [0u8; 32];
        for (bytes, word) in digest.chunks_exact_mut(4).zip(self.state) {
            bytes.copy_from_slice(&word.to_be_bytes());
        }
        digest
    }
}

impl Default for Sha256 {
    fn default() -> Self {
        Self::new()
    }
}

/// The digest of a message that is absorbed in parts of `part` bytes; where `part` is 0, in one piece.
pub fn digest_in_parts(message: &[u8], part: usize) -> [u8; 32] {
    let mut state = Sha256::new();
    if part == 0 {
        state.update(message);
    } else {
        message.chunks(part).for_each(|p| state.update(p));
    }
    state.finish()
}
