//! SHA-256 for the build script, written here because the package has no
//! dependencies. Used only to see that document.rs is the original text.

/// The digest of `data` as 64 lower-case hexadecimal digits.
pub fn hex_digest(data: &[u8]) -> String {
    let mut state = square_root_words();
    let mut padded = data.to_vec();
    padded.push(0x80);
    while padded.len() % 64 != 56 {
        padded.push(0);
    }
    padded.extend_from_slice(&(data.len() as u64 * 8).to_be_bytes());
    for block in padded.chunks_exact(64) {
        absorb(&mut state, block);
    }
    state.iter().map(|word| format!("{word:08x}")).collect()
}

/// One round of the compression function over a block of 64 bytes.
fn absorb(state: &mut [u32; 8], block: &[u8]) {
    let constants = cube_root_words();
    let mut w = [0u32; 64];
    for (word, bytes) in w.iter_mut().zip(block.chunks_exact(4)) {
        *word = u32::from_be_bytes([bytes[0], bytes[1], bytes[2], bytes[3]]);
    }
    for i in 16..64 {
        let s0 = w[i - 15].rotate_right(7) ^ w[i - 15].rotate_right(18) ^ (w[i - 15] >> 3);
        let s1 = w[i - 2].rotate_right(17) ^ w[i - 2].rotate_right(19) ^ (w[i - 2] >> 10);
        w[i] = w[i - 16]
            .wrapping_add(s0)
            .wrapping_add(w[i - 7])
            .wrapping_add(s1);
    }
    let [mut a, mut b, mut c, mut d, mut e, mut f, mut g, mut h] = *state;
    for i in 0..64 {
        let s1 = e.rotate_right(6) ^ e.rotate_right(11) ^ e.rotate_right(25);
        let choice = (e & f) ^ (!e & g);
        let t1 = h.wrapping_add(s1).wrapping_add(choice);
        let t1 = t1.wrapping_add(constants[i]).wrapping_add(w[i]);
        let s0 = a.rotate_right(2) ^ a.rotate_right(13) ^ a.rotate_right(22);
        let t2 = s0.wrapping_add((a & b) ^ (a & c) ^ (b & c));
        (h, g, f, e) = (g, f, e, d.wrapping_add(t1));
        (d, c, b, a) = (c, b, a, t1.wrapping_add(t2));
    }
    for (word, new) in state.iter_mut().zip([a, b, c, d, e, f, g, h]) {
        *word = word.wrapping_add(new);
    }
}

/// First 32 bits of the fractions of the square roots of the first 8 primes.
fn square_root_words() -> [u32; 8] {
    let mut words = [0; 8];
    for (word, prime) in words.iter_mut().zip(primes()) {
        *word = root_bits(u128::from(prime) << 64, 2);
    }
    words
}

/// First 32 bits of the fractions of the cube roots of the first 64 primes.
fn cube_root_words() -> [u32; 64] {
    let mut words = [0; 64];
    for (word, prime) in words.iter_mut().zip(primes()) {
        *word = root_bits(u128::from(prime) << 96, 3);
    }
    words
}

/// The low 32 bits of the largest whole number whose power is at most `target`.
fn root_bits(target: u128, power: u32) -> u32 {
    let mut root: u128 = 0;
    for bit in (0..40).rev() {
        let tried = root | 1 << bit;
        if tried.pow(power) <= target {
            root = tried;
        }
    }
    root as u32
}

/// The primes in order.
fn primes() -> impl Iterator<Item = u32> {
    (2u32..).filter(|n| (2..*n).all(|d| n % d != 0))
}
