//! SHA-256 as its standard (FIPS 180-4) says, in base64 as security policies write it.

/// The first 32 bits of the fractional parts of a root of the first primes.
fn fractions(count: usize, root: fn(f64) -> f64) -> Vec<u32> {
    let is_prime = |n: &u32| (2..*n).all(|divisor| n / divisor * divisor != *n);
    (2..).filter(is_prime).take(count).map(|prime| (root(prime.into()).fract() * 4_294_967_296.0) as u32).collect()
}

/// The hash of a text, as `sha256-...`.
pub fn policy_hash(text: &str) -> String {
    let words = hash(text.as_bytes());
    let bytes: Vec<u8> = words.iter().flat_map(|word| word.to_be_bytes()).collect();
    format!("sha256-{}", base64(&bytes))
}

fn hash(text: &[u8]) -> Vec<u32> {
    let mut padded = text.to_vec();
    padded.push(0x80);
    while padded.len() % 64 != 56 {
        padded.push(0);
    }
    padded.extend((text.len() as u64 * 8).to_be_bytes());
    let constants = fractions(64, f64::cbrt);
    padded.chunks(64).fold(fractions(8, f64::sqrt), |state, block| step(state, block, &constants))
}

fn step(state: Vec<u32>, block: &[u8], constants: &[u32]) -> Vec<u32> {
    let mut words: Vec<u32> = block.chunks(4).map(|b| u32::from_be_bytes([b[0], b[1], b[2], b[3]])).collect();
    for at in 16..64 {
        let (x, y) = (words[at - 15], words[at - 2]);
        let first = x.rotate_right(7) ^ x.rotate_right(18) ^ (x >> 3);
        let second = y.rotate_right(17) ^ y.rotate_right(19) ^ (y >> 10);
        words.push(words[at - 16].wrapping_add(first).wrapping_add(words[at - 7]).wrapping_add(second));
    }
    let mut now = state.clone();
    for (word, constant) in words.iter().zip(constants) {
        let [a, b, c, _, e, f, g, h] = now[..] else { panic!("eight words") };
        let first = e.rotate_right(6) ^ e.rotate_right(11) ^ e.rotate_right(25);
        let choice = (e & f) ^ (!e & g);
        let one = h.wrapping_add(first).wrapping_add(choice).wrapping_add(*constant).wrapping_add(*word);
        let second = a.rotate_right(2) ^ a.rotate_right(13) ^ a.rotate_right(22);
        let two = second.wrapping_add((a & b) ^ (a & c) ^ (b & c));
        now.rotate_right(1);
        now[0] = one.wrapping_add(two);
        now[4] = now[4].wrapping_add(one);
    }
    state.iter().zip(now).map(|(before, after)| before.wrapping_add(after)).collect()
}

fn base64(bytes: &[u8]) -> String {
    const DIGITS: &[u8; 64] = b"ABCDEFGHIJKLMNOPQRSTUVWXYZabcdefghijklmnopqrstuvwxyz0123456789+/";
    let mut text = String::new();
    for chunk in bytes.chunks(3) {
        let number = chunk.iter().chain(&[0, 0]).take(3).fold(0usize, |number, &byte| number << 8 | usize::from(byte));
        for place in 0..4 {
            let digit = char::from(DIGITS[number >> (18 - 6 * place) & 63]);
            text.push(if place <= chunk.len() { digit } else { '=' });
        }
    }
    text
}

/// The value that the standard's example gives for `abc`: ba7816bf ... f20015ad.
#[test]
fn standard_example() {
    assert_eq!(policy_hash("abc"), "sha256-ungWv48Bz+pBQUDeXa4iI7ADYaOWF3qctBD/YfIAFa0=");
}
