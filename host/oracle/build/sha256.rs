//! SHA-256 (FIPS 180-4), short and slow: it hashes two files at a build.

/// The standard's constants are fractions of roots of the first primes, so
/// they are computed here and not typed in.
fn primes(count: usize) -> Vec<u64> {
    (2u64..)
        .filter(|n| (2..*n).take_while(|d| d * d <= *n).all(|d| n % d != 0))
        .take(count)
        .collect()
}

/// floor(2^32 * p^(1/k)) mod 2^32, by bisection on integers.
fn root_fraction(p: u64, k: u32) -> u32 {
    let wanted = (p as u128) << 32 * k;
    let (mut low, mut high) = (0u128, 1u128 << 37);
    while high - low > 1 {
        let middle = (low + high) / 2;
        if middle.pow(k) <= wanted {
            low = middle;
        } else {
            high = middle;
        }
    }
    low as u32
}

fn padded(bytes: &[u8]) -> Vec<u8> {
    let mut out = bytes.to_vec();
    out.push(0x80);
    while out.len() % 64 != 56 {
        out.push(0);
    }
    out.extend_from_slice(&(8 * bytes.len() as u64).to_be_bytes());
    out
}

fn schedule(block: &[u8]) -> [u32; 64] {
    let mut w = [0u32; 64];
    for (i, c) in block.chunks(4).enumerate() {
        w[i] = u32::from_be_bytes([c[0], c[1], c[2], c[3]]);
    }
    for i in 16..64 {
        let (a, b) = (w[i - 15], w[i - 2]);
        let s0 = a.rotate_right(7) ^ a.rotate_right(18) ^ (a >> 3);
        let s1 = b.rotate_right(17) ^ b.rotate_right(19) ^ (b >> 10);
        w[i] = w[i - 16]
            .wrapping_add(s0)
            .wrapping_add(w[i - 7])
            .wrapping_add(s1);
    }
    w
}

fn round(v: &[u32; 8], k: u32, w: u32) -> [u32; 8] {
    let [a, b, c, d, e, f, g, h] = *v;
    let s1 = e.rotate_right(6) ^ e.rotate_right(11) ^ e.rotate_right(25);
    let choice = (e & f) ^ (!e & g);
    let t1 = [s1, choice, k, w]
        .iter()
        .fold(h, |sum, x| sum.wrapping_add(*x));
    let s0 = a.rotate_right(2) ^ a.rotate_right(13) ^ a.rotate_right(22);
    let majority = (a & b) ^ (a & c) ^ (b & c);
    let t2 = s0.wrapping_add(majority);
    [t1.wrapping_add(t2), a, b, c, d.wrapping_add(t1), e, f, g]
}

pub fn hex(bytes: &[u8]) -> String {
    let primes = primes(64);
    let mut state = [0u32; 8];
    for i in 0..8 {
        state[i] = root_fraction(primes[i], 2);
    }
    let keys: Vec<u32> = primes.iter().map(|p| root_fraction(*p, 3)).collect();
    for block in padded(bytes).chunks(64) {
        let w = schedule(block);
        let mut v = state;
        for i in 0..64 {
            v = round(&v, keys[i], w[i]);
        }
        for i in 0..8 {
            state[i] = state[i].wrapping_add(v[i]);
        }
    }
    state.iter().map(|word| format!("{:08x}", word)).collect()
}
