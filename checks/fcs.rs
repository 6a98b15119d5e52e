//! Compares the archive of `fcs_c` with a bit-by-bit FCS of its own, on many inputs from a fixed seed.

extern "C" {
    fn am79c960_fcs(bytes: *const u8, length: usize) -> u32;
    fn am79c960_right_fcs(frame: *const u8, length: usize) -> bool;
    fn am79c960_hash(address: *const u8, length: usize) -> u8;
}

/// IEEE 802.3's register as the standard has it: it shifts towards its high end, and a byte's low bit comes first.
fn register(bytes: &[u8]) -> u32 {
    let mut r: u32 = !0;
    for b in bytes {
        for i in 0..8 {
            let out = (r >> 31) ^ u32::from(b >> i & 1);
            r = (r << 1) ^ (out * 0x04C1_1DB7);
        }
    }
    r
}

/// The FCS, with the register's high end as bit 0.
fn fcs(bytes: &[u8]) -> u32 {
    !register(bytes).reverse_bits()
}

/// Whether a frame ends in the FCS of what stands before.
fn right(frame: &[u8]) -> bool {
    frame.len() >= 4 && {
        let (data, end) = frame.split_at(frame.len() - 4);
        end == fcs(data).to_le_bytes()
    }
}

/// The filter bit of an address: six bits from the register's low end, turned round.
fn hash(address: &[u8]) -> u8 {
    (register(address).reverse_bits() >> 26) as u8
}

/// What was compared so far, and where the random bytes come from.
struct Run {
    seed: u64,
    compared: u64,
    differ: u64,
    passed: u64,
    failed: u64,
}

impl Run {
    /// The next random number (xorshift).
    fn random(&mut self) -> u64 {
        self.seed ^= self.seed << 13;
        self.seed ^= self.seed >> 7;
        self.seed ^= self.seed << 17;
        self.seed
    }

    /// Some random bytes.
    fn bytes(&mut self, length: usize) -> Vec<u8> {
        (0..length).map(|_| (self.random() >> 32) as u8).collect()
    }

    /// One comparison; the first twenty that differ are named.
    fn compare(&mut self, same: bool, what: &str, length: usize, start: usize) {
        self.compared += 1;
        if !same {
            self.differ += 1;
            if self.differ <= 20 {
                eprintln!("fcs: {} differs: {} bytes, start at {} modulo 16", what, length, start);
            }
        }
    }

    /// All three functions on some bytes, at each of some starts modulo 16.
    fn at(&mut self, bytes: &[u8], starts: std::ops::Range<usize>) {
        let expected = (fcs(bytes), right(bytes), hash(bytes));
        if expected.1 {
            self.passed += 1;
        } else {
            self.failed += 1;
        }
        let mut room = vec![0u8; bytes.len() + 32];
        for start in starts {
            let from = (16 + start - room.as_ptr() as usize % 16) % 16;
            room[from..from + bytes.len()].copy_from_slice(bytes);
            let (p, n) = (room[from..].as_ptr(), bytes.len());
            // Each pointer has `n` bytes behind it, which nothing writes during the call.
            let (f, r, h) = unsafe { (am79c960_fcs(p, n), am79c960_right_fcs(p, n), am79c960_hash(p, n)) };
            self.compare(f == expected.0, "the FCS", n, start);
            self.compare(r == expected.1, "the test", n, start);
            self.compare(h == expected.2, "the hash", n, start);
        }
    }
}

/// Some bytes followed by their FCS.
fn framed(data: &[u8]) -> Vec<u8> {
    [data, &fcs(data).to_le_bytes()].concat()
}

/// Runs all comparisons, prints how many there were, and ends with a status other than 0 if one differs.
fn main() {
    let mut run = Run { seed: 0x0007_9C96_0802_0003, compared: 0, differ: 0, passed: 0, failed: 0 };

    // Every length at every start, as bytes and as a frame with its FCS.
    for length in 0..=2048 {
        let data = run.bytes(length);
        run.at(&data, 0..16);
        run.at(&framed(&data), 0..16);
    }
    // All zeros and all ones: what a wrong start value or a wrong end would let pass.
    for length in 0..=64 {
        run.at(&vec![0; length], 0..1);
        run.at(&vec![0xFF; length], 0..1);
    }
    // Long ones.
    for length in [4091, 4095, 4096, 65_535, 65_536, 65_537, 131_071, 300_007] {
        let frame = run.bytes(length);
        run.at(&framed(&frame), 0..16);
    }
    // Damaged: each single bit of a frame turned, each end cut off, each order of the four FCS bytes.
    for length in [0, 1, 2, 3, 4, 6, 60, 127, 254] {
        let data = run.bytes(length);
        let frame = framed(&data);
        for bit in 0..frame.len() * 8 {
            let mut turned = frame.clone();
            turned[bit / 8] ^= 1 << (bit % 8);
            run.at(&turned, bit % 16..bit % 16 + 1);
        }
        for end in 0..frame.len() {
            run.at(&frame[..end], end % 16..end % 16 + 1);
        }
        for order in 0..256 {
            let from = [order & 3, order >> 2 & 3, order >> 4 & 3, order >> 6];
            if (0..4).all(|i| from.contains(&i)) {
                let mut swapped = frame.clone();
                for i in 0..4 {
                    swapped[length + i] = frame[length + from[i]];
                }
                run.at(&swapped, 0..1);
            }
        }
    }
    // A frame of the longest ordinary length with one random bit turned, often.
    let data = run.bytes(1514);
    let frame = framed(&data);
    for _ in 0..500 {
        let bit = run.random() as usize % (frame.len() * 8);
        let mut turned = frame.clone();
        turned[bit / 8] ^= 1 << (bit % 8);
        run.at(&turned, bit % 16..bit % 16 + 1);
    }

    println!("fcs: {} compared, {} differ", run.compared, run.differ);
    // Both answers of the test must have been met, or it was not tested.
    assert!(run.passed > 1000 && run.failed > 1000, "{} right frames, {} wrong", run.passed, run.failed);
    std::process::exit(i32::from(run.differ != 0));
}
