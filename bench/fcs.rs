//! Times the archive of `fcs_c` side by side with zlib, a bytewise table and slicing-by-8, in turns in one run.
//! The one argument says on what it runs. Without `--cfg zlib` zlib's column is left out.
#![allow(unknown_lints, unexpected_cfgs)]

use std::time::Instant;

extern "C" {
    fn am79c960_fcs(bytes: *const u8, length: usize) -> u32;
    #[cfg(zlib)]
    fn crc32(crc: std::os::raw::c_ulong, bytes: *const u8, length: std::os::raw::c_uint) -> std::os::raw::c_ulong;
}

/// The tables of slicing-by-8; the first is the bytewise one.
static TABLES: [[u32; 256]; 8] = tables();

/// Entry [k][b] is the register after the byte b and then k zero bytes.
const fn tables() -> [[u32; 256]; 8] {
    let mut t = [[0u32; 256]; 8];
    let mut b = 0;
    while b < 256 {
        let mut c = b as u32;
        let mut bit = 0;
        while bit < 8 {
            c = (c >> 1) ^ ((c & 1) * 0xEDB8_8320);
            bit += 1;
        }
        t[0][b] = c;
        b += 1;
    }
    let mut k = 1;
    while k < 8 {
        let mut b = 0;
        while b < 256 {
            let c = t[k - 1][b];
            t[k][b] = (c >> 8) ^ t[0][(c & 255) as usize];
            b += 1;
        }
        k += 1;
    }
    t
}

/// The archive.
fn ours(s: &[u8]) -> u32 {
    unsafe { am79c960_fcs(s.as_ptr(), s.len()) }
}

/// zlib.
#[cfg(zlib)]
fn zlib(s: &[u8]) -> u32 {
    unsafe { crc32(0, s.as_ptr(), s.len() as _) as u32 }
}

/// One table step for each byte, from the register c.
fn steps(c: u32, s: &[u8]) -> u32 {
    s.iter().fold(c, |c, b| (c >> 8) ^ TABLES[0][((c ^ u32::from(*b)) & 255) as usize])
}

/// The plain bytewise form.
#[inline(never)]
fn bytewise(s: &[u8]) -> u32 {
    !steps(!0, s)
}

/// The plain slicing-by-8 form.
#[inline(never)]
fn slicing(s: &[u8]) -> u32 {
    let mut c: u32 = !0;
    let mut eights = s.chunks_exact(8);
    for e in &mut eights {
        let low = c ^ u32::from_le_bytes([e[0], e[1], e[2], e[3]]);
        let high = u32::from_le_bytes([e[4], e[5], e[6], e[7]]);
        let at = |k: usize, x: u32| TABLES[k][(x & 255) as usize];
        c = at(7, low) ^ at(6, low >> 8) ^ at(5, low >> 16) ^ at(4, low >> 24)
            ^ at(3, high) ^ at(2, high >> 8) ^ at(1, high >> 16) ^ at(0, high >> 24);
    }
    !steps(c, eights.remainder())
}

/// Nanoseconds of one call, over many calls at changing starts, and the sum of what they gave.
fn time(f: fn(&[u8]) -> u32, room: &[u8], length: usize, calls: usize) -> (f64, u32) {
    let mut sum = 0u32;
    let start = Instant::now();
    for i in 0..calls {
        let from = i * 8 % 1024;
        sum = sum.wrapping_mul(3) ^ f(&room[from..from + length]);
    }
    (start.elapsed().as_nanos() as f64 / calls as f64, sum)
}

/// Prints a line for each length: our time, and its ratio to each of the others.
fn main() {
    let on = std::env::args().nth(1).unwrap_or_else(|| "an unnamed machine".to_string());
    #[cfg(zlib)]
    let others: [(&str, fn(&[u8]) -> u32); 3] = [("zlib", zlib), ("bytewise", bytewise), ("slicing-8", slicing)];
    #[cfg(not(zlib))]
    let others: [(&str, fn(&[u8]) -> u32); 2] = [("bytewise", bytewise), ("slicing-8", slicing)];

    let room: Vec<u8> = (0..4096u32).map(|i| (i.wrapping_mul(2_654_435_761) >> 24) as u8).collect();
    println!("FCS, our time divided by theirs (below 1: ours is faster); {}", on);
    if others.len() == 2 {
        println!("zlib is not on this machine: its column is left out");
    }
    print!("{:>6} {:>9}", "bytes", "ours, ns");
    for (name, _) in others.iter() {
        print!(" {:>10}", name);
    }
    println!();
    for length in [6, 64, 508, 1518] {
        let calls = 400_000 / (length + 60);
        let mut best = [f64::MAX; 4];
        for _ in 0..60 {
            let (t, sum) = time(ours, &room, length, calls);
            best[0] = best[0].min(t);
            for (i, (name, f)) in others.iter().enumerate() {
                let (t, theirs) = time(*f, &room, length, calls);
                best[i + 1] = best[i + 1].min(t);
                assert!(theirs == sum, "{} gives another FCS on {} bytes", name, length);
            }
        }
        print!("{:>6} {:>9.1}", length, best[0]);
        for i in 0..others.len() {
            print!(" {:>10.2}", best[0] / best[i + 1]);
        }
        println!();
    }
}
