//! An archive with the card's five entries over the second model, for any machine. With it the checks and the C programs
//! can be tried where the proved archive does not run, as with sanitizers on Arm. It proves nothing and is not installed.
#![allow(dead_code)]

mod card;

use std::slice::{from_raw_parts, from_raw_parts_mut};

/// A lent slice; an empty one if its size is above a limit, where the call is refused by the size alone.
unsafe fn lent<'a>(start: *mut u8, size: usize, limit: usize) -> &'a mut [u8] {
    if size > limit {
        &mut []
    } else {
        from_raw_parts_mut(start, size)
    }
}

/// Reset.
#[no_mangle]
pub unsafe extern "C" fn am79c960_entry_reset(block: *mut u8, size: usize) -> u64 {
    card::reset(lent(block, size, 512)).packed()
}

/// Register read.
#[no_mangle]
pub unsafe extern "C" fn am79c960_entry_read(block: *mut u8, size: usize, offset: u32) -> u64 {
    card::through(lent(block, size, 512), 0, |c| c.read(offset)).packed()
}

/// Register write.
#[no_mangle]
pub unsafe extern "C" fn am79c960_entry_write(
    block: *mut u8,
    size: usize,
    memory: *mut u8,
    memory_size: usize,
    offset: u32,
    value: u32,
) -> u64 {
    let m = lent(memory, memory_size, card::MOST_MEMORY);
    card::through(lent(block, size, 512), memory_size, |c| c.write(m, offset, value)).packed()
}

/// Frame arrival.
#[no_mangle]
pub unsafe extern "C" fn am79c960_entry_arrive(
    block: *mut u8,
    size: usize,
    memory: *mut u8,
    memory_size: usize,
    frame: *const u8,
    frame_size: usize,
    extra_bits: u32,
) -> u64 {
    let m = lent(memory, memory_size, card::MOST_MEMORY);
    let f = if frame_size > 4095 { &[0; 4096][..] } else { from_raw_parts(frame, frame_size) };
    card::through(lent(block, size, 512), memory_size, |c| c.arrive(m, f, extra_bits)).packed()
}

/// Transmit turn.
#[no_mangle]
pub unsafe extern "C" fn am79c960_entry_turn(
    block: *mut u8,
    size: usize,
    memory: *mut u8,
    memory_size: usize,
    out: *mut u8,
    out_size: usize,
    report: u32,
    deferred: bool,
    no_heartbeat: bool,
) -> u64 {
    let m = lent(memory, memory_size, card::MOST_MEMORY);
    let o = from_raw_parts_mut(out, out_size.min(4100));
    card::through(lent(block, size, 512), memory_size, |c| c.turn(m, o, report, deferred, no_heartbeat)).packed()
}
