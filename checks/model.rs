//! Compares the archive of `am79c960` with the second model in `card.rs`, on random histories from a fixed seed: after each
//! call the result, the block, the memory and the outgoing slice, with some bytes around each. Then come every value of CSR0,
//! every register, and some blocks with every single bit turned. Two arguments may be given: the number of calls, and the seed.

mod card;

use card::*;

extern "C" {
    fn am79c960_entry_reset(block: *mut u8, size: usize) -> u64;
    fn am79c960_entry_read(block: *mut u8, size: usize, offset: u32) -> u64;
    fn am79c960_entry_write(
        block: *mut u8,
        size: usize,
        memory: *mut u8,
        memory_size: usize,
        offset: u32,
        value: u32,
    ) -> u64;
    fn am79c960_entry_arrive(
        block: *mut u8,
        size: usize,
        memory: *mut u8,
        memory_size: usize,
        frame: *const u8,
        frame_size: usize,
        extra_bits: u32,
    ) -> u64;
    fn am79c960_entry_turn(
        block: *mut u8,
        size: usize,
        memory: *mut u8,
        memory_size: usize,
        out: *mut u8,
        out_size: usize,
        report: u32,
        deferred: bool,
        no_heartbeat: bool,
    ) -> u64;
}

/// Bytes kept before and after each lent slice, where nothing may be written.
const EDGE: usize = 48;

/// Room for outgoing frames.
const OUT: usize = 4200;

/// The numbers of a call. A size may be larger than what stands behind it only where it is refused for that.
#[derive(Clone)]
enum Act {
    Reset,
    Read { offset: u32 },
    Write { offset: u32, value: u32 },
    Arrive { frame: Vec<u8>, size: usize, extra_bits: u32 },
    Turn { out: usize, report: u32, deferred: bool, no_heartbeat: bool },
}

/// A call: the block's size, the memory's size and the act.
#[derive(Clone)]
struct Call {
    block: usize,
    memory: usize,
    act: Act,
}

/// One side's block, memory and outgoing slice, with their edges.
#[derive(Clone, PartialEq)]
struct Side {
    block: Vec<u8>,
    memory: Vec<u8>,
    out: Vec<u8>,
}

impl Side {
    /// A call on the second model.
    fn model(&mut self, call: &Call) -> u64 {
        let block = if call.block == 512 { &mut self.block[EDGE..EDGE + 512] } else { &mut [][..] };
        let here = call.memory.min(self.memory.len() - 2 * EDGE);
        let memory = &mut self.memory[EDGE..EDGE + here];
        match &call.act {
            Act::Reset => reset(block),
            Act::Read { offset } => through(block, 0, |c| c.read(*offset)),
            Act::Write { offset, value } => through(block, call.memory, |c| c.write(memory, *offset, *value)),
            Act::Arrive { frame, size, extra_bits } => {
                let long = [0; 4096];
                let frame = if *size > 4095 { &long[..] } else { &frame[..*size] };
                through(block, call.memory, |c| c.arrive(memory, frame, *extra_bits))
            }
            Act::Turn { out, report, deferred, no_heartbeat } => {
                let out = &mut self.out[EDGE..EDGE + out.min(&OUT)];
                through(block, call.memory, |c| c.turn(memory, out, *report, *deferred, *no_heartbeat))
            }
        }
        .packed()
    }

    /// The same call on the archive.
    fn archive(&mut self, call: &Call) -> u64 {
        let block = self.block[EDGE..].as_mut_ptr();
        let memory = self.memory[EDGE..].as_mut_ptr();
        // Each pointer has as many bytes behind it as are looked at, and no two slices overlap.
        unsafe {
            match &call.act {
                Act::Reset => am79c960_entry_reset(block, call.block),
                Act::Read { offset } => am79c960_entry_read(block, call.block, *offset),
                Act::Write { offset, value } => {
                    am79c960_entry_write(block, call.block, memory, call.memory, *offset, *value)
                }
                Act::Arrive { frame, size, extra_bits } => {
                    am79c960_entry_arrive(block, call.block, memory, call.memory, frame.as_ptr(), *size, *extra_bits)
                }
                Act::Turn { out, report, deferred, no_heartbeat } => {
                    let to = self.out[EDGE..].as_mut_ptr();
                    am79c960_entry_turn(
                        block,
                        call.block,
                        memory,
                        call.memory,
                        to,
                        *out,
                        *report,
                        *deferred,
                        *no_heartbeat,
                    )
                }
            }
        }
    }
}

/// What a history is made of: how its rings lie, and what sizes and bits are common in it.
struct Plan {
    memory: usize,
    tidy: bool,
    block: usize,
    receive: Ring,
    transmit: Ring,
    data: usize,
    buffer: usize,
    owned: u64,
    starts: u64,
    ends: u64,
    mode: u16,
    address: [u8; 6],
}

/// The two sides, where the random numbers come from, and what was met.
struct Run {
    first_seed: u64,
    seed: u64,
    ours: Side,
    theirs: Side,
    calls: u64,
    arrivals: [u64; 13],
    turns: [u64; 13],
    refusals: [u64; 10],
    long_walks: u64,
    long_chains: u64,
}

impl Run {
    /// The next random number (xorshift).
    fn random(&mut self) -> u64 {
        self.seed ^= self.seed << 13;
        self.seed ^= self.seed >> 7;
        self.seed ^= self.seed << 17;
        self.seed >> 11
    }

    /// A random number below another; 0 below 0.
    fn below(&mut self, n: usize) -> usize {
        self.random() as usize % n.max(1)
    }

    /// True so many times in a thousand.
    fn chance(&mut self, n: u64) -> bool {
        self.random() % 1000 < n
    }

    /// One of some.
    fn pick<T: Copy>(&mut self, of: &[T]) -> T {
        of[self.below(of.len())]
    }

    /// Some random bytes.
    fn bytes(&mut self, length: usize) -> Vec<u8> {
        let mut bytes = Vec::with_capacity(length + 6);
        while bytes.len() < length {
            let more = self.random().to_le_bytes();
            bytes.extend_from_slice(&more[..6]);
        }
        bytes.truncate(length);
        bytes
    }

    /// The host writes to memory, on both sides; what falls outside is left out.
    fn poke(&mut self, at: usize, bytes: &[u8]) {
        let size = self.ours.memory.len() - 2 * EDGE;
        let to = size.min(at + bytes.len());
        if at < to {
            self.ours.memory[EDGE + at..EDGE + to].copy_from_slice(&bytes[..to - at]);
            self.theirs.memory[EDGE + at..EDGE + to].copy_from_slice(&bytes[..to - at]);
        }
    }

    /// The host puts another block in place, on both sides.
    fn replace(&mut self, block: &[u8; 512]) {
        self.ours.block[EDGE..EDGE + 512].copy_from_slice(block);
        self.theirs.block[EDGE..EDGE + 512].copy_from_slice(block);
    }

    /// The state in the block, if it is sound.
    fn card(&self) -> Option<Card> {
        open(&self.ours.block[EDGE..EDGE + 512])
    }

    /// One call on both sides. The first difference is printed and ends the program.
    fn call(&mut self, call: Call) -> u64 {
        self.calls += 1;
        let before = self.card();
        let kept = self.theirs.block.clone();
        let expected = self.ours.model(&call);
        let given = self.theirs.archive(&call);
        self.count(&call, before.as_ref(), expected);
        if given != expected || self.ours != self.theirs {
            println!("model: seed {}, call {}: {}", self.first_seed, self.calls, describe(&call));
            println!("  the state before: {:?}", before);
            println!("  the block before: {:02x?}", &kept[EDGE..EDGE + 46]);
            println!("  the result: expected {:#x}, given {:#x}", expected, given);
            first("block", &self.ours.block, &self.theirs.block);
            first("memory", &self.ours.memory, &self.theirs.memory);
            first("outgoing slice", &self.ours.out, &self.theirs.out);
            println!("model: {} calls, 1 differ", self.calls);
            std::process::exit(1);
        }
        expected
    }

    /// Counts what was met.
    fn count(&mut self, call: &Call, before: Option<&Card>, result: u64) {
        let (number, word) = (result as usize & 0xFF, result as usize >> 8 & 0xFF);
        if number != 0 {
            self.refusals[number] += 1;
            return;
        }
        let moved = |from: Ring, to: Ring| (to.slot + from.slots - from.slot) % from.slots;
        let after = self.card();
        match (&call.act, before, after) {
            (Act::Arrive { .. }, Some(from), Some(to)) => {
                self.arrivals[word] += 1;
                self.long_walks += u64::from(word >= 5 && moved(from.receive, to.receive) > 2);
            }
            (Act::Turn { .. }, Some(from), Some(to)) => {
                self.turns[word] += 1;
                self.long_chains += u64::from(word >= 10 && moved(from.transmit, to.transmit) > 2);
            }
            _ => {}
        }
    }

    /// A plan, with memory and rings to match.
    fn plan(&mut self, huge: bool) -> Plan {
        let slots = |run: &mut Run| 1u16 << run.below(8);
        let (receive, transmit) = (slots(self), slots(self));
        let rings = 32 + 8 * (receive + transmit) as usize;
        let tidy = !huge && self.chance(550);
        let memory = match self.below(100) {
            _ if huge => MOST_MEMORY,
            0..=2 if !tidy => self.below(65),
            3..=9 => rings + 6000 + self.below(30_000),
            _ if tidy => rings + 100 + self.below(6000),
            _ => 256 + self.below(7937),
        };
        let low = if huge { memory - 3000 } else { 0 };
        let base = |run: &mut Run, tidy_at: usize, slots: u16| {
            let fits = (memory - low).saturating_sub(8 * slots as usize);
            let at = match run.below(20) {
                _ if tidy => tidy_at,
                0 => run.below(1 << 24),
                1..=3 => memory.saturating_sub(8 * run.below(slots as usize + 1)),
                4 => 0xFF_FFF8,
                _ => low + run.below(fits),
            };
            Ring { base: at as u32 & 0xFF_FFF8, slots, slot: 0 }
        };
        let receive = base(self, 32, receive);
        let transmit = base(self, 32 + 8 * receive.slots as usize, transmit);
        let block = match self.below(20) {
            0 => memory.saturating_sub(self.below(26)),
            1 => 0xFF_FFE0 + self.below(32),
            2 => self.below(1 << 24),
            _ if tidy => 0,
            _ => low + self.below((memory - low).saturating_sub(24)),
        };
        let mut mode = self.random() as u16 & 0x1FD4;
        for (bit, n) in [(0x8000, 150), (0x4000, 250), (0x2000, 50), (0x0020, 200), (0x0008, 400), (2, 30), (1, 30)] {
            mode |= if self.chance(n) { bit } else { 0 };
        }
        let mut address = [0; 6];
        address.copy_from_slice(&self.bytes(6));
        address[0] &= if self.chance(930) { 0xFE } else { 0xFF };
        let small = 1 + self.below(12);
        let some = 13 + self.below(200);
        let part = 4096 / transmit.slots as usize + self.below(3);
        let more = 200 + self.below(3897);
        let edge = self.pick(&[1514, 1515, 1518, 1519]);
        let plan = Plan {
            memory,
            tidy,
            block,
            receive,
            transmit,
            data: if tidy { rings } else { low },
            buffer: self.pick(&[small, small, some, some, some, part, more, edge]).max(1).min(4096),
            owned: self.pick(&[1000, 1000, 980, 900, 500]),
            starts: self.pick(&[1000, 700, 200]),
            ends: self.pick(&[1000, 500, 200, 30]),
            mode,
            address,
        };
        let content = if huge { vec![0; memory] } else { self.bytes(memory) };
        let edges = self.bytes(2 * EDGE);
        self.ours.memory = [&edges[..EDGE], &content, &edges[EDGE..]].concat();
        self.theirs.memory = self.ours.memory.clone();
        plan
    }

    /// A descriptor, as a driver would write it or not.
    fn descriptor(&mut self, plan: &Plan, ring: &Ring, slot: u16, sends: bool) {
        let at = ring.base as usize + 8 * slot as usize;
        let odd = self.chance(if plan.tidy { 15 } else { 200 });
        let size = match self.below(if odd { 8 } else { 60 }) {
            0 => 1,
            1 => 4096,
            2 => 1 + self.below(4096),
            3 => plan.buffer + 1,
            _ => plan.buffer,
        }
        .min(4096);
        let inside = (plan.memory - plan.data).saturating_sub(size);
        let buffer = match self.below(8) {
            _ if !odd => plan.data + self.below(inside + 1),
            0 => plan.memory.saturating_sub(size),
            1 => plan.memory.saturating_sub(size) + 1,
            2 => self.below(1 << 24),
            3 => (at + self.below(17)).saturating_sub(8),
            4 => (at + 8 + self.below(12)).saturating_sub(4),
            5 => ring.base as usize + self.below(8 * ring.slots as usize),
            6 => plan.receive.base as usize + self.below(8 * plan.receive.slots as usize),
            _ => self.below(plan.memory),
        };
        let mut status = self.random() as u8 & if self.chance(300) { 0x7F } else { 0 };
        status |= if self.chance(plan.owned) { 0x80 } else { 0 };
        if sends {
            status &= 0x7C | 0x80;
            status |= if self.chance(plan.starts) { 0x02 } else { 0 };
            status |= if self.chance(plan.ends) { 0x01 } else { 0 };
        }
        let count = (4096 - size) as u16 | if self.chance(800) { 0xF000 } else { self.random() as u16 & 0xF000 };
        let rest = self.random() as u16;
        let (b, c, r) = ((buffer as u32).to_le_bytes(), count.to_le_bytes(), rest.to_le_bytes());
        self.poke(at, &[b[0], b[1], b[2], status, c[0], c[1], r[0], r[1]]);
    }

    /// The initialization block of a plan.
    fn initialization(&mut self, plan: &Plan) {
        let mut block = Vec::new();
        block.extend_from_slice(&plan.mode.to_le_bytes());
        block.extend_from_slice(&plan.address);
        block.extend_from_slice(&self.bytes(8));
        for ring in [plan.receive, plan.transmit] {
            let noise = self.random() as u32;
            let base = ring.base | noise & 7;
            let high = (base >> 16) as u16 | (ring.slots.trailing_zeros() as u16) << 13 | noise as u16 & 0x1F00;
            block.extend_from_slice(&(base as u16).to_le_bytes());
            block.extend_from_slice(&high.to_le_bytes());
        }
        self.poke(plan.block, &block);
    }

    /// A sound state for a plan, reachable or not.
    fn state(&mut self, plan: &Plan) -> Card {
        let noise = self.random();
        let filter = [self.random() as u16, self.random() as u16, self.random() as u16, self.random() as u16];
        let kind = self.below(40);
        let mut card = Card {
            csr0: if kind == 0 { STOP } else { INIT },
            rap: if self.chance(700) { 0 } else { self.below(128) as u16 },
            csr1: plan.block as u16 | noise as u16 & 1,
            csr2: (plan.block >> 16) as u16 & 0xFF,
            csr3: if self.chance(700) { 0 } else { noise as u16 & MASKS },
            csr112: self.pick(&[0, 65_534, 65_535, noise as u16]),
            ..Card::default()
        };
        if kind != 0 {
            card.csr0 |= (noise >> 16) as u16 & IENA;
            card.csr0 |= if self.chance(300) { (noise >> 16) as u16 & (MASKS | CERR) } else { 0 };
        }
        if kind == 1 {
            return card;
        }
        card.initialized = true;
        card.mode = plan.mode;
        card.address = plan.address;
        card.filter = filter;
        card.receive = Ring { slot: self.below(plan.receive.slots as usize) as u16, ..plan.receive };
        card.transmit = Ring { slot: self.below(plan.transmit.slots as usize) as u16, ..plan.transmit };
        if kind > 1 {
            card.csr0 = card.csr0 & !INIT | STRT | (noise >> 16) as u16 & (INIT | TDMD);
            card.csr0 |= if self.chance(970) { RXON } else { 0 };
            card.csr0 |= if self.chance(970) { TXON } else { 0 };
        }
        card
    }

    /// A frame, most of them for the card.
    fn frame(&mut self, plan: &Plan, card: &Card) -> Vec<u8> {
        let walk = plan.buffer * (1 + self.below(plan.receive.slots as usize + 1));
        let length = match self.below(100) {
            0..=2 => self.below(64),
            3 => self.pick(&[63, 64, 65, 1518, 1519, 4094, 4095]),
            4..=20 => 64 + self.below(300),
            21 => 64 + self.below(4032),
            _ => (walk + self.pick(&[0, 0, 1, 2, 9])).max(65).min(4096) - 1,
        };
        let mut frame = self.bytes(length.max(10));
        match self.below(20) {
            0 => frame[..6].copy_from_slice(&[0xFF; 6]),
            1 => frame[0] |= 1,
            2 => frame[0] &= 0xFE,
            3 => {
                let bit = self.below(48);
                frame[..6].copy_from_slice(&card.address);
                frame[bit / 8] ^= 1 << (bit % 8);
            }
            _ => frame[..6].copy_from_slice(&card.address),
        }
        let end = frame.len() - 4;
        let check = fcs(&frame[..end]).to_le_bytes();
        frame[end..].copy_from_slice(&check);
        if self.chance(200) {
            let bit = self.below(frame.len() * 8);
            frame[bit / 8] ^= 1 << (bit % 8);
        }
        frame.truncate(length);
        frame
    }

    /// Between two calls the host writes descriptors, or anything.
    fn host(&mut self, plan: &Plan) {
        let card = self.card();
        for sends in [false, true] {
            let loaded = card.as_ref().map(|c| if sends { c.transmit } else { c.receive });
            let planned = if sends { plan.transmit } else { plan.receive };
            let ring = loaded.filter(|r| r.slots > 0).unwrap_or(planned);
            if self.chance(750) {
                let back = if self.chance(600) { ring.slots as usize } else { self.below(ring.slots as usize + 1) };
                for i in 0..back as u16 {
                    self.descriptor(plan, &ring, (ring.slot + i) % ring.slots, sends);
                }
            }
        }
        if self.chance(50) {
            let at = self.below(plan.memory);
            let bytes = self.bytes(20);
            self.poke(at, &bytes);
        }
    }

    /// The sizes of a call, now and then too small or too large.
    fn on(&mut self, plan: &Plan, act: Act) -> Call {
        let shorter = self.below(plan.memory + 1);
        let block = match self.below(400) {
            0 => self.pick(&[0, 1, 508, 511, 513, 1024, 0x1_0000_0200, usize::MAX >> 1]),
            _ => 512,
        };
        let memory = match self.below(400) {
            0 => self.pick(&[MOST_MEMORY + 1, 0xFFFF_FFFF, 0x1_0000_0000, 0x1_0000_0100, usize::MAX >> 1]),
            1 => 0,
            2..=12 => shorter,
            13 => plan.memory - self.below(plan.memory.min(9)),
            _ => plan.memory,
        };
        Call { block, memory, act }
    }

    /// An arrival.
    fn arrival(&mut self, plan: &Plan) -> Act {
        let card = self.card().unwrap_or_default();
        let frame = self.frame(plan, &card);
        let size = match self.below(200) {
            0 => self.pick(&[4096, 5000, 65_536, 0x1_0000_0040, usize::MAX >> 1]),
            _ => frame.len(),
        };
        let few = 1 + self.below(7) as u32;
        let extra_bits = match self.below(200) {
            0 => self.pick(&[8, 9, 255, 256, 65_536, 0x8000_0001, u32::MAX]),
            1..=30 => few,
            _ => 0,
        };
        Act::Arrive { frame, size, extra_bits }
    }

    /// A turn.
    fn turn(&mut self) -> Act {
        let report = match self.below(200) {
            0 => self.pick(&[6, 7, 255, 256, 65_536, 0x8000_0000, u32::MAX]),
            1..=99 => 0,
            _ => self.below(6) as u32,
        };
        let out = match self.below(200) {
            0 => self.pick(&[0, 1, 4096, 4099]),
            1..=50 => 4100 + self.below(OUT - 4099),
            _ => 4100,
        };
        Act::Turn { out, report, deferred: self.chance(400), no_heartbeat: self.chance(300) }
    }

    /// A write, most of them to RDP and RAP.
    fn writing(&mut self, plan: &Plan) -> Act {
        let bad = self.pick(&[0x0E, 0x11, 0x13, 0x16, 0x10010, 0x8000_0012]);
        let offset = self.pick(&[0x10, 0x10, 0x10, 0x10, 0x10, 0x12, 0x12, 0x14, bad]);
        let rap = self.card().map_or(0, |c| c.rap);
        let value = match (offset, rap) {
            (0x12, _) => self.pick(&[0, 0, 0, 1, 2, 3, 4, 8, 12, 15, 16, 24, 30, 72, 76, 88, 89, 112, 128, 0x10001]),
            (0x10, 0) => {
                let any = self.random() as u32;
                self.pick(&[1, 2, 3, 4, 0x42, 0x43, 0x4A, 0x7F40, 0x7F48, 0x103, any, any | 4, any & !4])
            }
            (0x10, 1) if self.chance(800) => plan.block as u32 & 0xFFFF,
            (0x10, 2) if self.chance(800) => plan.block as u32 >> 16,
            _ => self.random() as u32,
        };
        Act::Write { offset, value }
    }

    /// The card is started by its registers.
    fn start(&mut self, plan: &Plan) {
        self.initialization(plan);
        let at = plan.block as u32;
        let mask = if self.chance(700) { 0 } else { self.random() as u32 };
        let begin = self.pick(&[0x43, 0x4B, 0x03, 0x01]);
        for (rap, value) in [(0, 4), (1, at), (2, at >> 16), (3, mask), (0, begin), (0, 0x142)] {
            for (offset, value) in [(0x12, rap), (0x10, value)] {
                let call = self.on(plan, Act::Write { offset, value });
                self.call(call);
            }
        }
    }

    /// A register is selected, written and read.
    fn register(&mut self, plan: &Plan) {
        let any = self.below(128) as u32;
        let rap = self.pick(&[1, 2, 3, 8, 11, 12, 15, 24, 25, 30, 31, 72, 74, 76, 78, 88, 89, 112, any, any, any]);
        let value = self.random() as u32;
        for act in [
            Act::Write { offset: 0x12, value: rap },
            Act::Read { offset: 0x10 },
            Act::Write { offset: 0x10, value },
            Act::Read { offset: 0x10 },
            Act::Write { offset: 0x12, value: 0 },
        ] {
            let call = self.on(plan, act);
            self.call(call);
        }
    }

    /// A block is spoilt, with a right check most times, and tried.
    fn spoil(&mut self, plan: &Plan) {
        let mut block = [0; 512];
        block.copy_from_slice(&self.ours.block[EDGE..EDGE + 512]);
        let sound = block;
        let at = match self.below(4) {
            0 => self.below(508),
            1 => self.pick(&[0, 1]),
            _ => self.below(46),
        };
        let bit = 1u8 << self.below(8);
        block[at] = self.pick(&[block[at] ^ bit, block[at] ^ bit, 0, 1, 3, 0xFF]);
        if self.chance(300) {
            block[12] ^= 1;
        }
        if self.chance(900) {
            seal(&mut block);
        }
        self.replace(&block);
        for _ in 0..2 {
            let act = self.any(plan);
            let call = self.on(plan, act);
            self.call(call);
        }
        self.replace(&sound);
    }

    /// Any act.
    fn any(&mut self, plan: &Plan) -> Act {
        let bad = self.pick(&[0, 0x0F, 0x11, 0x13, 0x15, 0x16, 0x18, 0x10010, u32::MAX]);
        let offset = self.pick(&[0x10, 0x10, 0x10, 0x10, 0x12, 0x12, 0x14, bad]);
        match self.below(200) {
            0..=87 => self.arrival(plan),
            88..=175 => self.turn(),
            176..=187 => self.writing(plan),
            188 => Act::Reset,
            _ => Act::Read { offset },
        }
    }

    /// One history: a plan, a start, and calls with the host's writes between them.
    fn history(&mut self, huge: bool) {
        let plan = self.plan(huge);
        if self.chance(650) {
            let card = self.state(&plan);
            self.replace(&close(&card));
        } else {
            // Reset asks for no content.
            if self.chance(500) {
                let mut any = [0; 512];
                any.copy_from_slice(&self.bytes(512));
                self.replace(&any);
            }
            self.call(Call { block: 512, memory: 0, act: Act::Reset });
            self.start(&plan);
        }
        for _ in 0..if huge { 25 } else { 40 } {
            self.host(&plan);
            let act = self.any(&plan);
            let needs = match act {
                Act::Arrive { .. } => RXON,
                Act::Turn { .. } => TXON,
                _ => 0,
            };
            let card = self.card().unwrap_or_else(Card::fresh);
            if card.csr0 & needs != needs && self.chance(900) {
                if self.chance(60) {
                    self.start(&plan);
                } else if self.chance(150) {
                    for (offset, value) in [(0x12, 0), (0x10, 4), (0x10, 0x42)] {
                        let call = self.on(&plan, Act::Write { offset, value });
                        self.call(call);
                    }
                } else {
                    let card = self.state(&plan);
                    self.replace(&close(&card));
                }
            }
            let call = self.on(&plan, act);
            self.call(call);
            if self.chance(15) {
                self.spoil(&plan);
            }
            if self.chance(10) {
                self.register(&plan);
            }
        }
    }

    /// Every value of CSR0, before and after an initialization, in a block with a right check: sound or 9.
    fn every_csr0(&mut self) {
        let plan = self.plan(false);
        let loaded = self.state(&plan);
        for csr0 in 0..=u16::MAX {
            for initialized in [false, true] {
                let card = Card { csr3: loaded.csr3, ..Card::default() };
                let card = if initialized { Card { initialized, ..loaded.clone() } } else { card };
                let mut block = close(&Card { csr0, ..card });
                // ERR and INTR as they are in the number, and not as they should be.
                block[..2].copy_from_slice(&csr0.to_le_bytes());
                seal(&mut block);
                self.replace(&block);
                self.call(Call { block: 512, memory: 0, act: Act::Read { offset: 0x12 } });
            }
        }
    }

    /// Every register is read and written, on stopped and on running cards with rings of every length.
    fn every_register(&mut self) {
        for length in 0..16 {
            let plan = self.plan(false);
            let mut card = self.state(&plan);
            card.initialized = length > 0;
            if length > 0 {
                let slot = self.below(1 << (length / 2));
                card.receive =
                    Ring { base: self.random() as u32 & 0xFF_FFF8, slots: 1 << (length / 2), slot: slot as u16 };
                card.transmit = Ring { base: self.random() as u32 & 0xFF_FFF8, slots: 1 << (7 - length / 2), slot: 0 };
                card.csr0 = if length % 2 == 0 { STOP } else { INIT | STRT | RXON };
            } else {
                card = Card { csr1: card.csr1, csr2: card.csr2, csr3: card.csr3, csr112: card.csr112, ..Card::fresh() };
            }
            for rap in 0..256 {
                let value = self.random() as u32;
                self.replace(&close(&card));
                for act in [
                    Act::Write { offset: 0x12, value: rap },
                    Act::Read { offset: 0x12 },
                    Act::Read { offset: 0x10 },
                    Act::Write { offset: 0x10, value },
                    Act::Read { offset: 0x10 },
                    Act::Write { offset: rap, value },
                    Act::Read { offset: rap },
                ] {
                    self.call(Call { block: 512, memory: plan.memory, act });
                }
            }
        }
    }

    /// Every single bit of some blocks is turned: 9 and nothing else, whatever is called but reset.
    fn flips(&mut self) -> u64 {
        let before = self.calls;
        for kind in 0..4 {
            let plan = self.plan(false);
            let card = if kind == 0 { Card::fresh() } else { self.state(&plan) };
            let block = close(&card);
            for bit in 0..4096 {
                let mut turned = block;
                turned[bit / 8] ^= 1 << (bit % 8);
                self.replace(&turned);
                let (frame, size) = (vec![0xFF; 64], 64);
                let acts = vec![
                    Act::Read { offset: 0x14 },
                    Act::Write { offset: 0x10, value: 4 },
                    Act::Arrive { frame, size, extra_bits: 0 },
                    Act::Turn { out: 4100, report: 0, deferred: false, no_heartbeat: false },
                ];
                for act in acts {
                    let result = self.call(Call { block: 512, memory: plan.memory, act });
                    assert!(result == 9 && self.theirs.block[EDGE..EDGE + 512] == turned, "bit {} passed", bit);
                }
            }
        }
        self.calls - before
    }
}

/// A call in words.
fn describe(call: &Call) -> String {
    let act = match &call.act {
        Act::Reset => "reset".to_string(),
        Act::Read { offset } => format!("read at {:#x}", offset),
        Act::Write { offset, value } => format!("write at {:#x} of {:#x}", offset, value),
        Act::Arrive { frame, size, extra_bits } => {
            format!("arrival of {} bytes, {} extra bits: {:02x?}", size, extra_bits, &frame[..frame.len().min(16)])
        }
        Act::Turn { out, report, deferred, no_heartbeat } => {
            format!("turn to {} bytes, report {}, deferred {}, no heartbeat {}", out, report, deferred, no_heartbeat)
        }
    };
    format!("{}; block of {}, memory of {}", act, call.block, call.memory)
}

/// Prints where two slices first differ.
fn first(name: &str, ours: &[u8], theirs: &[u8]) {
    let differ: Vec<usize> = (0..ours.len()).filter(|&i| ours[i] != theirs[i]).collect();
    if let Some(&i) = differ.first() {
        let at = i as isize - EDGE as isize;
        println!("  the {}: {} bytes differ, the first at {}", name, differ.len(), at);
        println!("    expected {:02x}, given {:02x}", ours[i], theirs[i]);
    }
}

/// Runs the histories and the turned bits, prints what was met and how many calls there were.
fn main() {
    let mut arguments = std::env::args().skip(1).map(|a| a.parse::<u64>().expect("a number"));
    let calls = arguments.next().unwrap_or(400_000);
    let seed = arguments.next().unwrap_or(0x0007_9C96_0802_0003).max(1);
    let mut run = Run {
        first_seed: seed,
        seed,
        ours: Side { block: vec![0xEE; 512 + 2 * EDGE], memory: Vec::new(), out: vec![0xEE; OUT + 2 * EDGE] },
        theirs: Side { block: vec![0xEE; 512 + 2 * EDGE], memory: Vec::new(), out: vec![0xEE; OUT + 2 * EDGE] },
        calls: 0,
        arrivals: [0; 13],
        turns: [0; 13],
        refusals: [0; 10],
        long_walks: 0,
        long_chains: 0,
    };
    let mut histories = 0;
    while run.calls < calls {
        run.history(histories % 4000 == 0);
        histories += 1;
    }
    let random = run.calls;
    run.every_csr0();
    run.every_register();
    let whole = run.calls - random;
    let flips = run.flips();

    println!("model: {} histories with {} calls; {} calls on every CSR0 and every register", histories, random, whole);
    println!("model: {} calls with one bit of the block turned", flips);
    let names =
        ["off", "runt", "not ours", "missed", "received", "cut", "memory", "idle", "underflow", "failed", "sent"];
    let list = |counts: &[u64; 13]| -> String {
        let met = |i: usize| format!(", {} {}", names[i], counts[i + 2]);
        (0..names.len()).filter(|&i| counts[i + 2] != 0).map(met).collect()
    };
    let (a, t) = (run.arrivals, run.turns);
    println!("model: {} arrivals, {} over three slots or more{}", a.iter().sum::<u64>(), run.long_walks, list(&a));
    println!("model: {} turns, {} over three slots or more{}", t.iter().sum::<u64>(), run.long_chains, list(&t));
    println!("model: refusals by number, 1 to 9: {:?}", &run.refusals[1..]);
    println!("model: {} calls, 0 differ", run.calls);
    // Each answer and each refusal must have been met often enough, or it was not compared.
    let often = random / 5000;
    let met = |counts: &[u64], at: &[usize]| at.iter().all(|&i| counts[i] >= often);
    assert!(met(&a, &[2, 3, 4, 5, 6, 7, 8]) && run.long_walks >= often, "an answer of arrivals is too rare");
    assert!(met(&run.refusals, &[1, 2, 3, 6, 7, 8, 9]), "a refusal is too rare");
    assert!(met(&t, &[2, 8, 9, 10, 11, 12]) && run.long_chains >= often, "an answer of turns is too rare");
    assert!(met(&run.refusals, &[4, 5]), "a refusal of turns is too rare");
}
