//! A second model of the card, written from document 01 by itself and plainly. `model.rs` compares the archive with it.

// CSR0, from bit 15 down.
pub const ERR: u16 = 0x8000;
pub const BABL: u16 = 0x4000;
pub const CERR: u16 = 0x2000;
pub const MISS: u16 = 0x1000;
pub const MERR: u16 = 0x0800;
pub const RINT: u16 = 0x0400;
pub const TINT: u16 = 0x0200;
pub const IDON: u16 = 0x0100;
pub const INTR: u16 = 0x0080;
pub const IENA: u16 = 0x0040;
pub const RXON: u16 = 0x0020;
pub const TXON: u16 = 0x0010;
pub const TDMD: u16 = 0x0008;
pub const STOP: u16 = 0x0004;
pub const STRT: u16 = 0x0002;
pub const INIT: u16 = 0x0001;

/// The causes of an interrupt, which are also the bits that CSR3 can mask.
pub const MASKS: u16 = BABL | MISS | MERR | RINT | TINT | IDON;

/// The most memory that may be lent.
pub const MOST_MEMORY: usize = 1 << 24;

/// The words of an answer, by their numbers.
#[derive(Clone, Copy, PartialEq, Debug)]
pub enum Word {
    Done = 1,
    Off,
    Runt,
    NotOurs,
    Missed,
    Received,
    Cut,
    Memory,
    Idle,
    Underflow,
    Failed,
    Sent,
}

/// What a call gives back besides the block and the slices.
#[derive(Clone, Copy, PartialEq, Debug, Default)]
pub struct Answer {
    pub number: u8,
    pub word: u8,
    pub value: u16,
    pub length: u16,
    pub line: bool,
}

impl Answer {
    /// The answer as the archive packs it.
    pub fn packed(self) -> u64 {
        u64::from(self.number)
            + u64::from(self.word) * 0x100
            + u64::from(self.value) * 0x1_0000
            + u64::from(self.length) * 0x1_0000_0000
            + u64::from(self.line) * 0x1_0000_0000_0000
    }
}

/// A ring: where it begins, how many slots it has, and which is current.
#[derive(Clone, Copy, PartialEq, Debug, Default)]
pub struct Ring {
    pub base: u32,
    pub slots: u16,
    pub slot: u16,
}

/// A descriptor as it was read.
struct Descriptor {
    at: usize,
    buffer: usize,
    size: usize,
    status: u8,
}

impl Ring {
    /// The slot after another.
    fn after(&self, slot: u16) -> u16 {
        if slot + 1 == self.slots {
            0
        } else {
            slot + 1
        }
    }

    /// A slot's descriptor, if all its eight bytes are inside the memory.
    fn read(&self, memory: &[u8], slot: u16) -> Option<Descriptor> {
        let at = self.base as usize + 8 * slot as usize;
        let d = memory.get(at..at + 8)?;
        Some(Descriptor {
            at,
            buffer: d[0] as usize | (d[1] as usize) << 8 | (d[2] as usize) << 16,
            size: 4096 - (d[4] as usize | (d[5] as usize & 15) << 8),
            status: d[3],
        })
    }

    /// The current slot as a counter that ends at minus one; 0 before an initialization.
    fn counter(&self) -> u16 {
        self.length().wrapping_add(self.slot)
    }

    /// The length as a register shows it; 0 before an initialization.
    fn length(&self) -> u16 {
        0u16.wrapping_sub(self.slots)
    }

    /// Whether this is a ring that an initialization can have left.
    fn is_sound(&self) -> bool {
        [1, 2, 4, 8, 16, 32, 64, 128].contains(&self.slots) && self.slot < self.slots
    }
}

impl Descriptor {
    /// Whether the card owns it.
    fn owned(&self) -> bool {
        self.status & 0x80 != 0
    }

    /// Whether the whole buffer is inside the memory.
    fn is_inside(&self, memory: &[u8]) -> bool {
        self.buffer + self.size <= memory.len()
    }
}

/// The card's state. ERR and INTR follow from the rest and are not kept.
#[derive(Clone, PartialEq, Debug, Default)]
pub struct Card {
    pub csr0: u16,
    pub rap: u16,
    pub csr1: u16,
    pub csr2: u16,
    pub csr3: u16,
    pub csr112: u16,
    pub initialized: bool,
    pub mode: u16,
    pub address: [u8; 6],
    pub filter: [u16; 4],
    pub receive: Ring,
    pub transmit: Ring,
}

impl Card {
    /// The card after a reset.
    pub fn fresh() -> Card {
        Card { csr0: STOP, ..Card::default() }
    }

    /// CSR0 with ERR and INTR.
    pub fn whole_csr0(&self) -> u16 {
        let error = self.csr0 & (BABL | CERR | MISS | MERR) != 0;
        let interrupt = self.csr0 & MASKS & !self.csr3 != 0;
        self.csr0 | if error { ERR } else { 0 } | if interrupt { INTR } else { 0 }
    }

    /// The interrupt line.
    fn line(&self) -> bool {
        let csr0 = self.whole_csr0();
        csr0 & INTR != 0 && csr0 & IENA != 0
    }

    /// Whether the state is sound. What a register drops is not asked here: `open` compares whole blocks.
    fn is_sound(&self) -> bool {
        let has = |bits: u16| self.csr0 & bits != 0;
        let nothing = Card { initialized: false, ..Card::default() };
        let stop = if has(STOP) { self.csr0 == STOP } else { has(INIT | STRT) };
        let started = has(STRT) || !has(RXON | TXON | TDMD);
        let loaded = if self.initialized {
            self.receive.is_sound() && self.transmit.is_sound()
        } else {
            !has(STRT)
                && (self.mode, self.address, self.filter) == (0, nothing.address, nothing.filter)
                && (self.receive, self.transmit) == (nothing.receive, nothing.transmit)
        };
        stop && started && loaded
    }

    /// An answer without a number.
    fn answer(&self, word: Word) -> Answer {
        Answer { word: word as u8, line: self.line(), ..Answer::default() }
    }

    /// A refusal.
    fn refused(&self, number: u8) -> Answer {
        Answer { number, line: self.line(), ..Answer::default() }
    }

    /// The card misses a DMA acknowledge.
    fn memory_error(&mut self) {
        self.csr0 |= MERR;
        self.csr0 &= !(RXON | TXON);
    }

    /// What a register holds, or the number with which reading it is refused.
    fn register(&self) -> Result<u16, u8> {
        let low = |base: u32| base as u16;
        let high = |base: u32| (base >> 16) as u16;
        let value = match self.rap {
            0 => self.whole_csr0(),
            1 => self.csr1,
            2 => self.csr2,
            3 => self.csr3,
            8..=11 => self.filter[self.rap as usize - 8],
            12..=14 => {
                let i = 2 * (self.rap as usize - 12);
                u16::from_le_bytes([self.address[i], self.address[i + 1]])
            }
            15 => self.mode,
            24 => low(self.receive.base),
            25 => high(self.receive.base),
            30 => low(self.transmit.base),
            31 => high(self.transmit.base),
            72 => self.receive.counter(),
            74 => self.transmit.counter(),
            76 => self.receive.length(),
            78 => self.transmit.length(),
            88 => 0x3003,
            89 => 0,
            112 => self.csr112,
            _ => return Err(7),
        };
        match self.rap {
            0 | 88 | 89 | 112 => Ok(value),
            _ if self.csr0 & STOP == 0 => Err(6),
            _ => Ok(value),
        }
    }

    /// The act "register read".
    pub fn read(&mut self, offset: u32) -> Answer {
        let value = match offset {
            0x10 => self.register(),
            0x12 => Ok(self.rap),
            0x14 => {
                *self = Card::fresh();
                Ok(0)
            }
            _ => Err(7),
        };
        match value {
            Ok(value) => Answer { value, ..self.answer(Word::Done) },
            Err(number) => self.refused(number),
        }
    }

    /// The act "register write". A value keeps its low 16 bits.
    pub fn write(&mut self, memory: &[u8], offset: u32, value: u32) -> Answer {
        let value = value as u16;
        match offset {
            0x10 => {
                if let Err(number) = self.register() {
                    return self.refused(number);
                }
                match self.rap {
                    0 => self.command(memory, value),
                    1 => self.csr1 = value,
                    2 => self.csr2 = value & 0xFF,
                    3 => self.csr3 = value & MASKS,
                    _ => return self.refused(8),
                }
            }
            0x12 => self.rap = value % 128,
            0x14 => {}
            _ => return self.refused(7),
        }
        self.answer(Word::Done)
    }

    /// A write to CSR0.
    fn command(&mut self, memory: &[u8], value: u16) {
        if value & STOP != 0 {
            self.csr0 = STOP;
            return;
        }
        self.csr0 &= !(value & 0x7F00);
        let mut failed = false;
        if value & INIT != 0 && self.csr0 & STOP != 0 {
            self.csr0 &= !STOP;
            self.csr0 |= INIT;
            failed = !self.initialize(memory);
            if failed {
                self.memory_error();
            } else {
                self.csr0 |= IDON;
            }
        }
        if value & STRT != 0 && self.csr0 & STRT == 0 && self.initialized && !failed {
            self.csr0 &= !STOP;
            self.csr0 |= STRT;
            self.csr0 |= if self.mode & 1 == 0 { RXON } else { 0 };
            self.csr0 |= if self.mode & 2 == 0 { TXON } else { 0 };
        }
        self.csr0 &= !IENA;
        if self.csr0 & STOP == 0 {
            self.csr0 |= value & IENA;
        }
        if self.csr0 & TXON != 0 {
            self.csr0 |= value & TDMD;
        }
    }

    /// Loads the initialization block, if it is wholly inside the memory.
    fn initialize(&mut self, memory: &[u8]) -> bool {
        let at = (self.csr1 as usize & !1) + ((self.csr2 as usize) << 16);
        let block = match memory.get(at..at + 24) {
            Some(block) => block,
            None => return false,
        };
        let word = |i: usize| u16::from_le_bytes([block[2 * i], block[2 * i + 1]]);
        let ring = |i: usize| Ring {
            base: (u32::from(word(i)) | u32::from(word(i + 1) & 0xFF) << 16) & !7,
            slots: 1 << (word(i + 1) >> 13),
            slot: 0,
        };
        self.mode = word(0);
        self.address.copy_from_slice(&block[2..8]);
        self.filter = [word(4), word(5), word(6), word(7)];
        self.receive = ring(8);
        self.transmit = ring(10);
        self.initialized = true;
        true
    }

    /// Whether a frame's destination passes the filter.
    fn takes(&self, to: &[u8]) -> bool {
        if self.mode & 0x8000 != 0 {
            return true;
        }
        if to[0] & 1 == 0 {
            return to == self.address && self.mode & 0x2000 == 0;
        }
        if to == [0xFF; 6] && self.mode & 0x4000 == 0 {
            return true;
        }
        let hash = (!fcs(to) >> 26) as usize;
        self.filter[hash / 16] >> (hash % 16) & 1 != 0
    }

    /// The act "frame arrival".
    pub fn arrive(&mut self, memory: &mut [u8], frame: &[u8], extra_bits: u32) -> Answer {
        if frame.len() > 4095 {
            return self.refused(2);
        }
        if extra_bits > 7 {
            return self.refused(3);
        }
        let word = if self.csr0 & RXON == 0 {
            Word::Off
        } else if frame.len() < 64 {
            Word::Runt
        } else if !self.takes(&frame[..6]) {
            Word::NotOurs
        } else {
            self.store(memory, frame, extra_bits)
        };
        self.answer(word)
    }

    /// Puts a frame that passed into the receive ring.
    fn store(&mut self, memory: &mut [u8], frame: &[u8], extra_bits: u32) -> Word {
        const ERROR: u8 = 0x40;
        let mut d = match self.receive.read(memory, self.receive.slot) {
            None => {
                self.memory_error();
                return Word::Memory;
            }
            Some(d) => d,
        };
        if !d.owned() {
            self.csr0 |= MISS;
            self.csr112 = self.csr112.wrapping_add(1);
            return Word::Missed;
        }
        let (data, check) = frame.split_at(frame.len() - 4);
        let mut rest = frame;
        let mut used = 0;
        loop {
            if !d.is_inside(memory) {
                self.memory_error();
                return Word::Memory;
            }
            let (part, later) = rest.split_at(d.size.min(rest.len()));
            memory[d.buffer..d.buffer + part.len()].copy_from_slice(part);
            rest = later;
            used += 1;
            let start = if used == 1 { 0x02 } else { 0 };
            // Whatever ends or goes on, the slot after this one is current next.
            self.receive.slot = self.receive.after(self.receive.slot);
            if rest.is_empty() {
                let wrong = if check != fcs(data).to_le_bytes() { ERROR | 0x08 } else { 0 };
                let extra = if extra_bits != 0 { ERROR | 0x20 } else { 0 };
                memory[d.at + 3] = start | 0x01 | wrong | extra;
                memory[d.at + 6..d.at + 8].copy_from_slice(&(frame.len() as u16).to_le_bytes());
                self.csr0 |= RINT;
                return Word::Received;
            }
            let next = match self.receive.read(memory, self.receive.slot) {
                None => {
                    memory[d.at + 3] = start;
                    self.memory_error();
                    return Word::Memory;
                }
                Some(next) => next,
            };
            if used == self.receive.slots || !next.owned() {
                memory[d.at + 3] = start | ERROR | 0x04;
                self.csr0 |= RINT;
                return Word::Cut;
            }
            memory[d.at + 3] = start;
            d = next;
        }
    }

    /// The act "transmit turn".
    pub fn turn(
        &mut self,
        memory: &mut [u8],
        out: &mut [u8],
        report: u32,
        deferred: bool,
        no_heartbeat: bool,
    ) -> Answer {
        if out.len() < 4100 {
            return self.refused(4);
        }
        if report > 5 {
            return self.refused(5);
        }
        if self.csr0 & TXON == 0 {
            return self.answer(Word::Off);
        }
        self.csr0 &= !TDMD;
        // Owned slots that begin no frame are passed.
        loop {
            match self.transmit.read(memory, self.transmit.slot) {
                None => {
                    self.memory_error();
                    return self.answer(Word::Memory);
                }
                Some(d) if !d.owned() => return self.answer(Word::Idle),
                Some(d) if d.status & 0x02 != 0 => break,
                Some(d) => {
                    memory[d.at + 3] &= 0x7F;
                    self.transmit.slot = self.transmit.after(self.transmit.slot);
                }
            }
        }
        let (chain, end) = match self.chain(memory) {
            None => {
                self.memory_error();
                return self.answer(Word::Memory);
            }
            Some(found) => found,
        };
        // The frame as it would go out, taken before the chain is written.
        let mut frame = Vec::new();
        for d in &chain {
            frame.extend_from_slice(&memory[d.buffer..d.buffer + d.size]);
        }
        let add_fcs = chain[0].status & 0x20 != 0 || self.mode & 0x0008 == 0;
        if add_fcs {
            let check = fcs(&frame);
            frame.extend_from_slice(&check.to_le_bytes());
        }
        let report = if self.mode & 0x0020 != 0 && (report == 1 || report == 2) { 3 } else { report };
        let goes_out = end == End::Whole && report != 3 && report != 4;

        // What the last slot of the chain gets: its status bits and its last word.
        let (bits, word) = match (end, report) {
            (End::NotOwned, _) => (0x40, 0xC000u16),
            (End::TooLong, _) => (0x40, 0x4000),
            (End::Whole, 0) => (0x00, 0x0000),
            (End::Whole, 1) => (0x08, 0x0000),
            (End::Whole, 2) => (0x10, 0x0000),
            (End::Whole, 3) => (0x40, 0x0400),
            (End::Whole, 4) => (0x40, 0x1000),
            (End::Whole, _) => (0x40, 0x0800),
        };
        for d in &chain {
            memory[d.at + 3] &= 0x7F;
        }
        let last = &chain[chain.len() - 1];
        let defer = if goes_out && deferred { 0x04 } else { 0 };
        memory[last.at + 3] = last.status & 0x23 | bits | defer;
        memory[last.at + 6..last.at + 8].copy_from_slice(&word.to_le_bytes());
        for _ in &chain {
            self.transmit.slot = self.transmit.after(self.transmit.slot);
        }
        self.csr0 |= TINT;
        if end != End::Whole {
            self.csr0 &= !TXON;
            return self.answer(Word::Underflow);
        }
        if !goes_out {
            return self.answer(Word::Failed);
        }
        self.csr0 |= if no_heartbeat { CERR } else { 0 };
        self.csr0 |= if frame.len() >= 1519 { BABL } else { 0 };
        out[..frame.len()].copy_from_slice(&frame);
        Answer { length: frame.len() as u16, ..self.answer(Word::Sent) }
    }

    /// The chain from the current slot, and how it ends; nothing if a part of it is outside the memory.
    fn chain(&self, memory: &[u8]) -> Option<(Vec<Descriptor>, End)> {
        let mut chain: Vec<Descriptor> = Vec::new();
        let mut slot = self.transmit.slot;
        let mut total = 0;
        loop {
            let d = self.transmit.read(memory, slot)?;
            if chain.len() == self.transmit.slots as usize || !d.owned() {
                return Some((chain, End::NotOwned));
            }
            if !d.is_inside(memory) {
                return None;
            }
            total += d.size;
            let ends = d.status & 0x01 != 0;
            chain.push(d);
            if total > 4096 {
                return Some((chain, End::TooLong));
            }
            if ends {
                return Some((chain, End::Whole));
            }
            slot = self.transmit.after(slot);
        }
    }
}

/// How a chain ends: with ENP, before a slot that is not owned or in a used-up ring, or by its total.
#[derive(Clone, Copy, PartialEq)]
enum End {
    Whole,
    NotOwned,
    TooLong,
}

/// A byte's effect on the FCS register, in the form that shifts towards the low end.
static STEPS: [u32; 256] = steps();

/// Computes the table.
const fn steps() -> [u32; 256] {
    let mut table = [0; 256];
    let mut byte = 0;
    while byte < 256 {
        let mut r = byte as u32;
        let mut bit = 0;
        while bit < 8 {
            r = if r & 1 != 0 { r >> 1 ^ 0xEDB8_8320 } else { r >> 1 };
            bit += 1;
        }
        table[byte] = r;
        byte += 1;
    }
    table
}

/// The FCS of some bytes.
pub fn fcs(bytes: &[u8]) -> u32 {
    !bytes.iter().fold(!0, |r: u32, b| r >> 8 ^ STEPS[(r as u8 ^ b) as usize])
}

/// The block of a state.
pub fn close(card: &Card) -> [u8; 512] {
    let mut block = [0; 512];
    let mut put = |at: usize, word: u16| block[at..at + 2].copy_from_slice(&word.to_le_bytes());
    put(0, card.whole_csr0());
    put(2, card.rap);
    put(4, card.csr1);
    put(6, card.csr2);
    put(8, card.csr3);
    put(10, card.csr112);
    put(12, u16::from(card.initialized));
    put(14, card.mode);
    for (i, word) in card.filter.iter().enumerate() {
        put(22 + 2 * i, *word);
    }
    for (at, ring) in [(30, card.receive), (38, card.transmit)] {
        put(at, ring.base as u16);
        put(at + 2, (ring.base >> 16) as u16);
        put(at + 4, ring.slots);
        put(at + 6, ring.slot);
    }
    block[16..22].copy_from_slice(&card.address);
    seal(&mut block);
    block
}

/// Puts the right check at a block's end.
pub fn seal(block: &mut [u8; 512]) {
    let check = fcs(&block[..508]);
    block[508..].copy_from_slice(&check.to_le_bytes());
}

/// The state of a block, if it is the block of a sound state.
pub fn open(block: &[u8]) -> Option<Card> {
    if block.len() != 512 {
        return None;
    }
    let word = |at: usize| u16::from_le_bytes([block[at], block[at + 1]]);
    let ring = |at: usize| Ring {
        base: (u32::from(word(at)) | u32::from(word(at + 2)) << 16) & 0xFF_FFF8,
        slots: word(at + 4),
        slot: word(at + 6),
    };
    let mut address = [0; 6];
    address.copy_from_slice(&block[16..22]);
    let card = Card {
        csr0: word(0) & !(ERR | INTR),
        rap: word(2) % 128,
        csr1: word(4),
        csr2: word(6) & 0xFF,
        csr3: word(8) & MASKS,
        csr112: word(10),
        initialized: word(12) == 1,
        mode: word(14),
        address,
        filter: [word(22), word(24), word(26), word(28)],
        receive: ring(30),
        transmit: ring(38),
    };
    // A sound state has one block, so any other bit shows here, ERR, INTR and the check too.
    if card.is_sound() && close(&card)[..] == *block {
        Some(card)
    } else {
        None
    }
}

/// A call that is not a reset, on a block: the tests of block and memory, the act, and the block written back.
pub fn through(block: &mut [u8], memory: usize, act: impl FnOnce(&mut Card) -> Answer) -> Answer {
    let mut card = match open(block) {
        None => return Answer { number: 9, ..Answer::default() },
        Some(card) => card,
    };
    if memory > MOST_MEMORY {
        return card.refused(1);
    }
    let answer = act(&mut card);
    if answer.number == 0 {
        block.copy_from_slice(&close(&card));
    }
    answer
}

/// The act "reset" on a block, which asks only for its length.
pub fn reset(block: &mut [u8]) -> Answer {
    if block.len() != 512 {
        return Answer { number: 9, ..Answer::default() };
    }
    block.copy_from_slice(&close(&Card::fresh()));
    Card::fresh().answer(Word::Done)
}
