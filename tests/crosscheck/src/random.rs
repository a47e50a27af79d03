//! A deterministic generator of machines, programs and what is done with them.
use crate::machine::*;

/// SplitMix64.
pub struct Random(u64);

impl Random {
    pub fn new(seed: u64) -> Random {
        Random(seed.wrapping_mul(0xD129_0B26_88CE_5B45))
    }

    pub fn next(&mut self) -> u64 {
        self.0 = self.0.wrapping_add(0x9E37_79B9_7F4A_7C15);
        let mut mixed = self.0;
        mixed = (mixed ^ mixed >> 30).wrapping_mul(0xBF58_476D_1CE4_E5B9);
        mixed = (mixed ^ mixed >> 27).wrapping_mul(0x94D0_49BB_1331_11EB);
        mixed ^ mixed >> 31
    }

    pub fn word(&mut self) -> u32 {
        (self.next() >> 32) as u32
    }

    pub fn below(&mut self, bound: u32) -> u32 {
        ((self.word() as u64 * bound as u64) >> 32) as u32
    }

    pub fn chance(&mut self, percent: u32) -> bool {
        self.below(100) < percent
    }

    pub fn pick<T: Copy>(&mut self, list: &[T]) -> T {
        list[self.below(list.len() as u32) as usize]
    }
}

/// What is done with both machines.
#[derive(Clone, Debug)]
pub enum Operation {
    /// bytes of memory changed from outside
    Poke(usize, Vec<u8>),
    /// a word of the register block changed from outside, damaged or not
    Force(usize, u32),
    Set(u32, u32),
    Get(u32),
    Store(u32, Vec<u8>),
    Load(u32, usize),
    Step(u32),
    Run {
        confined: bool,
        budget: u32,
        level: u32,
    },
}

/// One machine and the operations on it, all from one seed.
pub struct Case {
    random: Random,
    size: u32,
    left: u32,
    /// operations to come, the next one last
    waiting: Vec<Operation>,
}

const PAGE: u32 = 4096;

/// Sizes in bytes: mostly some pages, sometimes many, and sizes that are refused.
fn size_of(random: &mut Random) -> u32 {
    match random.below(1000) {
        0..100 => PAGE,
        100..700 => PAGE * (2 + random.below(7)),
        700..920 => PAGE * 16,
        920..975 => PAGE * (17 + random.below(48)),
        975..978 => PAGE * (65 + random.below(1000)),
        978 => PAGE * random.pick(&[4095, 4096]),
        979 => PAGE * 4097,
        980..985 => 0,
        _ => PAGE * random.below(8) + random.pick(&[1, 2, 16, 2048, 4095]),
    }
}

impl Case {
    /// The machine of a seed.
    pub fn new(seed: u64) -> (Case, Machine) {
        let mut random = Random::new(seed);
        let size = size_of(&mut random);
        Case::of_size(random, size)
    }

    /// A machine that frames can make: the board's size, nothing due, an empty cache.
    pub fn for_board(seed: u64) -> (Case, Machine) {
        let (case, mut machine) = Case::of_size(Random::new(seed), 65_536);
        machine.cache = [0; 64];
        machine.registers[TRACE_DUE..].fill(0);
        (case, machine)
    }

    fn of_size(mut random: Random, size: u32) -> (Case, Machine) {
        let large = size > PAGE * 64;
        let left = if large { 3 + random.below(6) } else { 10 + random.below(70) };
        let mut case = Case { random, size, left, waiting: Vec::new() };
        let mut machine = Machine::new(vec![0; size as usize]);
        case.fill_words(&mut machine);
        case.fill_registers(&mut machine);
        case.fill_tables(&mut machine);
        case.revive(&machine);
        (case, machine)
    }

    // ---- words and addresses

    fn word(&mut self) -> u32 {
        let random = &mut self.random;
        match random.below(8) {
            0 => random.below(16),
            1 => random.pick(&[0x7FFF_FFFF, 0x8000_0000, 0xFFFF_FFFF, 0x7FFF_FFFC, 0xFFFF_FFFC, 0x80, 0xFF80, 0x8000]),
            2 => random.below(64) * 4,
            3..=5 => self.address(),
            _ => random.word(),
        }
    }

    /// An address that a table or the memory is likely to have.
    fn address(&mut self) -> u32 {
        let random = &mut self.random;
        let segment = match random.below(20) {
            // a large memory has physical addresses in more segments than the first
            0..16 => random.below((self.size >> 22).max(1)),
            16 => 1,
            17 => 0x3FF,
            _ => random.below(1024),
        };
        let pages = (self.size / PAGE).clamp(1, 1024);
        let page = if random.chance(95) { random.below(pages) } else { random.below(1024) };
        let offset = match random.below(10) {
            0..2 => random.below(64),
            2..4 => PAGE - 1 - random.below(256),
            _ => random.below(PAGE),
        };
        let aligned = random.pick(&[!0, !1, !3, !3, !3, !7, !15, !15]);
        (segment << 22 | page << 12 | offset) & aligned
    }

    fn near(&mut self, base: u32, reach: u32) -> u32 {
        let aligned = self.random.pick(&[!0, !1, !3, !3, !3, !3, !7, !15]);
        base.wrapping_add(self.random.below(reach)).wrapping_sub(reach / 8) & aligned
    }

    // ---- the machine

    fn fill_words(&mut self, machine: &mut Machine) {
        // of a large memory most bytes stay 0
        let filled = machine.memory.bytes.len().min(64 * PAGE as usize) / 4 * 4;
        for at in (0..filled).step_by(4) {
            // some of it text, for jumps that go astray
            let word = match self.random.below(8) {
                0..3 => (self.one_parcel() as u32) << 16 | self.one_parcel() as u32,
                _ => self.word(),
            };
            machine.memory.bytes[at..at + 4].copy_from_slice(&word.to_be_bytes());
        }
    }

    fn fill_registers(&mut self, machine: &mut Machine) {
        for register in 0..13 {
            let value = self.register(machine, register);
            machine.registers[register] = value;
        }
        machine.registers[ID] = 0x3B;
        let sp = machine.registers[SP];
        machine.registers[MSP] = self.held_above(sp);
        let csp = machine.registers[machine.csp()];
        if self.random.chance(85) {
            machine.registers[SHAD] = csp;
        }
        for word in &mut machine.cache {
            *word = self.word();
        }
        for due in TRACE_DUE..=NMI_TAKEN {
            let values = [0, 0, 0, 0, 0, 0, 0, 1, 1, 2, 0xFFFF_FFFF, 0x100, 3];
            machine.registers[due] = self.random.pick(&values);
        }
    }

    /// An MSP in SP to SP + 256, a sum that doesn't wrap.
    fn held_above(&mut self, sp: u32) -> u32 {
        let room = ((u32::MAX - sp) / 16).min(16);
        sp + 16 * self.random.below(room + 1)
    }

    /// A word without reserved bits for a register.
    fn register(&mut self, machine: &Machine, register: usize) -> u32 {
        let value = match register {
            CONFIG => self.config(),
            PSW => self.psw(),
            MSP => self.held_above(machine.registers[SP] & MASKS[SP]),
            TIMER1 | TIMER2 if self.random.chance(50) => 0u32.wrapping_sub(self.random.below(12)),
            SP if self.random.chance(5) => 0u32.wrapping_sub(16 * self.random.below(40)),
            SHAD if self.random.chance(70) => machine.registers[machine.csp()],
            FAULT | TIMER1 | TIMER2 => self.random.word(),
            _ if self.random.chance(3) => self.random.word(),
            _ => self.address(),
        };
        value & MASKS[register]
    }

    fn config(&mut self) -> u32 {
        let mut config = self.random.word() & 0xFFFF_0000;
        if self.random.chance(60) {
            // bits 29:25: clocks or instructions
            config &= !(0x1F << 25);
            config |= self.random.below(2) << 25;
        }
        if self.random.chance(80) {
            config |= 1 << CONFIG_CACHE;
        }
        if self.random.chance(50) {
            config &= !(1 << CONFIG_EXTEND | 1 << CONFIG_LITTLE);
        }
        config
    }

    fn psw(&mut self) -> u32 {
        let mut psw = self.random.word() & MASKS[PSW];
        if self.random.chance(80) {
            psw &= !(1 << PSW_TRACE | 1 << PSW_TRACE_BLOCK);
        }
        if self.random.chance(60) {
            psw |= 1 << PSW_SP_CURRENT;
        }
        if self.random.chance(30) {
            psw |= 1 << PSW_USER | 1 << PSW_VIRTUAL;
        }
        psw
    }

    /// A segment table and up to three page tables, in pages that may be the same, with entries that are mostly good.
    fn fill_tables(&mut self, machine: &mut Machine) {
        let pages = (self.size / PAGE).min(64);
        if pages == 0 || self.random.chance(5) {
            return;
        }
        let table = self.random.below(pages);
        if self.random.chance(95) {
            machine.registers[STB] = (table * PAGE) | (self.random.below(2) << 11);
        }
        let tables = [self.random.below(pages), self.random.below(pages), table];
        let good = self.random.pick(&[99, 97, 90, 60]);
        for index in 0..1024 {
            let entry = self.segment_entry(good, &tables);
            put_word(machine, table * PAGE + 4 * index, entry);
        }
        let count = 1 + self.random.below(2) as usize;
        for page in &tables[..count] {
            for index in 0..1024 {
                let entry = self.page_entry(good, index, pages);
                put_word(machine, page * PAGE + 4 * index, entry);
            }
        }
    }

    fn segment_entry(&mut self, good: u32, tables: &[u32; 3]) -> u32 {
        let random = &mut self.random;
        if !random.chance(good) {
            return match random.below(4) {
                0 => random.word(),
                1 => random.word() & !1,
                // a table past memory
                2 => random.word() | 0x8000_0001,
                _ => (tables[2] * PAGE) | 1,
            };
        }
        match random.below(10) {
            0..2 => random.below((self.size >> 22).max(1)) << 22 | random.below(1024) << 12 | 0xF,
            2 => 0x3FF << 12 | 8 | random.below(8) | 1,
            3 => (tables[2] * PAGE) | (random.below(256) << 4) | 1,
            _ => (tables[random.below(2) as usize] * PAGE) | (random.below(128) << 4) | random.below(4) << 1 | 1,
        }
    }

    fn page_entry(&mut self, good: u32, index: u32, pages: u32) -> u32 {
        let random = &mut self.random;
        let noise = random.below(64) << 5 | random.below(4) << 3;
        if !random.chance(good) {
            return match random.below(4) {
                0 => random.word(),
                1 => (random.below(pages) * PAGE) | noise | random.below(8),
                2 => ((pages + random.below(3)) * PAGE) | noise | 7,
                _ => (random.below(pages) * PAGE) | noise | random.pick(&[1, 3, 5, 5]),
            };
        }
        let page = match random.below(4) {
            0..2 => index % pages,
            2 => random.below(self.size / PAGE),
            _ => random.below(pages),
        };
        // some pages are the kernel's alone
        let user = if random.chance(95) { 4 } else { 0 };
        (page * PAGE) | noise | user | 3
    }

    fn frame(&mut self, pc: u32) -> [u32; 4] {
        let sp = self.address() & !15;
        let msp = if self.random.chance(85) { self.held_above(sp) } else { self.address() };
        [sp, msp, self.near(pc, 128), self.psw() | self.random.below(16)]
    }

    // ---- programs

    fn instruction(&mut self, registers: &[u32; 17]) -> Vec<u16> {
        let mut parcels = Vec::with_capacity(6);
        let prefix = self.random.chance(12);
        if prefix {
            parcels.push(0x2C00);
        }
        let kind = if prefix { 9 + self.random.below(12) } else { self.random.below(21) };
        match kind {
            0..9 => parcels.push(self.one_parcel()),
            9..13 => self.monadic(registers, &mut parcels),
            13..17 => self.dyadic(registers, true, prefix, &mut parcels),
            17..20 => self.dyadic(registers, false, prefix, &mut parcels),
            _ => parcels.push(self.random.word() as u16),
        }
        parcels
    }

    fn one_parcel(&mut self) -> u16 {
        let random = &mut self.random;
        let opcode = match random.below(20) {
            0..4 => 2,
            4..6 => 11,
            _ => random.below(32) as u16,
        };
        let free = random.below(1024) as u16;
        let operand = match opcode {
            // jumps and calls stay near
            1 | 3..=7 if random.chance(80) => random.below(48).wrapping_sub(16) as u16 & 0x3FF,
            // quad-words of the stack: some of the cache's size
            2 if random.chance(80) => {
                let subcode = random.below(4) as u16;
                let quads = random.below(24) as u16;
                subcode << 8 | if subcode == 0 { 255 - quads } else { quads }
            }
            11 if random.chance(85) => random.pick(&[0, 1, 1, 2, 3, 4, 5, 5, 5, 5, 6, 7, 8, 9, 10, 11]),
            11 if random.chance(60) => random.pick(&[0x10, 0x1FF, 0x200, 0x3FF]),
            _ => free,
        };
        opcode << 10 | operand
    }

    fn monadic(&mut self, registers: &[u32; 17], parcels: &mut Vec<u16>) {
        let subcode = self.random.below(16) as u16;
        let mut mode = 0xC + self.random.below(4) as u16;
        match subcode {
            2 | 15 if self.random.chance(70) => mode = 0xD,
            4..=7 if self.random.chance(70) => mode = 0xE + self.random.below(2) as u16,
            _ if self.random.chance(4) => mode = self.random.below(16) as u16,
            _ => {}
        }
        let pc = registers[PC];
        let flows = matches!(subcode, 1 | 3..=7 | 10);
        let value = match (subcode, mode) {
            (9, 0xD) if self.random.chance(80) => 0u32.wrapping_sub(self.random.below(600)),
            (2 | 8 | 15, 0xD) => self.random.below(400) & self.random.pick(&[!3, !15]),
            (8 | 9, 0xF) => self.near(registers[SP], 512),
            (_, 0xE) if flows => self.random.below(160).wrapping_sub(48) & !1,
            (_, 0xF) if flows => self.near(pc, 128),
            (_, 0xD | 0xE) => self.offset(),
            (_, 0xC) => self.address(),
            _ => self.word(),
        };
        parcels.extend([0x8000 | mode << 4 | subcode, (value >> 16) as u16, value as u16]);
    }

    /// An offset from the current stack pointer: mostly in the cache.
    fn offset(&mut self) -> u32 {
        match self.random.below(10) {
            0 => self.random.word(),
            1 => self.random.below(96).wrapping_sub(96) & !3,
            _ => self.random.below(272) & self.random.pick(&[!0, !1, !3, !3, !3, !3, !3, !3, !7, !15]),
        }
    }

    fn dyadic(&mut self, registers: &[u32; 17], three: bool, prefix: bool, parcels: &mut Vec<u16>) {
        let opcode = match self.random.below(10) {
            0 => self.random.below(64) as u16,
            1 => 0x06,
            2 => self.random.pick(&[0x01, 0x02, 0x03]),
            3 => self.random.pick(&[0x04, 0x07, 0x07]),
            4 => self.random.pick(&[0x0C, 0x0D, 0x1D, 0x1E, 0x1F]),
            _ => self.random.pick(&[
                0x05, 0x20, 0x21, 0x22, 0x23, 0x24, 0x25, 0x26, 0x27, 0x2C, 0x2D, 0x2E, 0x2F, 0x30, 0x31, 0x32, 0x33,
                0x34, 0x35, 0x36, 0x37, 0x3C, 0x3D, 0x3E,
            ]),
        };
        let mut modes = [0; 2];
        let mut fields = [0; 2];
        for side in 0..2 {
            modes[side] = self.mode(opcode, side, prefix);
            fields[side] = self.field(registers, modes[side], prefix);
        }
        // both of MOV's operands may be registers, of the others one
        if prefix && modes == [7, 7] && opcode != 6 && self.random.chance(80) {
            modes[1] = 0xD;
        }
        let form = if three { 0x8000 } else { 0xC000 };
        parcels.push(form | opcode << 8 | modes[0] << 4 | modes[1]);
        for field in fields {
            if !three {
                parcels.push((field >> 16) as u16);
            }
            parcels.push(field as u16);
        }
    }

    fn mode(&mut self, opcode: u16, side: usize, prefix: bool) -> u16 {
        let random = &mut self.random;
        if prefix && random.chance(95) {
            return random.pick(&[7, 7, 7, 0xC, 0xD, 0xE, 0xF]);
        }
        if opcode == 7 && random.chance(90) {
            let lists: [&[u16]; 2] = [&[0xC, 0xD, 0xE, 0xF], &[0, 4, 8, 0xC, 0xD, 0xE]];
            return random.pick(lists[side]);
        }
        if opcode == 4 && side == 0 && random.chance(90) {
            return random.pick(&[0xC, 0xD, 0xE]);
        }
        random.below(16) as u16
    }

    fn field(&mut self, registers: &[u32; 17], mode: u16, prefix: bool) -> u32 {
        match mode {
            7 if prefix => {
                let number = 1 + self.random.below(12);
                let odd = self.random.below(16) | self.random.word() << 4;
                if self.random.chance(92) {
                    number
                } else {
                    odd
                }
            }
            0..=3 | 0xC if self.random.chance(40) => self.near(registers[SP], 272),
            0..=3 | 0xC => self.address(),
            0xF => self.word(),
            _ => self.offset(),
        }
    }

    // ---- operations

    /// The next operation on the machine as it is; nothing at the case's end.
    pub fn next(&mut self, machine: &Machine) -> Option<Operation> {
        if let Some(operation) = self.waiting.pop() {
            return Some(operation);
        }
        if self.left == 0 {
            return None;
        }
        self.left -= 1;
        let operation = self.call(machine);
        self.waiting.push(operation);
        if !machine.stack_held() {
            let msp = self.held_above(machine.registers[SP]);
            self.waiting.push(Operation::Force(MSP, msp));
        }
        let reset = machine.registers[PSW] == 0 && machine.registers[CONFIG] == 0;
        let lost = reset || machine.physical(machine.regime(), machine.registers[PC]).is_none();
        let handling = !machine.bit(PSW, PSW_USER) && !machine.bit(PSW, PSW_SP_CURRENT);
        let percent = match (lost, handling) {
            (true, _) => 80,
            (_, true) => 40,
            _ => 8,
        };
        if self.random.chance(percent) {
            self.revive(machine);
        } else if self.random.chance(45) {
            self.plant(machine, &machine.registers, 1);
        }
        match self.random.below(40) {
            0..3 => self.disturb(machine),
            3 => self.damage(machine),
            4 => {
                let word = self.word().to_be_bytes();
                let at = self.random.below(self.size.max(4) - 3) as usize;
                self.poke(at, &word);
            }
            5..7 => {
                let place = self.random.below(15);
                let value = self.register(machine, (place as usize).clamp(1, 13) - 1);
                let reserved = if self.random.chance(20) { 1 << self.random.below(32) } else { 0 };
                self.waiting.push(Operation::Set(place, value ^ reserved));
            }
            7 => {
                let operation = self.transfer();
                self.waiting.push(operation);
            }
            _ => {}
        }
        self.waiting.pop()
    }

    /// A register read, or bytes stored or loaded, also past the end.
    fn transfer(&mut self) -> Operation {
        let count = self.random.pick(&[0, 1, 2, 4, 31, 32, 33, 300]);
        let address = match self.random.below(4) {
            0 => self.size.wrapping_sub(self.random.below(64)),
            1 => self.random.word(),
            _ => self.address(),
        };
        match self.random.below(3) {
            0 => Operation::Get(self.random.pick(&[0, 1, 2, 3, 4, 5, 6, 7, 8, 9, 10, 11, 12, 13, 14, 18, 0xFFFF_FFFF])),
            1 => Operation::Load(address, count),
            _ => Operation::Store(address, (0..count).map(|_| self.random.word() as u8).collect()),
        }
    }

    fn level(&mut self) -> u32 {
        match self.random.below(40) {
            0..10 => self.random.below(8),
            10 => self.random.pick(&[8, 9, 15, 255, 256, 263, 0x8000_0000, 0xFFFF_FFFF]),
            _ => 7,
        }
    }

    fn call(&mut self, machine: &Machine) -> Operation {
        let level = self.level();
        let confinable = machine.bit(PSW, PSW_USER) && machine.bit(PSW, PSW_VIRTUAL);
        let budget = match self.random.below(10) {
            0 => self.random.below(2),
            1 if self.random.chance(5) => 100 + self.random.below(400),
            _ => 1 + self.random.below(10),
        };
        if self.random.chance(if confinable { 50 } else { 4 }) {
            return Operation::Run { confined: true, budget, level };
        }
        if self.random.chance(30) {
            return Operation::Run { confined: false, budget, level };
        }
        Operation::Step(level)
    }

    fn poke(&mut self, at: usize, bytes: &[u8]) {
        if at + bytes.len() <= self.size as usize {
            self.waiting.push(Operation::Poke(at, bytes.to_vec()));
        }
    }

    fn poke_virtual(&mut self, machine: &Machine, regime: Regime, address: u32, bytes: &[u8]) {
        if let Some(at) = machine.physical(regime, address) {
            self.poke(at, bytes);
        }
    }

    /// Fresh instructions at PC.
    fn plant(&mut self, machine: &Machine, registers: &[u32; 17], count: u32) {
        let regime = Regime::of(registers);
        let mut at = registers[PC];
        for _ in 0..count {
            for parcel in self.instruction(registers) {
                self.poke_virtual(machine, regime, at, &parcel.to_be_bytes());
                at = at.wrapping_add(2);
            }
        }
    }

    /// An address that leads somewhere, if some tries find one.
    fn mapped(&mut self, machine: &Machine, registers: &[u32; 17], register: usize) -> u32 {
        let mut address = 0;
        for _ in 0..6 {
            address = self.address() & MASKS[register];
            if machine.physical(Regime::of(registers), address).is_some() {
                break;
            }
        }
        address
    }

    /// A machine that runs: good registers, vectors that lead to code, frames for KRET and CRET, and a program.
    fn revive(&mut self, machine: &Machine) {
        let mut next = machine.registers;
        next[PSW] = self.psw();
        if self.random.chance(50) {
            next[CONFIG] = self.config();
        }
        for register in [ISP, PC, SP, VB] {
            next[register] = self.mapped(machine, &next, register);
        }
        if self.random.chance(5) {
            next[SP] = self.register(machine, SP);
        }
        if self.random.chance(12) {
            self.plant_loop(machine, &mut next);
        }
        next[MSP] = self.held_above(next[SP]);
        let csp = if next[PSW] >> PSW_SP_CURRENT & 1 == 1 { SP } else { ISP };
        next[SHAD] = if self.random.chance(95) { next[csp] } else { self.register(machine, SHAD) };
        // MSP last: in a frame SP sets it, and what is pushed first is done last
        for register in [MSP, SP, SHAD, CONFIG, ISP, PC, VB, PSW] {
            self.waiting.push(Operation::Force(register, next[register]));
        }
        self.plant_frames(machine, &next);
        self.plant(machine, &next, 12);
    }

    /// A stack whose quad-words hold a table entry of their own walk: a page entry that leads to its own page, or a segment
    /// entry that is its own page entry, which a recording bit makes nonpaged.
    fn plant_loop(&mut self, machine: &Machine, next: &mut [u32; 17]) {
        let segment = self.random.below(16);
        let segment_place = next[STB] & !(PAGE - 1) | (4 * segment);
        let (page, table) = match word_at(machine, segment_place) {
            Some(entry) if entry & 9 == 1 && self.random.chance(50) => (self.random.below(16), entry & !(PAGE - 1)),
            _ => (segment, segment_place & !(PAGE - 1)),
        };
        let flags = self.random.pick(&[0x7, 0x7, 0xF, 0x1F, 0x17, 0x5, 0x3, 0x1]);
        self.poke((table | (4 * page)) as usize, &(table | flags).to_be_bytes());
        let offset = ((4 * page) & !15).wrapping_add(16 * self.random.below(20)).wrapping_sub(256) % PAGE;
        next[SP] = segment << 22 | page << 12 | offset;
        next[PSW] |= 1 << PSW_VIRTUAL | 1 << PSW_SP_CURRENT;
        next[CONFIG] |= 1 << CONFIG_CACHE;
        // what is pushed first is done last: this parcel stands over the program's first
        let parcel: u16 = 2 << 10 | self.random.pick(&[0x0F0, 0x0E8, 0x000, 0x110, 0x108, 0x1FF, 0x101]);
        self.poke_virtual(machine, Regime::of(next), next[PC], &parcel.to_be_bytes());
    }

    fn plant_frames(&mut self, machine: &Machine, registers: &[u32; 17]) {
        let regime = Regime::of(registers);
        for k in 0..14 {
            if self.random.chance(92) {
                let target = self.near(registers[PC], 96).to_be_bytes();
                self.poke_virtual(machine, regime, registers[VB].wrapping_add(4 * k), &target);
            }
        }
        for depth in 0..2 {
            for (k, word) in self.frame(registers[PC]).into_iter().enumerate() {
                let at = registers[ISP].wrapping_add(16 * depth + 4 * k as u32);
                self.poke_virtual(machine, regime, at, &word.to_be_bytes());
            }
        }
    }

    /// A register with another good word, or a whole stack that is good.
    fn disturb(&mut self, machine: &Machine) {
        if self.random.chance(30) {
            let sp = self.register(machine, SP);
            let msp = self.held_above(sp);
            self.waiting.push(Operation::Force(MSP, msp));
            self.waiting.push(Operation::Force(SP, sp));
            return;
        }
        let register = self.random.pick(&[CONFIG, ISP, MSP, PC, PSW, PSW, SHAD, STB, TIMER1, TIMER2, VB]);
        let value = self.register(machine, register);
        self.waiting.push(Operation::Force(register, value));
    }

    /// A register with a word that a run refuses, or a due word that is neither 0 nor 1; mended after the call.
    fn damage(&mut self, machine: &Machine) {
        let register = self.random.below(17) as usize;
        let old = machine.registers[register];
        let bad = match register {
            MSP => machine.registers[SP].wrapping_add(self.random.pick(&[272, 0x1000, 0xFFFF_FFF0, 8, 264])),
            TRACE_DUE.. => self.random.pick(&[0, 1, 2, 0xFFFF_FFFF, 0x0100_0001]),
            _ => old ^ 1 << self.random.below(32),
        };
        if register < TRACE_DUE {
            // below the call, so after it
            self.waiting.insert(0, Operation::Force(register, old));
        }
        self.waiting.push(Operation::Force(register, bad));
    }
}

fn put_word(machine: &mut Machine, at: u32, word: u32) {
    let at = at as usize;
    if let Some(bytes) = machine.memory.bytes.get_mut(at..at + 4) {
        bytes.copy_from_slice(&word.to_be_bytes());
    }
}

fn word_at(machine: &Machine, at: u32) -> Option<u32> {
    let at = at as usize;
    let bytes = machine.memory.bytes.get(at..at + 4)?;
    Some(u32::from_be_bytes(bytes.try_into().unwrap()))
}
