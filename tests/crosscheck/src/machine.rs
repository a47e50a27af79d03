//! The Hobbit as a plain interpreter, from the manual and document 01: the machine, its refusals, steps and runs.
pub mod decode;
mod events;
mod execute;
mod memory;
mod operands;
mod stack;
pub mod tally;

pub use memory::{Memory, Regime};
pub use tally::Tally;

// the registers by their place in Table 1-1, then what is due and the mark of input 0
pub const CONFIG: usize = 0;
pub const FAULT: usize = 1;
pub const ID: usize = 2;
pub const ISP: usize = 3;
pub const MSP: usize = 4;
pub const PC: usize = 5;
pub const PSW: usize = 6;
pub const SHAD: usize = 7;
pub const SP: usize = 8;
pub const STB: usize = 9;
pub const TIMER1: usize = 10;
pub const TIMER2: usize = 11;
pub const VB: usize = 12;
pub const TRACE_DUE: usize = 13;
pub const TIMER1_DUE: usize = 14;
pub const TIMER2_DUE: usize = 15;
pub const NMI_TAKEN: usize = 16;

pub const NAMES: [&str; 17] = [
    "CONFIG",
    "FAULT",
    "ID",
    "ISP",
    "MSP",
    "PC",
    "PSW",
    "SHAD",
    "SP",
    "STB",
    "TIMER1",
    "TIMER2",
    "VB",
    "trace due",
    "Timer1 due",
    "Timer2 due",
    "input 0 taken",
];

/// The bits that each register has (Tables 1-2 to 1-14); the others are reserved.
pub const MASKS: [u32; 13] = [
    0xFFFF_0000,
    0xFFFF_FFFF,
    0xFFFF_FFFF,
    0xFFFF_FFF0,
    0xFFFF_FFF0,
    0xFFFF_FFFE,
    0x0001_FFF0,
    0xFFFF_FFF0,
    0xFFFF_FFF0,
    0xFFFF_F800,
    0xFFFF_FFFF,
    0xFFFF_FFFF,
    0xFFFF_FFF0,
];

// Table 1-8
pub const PSW_FLAG: u32 = 4;
pub const PSW_CARRY: u32 = 5;
pub const PSW_OVERFLOW: u32 = 6;
pub const PSW_TRACE: u32 = 7;
pub const PSW_TRACE_BLOCK: u32 = 8;
pub const PSW_SP_CURRENT: u32 = 9;
pub const PSW_USER: u32 = 10;
pub const PSW_GUARD: u32 = 11;
pub const PSW_LITTLE: u32 = 15;
pub const PSW_VIRTUAL: u32 = 16;

// Table 1-2
pub const CONFIG_LITTLE: u32 = 16;
pub const CONFIG_EXTEND: u32 = 17;
pub const CONFIG_CACHE: u32 = 18;

/// What ends an instruction or a sequence early: an exception of Table 1-26, or a fault that resets.
pub enum Stop {
    Exception(u32),
    Reset,
}

pub type Outcome<T> = Result<T, Stop>;

#[derive(Clone, Copy, PartialEq, Eq, Debug)]
pub struct Answer {
    pub steps: u32,
    pub stop: u32,
    pub code: u32,
}

pub struct Machine {
    pub registers: [u32; 17],
    pub cache: [u32; 64],
    pub memory: Memory,
    pub tally: Tally,
}

/// What a turn of a run does.
enum Turn {
    Goes,
    Ends { stop: u32, code: u32 },
}

pub fn start() -> [u32; 17] {
    let mut registers = [0; 17];
    registers[ID] = 0x3B;
    registers
}

fn stack_held(registers: &[u32; 17]) -> bool {
    let (sp, msp) = (registers[SP] as u64, registers[MSP] as u64);
    sp <= msp && msp <= sp + 256
}

impl Machine {
    pub fn new(bytes: Vec<u8>) -> Machine {
        Machine { registers: start(), cache: [0; 64], memory: Memory::new(bytes), tally: Tally::default() }
    }

    pub fn stack_held(&self) -> bool {
        stack_held(&self.registers)
    }

    pub fn bit(&self, register: usize, bit: u32) -> bool {
        self.registers[register] >> bit & 1 == 1
    }

    pub fn set_bit(&mut self, register: usize, bit: u32, value: bool) {
        let cleared = self.registers[register] & !(1 << bit);
        self.registers[register] = cleared | (value as u32) << bit;
    }

    /// Frame 01: 0, or 2 with the registers as they were.
    pub fn set(&mut self, place: u32, value: u32) -> u32 {
        if !(1..=13).contains(&place) {
            return 2;
        }
        let register = place as usize - 1;
        if value & !MASKS[register] != 0 {
            return 2;
        }
        let mut next = self.registers;
        match register {
            ID => {}
            SP => {
                next[SP] = value;
                next[MSP] = value;
            }
            _ => next[register] = value,
        }
        // only a word for MSP is judged by its range: the run judges the machine
        if register == MSP && !stack_held(&next) {
            return 2;
        }
        self.registers = next;
        0
    }

    /// A register's word by its place, or refusal 2.
    pub fn get(&self, place: u32) -> Result<u32, u32> {
        match place {
            1..=13 => Ok(self.registers[place as usize - 1]),
            _ => Err(2),
        }
    }

    /// Where bytes from a physical address on stand, a plain sum, or refusal 8.
    pub fn span(&self, address: u32, count: usize) -> Result<std::ops::Range<usize>, u32> {
        let end = address as usize + count;
        if end > self.memory.bytes.len() {
            return Err(8);
        }
        Ok(address as usize..end)
    }

    /// The refusals that come before the first step: 1, 2, 3, 9, or 0.
    fn refusal(&self, confined: bool, level: u32) -> u32 {
        let size = self.memory.bytes.len();
        if size == 0 || !size.is_multiple_of(4096) || size > 4096 * 4096 {
            return 1;
        }
        let reserved = (0..13).any(|k| self.registers[k] & !MASKS[k] != 0);
        if reserved || !stack_held(&self.registers) {
            return 2;
        }
        if level > 7 {
            return 3;
        }
        if confined && !(self.bit(PSW, PSW_USER) && self.bit(PSW, PSW_VIRTUAL)) {
            return 9;
        }
        0
    }

    /// One step with events taken: 0, or the refusal with all as it was.
    pub fn step(&mut self, level: u32) -> u32 {
        let answer = self.run(false, 1, level);
        if answer.stop == 1 {
            answer.code
        } else {
            0
        }
    }

    pub fn run(&mut self, confined: bool, budget: u32, level: u32) -> Answer {
        let refusal = self.refusal(confined, level);
        if refusal != 0 {
            self.tally.refusals[refusal as usize] += 1;
            return Answer { steps: 0, stop: 1, code: refusal };
        }
        for steps in 0..budget {
            if let Turn::Ends { stop, code } = self.turn(confined, level) {
                match stop {
                    1 => self.tally.refusals[code as usize] += 1,
                    _ => self.tally.stops[code as usize] += 1,
                }
                return Answer { steps, stop, code };
            }
            self.tally.steps += 1;
        }
        Answer { steps: budget, stop: 0, code: 0 }
    }

    /// A turn, undone whole where it would lose the stack (refusal 4).
    fn turn(&mut self, confined: bool, level: u32) -> Turn {
        let (registers, cache) = (self.registers, self.cache);
        self.memory.begin();
        let turn = if confined { self.confined_turn(level) } else { self.free_turn(level) };
        if stack_held(&self.registers) {
            return turn;
        }
        self.registers = registers;
        self.cache = cache;
        self.memory.undo();
        Turn::Ends { stop: 1, code: 4 }
    }
}
