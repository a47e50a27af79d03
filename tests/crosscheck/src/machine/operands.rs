//! Data accesses, operands and registers (1.3, 1.4, 1.7, Tables 1-21 to 1-24).
use super::decode::Operand;
use super::memory::{Kind, ALIGNMENT_FAULT, READ_FAULT, WRITE_FAULT};
use super::*;

/// An operand that was found, an indirection word already read.
#[derive(Clone, Copy)]
pub enum Place {
    Memory { address: u32, width: u32, signed: bool },
    Register(usize),
    Immediate(u32),
}

/// Table 1-24.
fn prefixed_register(number: u32) -> Option<usize> {
    let registers = [MSP, ISP, SP, CONFIG, PSW, SHAD, VB, STB, FAULT, ID, TIMER1, TIMER2];
    registers.get((number as usize).wrapping_sub(1)).copied()
}

fn width_of(mode: u8) -> u32 {
    match mode {
        0xC.. => 4,
        _ if mode & 2 == 0 => 1,
        _ => 2,
    }
}

impl Machine {
    /// The current stack pointer's register.
    pub fn csp(&self) -> usize {
        if self.bit(PSW, PSW_SP_CURRENT) {
            SP
        } else {
            ISP
        }
    }

    pub fn stack_address(&self, offset: u32) -> u32 {
        self.registers[self.csp()].wrapping_add(offset)
    }

    pub fn cache_on(&self) -> bool {
        self.bit(CONFIG, CONFIG_CACHE)
    }

    fn cached(&self, address: u32) -> bool {
        let held = self.registers[SP] <= address && address < self.registers[MSP];
        held && self.cache_on() && self.bit(PSW, PSW_SP_CURRENT)
    }

    /// Little-endian only renumbers bytes and half-words within their word.
    fn renumbered(&mut self, width: u32, address: u32) -> u32 {
        let little = if self.bit(PSW, PSW_USER) { self.bit(PSW, PSW_LITTLE) } else { self.bit(CONFIG, CONFIG_LITTLE) };
        if little {
            self.tally.renumbered += (width < 4) as u64;
            address ^ (4 - width)
        } else {
            address
        }
    }

    /// FAULT is set by exceptions 0x8 and 0x9 alone.
    pub fn data_fault(&mut self, exception: u32, address: u32) -> Stop {
        if exception == READ_FAULT || exception == WRITE_FAULT {
            self.registers[FAULT] = address;
        }
        Stop::Exception(exception)
    }

    pub fn read_data(&mut self, width: u32, address: u32) -> Outcome<u32> {
        let place = self.renumbered(width, address);
        if !self.cached(address) {
            let read = self.load(self.regime(), Kind::Read, width, place);
            return read.map_err(|exception| self.data_fault(exception, address));
        }
        if !address.is_multiple_of(width) {
            return Err(Stop::Exception(ALIGNMENT_FAULT));
        }
        self.tally.hits += 1;
        let word = self.cache[place as usize / 4 % 64];
        let shift = 8 * (4 - width - place % 4);
        Ok(word >> shift & mask(width))
    }

    pub fn write_data(&mut self, width: u32, address: u32, value: u32) -> Outcome<()> {
        let place = self.renumbered(width, address);
        if !self.cached(address) {
            let written = self.store(self.regime(), width, place, value);
            return written.map_err(|exception| self.data_fault(exception, address));
        }
        if !address.is_multiple_of(width) {
            return Err(Stop::Exception(ALIGNMENT_FAULT));
        }
        self.tally.hits += 1;
        let word = &mut self.cache[place as usize / 4 % 64];
        let shift = 8 * (4 - width - place % 4);
        *word = *word & !(mask(width) << shift) | (value & mask(width)) << shift;
        Ok(())
    }

    /// The accumulator is the word above the one at the current stack pointer (1.4.3).
    pub fn write_accumulator(&mut self, value: u32) -> Outcome<()> {
        self.write_data(4, self.stack_address(4), value)
    }

    /// 1.6.2: a 16-bit absolute address is extended by CONFIG and PC.
    fn absolute(&self, three: bool, value: u32) -> u32 {
        if three && self.bit(CONFIG, CONFIG_EXTEND) {
            self.registers[PC] & 0xE000_0000 | value
        } else {
            value
        }
    }

    pub fn locate(&mut self, three: bool, operand: Operand) -> Outcome<Place> {
        let (mode, value) = match operand {
            // check_registers has answered the numbers without a register
            Operand::Register(number) => return Ok(Place::Register(prefixed_register(number).unwrap())),
            Operand::General { mode: 0xF, value } => return Ok(Place::Immediate(value)),
            Operand::General { mode, value } => (mode, value),
        };
        let address = match mode {
            0x0..=0x3 | 0xC => self.absolute(three, value),
            0x4..=0x7 | 0xD => self.stack_address(value),
            _ => self.read_data(4, self.stack_address(value))?,
        };
        let width = width_of(mode);
        Ok(Place::Memory { address, width, signed: mode & 1 == 0 })
    }

    pub fn read_place(&mut self, place: Place) -> Outcome<u32> {
        match place {
            Place::Register(register) => Ok(self.registers[register]),
            Place::Immediate(value) => Ok(value),
            Place::Memory { address, width, signed } => {
                let value = self.read_data(width, address)?;
                Ok(match (width, signed) {
                    (1, true) => value as u8 as i8 as u32,
                    (2, true) => value as u16 as i16 as u32,
                    _ => value,
                })
            }
        }
    }

    pub fn write_place(&mut self, place: Place, value: u32) -> Outcome<()> {
        match place {
            Place::Memory { address, width, .. } => self.write_data(width, address, value),
            Place::Register(register) => {
                self.write_register(register, value);
                Ok(())
            }
            // a result that goes to a constant goes nowhere
            Place::Immediate(_) => Ok(()),
        }
    }

    /// A register written under a prefix: reserved bits stay 0, ID takes no word, SP sets MSP, SHAD follows the CSP.
    pub fn write_register(&mut self, register: usize, value: u32) {
        if register == ID {
            return;
        }
        let value = value & MASKS[register];
        self.registers[register] = value;
        if register == SP {
            self.registers[MSP] = value;
        }
        if register == self.csp() && (register == SP || register == ISP) {
            self.registers[SHAD] = value;
        }
    }

    /// 0x5 before 0x6, both before any access.
    pub fn check_registers(&self, operands: [Operand; 2]) -> Outcome<()> {
        let numbers = operands.iter().filter_map(|operand| match operand {
            Operand::Register(number) => Some(*number),
            Operand::General { .. } => None,
        });
        let missing = numbers.clone().any(|number| prefixed_register(number).is_none());
        if self.bit(PSW, PSW_USER) && numbers.count() > 0 {
            return Err(Stop::Exception(0x5));
        }
        if missing {
            return Err(Stop::Exception(0x6));
        }
        Ok(())
    }
}

fn mask(width: u32) -> u32 {
    u32::MAX >> (32 - 8 * width)
}
