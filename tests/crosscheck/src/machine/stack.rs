//! The stack instructions: ENTER flushes, CATCH and CRET fill, POPN and RETURN release (1.4.2).
use super::memory::{Kind, Regime};
use super::*;

/// The cache's size in bytes.
const SIZE: u32 = 256;
const QUAD_WORDS: u32 = 16;

impl Machine {
    /// The target of ENTER and CATCH: a stack offset and an immediate are it, the other modes name the word that holds it.
    fn stack_target(&mut self, mode: u8, value: u32) -> Outcome<u32> {
        match mode {
            0xC => self.read_data(4, value),
            0xD => Ok(self.stack_address(value)),
            0xE => self.read_data(4, self.stack_address(value)),
            _ => Ok(value),
        }
    }

    fn set_csp(&mut self, value: u32) {
        self.registers[self.csp()] = value;
        self.registers[SHAD] = value;
    }

    pub fn enter(&mut self, mode: u8, value: u32) -> Outcome<()> {
        let target = self.stack_target(mode, value)? & !15;
        let old = self.registers[MSP];
        let mut msp = target;
        if !self.bit(PSW, PSW_SP_CURRENT) {
            self.check_store(self.regime(), target)?;
            msp = old;
        } else if !self.cache_on() {
            self.check_store(self.regime(), target)?;
        } else if mode != 0xD {
            self.flush(|_| true)?;
            self.check_store(self.regime(), target)?;
        } else {
            let excess = |msp: u32| msp.wrapping_sub(target) > SIZE;
            self.flush(excess)?;
            msp = self.registers[MSP];
            if excess(old) {
                // `MSP > (target + SCSIZE)` compares the wrapped sum
                msp = msp.min(target.wrapping_add(SIZE));
            }
            self.check_store(self.regime(), target)?;
            if msp != old {
                self.check_store(self.regime(), msp)?;
            }
        }
        self.registers[MSP] = msp;
        self.set_csp(target);
        self.set_bit(PSW, PSW_GUARD, true);
        Ok(())
    }

    /// Quad-words from MSP down to memory, as long as some are held and wanted; words stored before a fault stay.
    fn flush(&mut self, wanted: impl Fn(u32) -> bool) -> Outcome<()> {
        for _ in 0..QUAD_WORDS {
            let msp = self.registers[MSP];
            if msp == self.registers[SP] || !wanted(msp) {
                break;
            }
            let quad = msp.wrapping_sub(16);
            for k in 0..4 {
                let address = quad.wrapping_add(4 * k);
                let word = self.cache[address as usize / 4 % 64];
                let stored = self.store(self.regime(), 4, address, word);
                self.tally.flush_faults += stored.is_err() as u64;
                stored.map_err(|exception| self.data_fault(exception, address))?;
            }
            self.registers[MSP] = quad;
            self.tally.flushed += 1;
        }
        Ok(())
    }

    /// Quad-words from MSP up into the cache; one whose read faults changes no cache word.
    fn fill(&mut self, regime: Regime, target: u32) -> Outcome<()> {
        for _ in 0..QUAD_WORDS {
            let (sp, msp) = (self.registers[SP], self.registers[MSP]);
            if msp >= target || msp.wrapping_sub(sp) >= SIZE {
                break;
            }
            let mut words = [0; 4];
            for k in 0..4 {
                let address = msp.wrapping_add(4 * k);
                let read = self.load(regime, Kind::Read, 4, address);
                self.tally.fill_faults += read.is_err() as u64;
                words[k as usize] = read.map_err(|exception| self.data_fault(exception, address))?;
            }
            let first = msp as usize / 16 % 16 * 4;
            self.cache[first..first + 4].copy_from_slice(&words);
            self.registers[MSP] = msp.wrapping_add(16);
            self.tally.filled += 1;
        }
        Ok(())
    }

    /// The fill of CATCH and CRET, and the check of an MSP that changed.
    pub fn fill_checked(&mut self, regime: Regime, target: u32) -> Outcome<()> {
        let old = self.registers[MSP];
        self.fill(regime, target)?;
        let msp = self.registers[MSP];
        if msp != old {
            self.check_store(regime, msp)?;
        }
        Ok(())
    }

    pub fn catch(&mut self, mode: u8, value: u32) -> Outcome<()> {
        if !self.bit(PSW, PSW_SP_CURRENT) {
            return Ok(());
        }
        let target = self.stack_target(mode, value)?;
        if self.cache_on() {
            return self.fill_checked(self.regime(), target);
        }
        self.registers[MSP] = self.registers[SP];
        Ok(())
    }

    /// POPN and RETURN: the current stack pointer goes up, and MSP follows an SP that passes it.
    pub fn release(&mut self, offset: u32) {
        let target = self.stack_address(offset) & !15;
        self.set_csp(target);
        if self.bit(PSW, PSW_SP_CURRENT) && (!self.cache_on() || self.registers[MSP] < target) {
            self.registers[MSP] = target;
        }
    }
}
