//! Looks, steps, event sequences, reset, trace and timers (1.11, 1.5.11, 1.5.12).
use super::decode::{decode, following, Act, Decoded, Instruction, Monadic, Niladic, Operand, PREFIX};
use super::memory::{Kind, Regime};
use super::*;

const TRACE_EXCEPTION: u32 = 0x2;
const ILLEGAL_INSTRUCTION: u32 = 0x3;
const KCALL_CODE: u32 = 0x20;
const UNIMPLEMENTED_CODE: u32 = 0x21;

/// What a look finds due.
#[derive(Clone, Copy)]
enum Due {
    Interrupt(u32),
    Timer1,
    Timer2,
    Trace,
}

/// What the text at PC is: an instruction, or a sequence through a vector's offset.
enum Met {
    Instruction(Instruction),
    Vectored(u32),
}

enum Attempted {
    /// with the PSW bits that trace it
    Finished(u32),
    /// an unimplemented or trap sequence
    Sequenced,
    /// a confined run stops here with the code
    Fetched(u32),
}

fn due_code(due: Due) -> u32 {
    match due {
        Due::Interrupt(level) => 0x10 + level,
        Due::Timer1 => 0x17,
        Due::Timer2 => 0x18,
        Due::Trace => TRACE_EXCEPTION,
    }
}

/// The bits of PSW that trace an instruction (Table 1-8).
fn tracing(act: Act) -> u32 {
    let every = 1 << PSW_TRACE;
    let jumps = every | 1 << PSW_TRACE_BLOCK;
    match act {
        Act::Dyadic { .. } => every,
        Act::Monadic { monadic, .. } => match monadic {
            Monadic::Kcall => 0,
            Monadic::Call | Monadic::Return => jumps,
            Monadic::Jmp | Monadic::JmpFalse | Monadic::JmpTrue => jumps,
            _ => every,
        },
        Act::Niladic(Niladic::Kret | Niladic::Cret) => 0,
        Act::Niladic(_) => every,
    }
}

impl Machine {
    /// The look before a step: another level than 0 ends the wait of input 0.
    fn look(&mut self, level: u32) -> Option<Due> {
        if level != 0 {
            self.registers[NMI_TAKEN] = 0;
        }
        let priority = self.registers[PSW] >> 12 & 7;
        let due = |register: usize| self.registers[register] == 1;
        if level == 0 && !due(NMI_TAKEN) {
            return Some(Due::Interrupt(0));
        }
        if level == 1 && priority > 1 {
            return Some(Due::Interrupt(1));
        }
        if due(TIMER1_DUE) && priority > 1 {
            return Some(Due::Timer1);
        }
        if due(TIMER2_DUE) && priority > 1 {
            return Some(Due::Timer2);
        }
        if (2..=6).contains(&level) && level < priority {
            return Some(Due::Interrupt(level));
        }
        due(TRACE_DUE).then_some(Due::Trace)
    }

    pub(super) fn free_turn(&mut self, level: u32) -> Turn {
        let (config, psw) = (self.registers[CONFIG], self.registers[PSW]);
        let completed = match self.look(level) {
            Some(due) => {
                self.tally.taken[due_code(due) as usize] += 1;
                let taken = self.take(due);
                self.settle(taken);
                false
            }
            None => match self.attempt(false) {
                Ok(attempted) => self.finish(psw, attempted),
                Err(stop) => {
                    let sequence = self.exception(stop);
                    self.settle(sequence);
                    false
                }
            },
        };
        self.count(config, psw, completed);
        Turn::Goes
    }

    /// Kind 04: an event ends the turn before its sequence; the look's and the attempt's changes are kept.
    pub(super) fn confined_turn(&mut self, level: u32) -> Turn {
        let (config, psw) = (self.registers[CONFIG], self.registers[PSW]);
        let ends = |code| Turn::Ends { stop: 2, code };
        if let Some(due) = self.look(level) {
            return ends(due_code(due));
        }
        match self.attempt(true) {
            Ok(Attempted::Fetched(code)) => ends(code),
            Ok(attempted) => {
                let completed = self.finish(psw, attempted);
                self.count(config, psw, completed);
                Turn::Goes
            }
            Err(Stop::Exception(code)) => ends(code),
            // frames are touched by KCALL, KRET, CRET and vectors, which no confined attempt reaches
            Err(Stop::Reset) => unreachable!(),
        }
    }

    /// The trace that falls due; whether an instruction completed.
    fn finish(&mut self, psw: u32, attempted: Attempted) -> bool {
        let (bits, completed) = match attempted {
            Attempted::Finished(bits) => (bits, true),
            Attempted::Sequenced | Attempted::Fetched(_) => (1 << PSW_TRACE, false),
        };
        if psw & bits != 0 {
            self.registers[TRACE_DUE] = 1;
        }
        completed
    }

    fn fetch(&mut self) -> Outcome<Met> {
        let mut parcels = [0u16; 6];
        let mut wanted = 1;
        let mut count = 0;
        while count < wanted {
            let address = self.registers[PC].wrapping_add(2 * count as u32);
            let parcel = self.load(self.regime(), Kind::Fetch, 2, address);
            parcels[count] = parcel.map_err(Stop::Exception)? as u16;
            let prefixed = parcels[0] == PREFIX;
            if count == 0 && prefixed {
                wanted = 2;
            } else if count == prefixed as usize {
                wanted += following(parcels[count]);
            }
            count += 1;
        }
        match decode(&parcels[..count]) {
            Decoded::Is(instruction) => Ok(Met::Instruction(instruction)),
            Decoded::Illegal => Err(Stop::Exception(ILLEGAL_INSTRUCTION)),
            Decoded::Unimplemented => Ok(Met::Vectored(12)),
            Decoded::Trap => Ok(Met::Vectored(8)),
        }
    }

    fn attempt(&mut self, confined: bool) -> Outcome<Attempted> {
        self.tally.user += self.bit(PSW, PSW_USER) as u64;
        match self.fetch()? {
            Met::Vectored(_) if confined => Ok(Attempted::Fetched(UNIMPLEMENTED_CODE)),
            Met::Vectored(offset) => {
                self.tally.taken[UNIMPLEMENTED_CODE as usize] += 1;
                self.unimplemented(offset)?;
                Ok(Attempted::Sequenced)
            }
            Met::Instruction(instruction) => {
                self.note(instruction);
                let kcall = matches!(instruction.act, Act::Monadic { monadic: Monadic::Kcall, .. });
                if kcall && confined {
                    return Ok(Attempted::Fetched(KCALL_CODE));
                }
                self.execute(instruction)?;
                if kcall {
                    self.tally.taken[KCALL_CODE as usize] += 1;
                }
                Ok(Attempted::Finished(tracing(instruction.act)))
            }
        }
    }

    fn note(&mut self, instruction: Instruction) {
        self.tally.rows[instruction.row] += 1;
        self.tally.prefixed += instruction.prefix as u64;
        if let Act::Dyadic { source, destination, .. } = instruction.act {
            for (side, operand) in [source, destination].into_iter().enumerate() {
                match operand {
                    Operand::General { mode, .. } => self.tally.modes[side][mode as usize] += 1,
                    Operand::Register(_) => self.tally.registers[side] += 1,
                }
            }
        }
    }

    // ---- sequences

    fn read_frame(&mut self, address: u32) -> Outcome<u32> {
        let read = self.load(self.kernel_regime(), Kind::Read, 4, address);
        read.map_err(|_| Stop::Reset)
    }

    fn write_frame(&mut self, address: u32, value: u32) -> Outcome<()> {
        let written = self.store(self.kernel_regime(), 4, address, value);
        written.map_err(|_| Stop::Reset)
    }

    /// A third word if there is one, then PC and PSW, below ISP; then ISP down by a quad-word, with SHAD.
    fn push_frame(&mut self, third: Option<u32>, pc: u32) -> Outcome<()> {
        let isp = self.registers[ISP];
        if let Some(word) = third {
            self.write_frame(isp.wrapping_sub(12), word)?;
        }
        self.write_frame(isp.wrapping_sub(8), pc)?;
        self.write_frame(isp.wrapping_sub(4), self.registers[PSW])?;
        self.registers[ISP] = isp.wrapping_sub(16);
        self.registers[SHAD] = isp.wrapping_sub(16);
        Ok(())
    }

    fn through_vector(&mut self, offset: u32) -> Outcome<()> {
        let target = self.read_frame(self.registers[VB].wrapping_add(offset))?;
        self.jump(target);
        self.registers[PSW] &= 0xFFFF_0000;
        Ok(())
    }

    pub fn kcall(&mut self, operand: u32, next: u32) -> Outcome<()> {
        self.push_frame(Some(operand), next)?;
        self.through_vector(0)
    }

    /// Interrupts, timers and the trace; what is taken is no longer due.
    fn take(&mut self, due: Due) -> Outcome<()> {
        let vector = match due {
            Due::Interrupt(level) => {
                if level == 0 {
                    self.registers[NMI_TAKEN] = 1;
                }
                16 + 4 * level
            }
            Due::Timer1 => {
                self.registers[TIMER1_DUE] = 0;
                44
            }
            Due::Timer2 => {
                self.registers[TIMER2_DUE] = 0;
                48
            }
            Due::Trace => {
                self.registers[TRACE_DUE] = 0;
                return self.exception_sequence(TRACE_EXCEPTION);
            }
        };
        self.registers[self.csp()] = self.registers[SHAD];
        self.push_frame(None, self.registers[PC])?;
        self.through_vector(vector)
    }

    fn exception(&mut self, stop: Stop) -> Outcome<()> {
        let Stop::Exception(number) = stop else {
            return Err(Stop::Reset);
        };
        self.tally.taken[number as usize] += 1;
        self.exception_sequence(number)
    }

    fn exception_sequence(&mut self, number: u32) -> Outcome<()> {
        self.registers[self.csp()] = self.registers[SHAD];
        self.push_frame(Some(number), self.registers[PC])?;
        self.through_vector(4)
    }

    /// With SP current the store is a data write like CALL's; on the interrupt stack a fault resets.
    fn unimplemented(&mut self, offset: u32) -> Outcome<()> {
        let pc = self.registers[PC];
        if self.bit(PSW, PSW_SP_CURRENT) {
            self.write_data(4, self.registers[SP], pc)?;
        } else {
            self.write_frame(self.registers[ISP], pc)?;
        }
        let target = self.read_frame(self.registers[VB].wrapping_add(offset))?;
        self.jump(target);
        Ok(())
    }

    /// The end of KRET and CRET.
    fn return_from(&mut self, pc: u32, psw: u32) {
        self.jump(pc);
        self.registers[PSW] = psw & MASKS[PSW];
        self.registers[ISP] = self.registers[ISP].wrapping_add(16);
        self.registers[SHAD] = self.registers[self.csp()];
    }

    pub fn kret(&mut self) -> Outcome<()> {
        let isp = self.registers[ISP];
        let pc = self.read_frame(isp.wrapping_add(8))?;
        let psw = self.read_frame(isp.wrapping_add(12))?;
        self.return_from(pc, psw);
        Ok(())
    }

    pub fn cret(&mut self) -> Outcome<()> {
        let isp = self.registers[ISP];
        let mut frame = [0; 4];
        for k in 0..4 {
            frame[k as usize] = self.read_frame(isp.wrapping_add(4 * k))?;
        }
        let [sp, msp, pc, psw] = frame;
        let (sp, msp) = (sp & !15, msp & !15);
        self.registers[SP] = sp;
        self.registers[MSP] = sp;
        let restored = |bit: u32| psw >> bit & 1 == 1;
        if !restored(PSW_SP_CURRENT) {
            self.registers[MSP] = msp;
        } else if self.cache_on() {
            let regime = Regime { translated: restored(PSW_VIRTUAL), ..self.regime() };
            self.fill_checked(regime, msp)?;
            self.registers[MSP] = msp;
        }
        self.return_from(pc, psw);
        Ok(())
    }

    /// A sequence that faults on its stack or vector resets.
    fn settle(&mut self, sequence: Outcome<()>) {
        if sequence.is_ok() {
            return;
        }
        self.tally.resets += 1;
        self.registers[SHAD] = self.registers[PSW];
        for register in [PSW, CONFIG, PC, TRACE_DUE, TIMER1_DUE, TIMER2_DUE] {
            self.registers[register] = 0;
        }
    }

    /// Both timers count by the CONFIG and the level that the step began with; an overflow falls due if its bit was set.
    fn count(&mut self, config: u32, psw: u32, completed: bool) {
        let set = |bit: u32| config >> bit & 1 == 1;
        let kernel = psw >> PSW_USER & 1 == 0;
        let first = (!set(23) || kernel) && (!set(22) || completed);
        let event = config >> 25 & 0x1F;
        let second = (!set(30) || kernel) && (event == 0 || event == 1 && completed);
        let timers = [(first, TIMER1, TIMER1_DUE, set(24)), (second, TIMER2, TIMER2_DUE, set(31))];
        for (counts, timer, due, enabled) in timers {
            if !counts {
                continue;
            }
            self.registers[timer] = self.registers[timer].wrapping_add(1);
            if self.registers[timer] == 0 && enabled {
                self.registers[due] = 1;
            }
        }
    }
}
