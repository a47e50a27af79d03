//! What each instruction does (section 3.3), in document 01's order.
use super::decode::{Act, Instruction, Monadic, Niladic, Operand, Operation, Relation, Task};
use super::memory::ALIGNMENT_FAULT;
use super::operands::Place;
use super::*;

const ZERO_DIVIDE: u32 = 0x1;
const PRIVILEGE_VIOLATION: u32 = 0x5;

/// A result, and the carry and overflow that it sets.
struct Computed {
    value: u32,
    carry: Option<bool>,
    overflow: Option<bool>,
}

fn leaves_signed(value: i64) -> bool {
    i32::try_from(value).is_err()
}

fn compute(operation: Operation, destination: u32, source: u32) -> Computed {
    let (d, s) = (destination as u64, source as u64);
    let (di, si) = (destination as i32 as i64, source as i32 as i64);
    let plain = |value: u32| Computed { value, carry: None, overflow: None };
    let flagged =
        |value: u32, carry: bool, overflow: bool| Computed { value, carry: Some(carry), overflow: Some(overflow) };
    let shift = source & 31;
    match operation {
        Operation::Add => flagged((d + s) as u32, d + s > 0xFFFF_FFFF, leaves_signed(di + si)),
        Operation::Sub => flagged(destination.wrapping_sub(source), d < s, leaves_signed(di - si)),
        Operation::Mul => flagged(destination.wrapping_mul(source), d * s > 0xFFFF_FFFF, leaves_signed(di * si)),
        Operation::Div => Computed { value: (di / si) as u32, carry: None, overflow: Some(leaves_signed(di / si)) },
        Operation::Rem => Computed { value: (di % si) as u32, carry: None, overflow: Some(false) },
        Operation::Udiv => Computed { value: destination / source, carry: Some(false), overflow: None },
        Operation::Urem => Computed { value: destination % source, carry: Some(false), overflow: None },
        Operation::And => plain(destination & source),
        Operation::Or => plain(destination | source),
        Operation::Xor => plain(destination ^ source),
        Operation::Shl => plain(destination << shift),
        Operation::Shr => plain((destination as i32 >> shift) as u32),
        Operation::Ushr => plain(destination >> shift),
    }
}

fn divides(operation: Operation) -> bool {
    use Operation::*;
    matches!(operation, Div | Rem | Udiv | Urem)
}

impl Machine {
    pub fn execute(&mut self, instruction: Instruction) -> Outcome<()> {
        let next = self.registers[PC].wrapping_add(2 * instruction.length);
        match instruction.act {
            Act::Dyadic { task, three, source, destination } => {
                self.check_registers([source, destination])?;
                self.dyadic(task, three, source, destination)?;
                self.registers[PC] = next;
                Ok(())
            }
            Act::Monadic { monadic, mode, value } => self.monadic(monadic, mode, value, next),
            Act::Niladic(niladic) => self.niladic(niladic, next),
        }
    }

    fn dyadic(&mut self, task: Task, three: bool, source: Operand, destination: Operand) -> Outcome<()> {
        match task {
            Task::MoveWords => return self.move_words(three, source, destination),
            Task::MoveAddress => {
                let from = self.locate(three, source)?;
                let to = self.locate(three, destination)?;
                // the decoder lets only words in memory through
                let Place::Memory { address, .. } = from else { unreachable!() };
                return self.write_place(to, address);
            }
            _ => {}
        }
        let from = self.locate(three, source)?;
        let x = self.read_place(from)?;
        let to = self.locate(three, destination)?;
        if task == Task::Move {
            return self.write_place(to, x);
        }
        let y = self.read_place(to)?;
        match task {
            Task::Compute(operation) => {
                let computed = self.computed(operation, y, x)?;
                self.write_place(to, computed.value)?;
                self.lay_flags(computed);
            }
            Task::Accumulate(operation) => {
                let computed = self.computed(operation, y, x)?;
                self.write_accumulator(computed.value)?;
                self.lay_flags(computed);
            }
            Task::Interlock(operation) => {
                let computed = self.computed(operation, y, x)?;
                self.write_place(to, computed.value)?;
                self.write_accumulator(y)?;
            }
            Task::Compare(relation) => {
                let holds = match relation {
                    Relation::Equal => x == y,
                    Relation::Greater => x as i32 > y as i32,
                    Relation::Higher => x > y,
                };
                self.set_bit(PSW, PSW_FLAG, holds);
            }
            Task::TaggedAdd => self.tagged(Operation::Add, to, y, x)?,
            Task::TaggedSub => self.tagged(Operation::Sub, to, y, x)?,
            Task::Move | Task::MoveAddress | Task::MoveWords => {}
        }
        Ok(())
    }

    fn computed(&self, operation: Operation, destination: u32, source: u32) -> Outcome<Computed> {
        if divides(operation) && source == 0 {
            return Err(Stop::Exception(ZERO_DIVIDE));
        }
        Ok(compute(operation, destination, source))
    }

    /// Flags are laid over PSW as the result's write left it.
    fn lay_flags(&mut self, computed: Computed) {
        if let Some(carry) = computed.carry {
            self.set_bit(PSW, PSW_CARRY, carry);
        }
        if let Some(overflow) = computed.overflow {
            self.set_bit(PSW, PSW_OVERFLOW, overflow);
        }
    }

    /// TADD, TSUB: a bad tag changes F alone; a register takes the result after the flags; a store that faults leaves them.
    fn tagged(&mut self, operation: Operation, to: Place, y: u32, x: u32) -> Outcome<()> {
        if !x.is_multiple_of(4) || !y.is_multiple_of(4) {
            self.set_bit(PSW, PSW_FLAG, true);
            return Ok(());
        }
        let computed = compute(operation, y, x);
        let (value, overflow) = (computed.value, computed.overflow == Some(true));
        if !overflow && matches!(to, Place::Memory { .. }) {
            self.write_place(to, value)?;
        }
        self.lay_flags(computed);
        self.set_bit(PSW, PSW_FLAG, overflow);
        if !overflow && matches!(to, Place::Register(_)) {
            self.write_place(to, value)?;
        }
        Ok(())
    }

    /// DQM: two or four words by the destination's mode, all read before the destination is found.
    fn move_words(&mut self, three: bool, source: Operand, destination: Operand) -> Outcome<()> {
        let double = matches!(destination, Operand::General { mode: 0 | 4 | 8, .. });
        let count: u32 = if double { 2 } else { 4 };
        let mut words = [0; 4];
        match self.locate(three, source)? {
            Place::Memory { address, .. } => {
                if address % (4 * count) != 0 {
                    return Err(Stop::Exception(ALIGNMENT_FAULT));
                }
                for k in 0..count {
                    words[k as usize] = self.read_data(4, address.wrapping_add(4 * k))?;
                }
            }
            Place::Immediate(value) => words = [value; 4],
            Place::Register(_) => unreachable!(),
        }
        let Place::Memory { address, .. } = self.locate(three, destination)? else { unreachable!() };
        if address % (4 * count) != 0 {
            return Err(Stop::Exception(ALIGNMENT_FAULT));
        }
        for k in 0..count {
            self.write_data(4, address.wrapping_add(4 * k), words[k as usize])?;
        }
        Ok(())
    }

    /// The word operand of KCALL (Table 1-21).
    fn word_operand(&mut self, mode: u8, value: u32) -> Outcome<u32> {
        match mode {
            0xC => self.read_data(4, value),
            0xD => self.read_data(4, self.stack_address(value)),
            0xE => {
                let address = self.read_data(4, self.stack_address(value))?;
                self.read_data(4, address)
            }
            _ => Ok(value),
        }
    }

    /// Where CALL and JMP go (Table 1-23).
    fn flow_target(&mut self, mode: u8, value: u32) -> Outcome<u32> {
        match mode {
            0xC => self.read_data(4, value),
            0xD => self.read_data(4, self.stack_address(value)),
            0xE => Ok(self.registers[PC].wrapping_add(value)),
            _ => Ok(value),
        }
    }

    /// Every load of PC drops bit 0.
    pub fn jump(&mut self, target: u32) {
        self.registers[PC] = target & !1;
    }

    fn monadic(&mut self, monadic: Monadic, mode: u8, value: u32, next: u32) -> Outcome<()> {
        match monadic {
            Monadic::Kcall => {
                let operand = self.word_operand(mode, value)?;
                return self.kcall(operand, next);
            }
            Monadic::Call => {
                let target = self.flow_target(mode, value)?;
                self.write_data(4, self.stack_address(0), next)?;
                self.jump(target);
                return Ok(());
            }
            Monadic::Return => {
                let target = self.read_data(4, self.stack_address(value))?;
                self.release(value);
                self.jump(target);
                return Ok(());
            }
            Monadic::Jmp | Monadic::JmpFalse | Monadic::JmpTrue => {
                let flag = self.bit(PSW, PSW_FLAG);
                if monadic == Monadic::Jmp || flag == (monadic == Monadic::JmpTrue) {
                    let target = self.flow_target(mode, value)?;
                    self.jump(target);
                    return Ok(());
                }
            }
            Monadic::Catch => self.catch(mode, value)?,
            Monadic::Enter => self.enter(mode, value)?,
            Monadic::Ldraa => {
                let target = self.flow_target(mode, value)?;
                self.write_accumulator(target)?;
            }
            Monadic::Flush => {}
            Monadic::Popn => self.release(value),
        }
        self.registers[PC] = next;
        Ok(())
    }

    fn niladic(&mut self, niladic: Niladic, next: u32) -> Outcome<()> {
        let returns = matches!(niladic, Niladic::Kret | Niladic::Cret);
        if returns && self.bit(PSW, PSW_USER) {
            return Err(Stop::Exception(PRIVILEGE_VIOLATION));
        }
        match niladic {
            Niladic::Kret => return self.kret(),
            Niladic::Cret => return self.cret(),
            Niladic::Nop => {}
            Niladic::Testv => self.test(PSW_OVERFLOW),
            Niladic::Testc => self.test(PSW_CARRY),
            Niladic::Clre => self.set_bit(PSW, PSW_GUARD, false),
        }
        self.registers[PC] = next;
        Ok(())
    }

    /// TESTC, TESTV: copied into the flag, and cleared.
    fn test(&mut self, bit: u32) {
        let value = self.bit(PSW, bit);
        self.set_bit(PSW, bit, false);
        self.set_bit(PSW, PSW_FLAG, value);
    }
}
