//! The decoder: what one to six parcels say (1.6, 1.7, 1.11.4 and the encodings lists of 3.3).

/// An operand of a dyadic.
#[derive(Clone, Copy)]
pub enum Operand {
    General { mode: u8, value: u32 },
    Register(u32),
}

#[derive(Clone, Copy, PartialEq, Eq)]
pub enum Operation {
    Add,
    Sub,
    Mul,
    Div,
    Rem,
    Udiv,
    Urem,
    And,
    Or,
    Xor,
    Shl,
    Shr,
    Ushr,
}

#[derive(Clone, Copy, PartialEq, Eq)]
pub enum Relation {
    Equal,
    Greater,
    Higher,
}

/// What a dyadic does with its operands.
#[derive(Clone, Copy, PartialEq, Eq)]
pub enum Task {
    Compute(Operation),
    Accumulate(Operation),
    Interlock(Operation),
    Compare(Relation),
    TaggedAdd,
    TaggedSub,
    Move,
    MoveAddress,
    MoveWords,
}

#[derive(Clone, Copy, PartialEq, Eq)]
pub enum Monadic {
    Kcall,
    Call,
    Return,
    Jmp,
    JmpFalse,
    JmpTrue,
    Catch,
    Enter,
    Ldraa,
    Flush,
    Popn,
}

#[derive(Clone, Copy, PartialEq, Eq)]
pub enum Niladic {
    Kret,
    Cret,
    Nop,
    Testv,
    Testc,
    Clre,
}

#[derive(Clone, Copy)]
pub enum Act {
    /// three: its 16-bit absolute operands are extended at execution
    Dyadic {
        task: Task,
        three: bool,
        source: Operand,
        destination: Operand,
    },
    /// the mode is a number of Table 1-21 or 1-23, 0xC to 0xF
    Monadic {
        monadic: Monadic,
        mode: u8,
        value: u32,
    },
    Niladic(Niladic),
}

#[derive(Clone, Copy)]
pub struct Instruction {
    pub act: Act,
    /// in parcels, with the prefix
    pub length: u32,
    pub prefix: bool,
    /// its number for the tally
    pub row: usize,
}

pub enum Decoded {
    Is(Instruction),
    Illegal,
    Unimplemented,
    Trap,
}

pub const PREFIX: u16 = 0x2C00;

/// How many parcels follow one that begins an instruction.
pub fn following(parcel: u16) -> usize {
    match parcel >> 14 {
        0 | 1 => 0,
        2 => 2,
        _ => 4,
    }
}

// numbers of rows: one parcel 0 to 31, its stack rows 32 to 35, its niladics 36 to 46, three parcels from 48, five from
// 112, monadics from 176
pub const STACK_ROWS: usize = 32;
pub const NILADIC_ROWS: usize = 36;
pub const THREE_ROWS: usize = 48;
pub const FIVE_ROWS: usize = 112;
pub const MONADIC_ROWS: usize = 176;

/// The parcels are all that the first one, or the one after a prefix, calls for.
pub fn decode(parcels: &[u16]) -> Decoded {
    let prefix = parcels[0] == PREFIX;
    let text = if prefix { &parcels[1..] } else { parcels };
    let first = text[0];
    let length = parcels.len() as u32;
    match following(first) {
        0 if prefix => Decoded::Illegal,
        0 => decode_one(first),
        2 if first >> 8 & 0x3F == 0 => decode_monadic(first, word(text[1], text[2]), length, prefix),
        2 => decode_dyadic(first, [text[1] as u32, text[2] as u32], true, length, prefix),
        _ => {
            let fields = [word(text[1], text[2]), word(text[3], text[4])];
            decode_dyadic(first, fields, false, length, prefix)
        }
    }
}

fn word(high: u16, low: u16) -> u32 {
    (high as u32) << 16 | low as u32
}

fn sign_extended(value: u32, bits: u32) -> u32 {
    let shift = 32 - bits;
    ((value << shift) as i32 >> shift) as u32
}

fn is_one(row: usize, act: Act) -> Decoded {
    Decoded::Is(Instruction { act, length: 1, prefix: false, row })
}

fn decode_one(parcel: u16) -> Decoded {
    use Operation::*;
    use Task::*;
    let opcode = (parcel >> 10 & 0x1F) as usize;
    let high = (parcel >> 5 & 0x1F) as u32;
    let low = (parcel & 0x1F) as u32;
    let ten = (parcel & 0x3FF) as u32;
    let immediate = |value| Operand::General { mode: 0xF, value };
    let (imm5, uimm5, wai5) = (immediate(sign_extended(high, 5)), immediate(high), immediate(high * 4));
    let stack = |field: u32| Operand::General { mode: 0xD, value: field * 4 };
    let indirect = |field: u32| Operand::General { mode: 0xE, value: field * 4 };
    let two = |task, source, destination| is_one(opcode, Act::Dyadic { task, three: false, source, destination });
    let flow = |monadic| {
        let value = sign_extended(ten * 2, 11);
        is_one(opcode, Act::Monadic { monadic, mode: 0xE, value })
    };
    match opcode {
        0x00 => is_one(opcode, Act::Monadic { monadic: Monadic::Kcall, mode: 0xF, value: ten * 4 }),
        0x01 => flow(Monadic::Call),
        0x02 => decode_stack(ten),
        0x03 => flow(Monadic::Jmp),
        0x04 | 0x05 => flow(Monadic::JmpFalse),
        0x06 | 0x07 => flow(Monadic::JmpTrue),
        0x0A => two(Move, wai5, stack(low)),
        0x0B => decode_niladic(ten),
        0x0D => two(Accumulate(Add), wai5, stack(low)),
        0x0E => two(Accumulate(And), imm5, stack(low)),
        0x0F => two(Compute(And), stack(high), stack(low)),
        0x10 => two(Compare(Relation::Equal), imm5, stack(low)),
        0x11 => two(Compare(Relation::Greater), stack(high), stack(low)),
        0x12 => two(Compare(Relation::Greater), imm5, stack(low)),
        0x13 => two(Compare(Relation::Equal), stack(high), stack(low)),
        0x14 => two(Compute(Add), imm5, stack(low)),
        0x15 => two(Accumulate(Add), imm5, stack(low)),
        0x16 => two(Compute(Add), stack(high), stack(low)),
        0x17 => two(Accumulate(Add), stack(high), stack(low)),
        0x18 => two(Move, stack(high), stack(low)),
        0x19 => two(Move, indirect(high), stack(low)),
        0x1A => two(Move, stack(high), indirect(low)),
        0x1B => two(Move, indirect(high), indirect(low)),
        0x1C => two(Move, imm5, stack(low)),
        0x1D => two(MoveAddress, stack(high), stack(low)),
        0x1E => two(Accumulate(Shl), uimm5, stack(low)),
        0x1F => two(Accumulate(Shr), uimm5, stack(low)),
        _ => Decoded::Unimplemented,
    }
}

/// Table 1-16: the subcode is the top two bits before an 8-bit offset in quad-words; ENTER's is filled with ones.
fn decode_stack(ten: u32) -> Decoded {
    let offset = (ten & 0xFF) * 16;
    let subcode = (ten >> 8) as usize;
    let (monadic, value) = match subcode {
        0 => (Monadic::Enter, offset | 0xFFFF_F000),
        1 => (Monadic::Catch, offset),
        2 => (Monadic::Return, offset),
        _ => (Monadic::Popn, offset),
    };
    is_one(STACK_ROWS + subcode, Act::Monadic { monadic, mode: 0xD, value })
}

/// Table 1-17: all ten bits are the subcode.
fn decode_niladic(ten: u32) -> Decoded {
    let niladic = match ten {
        0x0 => return Decoded::Illegal,
        0x1 => Niladic::Kret,
        0x2..=0x4 => Niladic::Nop,
        0x5 => Niladic::Cret,
        0x8 => Niladic::Testv,
        0x9 => Niladic::Testc,
        0xA => Niladic::Clre,
        0x200.. => return Decoded::Trap,
        _ => return Decoded::Unimplemented,
    };
    is_one(NILADIC_ROWS + ten as usize, Act::Niladic(niladic))
}

/// Table 1-18 and 1-20.
fn task_of(opcode: usize) -> Option<Task> {
    use Operation::*;
    use Task::*;
    let computed = [Sub, Or, And, Add, Xor, Rem, Mul, Div];
    Some(match opcode {
        0x01 => Interlock(Or),
        0x02 => Interlock(And),
        0x03 => Interlock(Add),
        0x04 => MoveAddress,
        0x05 => Compute(Urem),
        0x06 => Move,
        0x07 => MoveWords,
        0x0C => TaggedAdd,
        0x0D => TaggedSub,
        0x1D => Compare(Relation::Greater),
        0x1E => Compare(Relation::Higher),
        0x1F => Compare(Relation::Equal),
        0x20..=0x27 => Compute(computed[opcode - 0x20]),
        0x2C => Compute(Shr),
        0x2D => Compute(Ushr),
        0x2E => Compute(Shl),
        0x2F => Compute(Udiv),
        0x30..=0x37 => Accumulate(computed[opcode - 0x30]),
        0x3C => Accumulate(Shr),
        0x3D => Accumulate(Ushr),
        0x3E => Accumulate(Shl),
        _ => return None,
    })
}

/// Tables 1-21 and 1-22; nothing for a mode that is illegal after a prefix.
fn operand_of(mode: u8, field: u32, three: bool, prefix: bool) -> Option<Operand> {
    if prefix && mode == 7 {
        return Some(Operand::Register(field & 0xF));
    }
    if prefix && mode < 0xC {
        return None;
    }
    let absolute = mode < 4 || mode == 0xC;
    let value = if three && !absolute { sign_extended(field, 16) } else { field };
    Some(Operand::General { mode, value })
}

fn decode_dyadic(first: u16, fields: [u32; 2], three: bool, length: u32, prefix: bool) -> Decoded {
    let opcode = (first >> 8 & 0x3F) as usize;
    let (source_mode, destination_mode) = ((first >> 4 & 0xF) as u8, (first & 0xF) as u8);
    let source = operand_of(source_mode, fields[0], three, prefix);
    let destination = operand_of(destination_mode, fields[1], three, prefix);
    let (Some(source), Some(destination)) = (source, destination) else {
        return Decoded::Illegal;
    };
    let registers = [&source, &destination].map(|operand| matches!(operand, Operand::Register(_)));
    let word_source = matches!(source, Operand::General { mode: 0xC..=0xE, .. });
    let constant_source = matches!(source, Operand::General { mode: 0xF, .. });
    let legal = match task_of(opcode) {
        Some(Task::Move) => true,
        Some(Task::MoveAddress) => word_source && !registers[1],
        Some(Task::MoveWords) => {
            let modes = matches!(destination, Operand::General { mode: 0 | 4 | 8 | 0xC | 0xD | 0xE, .. });
            (word_source || constant_source) && modes
        }
        // at most one register may be read
        _ => registers != [true, true],
    };
    match task_of(opcode) {
        _ if !legal => Decoded::Illegal,
        None => Decoded::Unimplemented,
        Some(task) => {
            let act = Act::Dyadic { task, three, source, destination };
            let row = opcode + if three { THREE_ROWS } else { FIVE_ROWS };
            Decoded::Is(Instruction { act, length, prefix, row })
        }
    }
}

/// Table 1-19; the mode is in bits 7:4, the subcode in bits 3:0.
fn decode_monadic(first: u16, value: u32, length: u32, prefix: bool) -> Decoded {
    let (mode, subcode) = ((first >> 4 & 0xF) as u8, (first & 0xF) as usize);
    if mode < 0xC {
        return Decoded::Illegal;
    }
    let negative = value >> 31 == 1;
    let released = mode == 0xD && !negative;
    let direct = mode >= 0xE;
    let (monadic, legal) = match subcode {
        0x0 => (Monadic::Kcall, true),
        0x1 => (Monadic::Call, true),
        0x2 => (Monadic::Return, released),
        0x3 => (Monadic::Jmp, true),
        0x4 | 0x5 => (Monadic::JmpFalse, direct),
        0x6 | 0x7 => (Monadic::JmpTrue, direct),
        0x8 => (Monadic::Catch, true),
        0x9 => (Monadic::Enter, mode != 0xD || negative),
        0xA => (Monadic::Ldraa, true),
        0xB | 0xC => (Monadic::Flush, true),
        0xF => (Monadic::Popn, released),
        _ => return Decoded::Unimplemented,
    };
    if !legal {
        return Decoded::Illegal;
    }
    let act = Act::Monadic { monadic, mode, value };
    Decoded::Is(Instruction { act, length, prefix, row: MONADIC_ROWS + subcode })
}

/// A row's name for the summary; nothing for a number without a row.
pub fn row_name(row: usize) -> Option<String> {
    let one = [
        "KCALL imm10",
        "CALL pcrel10",
        "",
        "JMP pcrel10",
        "JMPFN pcrel10",
        "JMPFY pcrel10",
        "JMPTN pcrel10",
        "JMPTY pcrel10",
        "",
        "",
        "MOV wai5, stk5",
        "",
        "",
        "ADD3 wai5, stk5",
        "AND3 imm5, stk5",
        "AND stk5, stk5",
        "CMPEQ imm5, stk5",
        "CMPGT stk5, stk5",
        "CMPGT imm5, stk5",
        "CMPEQ stk5, stk5",
        "ADD imm5, stk5",
        "ADD3 imm5, stk5",
        "ADD stk5, stk5",
        "ADD3 stk5, stk5",
        "MOV stk5, stk5",
        "MOV istk5, stk5",
        "MOV stk5, istk5",
        "MOV istk5, istk5",
        "MOV imm5, stk5",
        "MOVA stk5, stk5",
        "SHL3 uimm5, stk5",
        "SHR3 uimm5, stk5",
        "ENTER stk8",
        "CATCH stk8",
        "RETURN stk8",
        "POPN stk8",
        "",
        "KRET",
        "NOP",
        "FLUSHI",
        "FLUSHP",
        "CRET",
        "",
        "",
        "TESTV",
        "TESTC",
        "CLRE",
        "",
    ];
    let monadics = [
        "KCALL word32",
        "CALL flow32",
        "RETURN stk32",
        "JMP flow32",
        "JMPFN abs32",
        "JMPFY abs32",
        "JMPTN abs32",
        "JMPTY abs32",
        "CATCH word32",
        "ENTER word32",
        "LDRAA flow32",
        "FLUSHPTE word32",
        "FLUSHPBE word32",
        "",
        "",
        "POPN stk32",
    ];
    let dyadics = [
        "", "ORI", "ANDI", "ADDI", "MOVA", "UREM", "MOV", "DQM", "", "", "", "", "TADD", "TSUB", "", "", "", "", "",
        "", "", "", "", "", "", "", "", "", "", "CMPGT", "CMPHI", "CMPEQ", "SUB", "OR", "AND", "ADD", "XOR", "REM",
        "MUL", "DIV", "", "", "", "", "SHR", "USHR", "SHL", "UDIV", "SUB3", "OR3", "AND3", "ADD3", "XOR3", "REM3",
        "MUL3", "DIV3", "", "", "", "", "SHR3", "USHR3", "SHL3", "",
    ];
    let (name, operands) = match row {
        0..THREE_ROWS => (one[row], ""),
        THREE_ROWS..FIVE_ROWS => (dyadics[row - THREE_ROWS], " gen16, gen16"),
        FIVE_ROWS..MONADIC_ROWS => (dyadics[row - FIVE_ROWS], " gen32, gen32"),
        _ => (monadics[row - MONADIC_ROWS], ""),
    };
    (!name.is_empty()).then(|| format!("{name}{operands}"))
}
