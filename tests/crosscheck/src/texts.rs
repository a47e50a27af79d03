//! Decoding and encoding: the library's two calls against the interpreter's decoder, over every first parcel.
use crate::compare::{Summary, SHOWN};
use crate::link;
use crate::machine::decode::{decode, following, Act, Decoded, Instruction, Monadic, Operand, PREFIX};
use crate::machine::decode::{FIVE_ROWS, MONADIC_ROWS, NILADIC_ROWS, STACK_ROWS, THREE_ROWS};
use crate::random::Random;
use std::io::Write;

/// How often each first parcel is tried, with and without a prefix, before other parcels each time.
const ROUNDS: u32 = 8;

const BLOCKS: u32 = 1_000_000;

const NO_CODE: u32 = 5;
const CUT_TEXT: u32 = 6;
const ILLEGAL: u32 = 0x103;
const TRAPPED: u32 = 0x108;
const UNIMPLEMENTED: u32 = 0x10C;

/// A mode's number for an operand that is a register.
const REGISTER: u32 = 16;

/// What is in a place that a call must leave alone.
const LEFT: u32 = 0xA5A5_A5A5;

type Block = [u32; 8];

/// By the interpreter's number of a row: its number in a block, which is its parcel without operands, its opcode or its
/// subcode.
fn number(row: usize) -> u32 {
    let number = match row {
        0..STACK_ROWS => row << 10,
        STACK_ROWS..NILADIC_ROWS => 0x02 << 10 | (row - STACK_ROWS) << 8,
        NILADIC_ROWS..THREE_ROWS => 0x0B << 10 | (row - NILADIC_ROWS),
        THREE_ROWS..FIVE_ROWS => row - THREE_ROWS,
        FIVE_ROWS..MONADIC_ROWS => row - FIVE_ROWS,
        _ => row - MONADIC_ROWS,
    };
    number as u32
}

/// The words of an instruction that the interpreter found.
fn block(instruction: &Instruction) -> Block {
    let row = number(instruction.row);
    let (length, prefix) = (instruction.length, instruction.prefix as u32);
    match instruction.act {
        Act::Dyadic { source, destination, .. } if length == 1 => {
            [1, row, length, 0, 0, mode_and_value(source).1, 0, mode_and_value(destination).1]
        }
        Act::Monadic { value, .. } if length == 1 => [1, row, length, 0, 0, value, 0, 0],
        Act::Niladic(_) => [1, row, length, 0, 0, 0, 0, 0],
        Act::Dyadic { source, destination, .. } => {
            let ((from, value), (to, other)) = (mode_and_value(source), mode_and_value(destination));
            [2, row, length, prefix, from, value, to, other]
        }
        Act::Monadic { monadic, mode, value } => {
            // the modes of Table 1-23 come after the word modes of Table 1-21
            let first = if flows(monadic) { 4 } else { 0 };
            [3, row, length, prefix, first + mode as u32 - 0xC, value, 0, 0]
        }
    }
}

/// What the call has to give for a text: a block or a number.
fn expected(text: &[u16]) -> Result<Block, u32> {
    let needed = needed(text);
    if text.len() < needed {
        return Err(CUT_TEXT);
    }
    match decode(&text[..needed]) {
        Decoded::Is(instruction) => Ok(block(&instruction)),
        Decoded::Illegal => Err(ILLEGAL),
        Decoded::Unimplemented => Err(UNIMPLEMENTED),
        Decoded::Trap => Err(TRAPPED),
    }
}

fn mode_and_value(operand: Operand) -> (u32, u32) {
    match operand {
        Operand::General { mode, value } => (mode as u32, value),
        Operand::Register(number) => (REGISTER, number),
    }
}

fn flows(monadic: Monadic) -> bool {
    use Monadic::*;
    matches!(monadic, Call | Jmp | JmpFalse | JmpTrue | Ldraa)
}

/// How many parcels the first, or the one after a prefix, calls for, as far as they are there.
fn needed(text: &[u16]) -> usize {
    match text {
        [] => 1,
        [PREFIX] => 2,
        [PREFIX, second, ..] => 2 + following(*second),
        [first, ..] => 1 + following(*first),
    }
}

/// The parcels of a text that decodes, with the bits above a register's number zero: mode 7 after a prefix.
fn cleared(text: &[u16]) -> [u16; 6] {
    let mut parcels = [0; 6];
    parcels[..text.len()].copy_from_slice(text);
    let first = parcels[1];
    let dyadic = first >> 14 == 3 || first >> 8 & 0x3F != 0;
    if text[0] == PREFIX && dyadic {
        for (field, mode) in [first >> 4 & 0xF, first & 0xF].into_iter().enumerate() {
            if mode == 7 && text.len() == 4 {
                parcels[2 + field] &= 0xF;
            }
            if mode == 7 && text.len() == 6 {
                parcels[2 + 2 * field] = 0;
                parcels[3 + 2 * field] &= 0xF;
            }
        }
    }
    parcels
}

/// The library's answer in the same form; a refusal that touched the block is none.
fn decoded(text: &[u16]) -> Result<Block, u32> {
    let mut block = [LEFT; 8];
    match link::decode(text, &mut block) {
        0 => Ok(block),
        number if block == [LEFT; 8] => Err(number),
        number => Err(number | LEFT),
    }
}

fn encoded(block: &Block, length: u32) -> Result<[u16; 6], u32> {
    let mut parcels = [LEFT as u16; 6];
    match link::encode(block, length, &mut parcels) {
        0 => Ok(parcels),
        number if parcels == [LEFT as u16; 6] => Err(number),
        number => Err(number | LEFT),
    }
}

/// Parcels that follow: any, and small ones, which are offsets and register numbers.
fn parcel(random: &mut Random) -> u16 {
    match random.below(4) {
        0 => random.below(16) as u16,
        1 => (random.below(64) * 4) as u16,
        2 => 0u16.wrapping_sub(random.below(64) as u16 * 4),
        _ => random.word() as u16,
    }
}

impl Summary {
    fn compare_text(&mut self, text: &[u16]) -> Option<Block> {
        let (ours, theirs) = (expected(text), decoded(text));
        self.texts += 1;
        if ours != theirs {
            self.differences += 1;
            println!("difference: hobbit_decode of {text:04X?}: interpreter {ours:X?}, library {theirs:X?}");
            return None;
        }
        ours.ok()
    }

    fn compare_coded(&mut self, block: &Block, length: u32, ours: Result<[u16; 6], u32>) {
        let theirs = encoded(block, length);
        if ours != theirs {
            self.differences += 1;
            println!(
                "difference: hobbit_encode of {block:X?} at {length}: {ours:04X?} expected, library {theirs:04X?}"
            );
        }
    }

    /// A text whole, before other parcels and cut everywhere; what it decodes to encodes to it at its length alone.
    fn compare_cuts(&mut self, parcels: &[u16]) {
        let whole = needed(parcels);
        for count in 0..whole {
            self.compare_text(&parcels[..count]);
        }
        self.compare_text(parcels);
        if let Some(block) = self.compare_text(&parcels[..whole]) {
            for length in 0..8 {
                let same = length as usize == whole;
                let ours = if same { Ok(cleared(&parcels[..whole])) } else { Err(NO_CODE) };
                self.compare_coded(&block, length, ours);
            }
            self.encoded += 1;
            self.compare_lengths(&block, whole as u32);
        }
    }

    /// The same words with another length, or with the prefix put before or taken away: they disagree, and have no code at
    /// that length nor at their own, but a dyadic may be one of the other form.
    fn compare_lengths(&mut self, block: &Block, whole: u32) {
        for wrong in (0..8).filter(|length| *length != whole) {
            let other = with(block, 2, wrong);
            self.compare_coded(&other, whole, Err(NO_CODE));
            if block[0] == 2 && [3, 5].contains(&wrong.wrapping_sub(block[3])) {
                self.compare_block(&other, wrong);
            } else {
                self.compare_coded(&other, wrong, Err(NO_CODE));
            }
        }
        self.compare_coded(&with(block, 3, 1 - block[3]), whole, Err(NO_CODE));
    }

    /// A block that need not name an instruction is refused, or gives parcels that decode to it.
    fn compare_block(&mut self, block: &Block, length: u32) {
        self.blocks += 1;
        match encoded(block, length) {
            Err(NO_CODE) => {}
            Err(number) => {
                self.differences += 1;
                println!("difference: hobbit_encode of {block:X?} at {length} answers {number:X}");
            }
            Ok(parcels) => {
                self.coded += 1;
                let text = &parcels[..(length as usize).min(6)];
                let rest_zero = parcels[text.len()..].iter().all(|parcel| *parcel == 0);
                if self.compare_text(text) != Some(*block) || !rest_zero {
                    self.differences += 1;
                    println!("difference: hobbit_encode of {block:X?} at {length} gives {parcels:04X?}");
                }
            }
        }
    }
}

fn with(block: &Block, place: usize, word: u32) -> Block {
    let mut other = *block;
    other[place] = word;
    other
}

/// An opcode's parcel, or a subcode's, and now and then one with operand bits.
fn row_of_one_parcel(random: &mut Random) -> u32 {
    let base = match random.below(8) {
        0 => 0x02 << 10 | random.below(4) << 8,
        1 | 2 => 0x0B << 10 | random.below(12),
        _ => random.below(33) << 10,
    };
    base + random.chance(5) as u32 * random.below(1024)
}

/// Words of a block near those of an instruction, and now and then any; and the length to encode at.
fn random_block(random: &mut Random) -> (Block, u32) {
    let kind = random.below(5);
    let prefix = random.below(2) * (kind != 1) as u32;
    let own = match kind {
        1 => 1,
        2 => random.pick(&[3, 5]) + prefix,
        _ => 3 + prefix,
    };
    let modes = [0, 0].map(|_: u32| match kind {
        2 if prefix == 1 => random.pick(&[0xC, 0xD, 0xE, 0xF, REGISTER]),
        2 => random.below(18),
        3 => random.below(9),
        _ => 0,
    });
    let values = [0, 0].map(|_: u32| match random.below(4) {
        0 => random.word(),
        1 => parcel(random) as i16 as u32,
        _ => random.below(64) * 4,
    });
    let row = match kind {
        1 => row_of_one_parcel(random),
        2 => random.below(66),
        _ => random.below(17),
    };
    // now and then a length that the other words do not have: without the prefix, one more, or any
    let length = match random.below(24) {
        0 => own - prefix,
        1 => own + 1,
        2 => random.below(8),
        _ => own,
    };
    let mut block = [kind, row, length, prefix, modes[0], values[0], modes[1], values[1]];
    if kind == 3 {
        block[6..].fill(0);
    }
    // offsets in quad-words, ENTER's filled with ones, and no destination
    if kind == 1 && random.chance(30) {
        (block[5], block[7]) = (random.pick(&[0, 0xFFFF_F000]) + random.below(16) * 16, 0);
    }
    if random.chance(20) {
        block[random.below(8) as usize] = random.pick(&[1, 2, 16, 39, 256, u32::MAX]);
    }
    let named = match random.below(20) {
        0 => random.word() >> random.below(32),
        1..8 => own,
        _ => length,
    };
    (block, named)
}

/// What a line of parcels decodes to, as the program test_decoder prints it; `-` is no parcel.
fn told(line: &str) -> Option<String> {
    let digits = line.as_bytes().chunks(4).filter(|_| line != "-");
    let parcels = digits.map(|four| u16::from_str_radix(std::str::from_utf8(four).ok()?, 16).ok());
    let words = match expected(&parcels.collect::<Option<Vec<u16>>>()?) {
        Ok(block) => [&[0], &block[..]].concat(),
        Err(number) => vec![number],
    };
    Some(words.iter().map(|word| format!("{word:x}")).collect::<Vec<_>>().join(" "))
}

/// Reads texts, one a line, and prints what each decodes to; a line that is no text is an error.
pub fn tell() -> std::io::Result<()> {
    let input = std::io::read_to_string(std::io::stdin())?;
    let lines = input.lines().map(|line| told(line).ok_or(line));
    let answers: Result<Vec<String>, &str> = lines.collect();
    match answers {
        Ok(answers) => std::io::stdout().write_all((answers.join("\n") + "\n").as_bytes()),
        Err(line) => Err(std::io::Error::other(format!("no parcels: {line}"))),
    }
}

/// The list of the one-parcel instructions, as the program parcels prints it: parcel, opcode, operand bits. A prefix is listed.
pub fn list() -> std::io::Result<()> {
    let listed = (0..0x8000).filter(|&p| p == PREFIX || matches!(decode(&[p]), Decoded::Is(_)));
    let lines = listed.map(|p| format!("{p:04X}{:02X}{:03X}\n", p >> 10, p & 0x3FF));
    std::io::stdout().write_all(lines.collect::<String>().as_bytes())
}

/// All first parcels, then random blocks.
pub fn compare(seed: u64, summary: &mut Summary) {
    let mut random = Random::new(seed);
    for first in 0..=u16::MAX {
        for _ in 0..ROUNDS {
            let parcels: [u16; 7] = std::array::from_fn(|_| parcel(&mut random));
            let mut bare = parcels;
            bare[0] = first;
            let mut prefixed = parcels;
            prefixed[..2].copy_from_slice(&[PREFIX, first]);
            summary.compare_cuts(&bare);
            summary.compare_cuts(&prefixed);
        }
        if summary.differences >= SHOWN {
            return;
        }
    }
    for _ in 0..BLOCKS {
        let (block, length) = random_block(&mut random);
        summary.compare_block(&block, length);
        if summary.differences >= SHOWN {
            return;
        }
    }
}
