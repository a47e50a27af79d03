//! Both machines through the same cases, compared whole after each call.
use crate::guard::Guarded;
use crate::link::Proved;
use crate::machine::{start, Answer, Machine, Tally, NAMES, PC};
use crate::random::{Case, Operation};
use crate::texts;
use std::time::Instant;

/// Differences that are printed before the check gives up.
pub const SHOWN: u64 = 10;

#[derive(Default)]
pub struct Summary {
    pub cases: u64,
    pub calls: u64,
    pub runs: [u64; 2],
    pub settings: u64,
    pub transfers: u64,
    pub texts: u64,
    pub encoded: u64,
    pub blocks: u64,
    pub coded: u64,
    pub differences: u64,
    pub tally: Tally,
}

fn answer_of(result: Result<u32, u32>) -> Option<Answer> {
    Some(match result {
        Ok(value) => Answer { steps: value, stop: 0, code: 0 },
        Err(refusal) => Answer { steps: 0, stop: 1, code: refusal },
    })
}

/// Loaded bytes as one number, for the comparison.
fn sum(bytes: &[u8]) -> u32 {
    bytes.iter().fold(1, |sum: u32, byte| sum.wrapping_mul(16_777_619) ^ *byte as u32)
}

/// One operation on our machine; the answer of a call.
fn apply(machine: &mut Machine, operation: &Operation) -> Option<Answer> {
    let number = |code| Some(Answer { steps: 0, stop: 0, code });
    match operation {
        Operation::Poke(at, bytes) => {
            machine.memory.bytes[*at..at + bytes.len()].copy_from_slice(bytes);
            None
        }
        Operation::Force(register, value) => {
            machine.registers[*register] = *value;
            None
        }
        Operation::Set(place, value) => number(machine.set(*place, *value)),
        Operation::Get(place) => answer_of(machine.get(*place)),
        Operation::Store(address, from) => answer_of(machine.span(*address, from.len()).map(|span| {
            machine.memory.bytes[span].copy_from_slice(from);
            0
        })),
        Operation::Load(address, count) => {
            let span = machine.span(*address, *count);
            answer_of(span.map(|span| sum(&machine.memory.bytes[span])))
        }
        Operation::Step(level) => number(machine.step(*level)),
        Operation::Run { confined, budget, level } => Some(machine.run(*confined, *budget, *level)),
    }
}

/// The same on the proved one.
fn apply_proved(proved: &mut Proved, operation: &Operation) -> Option<Answer> {
    let number = |code| Some(Answer { steps: 0, stop: 0, code });
    match operation {
        Operation::Poke(at, bytes) => {
            proved.bytes[*at..at + bytes.len()].copy_from_slice(bytes);
            None
        }
        Operation::Force(register, value) => {
            proved.registers[*register] = *value;
            None
        }
        Operation::Set(place, value) => number(proved.set(*place, *value)),
        Operation::Get(place) => answer_of(proved.get(*place)),
        Operation::Store(address, from) => answer_of(match proved.store(*address, from) {
            0 => Ok(0),
            refusal => Err(refusal),
        }),
        Operation::Load(address, count) => {
            let mut to = vec![0xA5; *count];
            answer_of(match proved.load(*address, &mut to) {
                0 => Ok(sum(&to)),
                // a refusal leaves the bytes as they were
                refusal => Err(refusal + to.iter().any(|byte| *byte != 0xA5) as u32),
            })
        }
        Operation::Step(level) => number(proved.step(*level)),
        Operation::Run { confined, budget, level } => Some(proved.run(*confined, *budget, *level)),
    }
}

fn same(machine: &Machine, proved: &Proved) -> bool {
    machine.registers == proved.registers
        && machine.cache == proved.cache
        && machine.memory.bytes[..] == proved.bytes[..]
}

/// The case again on our machine alone, up to an operation: both agreed until there.
fn replay(seed: u64, operations: u64) -> Machine {
    let (mut case, mut machine) = Case::new(seed);
    for _ in 0..operations {
        let operation = case.next(&machine).unwrap();
        apply(&mut machine, &operation);
    }
    machine
}

fn print_difference(
    seed: u64,
    done: u64,
    operation: &Operation,
    answers: [Option<Answer>; 2],
    machine: &Machine,
    proved: &Proved,
) {
    let before = replay(seed, done);
    println!("difference: seed {seed}, operation {done}, {operation:?}, {} bytes", proved.bytes.len());
    println!("answers: interpreter {:?}, library {:?}", answers[0], answers[1]);
    println!("registers: before, interpreter after, library after");
    for (k, name) in NAMES.iter().enumerate() {
        let (old, ours, theirs) = (before.registers[k], machine.registers[k], proved.registers[k]);
        let mark = if ours == theirs { "" } else { "  <--" };
        println!("  {name:13} {old:08X} {ours:08X} {theirs:08X}{mark}");
    }
    println!("cache words: before, interpreter after, library after");
    for k in 0..64 {
        let (old, ours, theirs) = (before.cache[k], machine.cache[k], proved.cache[k]);
        let mark = if ours == theirs { "" } else { "  <--" };
        println!("  {k:2} {old:08X} {ours:08X} {theirs:08X}{mark}");
    }
    println!("memory where it differs: before, interpreter after, library after");
    let places = (0..proved.bytes.len()).filter(|at| machine.memory.bytes[*at] != proved.bytes[*at]);
    for at in places.take(64) {
        let (old, ours, theirs) = (before.memory.bytes[at], machine.memory.bytes[at], proved.bytes[at]);
        println!("  {at:08X} {old:02X} {ours:02X} {theirs:02X}");
    }
    print!("text at PC before:");
    for k in 0..12 {
        match before.physical(before.regime(), before.registers[PC].wrapping_add(k)) {
            Some(at) => print!(" {:02X}", before.memory.bytes[at]),
            None => print!(" --"),
        }
    }
    println!();
}

fn compare_start(summary: &mut Summary) {
    let mut proved = Proved { registers: [0xA5A5_A5A5; 17], cache: [0xA5A5_A5A5; 64], bytes: Guarded::new(&[]) };
    proved.start();
    if proved.registers != start() || proved.cache != [0; 64] {
        println!("difference: hobbit_start gives {:X?} {:X?}", proved.registers, proved.cache);
        summary.differences += 1;
    }
}

fn compare_case(seed: u64, summary: &mut Summary) {
    let (mut case, mut machine) = Case::new(seed);
    let mut proved =
        Proved { registers: machine.registers, cache: machine.cache, bytes: Guarded::new(&machine.memory.bytes) };
    machine.tally = std::mem::take(&mut summary.tally);
    let mut done = 0;
    while let Some(operation) = case.next(&machine) {
        let answers = [apply(&mut machine, &operation), apply_proved(&mut proved, &operation)];
        match operation {
            Operation::Set(..) | Operation::Get(_) => summary.settings += 1,
            Operation::Store(..) | Operation::Load(..) => summary.transfers += 1,
            Operation::Step(_) => summary.calls += 1,
            Operation::Run { confined, .. } => summary.runs[confined as usize] += 1,
            Operation::Poke(..) | Operation::Force(..) => {}
        }
        let called = answers[0].is_some();
        if answers[0] != answers[1] || called && !same(&machine, &proved) {
            summary.differences += 1;
            print_difference(seed, done, &operation, answers, &machine, &proved);
            break;
        }
        done += 1;
    }
    summary.cases += 1;
    summary.tally = machine.tally;
}

/// Cases from a seed on, until so many steps were compared.
pub fn compare(steps: u64, seed: u64) -> Summary {
    let mut summary = Summary::default();
    let begun = Instant::now();
    let mut told = begun;
    compare_start(&mut summary);
    texts::compare(seed, &mut summary);
    while summary.tally.steps < steps && summary.differences < SHOWN {
        compare_case(seed.wrapping_add(summary.cases), &mut summary);
        if told.elapsed().as_secs() >= 5 {
            told = Instant::now();
            let (steps_done, cases) = (summary.tally.steps, summary.cases);
            println!("{steps_done} of {steps} steps, {cases} cases, {} differences", summary.differences);
        }
    }
    summary
}

/// The same cases on our interpreter alone: what the generator reaches.
pub fn alone(steps: u64, seed: u64) -> Summary {
    let mut summary = Summary::default();
    while summary.tally.steps < steps {
        let (mut case, mut machine) = Case::new(seed.wrapping_add(summary.cases));
        machine.tally = std::mem::take(&mut summary.tally);
        while let Some(operation) = case.next(&machine) {
            apply(&mut machine, &operation);
        }
        summary.cases += 1;
        summary.tally = machine.tally;
    }
    summary
}

/// A case of the board's size as frames, for a board program to read; runs of words that frames can't set are left out.
pub fn print_frames(seed: u64) {
    let (mut case, mut machine) = Case::for_board(seed);
    for (at, bytes) in machine.memory.bytes.chunks(32).enumerate() {
        let digits: String = bytes.iter().map(|byte| format!("{byte:02X}")).collect();
        println!("02{:08X}{digits}", at * 32);
    }
    // SP before MSP: it sets it
    for register in [0, 1, 3, 8, 4, 5, 6, 7, 9, 10, 11, 12] {
        println!("01{:02X}{:08X}", register + 1, machine.registers[register]);
    }
    while let Some(operation) = case.next(&machine) {
        match &operation {
            Operation::Poke(at, bytes) => {
                let digits: String = bytes.iter().map(|byte| format!("{byte:02X}")).collect();
                println!("02{at:08X}{digits}");
            }
            Operation::Force(register, value) if *register < 13 => {
                println!("01{:02X}{value:08X}", register + 1);
                machine.set(*register as u32 + 1, *value);
                continue;
            }
            Operation::Force(..) => continue,
            Operation::Set(place, value) => println!("01{place:02X}{value:08X}"),
            Operation::Get(_) | Operation::Load(..) | Operation::Store(..) => continue,
            Operation::Step(level) => println!("0300000001{:02X}", level % 256),
            Operation::Run { confined, budget, level } => {
                println!("0{}{budget:08X}{:02X}", 3 + *confined as u32, level % 256)
            }
        }
        match operation {
            Operation::Step(level) => machine.step(level % 256),
            Operation::Run { confined, budget, level } => machine.run(confined, budget, level % 256).stop,
            other => apply(&mut machine, &other).map_or(0, |answer| answer.code),
        };
    }
}
