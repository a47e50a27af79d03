//! The board program of document 01: frames in, lines out, on 65,536 zero bytes. HOBBIT_DUMP=1 adds the machine after runs.
use crate::machine::{Answer, Machine, NAMES};
use std::io::{Read, Write};

const SIZE: usize = 65_536;

/// The bytes of a frame; nothing for a wrong digit, length or kind.
fn frame_of(line: &[u8]) -> Option<Vec<u8>> {
    if line.len() > 74 || !line.len().is_multiple_of(2) {
        return None;
    }
    let digit = |byte: u8| match byte {
        b'0'..=b'9' => Some(byte - b'0'),
        b'A'..=b'F' => Some(byte - b'A' + 10),
        _ => None,
    };
    let pairs = line.chunks(2).map(|pair| Some(digit(pair[0])? * 16 + digit(pair[1])?));
    let frame: Vec<u8> = pairs.collect::<Option<_>>()?;
    let long_enough = match frame.first()? {
        1 | 3 | 4 => frame.len() == 6,
        2 => frame.len() >= 6,
        _ => false,
    };
    long_enough.then_some(frame)
}

fn word(bytes: &[u8]) -> u32 {
    u32::from_be_bytes(bytes.try_into().unwrap())
}

fn dump(machine: &Machine, out: &mut impl Write) -> std::io::Result<()> {
    write!(out, "# R")?;
    for (name, value) in NAMES.iter().zip(machine.registers).take(13) {
        write!(out, " {name}={value:08X}")?;
    }
    let [trace, timer1, timer2, nmi] = [13, 14, 15, 16].map(|k| machine.registers[k]);
    write!(out, "\n# D trace={trace} timer1={timer1} timer2={timer2} nmi={nmi}\n# C")?;
    for word in machine.cache {
        write!(out, " {word:08X}")?;
    }
    // FNV-1a of 64 bits
    let hash = machine
        .memory
        .bytes
        .iter()
        .fold(0xCBF2_9CE4_8422_2325u64, |hash, byte| (hash ^ *byte as u64).wrapping_mul(0x100_0000_01B3));
    writeln!(out, "\n# M {hash:016X}")
}

/// What became of a line.
enum Outcome {
    Done,
    Refused(u32),
    Ran(Answer),
}

fn outcome(machine: &mut Machine, line: &[u8]) -> Outcome {
    let Some(frame) = frame_of(line) else {
        return Outcome::Refused(7);
    };
    match frame[0] {
        1 => match machine.set(frame[1] as u32, word(&frame[2..6])) {
            0 => Outcome::Done,
            refusal => Outcome::Refused(refusal),
        },
        2 => {
            let at = word(&frame[1..5]) as usize;
            let bytes = &frame[5..];
            if at + bytes.len() > SIZE {
                return Outcome::Refused(8);
            }
            machine.memory.bytes[at..at + bytes.len()].copy_from_slice(bytes);
            Outcome::Done
        }
        kind => Outcome::Ran(machine.run(kind == 4, word(&frame[1..5]), frame[5] as u32)),
    }
}

pub fn serve() -> std::io::Result<()> {
    let mut input = Vec::new();
    std::io::stdin().lock().read_to_end(&mut input)?;
    let dumps = std::env::var("HOBBIT_DUMP").is_ok_and(|value| value == "1");
    let mut out = std::io::BufWriter::new(std::io::stdout().lock());
    let mut machine = Machine::new(vec![0; SIZE]);
    let [mut runs, mut steps, mut refused] = [0u64; 3];
    // nothing after the last newline is no line
    for (k, line) in input.split_inclusive(|byte| *byte == b'\n').enumerate() {
        match outcome(&mut machine, line.strip_suffix(b"\n").unwrap_or(line)) {
            Outcome::Done => (),
            Outcome::Refused(refusal) => {
                refused += 1;
                writeln!(out, "82{refusal:02X}{:08X}", (k as u32).wrapping_add(1))?;
            }
            Outcome::Ran(run) => {
                runs += 1;
                steps += u64::from(run.steps);
                refused += u64::from(run.stop == 1);
                let (pc, psw) = (machine.registers[5], machine.registers[6]);
                writeln!(out, "83{:08X}{:02X}{:02X}{pc:08X}{psw:08X}", run.steps, run.stop, run.code)?;
                if dumps {
                    dump(&machine, &mut out)?;
                }
            }
        }
    }
    writeln!(out, "8F{:08X}{:08X}{:08X}", runs as u32, steps as u32, refused as u32)?;
    out.flush()
}
