//! What the interpreter met, counted: rows of the encodings lists, modes, events, refusals.
use super::decode::row_name;

pub const ROWS: usize = 192;

pub struct Tally {
    pub steps: u64,
    pub rows: [u64; ROWS],
    pub prefixed: u64,
    /// operands by general mode, source and destination; mode 7 under a prefix apart
    pub modes: [[u64; 16]; 2],
    pub registers: [u64; 2],
    /// event sequences taken, by the code that a confined run would give
    pub taken: [u64; 0x22],
    pub resets: u64,
    /// confined stops by code
    pub stops: [u64; 0x22],
    pub refusals: [u64; 10],
    /// steps that began at user level
    pub user: u64,
    pub walks: u64,
    /// page entries in which a recording bit changed
    pub recorded: u64,
    /// data accesses to the cache, and those renumbered by byte order
    pub hits: u64,
    pub renumbered: u64,
    /// quad-words moved, and moves and store checks that faulted
    pub flushed: u64,
    pub filled: u64,
    pub flush_faults: u64,
    pub fill_faults: u64,
    pub check_faults: u64,
}

impl Default for Tally {
    fn default() -> Tally {
        Tally {
            steps: 0,
            rows: [0; ROWS],
            prefixed: 0,
            modes: [[0; 16]; 2],
            registers: [0; 2],
            taken: [0; 0x22],
            resets: 0,
            stops: [0; 0x22],
            refusals: [0; 10],
            user: 0,
            walks: 0,
            recorded: 0,
            hits: 0,
            renumbered: 0,
            flushed: 0,
            filled: 0,
            flush_faults: 0,
            fill_faults: 0,
            check_faults: 0,
        }
    }
}

pub fn event_name(code: usize) -> String {
    let exceptions = [
        "zero divide",
        "trace",
        "illegal instruction",
        "alignment fault",
        "privilege violation",
        "unimplemented register",
        "fetch fault",
        "read fault",
        "write fault",
        "bus fault",
        "table walk fault",
    ];
    match code {
        0x1..=0xB => exceptions[code - 1].into(),
        0x10..=0x16 => format!("interrupt {}", code - 0x10),
        0x17 | 0x18 => format!("Timer{}", code - 0x16),
        0x20 => "KCALL".into(),
        _ => "unimplemented".into(),
    }
}

impl Tally {
    pub fn print(&self) {
        println!("steps {}, attempts at user level {}", self.steps, self.user);
        println!("walks {}, page entries changed {}", self.walks, self.recorded);
        println!("stack cache hits {}, little-endian bytes and half-words {}", self.hits, self.renumbered);
        println!("quad-words flushed {}, filled {}", self.flushed, self.filled);
        let faults = [self.flush_faults, self.fill_faults, self.check_faults];
        println!("faults of flushes {}, fills {}, store checks {}", faults[0], faults[1], faults[2]);
        println!("refusals by number:");
        for (number, count) in self.refusals.iter().enumerate().filter(|x| *x.1 > 0) {
            println!("  {number}: {count}");
        }
        println!("event sequences and confined stops by code:");
        for code in 0..0x22 {
            let (taken, stops) = (self.taken[code], self.stops[code]);
            if taken + stops > 0 {
                println!("  {code:02X} {}: {taken}, {stops}", event_name(code));
            }
        }
        println!("  resets: {}", self.resets);
        println!("operands by mode, source and destination:");
        for mode in 0..16 {
            println!("  {mode:X}: {}, {}", self.modes[0][mode], self.modes[1][mode]);
        }
        println!("  registers: {}, {}", self.registers[0], self.registers[1]);
        println!("instructions by row ({} after a prefix):", self.prefixed);
        for row in 0..ROWS {
            if let Some(name) = row_name(row) {
                println!("  {name}: {}", self.rows[row]);
            }
        }
    }

    /// Rows of the encodings lists that no step met.
    pub fn missed(&self) -> Vec<String> {
        (0..ROWS).filter(|row| self.rows[*row] == 0).filter_map(row_name).collect()
    }
}
