//! The lent memory and the translation of chapter 2.
use super::{Machine, Stop, PSW, PSW_USER, PSW_VIRTUAL, STB};

/// Bytes of memory, with the old values of those that the step changed.
pub struct Memory {
    pub bytes: Vec<u8>,
    changed: Vec<(usize, u8)>,
}

impl Memory {
    pub fn new(bytes: Vec<u8>) -> Memory {
        Memory { bytes, changed: Vec::new() }
    }

    pub fn begin(&mut self) {
        self.changed.clear();
    }

    pub fn undo(&mut self) {
        while let Some((at, old)) = self.changed.pop() {
            self.bytes[at] = old;
        }
    }

    /// A number of some bytes, most significant first; nothing past the end.
    fn number(&self, at: u32, width: u32) -> Option<u32> {
        let at = at as usize;
        let bytes = self.bytes.get(at..at + width as usize)?;
        Some(bytes.iter().fold(0, |sum, byte| sum << 8 | *byte as u32))
    }

    fn store(&mut self, at: u32, width: u32, value: u32) -> Option<()> {
        let at = at as usize;
        let end = at + width as usize;
        if end > self.bytes.len() {
            return None;
        }
        for place in at..end {
            self.changed.push((place, self.bytes[place]));
            self.bytes[place] = (value >> (8 * (end - 1 - place))) as u8;
        }
        Some(())
    }
}

#[derive(Clone, Copy, PartialEq, Eq)]
pub enum Kind {
    Fetch,
    Read,
    Write,
}

// Table 1-26
pub const ALIGNMENT_FAULT: u32 = 0x4;
pub const READ_FAULT: u32 = 0x8;
pub const WRITE_FAULT: u32 = 0x9;
const FETCH_FAULT: u32 = 0x7;
const BUS_FAULT: u32 = 0xA;
const WALK_FAULT: u32 = 0xB;

/// How addresses are taken: from which segment table, at which level, translated or not.
#[derive(Clone, Copy)]
pub struct Regime {
    pub table: u32,
    pub user: bool,
    pub translated: bool,
}

/// A physical address, and the place of the page entry that gave it.
struct Found {
    physical: u32,
    page_entry: Option<u32>,
}

impl Regime {
    pub fn of(registers: &[u32; 17]) -> Regime {
        Regime {
            table: registers[STB],
            user: registers[PSW] >> PSW_USER & 1 == 1,
            translated: registers[PSW] >> PSW_VIRTUAL & 1 == 1,
        }
    }
}

impl Machine {
    pub fn regime(&self) -> Regime {
        Regime::of(&self.registers)
    }

    pub fn kernel_regime(&self) -> Regime {
        Regime { user: false, ..self.regime() }
    }

    fn walk(&self, regime: Regime, kind: Kind, address: u32) -> Result<Found, u32> {
        if !regime.translated {
            return Ok(Found { physical: address, page_entry: None });
        }
        let fault = match kind {
            Kind::Fetch => FETCH_FAULT,
            Kind::Read => READ_FAULT,
            Kind::Write => WRITE_FAULT,
        };
        let allowed = |entry: u32| {
            let user = entry >> 2 & 1 == 1;
            let writable = entry >> 1 & 1 == 1;
            (user || !regime.user) && (writable || kind != Kind::Write)
        };
        let segment_place = regime.table & 0xFFFF_F000 | address >> 22 << 2;
        let segment = self.memory.number(segment_place, 4).ok_or(WALK_FAULT)?;
        if segment & 1 == 0 {
            return Err(fault);
        }
        let page = address >> 12 & 0x3FF;
        if segment >> 3 & 1 == 1 {
            let bound = segment >> 12 & 0x3FF;
            if page > bound || !allowed(segment) {
                return Err(fault);
            }
            let physical = segment & 0xFFC0_0000 | address & 0x003F_FFFF;
            return Ok(Found { physical, page_entry: None });
        }
        let page_place = segment & 0xFFFF_F000 | page << 2;
        let entry = self.memory.number(page_place, 4).ok_or(WALK_FAULT)?;
        if entry & 1 == 0 || !allowed(entry) {
            return Err(fault);
        }
        let physical = entry & 0xFFFF_F000 | address & 0xFFF;
        Ok(Found { physical, page_entry: Some(page_place) })
    }

    /// A walk without a fault records in the page entry alone, and only if a bit changes.
    fn translate(&mut self, regime: Regime, kind: Kind, address: u32) -> Result<u32, u32> {
        let found = self.walk(regime, kind, address)?;
        if regime.translated {
            self.tally.walks += 1;
        }
        if let Some(place) = found.page_entry {
            let low = self.memory.number(place + 3, 1).unwrap();
            let marks = if kind == Kind::Write { 0x18 } else { 0x08 };
            if low | marks != low {
                self.memory.store(place + 3, 1, low | marks);
                self.tally.recorded += 1;
            }
        }
        Ok(found.physical)
    }

    /// A read or a fetch of aligned bytes, or the exception.
    pub fn load(&mut self, regime: Regime, kind: Kind, width: u32, address: u32) -> Result<u32, u32> {
        if !address.is_multiple_of(width) {
            return Err(ALIGNMENT_FAULT);
        }
        let physical = self.translate(regime, kind, address)?;
        self.memory.number(physical, width).ok_or(BUS_FAULT)
    }

    pub fn store(&mut self, regime: Regime, width: u32, address: u32, value: u32) -> Result<(), u32> {
        if !address.is_multiple_of(width) {
            return Err(ALIGNMENT_FAULT);
        }
        let physical = self.translate(regime, Kind::Write, address)?;
        self.memory.store(physical, width, value).ok_or(BUS_FAULT)
    }

    /// The store checks of ENTER, CATCH and CRET: nothing is recorded, and a bad address is a read fault.
    pub fn check_store(&mut self, regime: Regime, address: u32) -> Result<(), Stop> {
        let walked = self.walk(regime, Kind::Write, address);
        self.tally.check_faults += walked.is_err() as u64;
        match walked {
            Ok(_) => Ok(()),
            Err(WRITE_FAULT) => Err(self.data_fault(READ_FAULT, address)),
            Err(other) => Err(Stop::Exception(other)),
        }
    }

    /// Where an address leads a read, for the generator of programs; nothing is recorded.
    pub fn physical(&self, regime: Regime, address: u32) -> Option<usize> {
        let found = self.walk(regime, Kind::Read, address).ok()?;
        let at = found.physical as usize;
        (at < self.memory.bytes.len()).then_some(at)
    }
}
