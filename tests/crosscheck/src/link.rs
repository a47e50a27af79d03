//! The proved library by its C interface, include/hobbit.h. No call has a precondition but the sizes of the blocks.
use crate::guard::Guarded;
use crate::machine::Answer;

/// The interface that the calls below follow, HOBBIT_INTERFACE of the header.
pub const INTERFACE: u32 = 2;

/// The proved machine: its blocks and its memory.
pub struct Proved {
    pub registers: [u32; 17],
    pub cache: [u32; 64],
    pub bytes: Guarded,
}

#[cfg(linked)]
mod hobbit {
    #[repr(C)]
    pub struct HobbitAnswer {
        pub steps: u32,
        pub stop: u32,
        pub code: u32,
    }

    #[repr(C)]
    pub struct HobbitWord {
        pub refusal: u32,
        pub value: u32,
    }

    extern "C" {
        pub fn hobbit_interface() -> u32;
        pub fn hobbit_get(registers: *const u32, place: u32) -> HobbitWord;
        pub fn hobbit_store(memory: *mut u8, bytes: usize, address: u32, from: *const u8, count: usize) -> u32;
        pub fn hobbit_load(memory: *const u8, bytes: usize, address: u32, to: *mut u8, count: usize) -> u32;
        pub fn hobbit_decode(parcels: *const u16, count: usize, instruction: *mut u32) -> u32;
        pub fn hobbit_encode(instruction: *const u32, length: u32, parcels: *mut u16) -> u32;
        pub fn hobbit_start(registers: *mut u32, cache: *mut u32);
        pub fn hobbit_set(registers: *mut u32, place: u32, value: u32) -> u32;
        pub fn hobbit_step(memory: *mut u8, bytes: usize, registers: *mut u32, cache: *mut u32, level: u32) -> u32;
        pub fn hobbit_run(
            memory: *mut u8,
            bytes: usize,
            registers: *mut u32,
            cache: *mut u32,
            confined: bool,
            budget: u32,
            level: u32,
        ) -> HobbitAnswer;
    }
}

#[cfg(linked)]
impl Proved {
    pub const LINKED: bool = true;

    pub fn start(&mut self) {
        // the blocks have the sizes that the call asks for, here and below
        unsafe { hobbit::hobbit_start(self.registers.as_mut_ptr(), self.cache.as_mut_ptr()) }
    }

    pub fn set(&mut self, place: u32, value: u32) -> u32 {
        unsafe { hobbit::hobbit_set(self.registers.as_mut_ptr(), place, value) }
    }

    /// A register's word, or the refusal.
    pub fn get(&self, place: u32) -> Result<u32, u32> {
        let word = unsafe { hobbit::hobbit_get(self.registers.as_ptr(), place) };
        match word {
            hobbit::HobbitWord { refusal: 0, value } => Ok(value),
            hobbit::HobbitWord { refusal, value } => Err(refusal + value),
        }
    }

    pub fn store(&mut self, address: u32, from: &[u8]) -> u32 {
        let (memory, bytes) = (self.bytes.as_mut_ptr(), self.bytes.len());
        unsafe { hobbit::hobbit_store(memory, bytes, address, from.as_ptr(), from.len()) }
    }

    pub fn load(&self, address: u32, to: &mut [u8]) -> u32 {
        let (memory, bytes) = (self.bytes.as_ptr(), self.bytes.len());
        unsafe { hobbit::hobbit_load(memory, bytes, address, to.as_mut_ptr(), to.len()) }
    }

    pub fn step(&mut self, level: u32) -> u32 {
        let (memory, bytes) = (self.bytes.as_mut_ptr(), self.bytes.len());
        let (registers, cache) = (self.registers.as_mut_ptr(), self.cache.as_mut_ptr());
        unsafe { hobbit::hobbit_step(memory, bytes, registers, cache, level) }
    }

    pub fn run(&mut self, confined: bool, budget: u32, level: u32) -> Answer {
        let (memory, bytes) = (self.bytes.as_mut_ptr(), self.bytes.len());
        let (registers, cache) = (self.registers.as_mut_ptr(), self.cache.as_mut_ptr());
        let answer = unsafe { hobbit::hobbit_run(memory, bytes, registers, cache, confined, budget, level) };
        Answer { steps: answer.steps, stop: answer.stop, code: answer.code }
    }
}

#[cfg(linked)]
pub fn interface() -> u32 {
    unsafe { hobbit::hobbit_interface() }
}

#[cfg(linked)]
pub fn decode(parcels: &[u16], instruction: &mut [u32; 8]) -> u32 {
    unsafe { hobbit::hobbit_decode(parcels.as_ptr(), parcels.len(), instruction.as_mut_ptr()) }
}

#[cfg(linked)]
pub fn encode(instruction: &[u32; 8], length: u32, parcels: &mut [u16; 6]) -> u32 {
    unsafe { hobbit::hobbit_encode(instruction.as_ptr(), length, parcels.as_mut_ptr()) }
}

// built without the library: main refuses to compare
#[cfg(not(linked))]
pub fn interface() -> u32 {
    unreachable!()
}

#[cfg(not(linked))]
pub fn decode(_: &[u16], _: &mut [u32; 8]) -> u32 {
    unreachable!()
}

#[cfg(not(linked))]
pub fn encode(_: &[u32; 8], _: u32, _: &mut [u16; 6]) -> u32 {
    unreachable!()
}

#[cfg(not(linked))]
impl Proved {
    pub const LINKED: bool = false;

    pub fn start(&mut self) {}

    pub fn set(&mut self, _: u32, _: u32) -> u32 {
        unreachable!()
    }

    pub fn get(&self, _: u32) -> Result<u32, u32> {
        unreachable!()
    }

    pub fn store(&mut self, _: u32, _: &[u8]) -> u32 {
        unreachable!()
    }

    pub fn load(&self, _: u32, _: &mut [u8]) -> u32 {
        unreachable!()
    }

    pub fn step(&mut self, _: u32) -> u32 {
        unreachable!()
    }

    pub fn run(&mut self, _: bool, _: u32, _: u32) -> Answer {
        unreachable!()
    }
}
