//! The rule of `confined.c` again, from Rust: loaded, run confined, and what the board would print for the same frames.

#[repr(C)]
struct HobbitAnswer {
    steps: u32,
    stop: u32,
    code: u32,
}

#[link(name = "hobbit", kind = "static")]
unsafe extern "C" {
    fn hobbit_interface() -> u32;
    fn hobbit_start(registers: *mut u32, cache: *mut u32);
    fn hobbit_set(registers: *mut u32, place: u32, value: u32) -> u32;
    fn hobbit_run(
        memory: *mut u8,
        bytes: usize,
        registers: *mut u32,
        cache: *mut u32,
        confined: bool,
        budget: u32,
        level: u32,
    ) -> HobbitAnswer;
}

/// The interface that the declarations above follow, HOBBIT_INTERFACE of the header.
const INTERFACE: u32 = 2;

/// Places of Table 1-1.
const PC: u32 = 6;
const PSW: u32 = 7;
const SP: u32 = 9;
const STB: u32 = 10;

/// A machine and its memory. The calls have no precondition but the sizes, so these wrappers need no test.
struct Machine {
    memory: Vec<u8>,
    registers: [u32; 17],
    cache: [u32; 64],
}

impl Machine {
    fn new(bytes: usize) -> Machine {
        let mut m = Machine { memory: vec![0; bytes], registers: [0; 17], cache: [0; 64] };
        unsafe { hobbit_start(m.registers.as_mut_ptr(), m.cache.as_mut_ptr()) };
        m
    }

    fn set(&mut self, place: u32, value: u32) -> u32 {
        unsafe { hobbit_set(self.registers.as_mut_ptr(), place, value) }
    }

    fn run_confined(&mut self, budget: u32, level: u32) -> HobbitAnswer {
        unsafe {
            hobbit_run(
                self.memory.as_mut_ptr(),
                self.memory.len(),
                self.registers.as_mut_ptr(),
                self.cache.as_mut_ptr(),
                true,
                budget,
                level,
            )
        }
    }
}

fn main() {
    assert_eq!(unsafe { hobbit_interface() }, INTERFACE);
    let mut m = Machine::new(65536);
    // One nonpaged segment of sixteen pages at 0: valid, writable, for users.
    m.memory[0x8000..0x8004].copy_from_slice(&[0x00, 0x00, 0xF0, 0x0F]);
    // ADD 5, R0; ADD 5, R0; KCALL 4
    m.memory[0x1000..0x1006].copy_from_slice(&[0x50, 0xA0, 0x50, 0xA0, 0x00, 0x01]);
    for (place, value) in [(STB, 0x8000), (SP, 0x3000), (PC, 0x1000), (PSW, 0x10600)] {
        assert_eq!(m.set(place, value), 0);
    }
    let a = m.run_confined(10, 7);
    let (pc, psw) = (m.registers[PC as usize - 1], m.registers[PSW as usize - 1]);
    println!("83{:08X}{:02X}{:02X}{:08X}{:08X}", a.steps, a.stop, a.code, pc, psw);
}
