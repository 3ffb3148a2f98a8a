//! Random levels and accesses.

use crate::maker::{Chip, Maker};
use second::rng::Rng;

/// How lively one stretch of a run is; chances in percent for each event.
pub struct Phase {
    /// Most cycles from one event to the next.
    pub gap: u32,
    pub access: u32,
    pub clock: u32,
    pub gate: u32,
    pub control: u32,
    pub reset: u32,
    pub focus: Focus,
}

/// Which registers of the 6846 are accessed most.
#[derive(Clone, Copy, PartialEq, Eq)]
pub enum Focus {
    All,
    Port,
    Timer,
}

impl Phase {
    pub fn random(rng: &mut Rng) -> Phase {
        Phase {
            gap: rng.pick(&[1, 1, 2, 3, 3, 8, 25]),
            access: rng.pick(&[10, 25, 40, 60, 90]),
            clock: rng.pick(&[10, 50, 50, 90]),
            gate: rng.pick(&[1, 5, 10, 25]),
            control: rng.pick(&[5, 25, 50]),
            reset: rng.pick(&[0, 0, 0, 1, 2]),
            focus: rng.pick(&[Focus::All, Focus::Port, Focus::Timer]),
        }
    }
}

const CTG: u32 = 1 << 10;
const CTC: u32 = 1 << 11;
const RESET_6846: u32 = 1 << 12;
const RESET_6840: u32 = 1 << 6;
const GATES_6840: u32 = 0b11_1000;

/// Small latches make time-outs; large ones are rare.
fn byte_of_latch(rng: &mut Rng) -> u32 {
    match rng.below(20) {
        0..=11 => rng.below(5),
        12..=17 => rng.below(13),
        18 => rng.below(60),
        _ => rng.below(256),
    }
}

fn high_of_latch(rng: &mut Rng) -> u32 {
    match rng.below(20) {
        0..=13 => 0,
        14..=18 => rng.below(4),
        _ => rng.below(256),
    }
}

/// Bits 1 to 7 of a control register: every mode alike, the clock mostly internal.
fn control_bits(rng: &mut Rng, internal: u32, bit_2: u32) -> u32 {
    rng.bit(internal, 1) | rng.bit(bit_2, 2) | rng.below(8) << 3 | rng.bit(60, 6) | rng.bit(75, 7)
}

/// The old value with one or two of its bits 1 to 7 turned.
fn nudged(rng: &mut Rng, old: u32) -> u32 {
    let first = 1 << rng.between(1, 7);
    let second = if rng.chance(30) {
        1 << rng.between(1, 7)
    } else {
        0
    };
    old ^ (first | second)
}

impl Maker {
    /// An address that reaches the I/O register: the free lines are random.
    fn io_address(&mut self, register: u32) -> u32 {
        let mut address = register | self.rng.below(16) << 7;
        let a6 = if self.options.a6 == 2 {
            self.rng.below(2)
        } else {
            self.options.a6
        };
        address |= a6 << 6;
        if self.options.extra != 0 {
            address |= 1 << self.options.extra;
        }
        address
    }

    pub fn write_6846(&mut self, register: u32, data: u32) -> u32 {
        if register == 5 {
            self.tcr = data;
        }
        1 | self.options.io << 2 | self.io_address(register) << 4 | data << 16
    }

    pub fn read_6846(&mut self, register: u32) -> u32 {
        3 | self.options.io << 2 | self.io_address(register) << 4
    }

    pub fn write_6840(&mut self, register: u32, data: u32) -> u32 {
        match register {
            0 if self.cr2 & 1 == 1 => self.cr1 = data,
            1 => self.cr2 = data,
            _ => {}
        }
        1 | register << 2 | data << 16
    }

    pub fn read_6840(&self, register: u32) -> u32 {
        3 | register << 2
    }

    /// A timer control value: internal reset is rare, and left soon.
    fn new_tcr(&mut self) -> u32 {
        let held = self.tcr & 1 == 1;
        let bits = if self.rng.chance(35) {
            let tcr = self.tcr & !1;
            nudged(&mut self.rng, tcr)
        } else {
            control_bits(&mut self.rng, 75, 25)
        };
        bits | self.rng.bit(if held { 10 } else { 8 }, 0)
    }

    fn new_pcr(&mut self) -> u32 {
        let rng = &mut self.rng;
        rng.below(4) | rng.bit(60, 2) | rng.below(8) << 3 | rng.bit(30, 6) | rng.bit(8, 7)
    }

    /// One random 6846 access.
    pub fn access_6846(&mut self, focus: Focus) -> u32 {
        let choice = match focus {
            Focus::Port if self.rng.chance(80) => self.rng.pick(&[0, 0, 33, 33, 43, 50, 59, 82]),
            Focus::Timer if self.rng.chance(80) => self.rng.pick(&[0, 16, 26, 63, 63, 72, 75]),
            _ => self.rng.below(100),
        };
        match choice {
            0..=15 => {
                let register = self.rng.pick(&[0, 4]);
                self.read_6846(register)
            }
            16..=25 => self.read_6846(6),
            26..=32 => self.read_6846(7),
            33..=42 => self.read_6846(3),
            43..=49 => {
                let data = self.rng.below(256);
                self.write_6846(3, data)
            }
            50..=58 => {
                let data = self.new_pcr();
                self.write_6846(1, data)
            }
            59..=62 => {
                let data = self.rng.below(256);
                self.write_6846(2, data)
            }
            63..=71 => {
                let data = self.new_tcr();
                self.write_6846(5, data)
            }
            72..=74 => {
                let data = high_of_latch(&mut self.rng);
                self.write_6846(6, data)
            }
            75..=81 => {
                let data = byte_of_latch(&mut self.rng);
                self.write_6846(7, data)
            }
            82..=87 => {
                let register = self.rng.pick(&[1, 2, 5]);
                self.read_6846(register)
            }
            88..=93 => 3 | self.options.rom << 2 | self.rng.below(2048) << 4,
            94 => 1 | self.options.rom << 2 | self.rng.below(2048) << 4 | self.rng.below(256) << 16,
            95 => {
                let register = self.rng.pick(&[0, 4]);
                let data = self.rng.below(256);
                self.write_6846(register, data)
            }
            _ => self.missed_6846(),
        }
    }

    /// An access with one select line wrong; it may still reach the other part or, by an option, the same.
    fn missed_6846(&mut self) -> u32 {
        let register = self.rng.below(8);
        let good = if self.rng.chance(50) {
            self.read_6846(register)
        } else {
            1 | self.options.io << 2 | self.io_address(register) << 4 | self.rng.below(256) << 16
        };
        good ^ 1 << self.rng.between(2, 14)
    }

    /// One random 6840 access.
    pub fn access_6840(&mut self) -> u32 {
        match self.rng.below(100) {
            0..=17 => self.read_6840(1),
            18..=31 => {
                let register = self.rng.pick(&[2, 4, 6]);
                self.read_6840(register)
            }
            32..=42 => {
                let register = self.rng.pick(&[3, 5, 7]);
                self.read_6840(register)
            }
            43..=44 => self.read_6840(0),
            45..=60 => {
                let data = self.new_cr1_or_cr3();
                self.write_6840(0, data)
            }
            61..=72 => {
                let data = self.new_cr2();
                self.write_6840(1, data)
            }
            73..=82 => {
                let data = high_of_latch(&mut self.rng);
                let register = self.rng.pick(&[2, 4, 6]);
                self.write_6840(register, data)
            }
            _ => {
                let data = byte_of_latch(&mut self.rng);
                let register = self.rng.pick(&[3, 5, 7]);
                self.write_6840(register, data)
            }
        }
    }

    /// What CR20 makes of register 0: CR1 with its internal reset, or CR3 with its divider.
    fn new_cr1_or_cr3(&mut self) -> u32 {
        if self.cr2 & 1 == 0 {
            return self.new_control(3) | self.rng.bit(30, 0);
        }
        let held = self.cr1 & 1 == 1;
        let bits = if self.rng.chance(30) {
            let cr1 = self.cr1 & !1;
            nudged(&mut self.rng, cr1)
        } else {
            self.new_control(1)
        };
        bits | self.rng.bit(if held { 8 } else { 10 }, 0)
    }

    fn new_cr2(&mut self) -> u32 {
        if self.rng.chance(35) {
            let cr2 = self.cr2;
            return nudged(&mut self.rng, cr2) ^ self.rng.bit(50, 0);
        }
        self.new_control(2) | self.rng.bit(50, 0)
    }

    /// A wired timer mostly counts its pin; CTO would be lost on it else.
    fn new_control(&mut self, timer: u32) -> u32 {
        let internal = if self.options.wire == timer { 25 } else { 70 };
        control_bits(&mut self.rng, internal, 35)
    }

    /// Turns some of the 6846's lines.
    pub fn wiggle_6846(&mut self, phase: &Phase) {
        let rng = &mut self.rng;
        let mut levels = self.levels_6846;
        if rng.chance(30) {
            levels = levels & !0xff | rng.below(256);
        }
        levels ^= rng.bit(phase.control, 8) | rng.bit(phase.control, 9);
        if rng.chance(phase.clock) {
            levels ^= CTC;
        }
        levels = gate(rng, levels, CTG, phase.gate);
        levels = reset(rng, levels, RESET_6846, phase.reset);
        if levels & RESET_6846 == 0 {
            self.tcr = 1;
        }
        self.levels_6846 = levels;
    }

    /// Turns some of the 6840's lines; a wired input's bit is turned too, and ignored.
    pub fn wiggle_6840(&mut self, phase: &Phase) {
        let rng = &mut self.rng;
        let mut levels = self.levels_6840;
        for timer in 0..3 {
            if rng.chance(phase.clock) {
                levels ^= 1 << timer;
            }
            levels = gate(rng, levels, 8 << timer, phase.gate);
        }
        levels = reset(rng, levels, RESET_6840, phase.reset);
        if levels & RESET_6840 == 0 {
            self.cr1 = 1;
            self.cr2 = 0;
        }
        self.levels_6840 = levels;
    }

    /// Programs the 6846: latch, port, and control last or first.
    pub fn set_up_6846(&mut self) {
        let gap = self.rng.pick(&[1, 1, 1, 2]);
        if self.rng.chance(85) {
            self.levels_6846 &= !CTG;
        }
        if self.rng.chance(60) {
            let data = high_of_latch(&mut self.rng);
            let access = self.write_6846(6, data);
            self.after(Chip::C6846, gap, access);
        }
        let data = byte_of_latch(&mut self.rng);
        let access = self.write_6846(7, data);
        self.after(Chip::C6846, gap, access);
        if self.rng.chance(70) {
            let data = self.new_pcr() & 0x7f;
            let access = self.write_6846(1, data);
            self.after(Chip::C6846, gap, access);
            for register in [2, 3] {
                let data = self.rng.below(256);
                let access = self.write_6846(register, data);
                self.after(Chip::C6846, gap, access);
            }
        }
        let data = self.new_tcr() & !1;
        let access = self.write_6846(5, data);
        self.after(Chip::C6846, gap, access);
    }

    /// Programs the 6840: latches, CR3, CR2, then CR1, which releases all three.
    pub fn set_up_6840(&mut self) {
        let gap = self.rng.pick(&[1, 1, 1, 2]);
        for timer in 0..3 {
            if self.rng.chance(85) {
                self.levels_6840 &= !(8 << timer);
            }
            if self.rng.chance(60) {
                let data = high_of_latch(&mut self.rng);
                let access = self.write_6840(2, data);
                self.after(Chip::C6840, gap, access);
            }
            let data = byte_of_latch(&mut self.rng);
            let access = self.write_6840(3 + 2 * timer, data);
            self.after(Chip::C6840, gap, access);
        }
        let cr3 = self.new_control(3) | self.rng.bit(30, 0);
        let cr2 = self.new_control(2) | 1;
        let cr1 = self.new_control(1);
        for (register, data) in [(1, cr2 & !1), (0, cr3), (1, cr2), (0, cr1)] {
            let access = self.write_6840(register, data);
            self.after(Chip::C6840, gap, access);
        }
    }

    /// Queues events of one chip over the next `length` cycles or so.
    pub fn traffic(&mut self, chip: Chip, phase: &Phase, length: u32) {
        let mut at = 0;
        while at < length {
            let gap = self.rng.between(1, phase.gap);
            at += gap;
            self.random_event(chip, phase, gap);
        }
    }

    /// Status, then the register that clears an armed flag, then mostly the LSB buffer; a gap may let a flag in.
    fn clearing_sequence(&mut self, chip: Chip) {
        let accesses = match chip {
            Chip::C6846 => {
                let clearing = self.rng.pick(&[3, 6, 6]);
                let status = self.rng.pick(&[0, 4]);
                [
                    self.read_6846(status),
                    self.read_6846(clearing),
                    self.read_6846(7),
                ]
            }
            Chip::C6840 => {
                let timer = self.rng.pick(&[2, 4, 6]);
                let low = self.rng.pick(&[3, 5, 7]);
                [
                    self.read_6840(1),
                    self.read_6840(timer),
                    self.read_6840(low),
                ]
            }
        };
        let count = if self.rng.chance(70) { 3 } else { 2 };
        for access in &accesses[..count] {
            let gap = self.rng.pick(&[1, 1, 1, 2, 4]);
            self.after(chip, gap, *access);
        }
    }

    /// A PDR access, and CP2 made an output in the very next cycle.
    fn pulse_sequence(&mut self) {
        let data = self.rng.below(256);
        let access = if self.rng.chance(50) {
            self.read_6846(3)
        } else {
            self.write_6846(3, data)
        };
        self.after(Chip::C6846, 1, access);
        let pcr = self.rng.below(8) | self.rng.pick(&[0x20, 0x28, 0x28]);
        let access = self.write_6846(1, pcr);
        self.after(Chip::C6846, 1, access);
    }

    /// Internal reset for a few cycles, all other control bits kept; gates may move meanwhile.
    fn hold_and_release(&mut self, chip: Chip) {
        let gap = self.rng.between(1, 4);
        let gates = self.rng.chance(50);
        match chip {
            Chip::C6846 => {
                let tcr = self.tcr;
                let access = self.write_6846(5, tcr | 1);
                self.after(chip, 1, access);
                if gates {
                    self.levels_6846 |= CTG;
                    self.after(chip, 1, 0);
                    self.levels_6846 &= !CTG;
                    self.after(chip, 1, 0);
                }
                let access = self.write_6846(5, tcr & !1);
                self.after(chip, gap, access);
            }
            Chip::C6840 => {
                let (cr1, cr2) = (self.cr1, self.cr2);
                let access = self.write_6840(1, cr2 | 1);
                self.after(chip, 1, access);
                let access = self.write_6840(0, cr1 | 1);
                self.after(chip, 1, access);
                if gates {
                    self.levels_6840 |= GATES_6840;
                    self.after(chip, 1, 0);
                    self.levels_6840 &= !GATES_6840;
                    self.after(chip, 1, 0);
                }
                let access = self.write_6840(0, cr1 & !1);
                self.after(chip, gap, access);
            }
        }
    }

    /// Cascaded: bit 7 turned between time-outs, with nothing else changed.
    fn cascade(&mut self) {
        let latch = self.rng.below(4);
        let base = 0x22 | self.rng.bit(50, 6);
        for (register, data) in [(6, 0), (7, latch), (5, base | 0x80)] {
            let access = self.write_6846(register, data);
            self.after(Chip::C6846, 1, access);
        }
        for data in [base, base | 0x80] {
            let gap = self.rng.between(1, 2 * latch + 3);
            let access = self.write_6846(5, data);
            self.after(Chip::C6846, gap, access);
        }
    }

    /// A single shot or continuous timer whose bit 2 or LSB latch is changed in mid-count.
    fn sudden_change(&mut self) {
        let timer = self.rng.between(1, 3);
        // Started in 000 or 001, where W initialises; then perhaps 010 or 011, where it does not.
        let start = 0x82 | self.rng.bit(60, 5) | self.rng.bit(70, 2) | self.rng.bit(50, 6);
        let (register, start) = if timer == 2 {
            (1, start | (self.cr2 & 1))
        } else {
            (0, start)
        };
        if timer != 2 {
            let cr2 = (self.cr2 & !1) | (timer == 1) as u32;
            let access = self.write_6840(1, cr2);
            self.after(Chip::C6840, 1, access);
        }
        let high = if start & 4 != 0 { self.rng.below(3) } else { 0 };
        let low = self.rng.below(5);
        let control = start | self.rng.bit(60, 4);
        for (register, data) in [
            (register, start),
            (2, high),
            (1 + 2 * timer, low),
            (register, control),
        ] {
            let access = self.write_6840(register, data);
            self.after(Chip::C6840, 1, access);
        }
        let (register, data) = if self.rng.chance(50) {
            (register, control ^ 4)
        } else {
            (
                1 + 2 * timer,
                if low == 0 { self.rng.between(1, 3) } else { 0 },
            )
        };
        let access = self.write_6840(register, data);
        let gap = self.rng.between(1, 6);
        self.after(Chip::C6840, gap, access);
    }

    fn random_event(&mut self, chip: Chip, phase: &Phase, gap: u32) {
        let access = self.rng.chance(phase.access);
        if access && self.rng.chance(15) {
            match (chip, self.rng.below(100)) {
                (_, 0..=19) => self.hold_and_release(chip),
                (Chip::C6846, 20..=34) => self.pulse_sequence(),
                (Chip::C6846, 35..=49) => self.cascade(),
                (Chip::C6840, 20..=49) => self.sudden_change(),
                _ => self.clearing_sequence(chip),
            }
            return;
        }
        match chip {
            Chip::C6846 => {
                let was_reset = self.levels_6846 & RESET_6846 == 0;
                self.wiggle_6846(phase);
                let access = if access {
                    self.access_6846(phase.focus)
                } else {
                    0
                };
                self.after(chip, gap, access);
                if was_reset && self.levels_6846 & RESET_6846 != 0 && self.rng.chance(80) {
                    self.set_up_6846();
                }
            }
            Chip::C6840 => {
                let was_reset = self.levels_6840 & RESET_6840 == 0;
                self.wiggle_6840(phase);
                let access = if access { self.access_6840() } else { 0 };
                self.after(chip, gap, access);
                if was_reset && self.levels_6840 & RESET_6840 != 0 && self.rng.chance(80) {
                    self.set_up_6840();
                }
            }
        }
    }
}

/// Gates stand low more than high, so that counters count.
fn gate(rng: &mut Rng, levels: u32, bit: u32, percent: u32) -> u32 {
    let percent = if levels & bit == 0 {
        percent
    } else {
        percent * 3
    };
    if rng.chance(percent) {
        levels ^ bit
    } else {
        levels
    }
}

/// RESET goes low for a short time.
fn reset(rng: &mut Rng, levels: u32, bit: u32, percent: u32) -> u32 {
    let percent = if levels & bit == 0 { 65 } else { percent };
    if rng.chance(percent) {
        levels ^ bit
    } else {
        levels
    }
}
