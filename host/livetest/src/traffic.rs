//! Random events that a chip goes through: lively lines, accesses that mostly reach a register.

use second::rng::Rng;
use vindoshaka::{level, Options};

/// Start options, all legal.
pub fn options(rng: &mut Rng) -> Options {
    let rom_code = rng.below(4);
    Options {
        rom_code,
        io_code: (rom_code + rng.between(1, 3)) % 4,
        a6: rng.below(3),
        extra: rng.pick(&[0, 0, 7, 8, 9, 10]),
        wire: rng.below(4),
    }
}

pub fn rom(rng: &mut Rng) -> Vec<u8> {
    (0..2048).map(|_| rng.word() as u8).collect()
}

/// One chip's list as it grows, with the line levels of its last event.
pub struct Feed {
    pub words: Vec<u32>,
    pub answers: Vec<u16>,
    pub levels: u32,
    last: u32,
    gap: u32,
}

impl Feed {
    pub fn new(levels: u32, stamp: u32) -> Feed {
        Feed {
            words: Vec::new(),
            answers: Vec::new(),
            levels,
            last: stamp,
            gap: 3,
        }
    }

    /// How many cycles lie between events from here on, at most.
    pub fn pace(&mut self, gap: u32) {
        self.gap = gap;
    }

    /// Adds an event some cycles after the last one, but after the chip's own stamp.
    pub fn push(&mut self, rng: &mut Rng, stamp: u32, levels: u32, access: u32) {
        let behind = self.last.wrapping_sub(stamp) as i32;
        let from = if behind < 0 { stamp } else { self.last };
        self.last = from.wrapping_add(rng.between(1, self.gap));
        self.levels = levels;
        self.words.extend([self.last, levels, access]);
        self.answers.push(rng.word() as u16);
    }

    pub fn events(&self) -> usize {
        self.answers.len()
    }
}

/// A latch byte: mostly small, so that time-outs come.
fn small_byte(rng: &mut Rng) -> u32 {
    match rng.below(10) {
        0..=6 => rng.below(5),
        7..=8 => rng.below(40),
        _ => rng.below(256),
    }
}

/// Control bits 1 to 7; internal reset, CR20 or CR30 by chance.
fn control(rng: &mut Rng, bit_0: u32) -> u32 {
    rng.bit(bit_0, 0)
        | rng.bit(70, 1)
        | rng.bit(30, 2)
        | rng.below(8) << 3
        | rng.bit(50, 6)
        | rng.bit(75, 7)
}

pub fn access_6846(rng: &mut Rng, options: &Options) -> u32 {
    let register = rng.below(8);
    let a6 = match options.a6 {
        2 => rng.below(2),
        a6 => a6,
    };
    let mut address = register | a6 << 6 | rng.below(16) << 7;
    if options.extra != 0 {
        address |= 1 << options.extra;
    }
    let byte = match register {
        1 => rng.below(128) | rng.bit(8, 7),
        5 => control(rng, 8),
        6 => rng.pick(&[0, 0, 0, 1, 3]),
        7 => small_byte(rng),
        _ => rng.below(256),
    };
    let write = 1 | options.io_code << 2 | address << 4 | byte << 16;
    match rng.below(20) {
        0..=8 => write,
        9..=16 => write & 0xffff | 2,
        17..=18 => 3 | options.rom_code << 2 | rng.below(2048) << 4,
        // one line wrong
        _ => write ^ 1 << rng.between(2, 14),
    }
}

pub fn access_6840(rng: &mut Rng) -> u32 {
    let register = rng.below(8);
    let byte = match register {
        0 => control(rng, 12),
        1 => control(rng, 50),
        2 | 4 | 6 => rng.pick(&[0, 0, 0, 1, 3]),
        _ => small_byte(rng),
    };
    match rng.below(2) {
        0 => 1 | register << 2 | byte << 16,
        _ => 3 | register << 2,
    }
}

/// Levels with some lines turned; RESET is low rarely and not for long, a gate mostly low.
pub fn turned(rng: &mut Rng, levels: u32, clocks: u32, gates: u32, reset: u32) -> u32 {
    let lively = levels ^ (rng.word() & rng.word() & !(gates | reset));
    let mut levels = lively ^ if rng.chance(50) { clocks } else { 0 };
    if rng.chance(15) {
        levels ^= gates & rng.word();
    }
    if levels & reset == 0 || rng.chance(1) {
        levels ^= reset;
    }
    levels
}

pub fn push_6846(rng: &mut Rng, feed: &mut Feed, options: &Options, stamp: u32) {
    let levels =
        turned(rng, feed.levels, level::CTC, level::CTG, level::RESET_6846) & level::ALL_6846;
    let access = if rng.chance(60) {
        access_6846(rng, options)
    } else {
        0
    };
    feed.push(rng, stamp, levels, access);
}

pub fn push_6840(rng: &mut Rng, feed: &mut Feed, stamp: u32) {
    let gates = level::G1 | level::G2 | level::G3;
    let levels = turned(rng, feed.levels, level::C1, gates, level::RESET_6840) & level::ALL_6840;
    let access = if rng.chance(60) { access_6840(rng) } else { 0 };
    feed.push(rng, stamp, levels, access);
}

/// A word or two of an event turned so that number 5 may come.
pub fn spoiled(rng: &mut Rng, event: [u32; 3]) -> [u32; 3] {
    let [stamp, levels, access] = event;
    match rng.below(6) {
        0 => [stamp.wrapping_sub(rng.between(1, 40)), levels, access],
        1 => [stamp.wrapping_add(0x8000_0000), levels, access],
        2 => [stamp, levels | 1 << rng.between(7, 31), access],
        3 => [stamp, levels, access ^ 1 << rng.below(32)],
        4 => [stamp, levels, access & !1 | 1 << 16],
        _ => [stamp, levels, access | 3 | 1 << 20],
    }
}
