//! A bench that drives a board one event at a time.
#![allow(dead_code)]

use second::Board;

pub const P: u32 = 0xff;
pub const CP1: u32 = 1 << 8;
pub const CP2: u32 = 1 << 9;
pub const CTG: u32 = 1 << 10;
pub const CTC: u32 = 1 << 11;
pub const RESET_6846: u32 = 1 << 12;
pub const ALL_6846: u32 = 0x1fff;
pub const RESET_6840: u32 = 1 << 6;
pub const ALL_6840: u32 = 0x7f;

pub const REPORT_CP2: u32 = 1 << 8;
pub const REPORT_CTO: u32 = 1 << 9;
pub const REPORT_IRQ: u32 = 1 << 13;

pub struct Bench {
    pub board: Board,
    pub rom: Vec<u8>,
    pub events_6846: Vec<u32>,
    pub events_6840: Vec<u32>,
    pub answers_6846: Vec<u16>,
    pub answers_6840: Vec<u16>,
    pub levels_6846: u32,
    pub levels_6840: u32,
}

/// Present write to a 6846 register: I/O code 1, A6 0.
pub fn write_6846(register: u32, data: u32) -> u32 {
    1 | 1 << 2 | register << 4 | data << 16
}

pub fn read_6846(register: u32) -> u32 {
    write_6846(register, 0) | 2
}

pub fn write_6840(register: u32, data: u32) -> u32 {
    1 | register << 2 | data << 16
}

pub fn read_6840(register: u32) -> u32 {
    write_6840(register, 0) | 2
}

impl Bench {
    /// ROM code 0, I/O code 1, other options 0.
    pub fn new(wire: u32, stamp: u32) -> Bench {
        let (board, number) = Board::start(0, 1, 0, 0, wire, stamp);
        assert_eq!(number, 0);
        Bench {
            board,
            rom: (0..2048u32).map(|i| (i * 7 + i / 256) as u8).collect(),
            events_6846: Vec::new(),
            events_6840: Vec::new(),
            answers_6846: Vec::new(),
            answers_6840: Vec::new(),
            levels_6846: ALL_6846,
            levels_6840: ALL_6840,
        }
    }

    pub fn put_6846(&mut self, stamp: u32, levels: u32, access: u32) {
        self.events_6846.extend([stamp, levels, access]);
        self.answers_6846.push(43981);
    }

    pub fn put_6840(&mut self, stamp: u32, levels: u32, access: u32) {
        self.events_6840.extend([stamp, levels, access]);
        self.answers_6840.push(43981);
    }

    pub fn go_6846(&mut self, cycles: u32) -> (u32, u32) {
        self.board
            .move_6846(&self.rom, &self.events_6846, &mut self.answers_6846, cycles)
    }

    pub fn go_6840(&mut self, cycles: u32) -> (u32, u32) {
        self.board
            .move_6840(&self.events_6840, &mut self.answers_6840, cycles)
    }

    /// Both chips by that many quiet cycles.
    pub fn both(&mut self, cycles: u32) {
        for _ in 0..cycles {
            assert_eq!(self.go_6846(1), (0, 1));
            assert_eq!(self.go_6840(1), (0, 1));
        }
    }

    /// One cycle of both chips with a 6846 event.
    pub fn a6846(&mut self, access: u32) -> u16 {
        let stamp = self.board.stamps().0.wrapping_add(1);
        self.put_6846(stamp, self.levels_6846, access);
        self.both(1);
        *self.answers_6846.last().unwrap()
    }

    /// One cycle of both chips with a 6840 event.
    pub fn a6840(&mut self, access: u32) -> u16 {
        let stamp = self.board.stamps().1.wrapping_add(1);
        self.put_6840(stamp, self.levels_6840, access);
        self.both(1);
        *self.answers_6840.last().unwrap()
    }

    /// One cycle with these 6846 lines low, all others high.
    pub fn low_6846(&mut self, low: u32) {
        self.levels_6846 = ALL_6846 & !low;
        self.a6846(0);
    }

    pub fn low_6840(&mut self, low: u32) {
        self.levels_6840 = ALL_6840 & !low;
        self.a6840(0);
    }

    pub fn report(&self) -> u32 {
        let (number, levels) = self.board.report();
        assert_eq!(number, 0);
        levels
    }

    pub fn irq(&self) -> bool {
        self.report() & REPORT_IRQ != 0
    }

    pub fn cto(&self) -> bool {
        self.report() & REPORT_CTO != 0
    }

    pub fn cp2(&self) -> bool {
        self.report() & REPORT_CP2 != 0
    }
}

/// 0 is the 6846's timer, 1 to 3 the 6840's.
pub const TIMERS: [u32; 4] = [0, 1, 2, 3];

impl Bench {
    /// A bench whose timer has that latch and control, its gate low, and internal reset just released.
    pub fn timer(which: u32, latch: u32, control: u32) -> Bench {
        let mut bench = Bench::new(0, 0);
        bench.gate(which, false);
        bench.set_latch(which, latch);
        bench.release(which, control);
        bench
    }

    pub fn gate(&mut self, which: u32, high: bool) {
        if which == 0 {
            self.levels_6846 = self.levels_6846 & !CTG | if high { CTG } else { 0 };
            self.a6846(0);
        } else {
            let bit = 4 << which;
            self.levels_6840 = self.levels_6840 & !bit | if high { bit } else { 0 };
            self.a6840(0);
        }
    }

    pub fn set_latch(&mut self, which: u32, latch: u32) {
        if which == 0 {
            self.a6846(write_6846(6, latch >> 8));
            self.a6846(write_6846(7, latch & 255));
        } else {
            self.a6840(write_6840(2, latch >> 8));
            self.a6840(write_6840(1 + 2 * which, latch & 255));
        }
    }

    /// Writes the control register so that the last write releases the internal reset.
    pub fn release(&mut self, which: u32, control: u32) {
        match which {
            0 => drop(self.a6846(write_6846(5, control))),
            1 => {
                self.a6840(write_6840(1, 1));
                self.a6840(write_6840(0, control));
            }
            2 => {
                self.a6840(write_6840(1, control | 1));
                self.a6840(write_6840(0, 0));
            }
            _ => {
                self.a6840(write_6840(1, 0));
                self.a6840(write_6840(0, control));
                self.a6840(write_6840(1, 1));
                self.a6840(write_6840(0, 0));
            }
        }
    }

    pub fn pin(&self, which: u32) -> bool {
        self.report() >> (9 + which) & 1 == 1
    }

    pub fn read_status(&mut self, which: u32) -> u16 {
        if which == 0 {
            self.a6846(read_6846(0))
        } else {
            self.a6840(read_6840(1))
        }
    }

    pub fn read_msb(&mut self, which: u32) -> u16 {
        if which == 0 {
            self.a6846(read_6846(6))
        } else {
            self.a6840(read_6840(2 * which))
        }
    }

    pub fn read_lsb(&mut self, which: u32) -> u16 {
        if which == 0 {
            self.a6846(read_6846(7))
        } else {
            self.a6840(read_6840(1 + 2 * which))
        }
    }

    /// The pin after each of the next clocks, the first clock's first.
    pub fn wave(&mut self, which: u32, clocks: u32) -> Vec<bool> {
        (0..clocks)
            .map(|_| {
                self.both(1);
                self.pin(which)
            })
            .collect()
    }

    /// The clocks, from 1, at which the pin changes.
    pub fn changes(&mut self, which: u32, clocks: u32) -> Vec<u32> {
        let mut before = self.pin(which);
        let mut at = Vec::new();
        for (i, now) in self.wave(which, clocks).into_iter().enumerate() {
            if now != before {
                at.push(i as u32 + 1);
            }
            before = now;
        }
        at
    }

    /// The clock, from 1, at which IRQ first is low.
    pub fn first_irq(&mut self, most: u32) -> Option<u32> {
        (1..=most).find(|_| {
            self.both(1);
            !self.irq()
        })
    }
}
