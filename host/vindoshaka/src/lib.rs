//! An MC6846 and an MC6840 on one board, cycle by cycle, from the proved library `libvindoshaka.a`.
//!
//! A host fills a [`List`] of events for each chip, moves the chips by as many cycles as it likes, and reads the
//! answers. No call panics, whatever it is given; a call that refuses changes nothing.
//!
//! ```
//! use vindoshaka::{level, Access, Board, List, Number, Options};
//!
//! let rom = [0x12; 2048];
//! let mut board = Board::start(Options { io_code: 1, ..Options::default() }, 0)?;
//! let (mut to_6846, mut to_6840) = (List::new(), List::new());
//! // TCR leaves internal reset in cycle 1, the ROM is read in cycle 2.
//! to_6846.push(1, level::ALL_6846, Access::write_6846(1, 5, 0x02));
//! let read = to_6846.push(2, level::ALL_6846, Access::read_6846(0, 0x3ff));
//!
//! assert_eq!(board.move_6846(&rom, &mut to_6846, 100).all_done()?, 100);
//! assert_eq!(board.report(), Err(Number::StampsDiffer));
//! assert_eq!(board.move_6840(&mut to_6840, 100).all_done()?, 100);
//! assert_eq!(to_6846.answer(read), Some(0x12));
//! assert!(board.report()?.irq_is_high());
//! # Ok::<(), Number>(())
//! ```

mod list;
mod number;
pub mod raw;

pub use list::{Access, List};
pub use number::Number;

/// The bits of an event's levels.
pub mod level {
    pub const P: u32 = 0xff;
    pub const CP1: u32 = 1 << 8;
    pub const CP2: u32 = 1 << 9;
    pub const CTG: u32 = 1 << 10;
    pub const CTC: u32 = 1 << 11;
    pub const RESET_6846: u32 = 1 << 12;
    pub const ALL_6846: u32 = 0x1fff;
    pub const C1: u32 = 1 << 0;
    pub const C2: u32 = 1 << 1;
    pub const C3: u32 = 1 << 2;
    pub const G1: u32 = 1 << 3;
    pub const G2: u32 = 1 << 4;
    pub const G3: u32 = 1 << 5;
    pub const RESET_6840: u32 = 1 << 6;
    pub const ALL_6840: u32 = 0x7f;
}

/// What a board is started with.
#[derive(Clone, Copy, Debug, PartialEq, Eq, Default)]
pub struct Options {
    /// CS0 + 2 x CS1, 0 to 3; the two codes differ.
    pub rom_code: u32,
    pub io_code: u32,
    /// 0, 1, or 2 for either.
    pub a6: u32,
    /// 0 for none, or the address line 7 to 10 that must be 1.
    pub extra: u32,
    /// 0 for none, or the clock input 1 to 3 that hears CTO.
    pub wire: u32,
}

/// What a move came to: its number, and the cycles done.
#[derive(Clone, Copy, Debug, PartialEq, Eq)]
pub struct Moved {
    pub number: Number,
    pub count: u32,
}

impl Moved {
    fn of(moved: raw::Moved) -> Moved {
        Moved {
            number: Number::of(moved.number),
            count: moved.count,
        }
    }

    /// The count, or why not all asked cycles were done.
    pub fn all_done(self) -> Result<u32, Number> {
        match self.number {
            Number::Done => Ok(self.count),
            number => Err(number),
        }
    }
}

/// The levels of the pins: bits 0-7 P0-P7, 8 CP2, 9 CTO, 10-12 O1-O3, 13 IRQ.
#[derive(Clone, Copy, Debug, PartialEq, Eq)]
pub struct Levels(pub u32);

impl Levels {
    pub fn port(self) -> u8 {
        self.0 as u8
    }

    pub fn cp2_is_high(self) -> bool {
        self.0 >> 8 & 1 == 1
    }

    pub fn cto_is_high(self) -> bool {
        self.0 >> 9 & 1 == 1
    }

    /// O1, O2, O3 in bits 0 to 2.
    pub fn outputs(self) -> u32 {
        self.0 >> 10 & 7
    }

    /// Low asks the CPU for an interrupt.
    pub fn irq_is_high(self) -> bool {
        self.0 >> 13 & 1 == 1
    }
}

/// Both chips, their stamps and the wire.
#[derive(Clone, Debug, PartialEq, Eq)]
pub struct Board {
    record: raw::Board,
}

impl Board {
    /// A board in the reset state at the caller's stamp.
    pub fn start(options: Options, stamp: u32) -> Result<Board, Number> {
        let Options {
            rom_code,
            io_code,
            a6,
            extra,
            wire,
        } = options;
        // SAFETY: numbers in, a struct by value out.
        let started = unsafe { raw::vindoshaka_start(rom_code, io_code, a6, extra, wire, stamp) };
        match Number::of(started.number) {
            Number::Done => Ok(Board {
                record: started.board,
            }),
            number => Err(number),
        }
    }

    /// A board that was kept as its record; one outside its ranges is refused by every call with number 9.
    pub fn from_record(record: raw::Board) -> Board {
        Board { record }
    }

    pub fn record(&self) -> &raw::Board {
        &self.record
    }

    /// Moves the 6846 by up to `cycles`.
    pub fn move_6846(&mut self, rom: &[u8], list: &mut List, cycles: u32) -> Moved {
        self.move_6846_by(rom, &list.words, &mut list.answers, cycles)
    }

    /// Moves the 6840 by up to `cycles`.
    pub fn move_6840(&mut self, list: &mut List, cycles: u32) -> Moved {
        self.move_6840_by(&list.words, &mut list.answers, cycles)
    }

    /// The same by slices of words and answer places.
    pub fn move_6846_by(
        &mut self,
        rom: &[u8],
        events: &[u32],
        answers: &mut [u16],
        cycles: u32,
    ) -> Moved {
        // SAFETY: each pointer comes with the length of its slice, and the borrows keep them apart.
        Moved::of(unsafe {
            raw::vindoshaka_move_6846(
                &mut self.record,
                rom.as_ptr(),
                rom.len(),
                events.as_ptr(),
                events.len(),
                answers.as_mut_ptr(),
                answers.len(),
                cycles,
            )
        })
    }

    /// The same by slices of words and answer places.
    pub fn move_6840_by(&mut self, events: &[u32], answers: &mut [u16], cycles: u32) -> Moved {
        // SAFETY: as for the 6846.
        Moved::of(unsafe {
            raw::vindoshaka_move_6840(
                &mut self.record,
                events.as_ptr(),
                events.len(),
                answers.as_mut_ptr(),
                answers.len(),
                cycles,
            )
        })
    }

    /// The levels of the pins, once both chips have done the same cycles.
    pub fn report(&self) -> Result<Levels, Number> {
        // SAFETY: the record is only read.
        let report = unsafe { raw::vindoshaka_report(&self.record) };
        match Number::of(report.number) {
            Number::Done => Ok(Levels(report.levels)),
            number => Err(number),
        }
    }

    pub fn stamp_6846(&self) -> u32 {
        self.record.stamp6846
    }

    pub fn stamp_6840(&self) -> u32 {
        self.record.stamp6840
    }
}
