//! The board: both chips, their stamps, the wire, and the numbers every call returns.

use crate::book::Book;
use crate::chip6840::Chip6840;
use crate::chip6846::{Chip6846, Select};
use crate::events::{next, Bad, Event, FORM_6840, FORM_6846};
use crate::watch::{Nobody, Watch};

/// The numbers returned.
pub mod number {
    pub const DONE: u32 = 0;
    pub const BAD_OPTION: u32 = 1;
    pub const BAD_ROM: u32 = 2;
    pub const BAD_LIST: u32 = 3;
    pub const FEW_PLACES: u32 = 4;
    pub const BAD_EVENT: u32 = 5;
    pub const MUST_WAIT: u32 = 6;
    pub const BOOK_FULL: u32 = 7;
    pub const STAMPS_DIFFER: u32 = 8;
    pub const BAD_RECORD: u32 = 9;
}

/// A chip that leads by this waits.
const LONGEST_LEAD: i32 = 65_536;

#[derive(Clone, Debug, PartialEq, Eq)]
pub struct Board {
    pub select: Select,
    /// 0 for no wire, or the number of the 6840 clock input that hears CTO.
    pub wire: u32,
    pub stamp_6846: u32,
    pub stamp_6840: u32,
    /// Events done of each list.
    pub done_6846: usize,
    pub done_6840: usize,
    pub chip_6846: Chip6846,
    pub chip_6840: Chip6840,
    pub book: Book,
}

impl Board {
    /// A refused start returns the board with ROM code 0, I/O code 1, other options 0, stamp 0.
    pub fn start(
        rom_code: u32,
        io_code: u32,
        a6: u32,
        extra: u32,
        wire: u32,
        stamp: u32,
    ) -> (Board, u32) {
        let select = Select {
            rom_code,
            io_code,
            a6,
            extra,
        };
        let board = Board::fresh(select, wire, stamp);
        if board.options_in_ranges() {
            return (board, number::DONE);
        }
        let plain = Select {
            rom_code: 0,
            io_code: 1,
            a6: 0,
            extra: 0,
        };
        (Board::fresh(plain, 0, 0), number::BAD_OPTION)
    }

    fn fresh(select: Select, wire: u32, stamp: u32) -> Board {
        Board {
            select,
            wire,
            stamp_6846: stamp,
            stamp_6840: stamp,
            done_6846: 0,
            done_6840: 0,
            chip_6846: Chip6846::new(),
            chip_6840: Chip6840::new(),
            book: Book::empty(),
        }
    }

    fn options_in_ranges(&self) -> bool {
        self.select.in_ranges() && self.wire <= 3
    }

    /// The signed distance from the 6840's stamp to the 6846's.
    #[inline(always)]
    pub fn lead(&self) -> i32 {
        self.stamp_6846.wrapping_sub(self.stamp_6840) as i32
    }

    /// The ranges for 9.
    fn in_ranges(&self) -> bool {
        let least = if self.wire == 0 { -LONGEST_LEAD } else { -1 };
        let lead = self.lead();
        self.options_in_ranges()
            && self.chip_6846.timer.divider <= 7
            && self.chip_6840.timers.iter().all(|timer| timer.divider <= 7)
            && (least..=LONGEST_LEAD).contains(&lead)
            && (self.wire != 0 || self.book.waiting == 0)
            && self.book.in_ranges(self.stamp_6840, lead)
    }

    /// Moves the 6846 by up to `cycles`; gives the number and the count of cycles done.
    pub fn move_6846(
        &mut self,
        rom: &[u8],
        events: &[u32],
        answers: &mut [u16],
        cycles: u32,
    ) -> (u32, u32) {
        self.move_6846_watched(rom, events, answers, cycles, &mut Nobody)
    }

    /// Moves the 6840 by up to `cycles`; gives the number and the count of cycles done.
    pub fn move_6840(&mut self, events: &[u32], answers: &mut [u16], cycles: u32) -> (u32, u32) {
        self.move_6840_watched(events, answers, cycles, &mut Nobody)
    }

    pub fn move_6846_watched<W: Watch>(
        &mut self,
        rom: &[u8],
        events: &[u32],
        answers: &mut [u16],
        cycles: u32,
        watch: &mut W,
    ) -> (u32, u32) {
        // Order: 9, 2, 3, 4; these do nothing, also with zero cycles asked.
        if !self.in_ranges() {
            return (number::BAD_RECORD, 0);
        }
        let rom = match <&[u8; 2048]>::try_from(rom) {
            Ok(rom) => rom,
            Err(_) => return (number::BAD_ROM, 0),
        };
        if let Some(number) = refused_list(events, answers, self.done_6846) {
            return (number, 0);
        }
        let mut count = 0;
        while count < cycles {
            // Before each cycle 5, 6, 7. A good event stays good until its own cycle, so it is taken
            // apart once for all the cycles up to that one.
            let event = match next(events, self.done_6846, self.stamp_6846, &FORM_6846) {
                Ok(event) => event,
                Err(Bad) => return (number::BAD_EVENT, count),
            };
            // Between events levels stay and there is no access.
            let quiet = quiet_cycles(event, cycles - count);
            for _ in 0..quiet {
                let held = self.chip_6846.levels;
                match self.cycle_6846(rom, held, 0, watch) {
                    Ok(_) => count += 1,
                    Err(number) => return (number, count),
                }
            }
            let event = match event {
                Some(event) if count < cycles => event,
                _ => continue,
            };
            match self.cycle_6846(rom, event.levels, event.access, watch) {
                Ok(answer) => {
                    answers[self.done_6846] = answer;
                    self.done_6846 += 1;
                    count += 1;
                }
                Err(number) => return (number, count),
            }
        }
        (number::DONE, count)
    }

    pub fn move_6840_watched<W: Watch>(
        &mut self,
        events: &[u32],
        answers: &mut [u16],
        cycles: u32,
        watch: &mut W,
    ) -> (u32, u32) {
        // Order: 9, 3, 4.
        if !self.in_ranges() {
            return (number::BAD_RECORD, 0);
        }
        if let Some(number) = refused_list(events, answers, self.done_6840) {
            return (number, 0);
        }
        let mut count = 0;
        while count < cycles {
            let event = match next(events, self.done_6840, self.stamp_6840, &FORM_6840) {
                Ok(event) => event,
                Err(Bad) => return (number::BAD_EVENT, count),
            };
            let quiet = quiet_cycles(event, cycles - count);
            for _ in 0..quiet {
                let held = self.chip_6840.levels;
                match self.cycle_6840(held, 0, watch) {
                    Ok(_) => count += 1,
                    Err(number) => return (number, count),
                }
            }
            let event = match event {
                Some(event) if count < cycles => event,
                _ => continue,
            };
            match self.cycle_6840(event.levels, event.access, watch) {
                Ok(answer) => {
                    answers[self.done_6840] = answer;
                    self.done_6840 += 1;
                    count += 1;
                }
                Err(number) => return (number, count),
            }
        }
        (number::DONE, count)
    }

    /// One 6846 cycle, or the number that stops it with the board as it was.
    #[inline(always)]
    fn cycle_6846<W: Watch>(
        &mut self,
        rom: &[u8; 2048],
        levels: u32,
        access: u32,
        watch: &mut W,
    ) -> Result<u16, u32> {
        // A chip waits if it already leads by 65,536.
        if self.lead() >= LONGEST_LEAD {
            return Err(number::MUST_WAIT);
        }
        // Only a wire keeps a book.
        let answer = if self.wire == 0 {
            self.chip_6846
                .cycle(&self.select, rom, levels, access, watch)
        } else {
            self.cycle_noted(rom, levels, access, watch)?
        };
        // Each cycle adds one to the stamp, is named by the stamp it gives, and goes round.
        self.stamp_6846 = self.stamp_6846.wrapping_add(1);
        if self.stamp_6846 == 0 {
            watch.wrapped(false);
        }
        Ok(answer)
    }

    /// A cycle whose change of CTO, whatever made it, goes into the book; or 7 if the book is full.
    #[inline(always)]
    fn cycle_noted<W: Watch>(
        &mut self,
        rom: &[u8; 2048],
        levels: u32,
        access: u32,
        watch: &mut W,
    ) -> Result<u16, u32> {
        let before = self.chip_6846.cto();
        if self.book.is_full() && self.would_change_cto(rom, levels, access) {
            return Err(number::BOOK_FULL);
        }
        let answer = self
            .chip_6846
            .cycle(&self.select, rom, levels, access, watch);
        if self.chip_6846.cto() != before {
            self.book.note(self.stamp_6846.wrapping_add(1));
            watch.booked(self.book.waiting);
        }
        Ok(answer)
    }

    /// Tries the cycle on a copy; only asked while 64 changes wait.
    #[cold]
    fn would_change_cto(&self, rom: &[u8; 2048], levels: u32, access: u32) -> bool {
        let mut trial = self.chip_6846.clone();
        trial.cycle(&self.select, rom, levels, access, &mut Nobody);
        trial.cto() != self.chip_6846.cto()
    }

    /// One 6840 cycle, or 6 with the board as it was.
    #[inline(always)]
    fn cycle_6840<W: Watch>(
        &mut self,
        levels: u32,
        access: u32,
        watch: &mut W,
    ) -> Result<u16, u32> {
        // The 6840 leads by minus the lead; with a wire it also waits if it leads by 1.
        let longest = if self.wire == 0 { LONGEST_LEAD } else { 1 };
        if -self.lead() >= longest {
            return Err(number::MUST_WAIT);
        }
        let answer = if self.wire == 0 {
            self.chip_6840.cycle(levels, access, watch)
        } else {
            self.cycle_wired(levels, access, watch)
        };
        self.stamp_6840 = self.stamp_6840.wrapping_add(1);
        if self.stamp_6840 == 0 {
            watch.wrapped(true);
        }
        Ok(answer)
    }

    /// A cycle that hears CTO as it was after the cycle before; the wired input's own bit is ignored.
    #[inline(always)]
    fn cycle_wired<W: Watch>(&mut self, levels: u32, access: u32, watch: &mut W) -> u16 {
        // CTO now, turned once for each waiting change of a later cycle than the one before this.
        let seen_now = self.book.begins_with(self.stamp_6840);
        let later = self.book.waiting - seen_now as u32;
        let heard = self.chip_6846.cto() ^ (later & 1 != 0);
        let place = self.wire - 1;
        let levels = levels & !(1 << place) | (heard as u32) << place;
        let answer = self.chip_6840.cycle(levels, access, watch);
        // A change of cycle c leaves when the 6840 has done cycle c+1.
        if seen_now {
            self.book.drop_first();
        }
        answer
    }

    /// Number and levels: bits 0-7 P0-P7, 8 CP2, 9 CTO, 10-12 O1-O3, 13 IRQ.
    pub fn report(&self) -> (u32, u32) {
        // Order: 9, 8. A refused report gives all levels 0.
        if !self.in_ranges() {
            return (number::BAD_RECORD, 0);
        }
        if self.stamp_6846 != self.stamp_6840 {
            return (number::STAMPS_DIFFER, 0);
        }
        // IRQ is low if either chip's composite flag is set.
        let irq = !(self.chip_6846.asks() || self.chip_6840.asks());
        let levels = self.chip_6846.port_levels()
            | (self.chip_6846.cto() as u32) << 9
            | self.chip_6840.outputs() << 10
            | (irq as u32) << 13;
        (number::DONE, levels)
    }

    /// The 6846's stamp, the 6840's stamp, and how many changes wait.
    pub fn stamps(&self) -> (u32, u32, u32) {
        (self.stamp_6846, self.stamp_6840, self.book.waiting)
    }
}

/// How many of the cycles asked lie before the next event's own.
#[inline]
fn quiet_cycles(event: Option<Event>, asked: u32) -> u32 {
    match event {
        Some(event) => (event.ahead - 1).min(asked),
        None => asked,
    }
}

/// 3: no multiple of 3, or fewer events than were done; 4: fewer answer places than events.
fn refused_list(events: &[u32], answers: &[u16], done: usize) -> Option<u32> {
    if events.len() % 3 != 0 || events.len() / 3 < done {
        Some(number::BAD_LIST)
    } else if answers.len() < events.len() / 3 {
        Some(number::FEW_PLACES)
    } else {
        None
    }
}
