//! The MC6840: three timers.

use crate::timer::{Lines, Place, Timer};
use crate::watch::Watch;
use crate::NOTHING;

/// Level bits: 0-2 C1-C3, 3-5 G1-G3, 6 RESET.
pub const ALL_HIGH: u32 = (1 << 7) - 1;
const RESET: u32 = 1 << 6;

/// Access bits: 0 present, 1 read, 2-4 RS0-RS2, 16-23 data.
const PRESENT: u32 = 1 << 0;
const READ: u32 = 1 << 1;

const PLACES: [Place; 3] = [Place::One, Place::Two, Place::Three];

#[derive(Clone, Debug, PartialEq, Eq)]
pub struct Chip6840 {
    /// The levels sampled last, a wired input as CTO gave it.
    pub levels: u32,
    pub timers: [Timer; 3],
    /// The one MSB buffer.
    pub msb_buffer: u8,
    /// The one LSB buffer, shared by the three timers.
    pub lsb_buffer: u8,
}

impl Chip6840 {
    /// Start leaves the reset state: CR10 = 1, the other control registers 0.
    pub fn new() -> Chip6840 {
        Chip6840 {
            levels: ALL_HIGH,
            timers: [Timer::in_reset(1), Timer::in_reset(0), Timer::in_reset(0)],
            msb_buffer: 0,
            lsb_buffer: 0,
        }
    }

    /// RESET low: everything but the sampled levels.
    fn reset(&mut self) {
        *self = Chip6840 {
            levels: self.levels,
            ..Chip6840::new()
        };
    }

    /// CR10 is the internal reset of all three.
    #[inline(always)]
    fn held(&self) -> bool {
        self.timers[0].control & 1 != 0
    }

    #[inline(always)]
    fn cr20(&self) -> bool {
        self.timers[1].control & 1 != 0
    }

    /// One cycle: sample levels; RESET; gate edges; clocks; bus access. Output levels follow from the state.
    #[inline(always)]
    pub fn cycle<W: Watch>(&mut self, levels: u32, access: u32, watch: &mut W) -> u16 {
        let fell = self.levels & !levels;
        let rose = levels & !self.levels;
        self.levels = levels;
        if levels & RESET == 0 {
            watch.reset_cycle(true, access & PRESENT != 0);
            self.reset();
            return self.answer_in_reset(access);
        }
        let held = self.held();
        let [one, two, three] = &mut self.timers;
        // Gates and clocks of the three, each by its own lines.
        one.cycle(Place::One, held, lines(fell, rose, levels, 0), watch);
        two.cycle(Place::Two, held, lines(fell, rose, levels, 1), watch);
        three.cycle(Place::Three, held, lines(fell, rose, levels, 2), watch);
        if access & PRESENT != 0 {
            self.access(access, watch)
        } else {
            NOTHING
        }
    }

    /// Register reads answer from the reset state with no side effect; writes do nothing.
    fn answer_in_reset(&self, access: u32) -> u16 {
        if access & (PRESENT | READ) == PRESENT | READ {
            self.peek(access >> 2 & 7)
        } else {
            NOTHING
        }
    }

    fn access<W: Watch>(&mut self, access: u32, watch: &mut W) -> u16 {
        let register = access >> 2 & 7;
        let read = access & READ != 0;
        watch.register_6840(register, read, self.cr20());
        if read {
            let answer = self.peek(register);
            self.after_read(register, watch);
            answer
        } else {
            self.write(register, (access >> 16) as u8, watch);
            NOTHING
        }
    }

    /// Status: bits 0-2 timers 1-3, 7 any enabled flag.
    fn status(&self) -> u8 {
        self.timers[0].flag as u8
            | (self.timers[1].flag as u8) << 1
            | (self.timers[2].flag as u8) << 2
            | (self.asks() as u8) << 7
    }

    /// The composite flag.
    pub fn asks(&self) -> bool {
        self.timers.iter().any(Timer::asks)
    }

    /// What a register reads as: 0 drives nothing, 2/4/6 counter MSB, 3/5/7 the one LSB buffer.
    fn peek(&self, register: u32) -> u16 {
        match register {
            0 => NOTHING,
            1 => self.status() as u16,
            2 | 4 | 6 => self.timers[timer_of(register)].counter >> 8,
            _ => self.lsb_buffer as u16,
        }
    }

    fn after_read<W: Watch>(&mut self, register: u32, watch: &mut W) {
        match register {
            1 => self.timers.iter_mut().for_each(Timer::arm),
            2 | 4 | 6 => {
                // An MSB read clears its own timer's armed flag only.
                let timer = &mut self.timers[timer_of(register)];
                self.lsb_buffer = timer.counter as u8;
                if timer.clear_if_armed() {
                    watch.armed_clear(true);
                }
            }
            _ => {}
        }
    }

    fn write<W: Watch>(&mut self, register: u32, data: u8, watch: &mut W) {
        match register {
            0 => {
                // By CR20 as it stands: CR1 if it is 1, else CR3.
                let index = if self.cr20() { 0 } else { 2 };
                if index == 0 && (self.timers[0].control ^ data) & 1 != 0 {
                    watch.internal_reset(true, data & 1 != 0);
                }
                self.timers[index].write_control(data);
            }
            1 => self.timers[1].write_control(data),
            2 | 4 | 6 => {
                self.msb_buffer = data;
                return;
            }
            _ => {
                // W of timer 1, 2 or 3, with the one MSB buffer.
                let index = timer_of(register);
                let latch = u16::from_be_bytes([self.msb_buffer, data]);
                self.timers[index].write_latch(PLACES[index], latch);
            }
        }
        self.settle();
    }

    fn settle(&mut self) {
        let held = self.held();
        for (timer, place) in self.timers.iter_mut().zip(PLACES) {
            timer.settle(place, held);
        }
    }

    /// O1-O3 in bits 0-2.
    pub fn outputs(&self) -> u32 {
        let mut pins = 0;
        for (i, place) in PLACES.into_iter().enumerate() {
            pins |= (self.timers[i].pin(place) as u32) << i;
        }
        pins
    }
}

impl Default for Chip6840 {
    fn default() -> Self {
        Chip6840::new()
    }
}

/// The lines of one timer out of the chip's edges and levels.
#[inline(always)]
fn lines(fell: u32, rose: u32, levels: u32, index: u32) -> Lines {
    let (clock, gate) = (1 << index, 8 << index);
    Lines {
        gate_fell: fell & gate != 0,
        gate_rose: rose & gate != 0,
        gate: levels & gate != 0,
        clock_fell: fell & clock != 0,
    }
}

/// Registers 2 and 3 are timer 1's, 4 and 5 timer 2's, 6 and 7 timer 3's.
#[inline(always)]
fn timer_of(register: u32) -> usize {
    (register >> 1) as usize - 1
}
