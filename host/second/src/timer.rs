//! One timer, for either chip.

use crate::watch::Watch;

/// Which timer it is: this decides what control bits 0 and 2 mean and what mode 001 is.
#[derive(Clone, Copy, Debug, PartialEq, Eq)]
pub enum Place {
    Of6846,
    One,
    Two,
    Three,
}

/// Control bits 3, 4, 5 as a number, bit 3 lowest; the names give the bits in the paper's order 3, 4, 5.
mod mode {
    pub const PERIOD_LESS_100: u8 = 1;
    pub const LOW_LESS_110: u8 = 3;
    pub const BITS_001: u8 = 4;
    pub const BITS_000: u8 = 0;
    /// Bit 3: an interval mode.
    pub const INTERVAL: u8 = 1;
    /// Bit 4: in an interval mode, the low pulse is measured.
    pub const LOW_PULSE: u8 = 2;
    /// Bit 5: single shot (or cascaded); in an interval mode, "greater".
    pub const BIT_5: u8 = 4;
}

const INTERNAL_CLOCK: u8 = 1 << 1;
const BIT_2: u8 = 1 << 2;
const INTERRUPT: u8 = 1 << 6;
const OUTPUT: u8 = 1 << 7;

/// What a timer's two lines do in one cycle: edges against the cycle before, and the gate's level now.
#[derive(Clone, Copy)]
pub struct Lines {
    pub gate_fell: bool,
    pub gate_rose: bool,
    pub gate: bool,
    pub clock_fell: bool,
}

#[derive(Clone, Debug, PartialEq, Eq)]
pub struct Timer {
    pub latch: u16,
    pub counter: u16,
    pub control: u8,
    /// The divider by 8, 0 to 7; 0 while it is off.
    pub divider: u8,
    pub flag: bool,
    /// A status read saw the flag set.
    pub armed: bool,
    /// The output level, which runs on while bit 7 is 0.
    pub level: bool,
    /// An interval is being measured.
    pub running: bool,
    pub counted: bool,
    pub timed_out: bool,
}

impl Timer {
    /// Reset state: latch 65,535, counter equal, everything else 0 but the control given.
    pub fn in_reset(control: u8) -> Timer {
        Timer {
            latch: u16::MAX,
            counter: u16::MAX,
            control,
            divider: 0,
            flag: false,
            armed: false,
            level: false,
            running: false,
            counted: false,
            timed_out: false,
        }
    }

    #[inline(always)]
    pub fn mode(&self) -> u8 {
        self.control >> 3 & 7
    }

    /// Bit 2 of the 6846 and CR30 divide by 8.
    #[inline(always)]
    fn divides(&self, place: Place) -> bool {
        match place {
            Place::Of6846 => self.control & BIT_2 != 0,
            Place::Three => self.control & 1 != 0,
            Place::One | Place::Two => false,
        }
    }

    /// Bit 2 of the 6840's timers: dual 8-bit.
    #[inline(always)]
    fn dual(&self, place: Place) -> bool {
        place != Place::Of6846 && self.control & BIT_2 != 0
    }

    /// Mode 001 is cascaded on the 6846 and single shot on the 6840.
    #[inline(always)]
    fn cascaded(&self, place: Place) -> bool {
        place == Place::Of6846 && self.mode() == mode::BITS_001
    }

    /// The flag with its enable, bit 6.
    #[inline(always)]
    pub fn asks(&self) -> bool {
        self.flag && self.control & INTERRUPT != 0
    }

    /// The pin: the level if bit 7 is set; cascaded, always the level.
    #[inline(always)]
    pub fn pin(&self, place: Place) -> bool {
        self.level && (self.control & OUTPUT != 0 || self.cascaded(place))
    }

    /// Gate, then clock, of one cycle. All control bits are those before this cycle's access.
    #[inline(always)]
    pub fn cycle<W: Watch>(&mut self, place: Place, held: bool, lines: Lines, watch: &mut W) {
        // Internal reset: clocks off; gate edges do nothing and are not remembered.
        if held {
            return;
        }
        let started = if lines.gate_fell {
            self.gate_falls(place, watch)
        } else {
            if lines.gate_rose {
                self.gate_rises(place, watch);
            }
            false
        };
        // Bit 1: every cycle, or external falling edges.
        if self.control & INTERNAL_CLOCK == 0 && !lines.clock_fell {
            return;
        }
        // The divider counts regardless of gate; each eighth clock passes, and one that finds the
        // counter not enabled is lost.
        if self.divides(place) {
            self.divider = (self.divider + 1) & 7;
            if self.divider != 0 {
                return;
            }
        }
        // A cycle initialised by a gate does not count.
        if !started && self.enabled(lines.gate) {
            self.count(place, watch);
        }
    }

    /// Enabled: continuous while the gate is low; single shot and cascaded always; intervals while running.
    #[inline(always)]
    fn enabled(&self, gate: bool) -> bool {
        let mode = self.mode();
        if mode & mode::INTERVAL != 0 {
            self.running
        } else {
            mode & mode::BIT_5 != 0 || !gate
        }
    }

    /// A gate fall; tells whether it initialised the timer.
    #[inline]
    fn gate_falls<W: Watch>(&mut self, place: Place, watch: &mut W) -> bool {
        let mode = self.mode();
        if mode & mode::INTERVAL == 0 {
            // In cascaded a gate keeps the output level.
            let kept = self.level && self.cascaded(place);
            self.initialise();
            self.level = kept;
            watch.gate_started(place, self.control);
            return true;
        }
        // Intervals listen to a gate fall with the flag clear only.
        if self.flag {
            return false;
        }
        if mode == mode::PERIOD_LESS_100 && self.running && !self.timed_out {
            self.flag = true;
            self.running = false;
            watch.interval_flag(place, self.control);
            return false;
        }
        // Start means initialise and run.
        self.initialise();
        self.running = true;
        watch.gate_started(place, self.control);
        true
    }

    /// A gate rise in 110 and 111 stops; in 110 it first sets the flag if running and not timed out.
    #[inline]
    fn gate_rises<W: Watch>(&mut self, place: Place, watch: &mut W) {
        let mode = self.mode();
        if mode & (mode::INTERVAL | mode::LOW_PULSE) != mode::INTERVAL | mode::LOW_PULSE {
            return;
        }
        if mode == mode::LOW_LESS_110 && self.running && !self.timed_out {
            self.flag = true;
            watch.interval_flag(place, self.control);
        }
        self.running = false;
    }

    /// Loads the counter and clears flag (and so its arm), output level and marks; never the divider.
    #[inline]
    fn initialise(&mut self) {
        self.counter = self.latch;
        self.clear_flag();
        self.level = false;
        self.counted = false;
        self.timed_out = false;
    }

    /// One enabled clock that passed the divider.
    #[inline(always)]
    fn count<W: Watch>(&mut self, place: Place, watch: &mut W) {
        watch.clocked(place, self.control);
        // Every enabled clock sets "counted", in any mode; what it was before decides a single shot's rise.
        let first = !self.counted;
        self.counted = true;
        // A clock on zero (dual: on both bytes zero) is a time-out; otherwise subtract one.
        if self.counter == 0 {
            self.time_out(place, watch);
            return;
        }
        self.raise(place, first);
        self.counter = if self.dual(place) && self.counter & 255 == 0 {
            // Dual: on LSB zero and MSB nonzero, LSB reloads and MSB falls by one.
            (self.counter - 256) | (self.latch & 255)
        } else {
            self.counter - 1
        };
    }

    /// Dual with LSB latch nonzero has an output rule of its own; with LSB latch zero it is as 16-bit.
    #[inline(always)]
    fn by_bytes(&self, place: Place) -> bool {
        self.dual(place) && self.latch & 255 != 0
    }

    /// The output level at an enabled clock on a counter that is not zero.
    #[inline(always)]
    fn raise(&mut self, place: Place, first: bool) {
        let mode = self.mode();
        // Intervals: low. Cascaded changes at time-out only.
        if mode & mode::INTERVAL != 0 || self.cascaded(place) {
            return;
        }
        let single = mode & mode::BIT_5 != 0;
        if self.by_bytes(place) {
            // High from a clock on MSB zero and LSB nonzero; in single shot before the first time-out only.
            if self.counter < 256 && !(single && self.timed_out) {
                self.level = true;
            }
        } else if single && first {
            // Single shot is high from the first enabled clock; a later one raises nothing.
            self.level = true;
        }
    }

    /// Reloads the latch; no initialisation, and it clears no flag.
    #[inline]
    fn time_out<W: Watch>(&mut self, place: Place, watch: &mut W) {
        watch.time_out(place, self.control);
        self.counter = self.latch;
        let mode = self.mode();
        if mode & mode::INTERVAL == 0 {
            // Bit 3 is 0: the flag is set.
            self.flag = true;
            self.timed_out = true;
            self.level = self.level_after_time_out(place);
        } else if mode & mode::BIT_5 != 0 {
            // 101 and 111: sets the flag and stops, no mark.
            self.flag = true;
            self.running = false;
            watch.interval_flag(place, self.control);
        } else {
            self.timed_out = true;
        }
    }

    /// Cascaded takes bit 7; single shot and dual by bytes fall; continuous inverts.
    #[inline(always)]
    fn level_after_time_out(&self, place: Place) -> bool {
        if self.cascaded(place) {
            self.control & OUTPUT != 0
        } else if self.mode() & mode::BIT_5 != 0 || self.by_bytes(place) {
            false
        } else {
            !self.level
        }
    }

    /// A control write; one that changes bits 3-5 clears running, level and marks, and nothing else.
    pub fn write_control(&mut self, control: u8) {
        let changed = (self.control ^ control) & 0b0011_1000 != 0;
        self.control = control;
        if changed {
            self.running = false;
            self.level = false;
            self.counted = false;
            self.timed_out = false;
        }
    }

    /// W: a latch write.
    pub fn write_latch(&mut self, place: Place, latch: u16) {
        self.latch = latch;
        let mode = self.mode();
        if mode & mode::INTERVAL != 0 {
            // Intervals: W clears the flag and stops; counter and marks stay.
            self.clear_flag();
            self.running = false;
        } else if mode == mode::BITS_000 || (mode == mode::BITS_001 && place != Place::Of6846) {
            // The table: 000, and 001 on the 6840. In 010, 011 and cascaded the latch alone changes.
            self.initialise();
        }
    }

    /// What holds at the end of a cycle with a write: a divider that is off stands at 0, and a timer
    /// in internal reset has its counter equal to its latch and everything clear.
    pub fn settle(&mut self, place: Place, held: bool) {
        if !self.divides(place) {
            self.divider = 0;
        }
        if held {
            self.initialise();
            self.divider = 0;
            self.running = false;
        }
    }

    /// A status read arms every set flag.
    #[inline]
    pub fn arm(&mut self) {
        if self.flag {
            self.armed = true;
        }
    }

    /// Reading the counter's MSB clears an armed flag.
    #[inline]
    pub fn clear_if_armed(&mut self) -> bool {
        let cleared = self.armed;
        if cleared {
            self.clear_flag();
        }
        cleared
    }

    /// Flag clear, arm clear.
    #[inline]
    fn clear_flag(&mut self) {
        self.flag = false;
        self.armed = false;
    }
}
