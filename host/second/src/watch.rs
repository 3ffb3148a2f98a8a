//! Places where an onlooker may count what happens. Every method is empty by default, so that the
//! ordinary board, which nobody watches, pays nothing for them.

use crate::timer::Place;

pub trait Watch {
    /// A timer timed out; `control` is its control register at that clock.
    #[inline(always)]
    fn time_out(&mut self, _place: Place, _control: u8) {}
    /// A timer's counter was clocked; `control` as above.
    #[inline(always)]
    fn clocked(&mut self, _place: Place, _control: u8) {}
    /// A gate edge initialised the timer.
    #[inline(always)]
    fn gate_started(&mut self, _place: Place, _control: u8) {}
    /// An interval mode set its flag.
    #[inline(always)]
    fn interval_flag(&mut self, _place: Place, _control: u8) {}
    /// A 6846 register was read or written outside RESET.
    #[inline(always)]
    fn register_6846(&mut self, _register: u32, _read: bool) {}
    /// A 6840 register was read or written outside RESET; `cr20` chooses between CR1 and CR3.
    #[inline(always)]
    fn register_6840(&mut self, _register: u32, _read: bool, _cr20: bool) {}
    /// A ROM byte was read.
    #[inline(always)]
    fn rom_read(&mut self) {}
    /// A present 6846 access that reached neither a register nor a ROM byte.
    #[inline(always)]
    fn missed_6846(&mut self) {}
    /// A cycle with RESET low; `access` tells that it had an access.
    #[inline(always)]
    fn reset_cycle(&mut self, _is_6840: bool, _access: bool) {}
    /// A control write that set or released an internal reset.
    #[inline(always)]
    fn internal_reset(&mut self, _is_6840: bool, _set: bool) {}
    /// An active CP1 edge captured the port.
    #[inline(always)]
    fn capture(&mut self) {}
    /// A PDR read that used and released a capture.
    #[inline(always)]
    fn capture_read(&mut self) {}
    /// A cycle that ended with CP2 as an output; `setting` is PCR4 x 2 + PCR3.
    #[inline(always)]
    fn cp2_out(&mut self, _setting: u8, _level: bool) {}
    /// A flag was cleared by the armed sequence.
    #[inline(always)]
    fn armed_clear(&mut self, _is_6840: bool) {}
    /// A change of CTO went into the book.
    #[inline(always)]
    fn booked(&mut self, _waiting: u32) {}
    /// A chip's stamp went round.
    #[inline(always)]
    fn wrapped(&mut self, _is_6840: bool) {}
}

/// Nobody watches.
pub struct Nobody;

impl Watch for Nobody {}
