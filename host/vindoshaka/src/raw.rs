//! The record and the calls as the library has them: as `vindoshaka.h` has them, field by field.

/// One programmable timer.
#[repr(C)]
#[derive(Clone, Copy, Debug, PartialEq, Eq)]
pub struct Timer {
    pub latch: u16,
    pub counter: u16,
    pub control: u8,
    /// 0 to 7.
    pub divider: u8,
    pub flag: bool,
    pub level: bool,
    pub counted: bool,
    pub lapsed: bool,
    pub armed: bool,
    pub running: bool,
    pub gate: bool,
    pub clock: bool,
}

/// The MC6846 after its last cycle.
#[repr(C)]
#[derive(Clone, Copy, Debug, PartialEq, Eq)]
pub struct Combo {
    pub timer: Timer,
    pub msb: u8,
    pub lsb: u8,
    pub pcr: u8,
    pub ddr: u8,
    pub pdr: u8,
    pub capture: u8,
    pub pins: u8,
    pub flag1: bool,
    pub armed1: bool,
    pub flag2: bool,
    pub armed2: bool,
    pub captured: bool,
    pub touched: bool,
    pub strobed: bool,
    pub raised: bool,
    pub cp1: bool,
    pub cp2: bool,
    pub before1: bool,
    pub before2: bool,
    /// The level of CP2 as an output.
    pub driven: bool,
}

/// The MC6840 after its last cycle.
#[repr(C)]
#[derive(Clone, Copy, Debug, PartialEq, Eq)]
pub struct Ptm {
    pub timers: [Timer; 3],
    pub msb: u8,
    pub lsb: u8,
}

/// The start options that select ROM and I/O.
#[repr(C)]
#[derive(Clone, Copy, Debug, PartialEq, Eq)]
pub struct Select {
    pub rom: u8,
    pub io: u8,
    pub a6: u8,
    pub extra: u8,
}

/// The oldest waiting change's place, and how many wait.
#[repr(C)]
#[derive(Clone, Copy, Debug, PartialEq, Eq)]
pub struct Ends {
    pub first: u32,
    pub waiting: u32,
}

/// The whole board. Any values are safe to pass: a record outside its ranges is answered by number 9.
#[repr(C)]
#[derive(Clone, Copy, Debug, PartialEq, Eq)]
pub struct Board {
    pub select: Select,
    pub wire: u8,
    pub combo: Combo,
    pub ptm: Ptm,
    /// The input levels held until the chip's next event, as an event's word has them.
    pub levels6846: u32,
    pub levels6840: u32,
    pub stamp6846: u32,
    pub stamp6840: u32,
    pub ends: Ends,
    pub done6846: usize,
    pub done6840: usize,
    pub places: [u32; 64],
}

#[repr(C)]
#[derive(Clone, Copy, Debug, PartialEq, Eq)]
pub struct Moved {
    pub number: u32,
    pub count: u32,
}

#[repr(C)]
#[derive(Clone, Copy, Debug, PartialEq, Eq)]
pub struct Started {
    pub board: Board,
    pub number: u32,
}

#[repr(C)]
#[derive(Clone, Copy, Debug, PartialEq, Eq)]
pub struct Report {
    pub number: u32,
    pub levels: u32,
}

extern "C" {
    pub fn vindoshaka_start(
        rom_code: u32,
        io_code: u32,
        a6: u32,
        extra: u32,
        wire: u32,
        stamp: u32,
    ) -> Started;

    pub fn vindoshaka_move_6846(
        board: *mut Board,
        rom: *const u8,
        rom_len: usize,
        events: *const u32,
        events_len: usize,
        answers: *mut u16,
        answers_len: usize,
        cycles: u32,
    ) -> Moved;

    pub fn vindoshaka_move_6840(
        board: *mut Board,
        events: *const u32,
        events_len: usize,
        answers: *mut u16,
        answers_len: usize,
        cycles: u32,
    ) -> Moved;

    pub fn vindoshaka_report(board: *const Board) -> Report;
}
