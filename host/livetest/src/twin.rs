//! A record of the library and the board of the second emulator, held against each other.

use second::{Book, Chip6840, Chip6846, Port, Select, Timer};
use vindoshaka::raw;

fn bits(levels: &[bool]) -> u32 {
    levels
        .iter()
        .enumerate()
        .fold(0, |word, (place, &level)| word | (level as u32) << place)
}

fn timer(timer: &raw::Timer) -> Timer {
    Timer {
        latch: timer.latch,
        counter: timer.counter,
        control: timer.control,
        divider: timer.divider,
        flag: timer.flag,
        armed: timer.armed,
        level: timer.level,
        running: timer.running,
        counted: timer.counted,
        timed_out: timer.lapsed,
    }
}

/// The 6846's levels as its last cycle sampled them.
fn sampled_6846(board: &raw::Board) -> u32 {
    let c = &board.combo;
    let lines = [
        c.cp1,
        c.cp2,
        c.timer.gate,
        c.timer.clock,
        board.levels6846 & 1 << 12 != 0,
    ];
    c.pins as u32 | bits(&lines) << 8
}

fn sampled_6840(board: &raw::Board) -> u32 {
    let [a, b, c] = &board.ptm.timers;
    let reset = board.levels6840 & 1 << 6 != 0;
    bits(&[a.clock, b.clock, c.clock, a.gate, b.gate, c.gate, reset])
}

/// The bit of the wired clock input: what its list says of it is ignored.
fn wired_bit(board: &raw::Board) -> u32 {
    match board.wire {
        1..=3 => 1 << (board.wire - 1),
        _ => 0,
    }
}

/// The level that CP2 drives, from the rest of the record: a cycle leaves no other.
pub fn driven(c: &raw::Combo) -> bool {
    match c.pcr >> 3 & 3 {
        0 => c.flag1 || c.raised,
        1 => !c.strobed,
        2 => false,
        _ => true,
    }
}

/// The second emulator has one field for the levels held and sampled and none for the level that CP2 drives, so a record
/// where they differ has no board there. Its book's end is below its room, and options are of any size in both.
pub fn has_twin(board: &raw::Board) -> bool {
    let heard = !wired_bit(board);
    board.levels6846 == sampled_6846(board)
        && board.levels6840 & heard == sampled_6840(board) & heard
        && board.combo.driven == driven(&board.combo)
        && board.ends.first < 64
}

pub fn twin(board: &raw::Board) -> second::Board {
    let c = &board.combo;
    second::Board {
        select: Select {
            rom_code: board.select.rom as u32,
            io_code: board.select.io as u32,
            a6: board.select.a6 as u32,
            extra: board.select.extra as u32,
        },
        wire: board.wire as u32,
        stamp_6846: board.stamp6846,
        stamp_6840: board.stamp6840,
        done_6846: board.done6846,
        done_6840: board.done6840,
        chip_6846: Chip6846 {
            levels: sampled_6846(board),
            timer: timer(&c.timer),
            port: Port {
                pcr: c.pcr,
                ddr: c.ddr,
                pdr: c.pdr,
                flag_1: c.flag1,
                armed_1: c.armed1,
                flag_2: c.flag2,
                armed_2: c.armed2,
                captured: c.captured,
                capture: c.capture,
                touched: c.touched,
                pulse: c.strobed,
                acknowledge: c.raised,
            },
            msb_buffer: c.msb,
            lsb_buffer: c.lsb,
        },
        chip_6840: Chip6840 {
            levels: sampled_6840(board),
            timers: [0, 1, 2].map(|i| timer(&board.ptm.timers[i])),
            msb_buffer: board.ptm.msb,
            lsb_buffer: board.ptm.lsb,
        },
        book: Book {
            cycles: board.places,
            first: board.ends.first,
            waiting: board.ends.waiting,
        },
    }
}

/// What of a board can be seen by anyone: places of the book that no change stands in are left out.
fn seen(board: &second::Board) -> second::Board {
    let mut seen = board.clone();
    let waiting = board.book.waiting.min(second::ROOM);
    let changes: Vec<u32> = (0..waiting).map(|place| board.book.change(place)).collect();
    seen.book.cycles = [0; 64];
    seen.book.cycles[..changes.len()].copy_from_slice(&changes);
    seen.book.first = 0;
    // Nobody sees what was captured once it is released.
    if !seen.chip_6846.port.captured {
        seen.chip_6846.port.capture = 0;
    }
    seen
}

/// Says in which fields the two differ, if they do.
pub fn differ(ours: &raw::Board, theirs: &second::Board) -> Option<String> {
    let mine = seen(&twin(ours));
    let theirs = seen(theirs);
    let same = has_twin(ours) && mine == theirs;
    (!same).then(|| format!("library {mine:?}\nsecond  {theirs:?}\nrecord {ours:?}"))
}
