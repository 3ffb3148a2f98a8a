//! Prints the size and place of every field of the record, one to a line: ctest/layout.c prints the same of the header.

use std::mem::{align_of, size_of, MaybeUninit};
use std::ptr::addr_of;
use vindoshaka::raw::*;

macro_rules! place_of {
    ($type:ident, $field:ident) => {{
        let it = MaybeUninit::<$type>::uninit();
        // SAFETY: addresses in a value that is there; nothing of it is read.
        unsafe { addr_of!((*it.as_ptr()).$field) as usize - it.as_ptr() as usize }
    }};
}

macro_rules! fields {
    ($name:literal, $type:ident, $($field:ident),+) => {
        println!("{} {} {}", $name, size_of::<$type>(), align_of::<$type>());
        $(println!("{}.{} {} {}", $name, stringify!($field), place_of!($type, $field), size_of_field(|it: &$type| &it.$field));)+
        // A pattern with no `..`: a field that is not named here does not compile.
        let _ = |it: $type| { let $type { $($field: _),+ } = it; };
    };
}

fn size_of_field<S, F>(_: impl Fn(&S) -> &F) -> usize {
    size_of::<F>()
}

fn main() {
    fields!(
        "timer", Timer, latch, counter, control, divider, flag, level, counted, lapsed, armed,
        running, gate, clock
    );
    fields!(
        "combo", Combo, timer, msb, lsb, pcr, ddr, pdr, capture, pins, flag1, armed1, flag2,
        armed2, captured, touched, strobed, raised, cp1, cp2, before1, before2, driven
    );
    fields!("ptm", Ptm, timers, msb, lsb);
    fields!("select", Select, rom, io, a6, extra);
    fields!("ends", Ends, first, waiting);
    fields!(
        "board", Board, select, wire, combo, ptm, levels6846, levels6840, stamp6846, stamp6840,
        ends, done6846, done6840, places
    );
    fields!("moved", Moved, number, count);
    fields!("started", Started, board, number);
    fields!("levels", Report, number, levels);
}
