//! Points of docs/DECISIONS.md, and the numbers no run file reaches.

mod common;
use common::*;
use second::Board;

const OUT: u32 = 0x82;
const OUT_IRQ: u32 = 0xc2;
const M100: u32 = 1 << 3;
const M101: u32 = 1 << 3 | 1 << 5;
const M110: u32 = 1 << 3 | 1 << 4;
const M111: u32 = 7 << 3;
const M010: u32 = 1 << 4;
const M001: u32 = 1 << 5;
const M011: u32 = 3 << 4;

/// A port out of its reset with that PCR.
fn port(pcr: u32) -> Bench {
    let mut bench = Bench::new(0, 77);
    bench.a6846(write_6846(1, pcr));
    bench
}

/// The flag bit of a timer in its status.
fn bit(which: u32) -> u16 {
    if which == 0 {
        1
    } else {
        1 << (which - 1)
    }
}

#[test]
fn a_status_read_sees_and_arms_a_flag_of_its_own_cycle() {
    for which in TIMERS {
        let mut bench = Bench::timer(which, 3, OUT_IRQ);
        bench.both(3);
        assert_eq!(bench.read_status(which), 128 | bit(which));
        bench.read_msb(which);
        assert!(bench.irq());
    }
}

#[test]
fn internal_reset_written_takes_hold_after_the_clock_of_its_cycle() {
    let mut bench = Bench::timer(0, 0, OUT);
    bench.both(1);
    assert!(bench.cto());
    bench.a6846(write_6846(5, OUT | 1));
    assert!(!bench.cto());
    // W makes the counter equal to the latch at once, and reads keep their side effects.
    bench.set_latch(0, 0x1234);
    assert_eq!(bench.read_msb(0), 0x12);
    assert_eq!(bench.read_lsb(0), 0x34);
    // A gate fall while held is not remembered.
    bench.gate(0, true);
    bench.gate(0, false);
    bench.set_latch(0, 2);
    bench.a6846(write_6846(5, OUT));
    assert_eq!(bench.changes(0, 7), [3, 6]);
}

#[test]
fn reset_low_answers_from_the_reset_state() {
    let mut bench = Bench::timer(0, 3, OUT_IRQ);
    bench.a6846(write_6846(1, 0x27));
    bench.a6846(write_6846(2, 0xff));
    bench.a6846(write_6846(3, 0xaa));
    bench.levels_6846 = ALL_6846 & !RESET_6846 & !P | 0x5c;
    let answers: Vec<u16> = (0..8)
        .map(|register| bench.a6846(read_6846(register)))
        .collect();
    assert_eq!(answers, [0, 128, 0, 0x5c, 0, 1, 255, 0]);
    assert_eq!(bench.a6846(write_6846(7, 9)), 256);
    assert_eq!(bench.a6846(3 | 300 << 4), bench.rom[300] as u16);
    assert_eq!(bench.report() & 0xff, 0x5c);
    bench.levels_6846 |= RESET_6846;
    assert_eq!(bench.a6846(read_6846(6)), 255);
    assert_eq!(bench.a6846(read_6846(7)), 255);

    let mut bench = Bench::timer(2, 3, OUT_IRQ);
    bench.levels_6840 &= !RESET_6840;
    let answers: Vec<u16> = (0..8)
        .map(|register| bench.a6840(read_6840(register)))
        .collect();
    assert_eq!(answers, [256, 0, 255, 0, 255, 0, 255, 0]);
}

#[test]
fn period_less_sets_its_flag_when_the_gate_falls_in_time() {
    for which in TIMERS {
        for (low, expect) in [(3, true), (4, true), (5, false)] {
            // Started by a gate fall; N=3 times out at the fourth clock after it.
            let mut bench = Bench::timer(which, 3, OUT_IRQ | M100);
            bench.gate(which, true);
            bench.gate(which, false);
            for _ in 0..low - 1 {
                bench.gate(which, true);
            }
            bench.gate(which, false);
            assert_eq!(!bench.irq(), expect, "timer {which} after {low}");
        }
    }
}

#[test]
fn period_greater_restarts_in_time_and_flags_at_time_out() {
    for which in TIMERS {
        let mut bench = Bench::timer(which, 3, OUT_IRQ | M101);
        bench.gate(which, true);
        for _ in 0..5 {
            bench.gate(which, false);
            bench.gate(which, true);
            bench.gate(which, true);
            bench.gate(which, true);
            assert!(bench.irq());
        }
        bench.gate(which, true);
        assert!(!bench.irq());
        // With the flag set a gate fall does nothing; W clears the flag.
        bench.gate(which, false);
        assert!(!bench.irq());
        bench.set_latch(which, 3);
        assert!(bench.irq());
        bench.both(10);
        assert!(bench.irq());
    }
}

#[test]
fn low_pulses_against_their_time_out() {
    for which in TIMERS {
        for (low, less, greater) in [(3, true, false), (4, true, false), (5, false, true)] {
            for (mode, expect) in [(M110, less), (M111, greater)] {
                let mut bench = Bench::timer(which, 3, OUT_IRQ | mode);
                bench.gate(which, true);
                for _ in 0..low {
                    bench.gate(which, false);
                }
                bench.gate(which, true);
                assert_eq!(!bench.irq(), expect, "timer {which} low {low} mode {mode}");
                assert!(!bench.pin(which));
            }
        }
    }
}

#[test]
fn the_divider_does_not_follow_the_gate() {
    for (which, divide) in [(0, 4), (3, 1)] {
        // Gate high over the first eighth clock: that clock is lost, the next comes eight later.
        let mut bench = Bench::timer(which, 0, OUT | divide);
        bench.gate(which, true);
        bench.both(9);
        bench.gate(which, false);
        assert_eq!(bench.changes(which, 30), [5, 13, 21, 29]);
    }
}

#[test]
fn a_change_of_clock_source_keeps_the_divider() {
    let mut bench = Bench::timer(0, 0, OUT | 4);
    bench.both(5);
    // This cycle is the sixth clock; the next ones wait for CTC.
    bench.a6846(write_6846(5, 0x84));
    bench.both(20);
    for _ in 0..2 {
        assert!(!bench.cto());
        bench.levels_6846 |= CTC;
        bench.a6846(0);
        bench.levels_6846 &= !CTC;
        bench.a6846(0);
    }
    assert!(bench.cto());
}

#[test]
fn a_single_shot_raises_nothing_late() {
    // Bit 2 left in mid-count: the level is not raised afterwards.
    let mut bench = Bench::timer(1, 0x0104, OUT | M011 | 4);
    bench.both(1);
    bench.a6840(write_6840(0, OUT | M011));
    assert!(bench.wave(1, 400).into_iter().all(|high| !high));
}

#[test]
fn a_dual_single_shot_is_high_in_one_count_only() {
    for mode in [M001, M011] {
        for which in [1, 2, 3] {
            let wave = Bench::timer(which, 0x0102, OUT | mode | 4).wave(which, 30);
            for (i, high) in wave.into_iter().enumerate() {
                assert_eq!(high, i == 3 || i == 4, "clock {}", i + 1);
            }
        }
    }
}

#[test]
fn the_level_runs_on_while_the_output_is_off() {
    let mut bench = Bench::timer(0, 4, 0x02);
    bench.both(5);
    assert!(!bench.cto());
    bench.a6846(write_6846(5, OUT));
    assert!(bench.cto());
}

#[test]
fn cascaded_takes_bit_7_at_time_out() {
    let mut bench = Bench::timer(0, 5, OUT | M001);
    assert_eq!(
        bench.wave(0, 7),
        [false, false, false, false, false, true, true]
    );
    // Bit 7 cleared shows at the next time-out only; a gate fall keeps the level.
    bench.a6846(write_6846(5, 0x02 | M001));
    assert!(bench.cto());
    bench.gate(0, true);
    bench.gate(0, false);
    assert!(bench.cto());
    assert_eq!(bench.wave(0, 6), [true, true, true, true, true, false]);
    // W changes the latch alone.
    bench.set_latch(0, 9);
    bench.both(1);
    bench.read_msb(0);
    assert!(bench.read_lsb(0) < 9);
}

#[test]
fn a_latch_write_initialises_where_the_table_says_so() {
    for which in TIMERS {
        for (mode, initialises) in [(0, true), (M010, false), (M001, which != 0), (M011, false)] {
            let mut bench = Bench::timer(which, 5, OUT_IRQ | mode);
            bench.both(7);
            assert!(!bench.irq());
            bench.set_latch(which, 200);
            assert_eq!(bench.irq(), initialises, "timer {which} mode {mode}");
            bench.read_msb(which);
            let low = bench.read_lsb(which);
            assert_eq!(
                low == 199,
                initialises,
                "timer {which} mode {mode} low {low}"
            );
        }
    }
}

#[test]
fn a_mode_change_keeps_flag_counter_and_divider() {
    let mut bench = Bench::timer(0, 5, OUT_IRQ);
    bench.both(6);
    assert!(bench.cto() && !bench.irq());
    bench.a6846(write_6846(5, OUT_IRQ | M010));
    assert!(!bench.cto() && !bench.irq());
    bench.read_msb(0);
    assert_eq!(bench.read_lsb(0), 3);
}

#[test]
fn register_zero_goes_by_cr20_before_the_write() {
    let mut bench = Bench::new(0, 0);
    // CR20=0: CR3. The internal reset stays.
    bench.a6840(write_6840(0, 0));
    bench.set_latch(1, 0x0102);
    bench.both(3);
    assert_eq!(bench.read_msb(1), 1);
    assert_eq!(bench.read_lsb(1), 2);
    bench.a6840(write_6840(1, 1));
    bench.low_6840(8);
    bench.a6840(write_6840(0, OUT));
    bench.both(1);
    bench.read_msb(1);
    assert_eq!(bench.read_lsb(1), 0);
}

#[test]
fn the_lsb_buffer_is_one_for_three_timers() {
    let mut bench = Bench::new(0, 0);
    for (which, latch) in [(1, 0x1122), (2, 0x3344), (3, 0x5566)] {
        bench.set_latch(which, latch);
    }
    assert_eq!(bench.read_msb(2), 0x33);
    for which in 1..=3 {
        assert_eq!(bench.read_lsb(which), 0x44);
    }
}

#[test]
fn captures() {
    let mut bench = port(4);
    bench.levels_6846 = ALL_6846 & !P | 0x12;
    // Nothing captured: the pins.
    assert_eq!(bench.a6846(read_6846(3)), 0x12);
    bench.levels_6846 &= !CP1;
    bench.a6846(0);
    bench.levels_6846 = ALL_6846 & !P | 0x34;
    bench.a6846(0);
    // A second edge changes nothing; a report shows the pins; a write releases nothing.
    bench.levels_6846 &= !CP1;
    bench.a6846(0);
    assert_eq!(bench.report() & 0xff, 0x34);
    bench.a6846(write_6846(3, 0));
    bench.a6846(write_6846(2, 0xf0));
    assert_eq!(bench.a6846(read_6846(3)), 0x02);
    assert_eq!(bench.a6846(read_6846(3)), 0x04);
}

#[test]
fn capture_enable_in_the_cycle_of_the_edge() {
    // Written on: captures nothing.
    let mut bench = port(0);
    bench.levels_6846 = ALL_6846 & !P & !CP1 | 0x12;
    bench.a6846(write_6846(1, 4));
    bench.levels_6846 = ALL_6846 & !P & !CP1 | 0x34;
    assert_eq!(bench.a6846(read_6846(3)), 0x34);
    // Written off: releases at once.
    let mut bench = port(4);
    bench.levels_6846 = ALL_6846 & !P & !CP1 | 0x12;
    bench.a6846(write_6846(1, 0));
    bench.a6846(write_6846(1, 4));
    bench.levels_6846 = ALL_6846 & !P & !CP1 | 0x34;
    assert_eq!(bench.a6846(read_6846(3)), 0x34);
}

#[test]
fn port_flags_and_enables() {
    // CP1 falling, CP2 rising, both enabled.
    let mut bench = port(0b1_1001);
    bench.low_6846(CP1 | CP2);
    assert!(!bench.irq());
    assert_eq!(bench.a6846(read_6846(0)), 0x82);
    bench.low_6846(CP1);
    assert_eq!(bench.a6846(write_6846(3, 0)), 256);
    // Flag 1 was armed, flag 2 came later.
    assert_eq!(bench.a6846(read_6846(4)), 0x84);
    // As an output CP2 keeps the flag readable, and it enables nothing.
    bench.a6846(write_6846(1, 0b11_1001));
    assert!(bench.irq());
    assert_eq!(bench.a6846(read_6846(4)), 0x04);
    bench.a6846(read_6846(3));
    assert_eq!(bench.a6846(read_6846(4)), 0);
    // PCR6 stores 0.
    bench.a6846(write_6846(1, 0xff));
    assert_eq!(bench.a6846(read_6846(1)), 0xbf);
}

#[test]
fn port_reset_bit() {
    let mut bench = port(0x80);
    bench.a6846(write_6846(2, 0xff));
    bench.a6846(write_6846(3, 0xff));
    bench.low_6846(CP1 | CP2);
    assert_eq!(bench.a6846(read_6846(2)), 0);
    assert_eq!(bench.a6846(read_6846(0)), 0);
    // CP2 still follows PCR3-PCR5.
    bench.a6846(write_6846(1, 0b1011_0000));
    assert!(!bench.cp2());
    bench.a6846(write_6846(1, 0b1011_1000));
    assert!(bench.cp2());
}

#[test]
fn stored_bits_survive_changes_of_direction() {
    let mut bench = port(0);
    bench.a6846(write_6846(2, 0xff));
    bench.a6846(write_6846(3, 0xa5));
    bench.a6846(write_6846(2, 0x00));
    bench.a6846(write_6846(3, 0x00));
    bench.a6846(write_6846(2, 0xff));
    assert_eq!(bench.a6846(read_6846(3)), 0xa5);
}

#[test]
fn cp2_pulse() {
    let mut bench = port(0b10_1000);
    assert!(bench.cp2());
    bench.a6846(read_6846(3));
    assert!(bench.cp2());
    bench.both(1);
    assert!(!bench.cp2());
    bench.both(1);
    assert!(bench.cp2());
    // Two accesses in a row: low for two cycles.
    bench.a6846(write_6846(3, 0));
    bench.a6846(write_6846(3, 0));
    assert!(!bench.cp2());
    bench.both(1);
    assert!(!bench.cp2());
    bench.both(1);
    assert!(bench.cp2());
    // The access counts whatever PCR then was.
    bench.a6846(write_6846(1, 0));
    bench.a6846(read_6846(3));
    bench.a6846(write_6846(1, 0b10_1000));
    assert!(!bench.cp2());
    // One during RESET does not.
    bench.levels_6846 &= !RESET_6846;
    bench.a6846(read_6846(3));
    bench.levels_6846 |= RESET_6846;
    bench.a6846(write_6846(1, 0b10_1000));
    assert!(bench.cp2());
}

#[test]
fn cp2_acknowledge() {
    let mut bench = port(0b10_0000);
    assert!(!bench.cp2());
    bench.low_6846(CP1);
    assert!(bench.cp2());
    bench.a6846(read_6846(0));
    bench.a6846(read_6846(3));
    assert!(bench.cp2());
    bench.both(1);
    assert!(!bench.cp2());
    // Cleared by PCR7: high in that cycle too.
    bench.low_6846(0);
    bench.low_6846(CP1);
    bench.a6846(write_6846(1, 0b1010_0000));
    assert!(bench.cp2());
    bench.both(1);
    assert!(!bench.cp2());
}

#[test]
fn a_bad_event_stops_at_once_however_far_ahead() {
    for (levels, access) in [
        (1 << 13, 0),
        (0, 1 | 1 << 15),
        (0, 1 | 1 << 24),
        (0, 3 | 1 << 16),
        (0, 2),
        (0, 1 << 16),
        (0, 1 << 14),
    ] {
        let mut bench = Bench::new(0, 5);
        bench.put_6846(1000, levels, access);
        assert_eq!(bench.go_6846(10), (5, 0));
        assert_eq!(bench.go_6846(0), (0, 0));
    }
    for (levels, access) in [
        (1 << 7, 0),
        (0, 1 | 1 << 5),
        (0, 1 | 1 << 15),
        (0, 1 | 1 << 31),
        (0, 3 | 1 << 23),
        (0, 4),
    ] {
        let mut bench = Bench::new(0, 5);
        bench.put_6840(1000, levels, access);
        assert_eq!(bench.go_6840(10), (5, 0));
        assert_eq!(bench.go_6840(0), (0, 0));
    }
    // A good event, then one of the same cycle.
    let mut bench = Bench::new(0, u32::MAX);
    bench.put_6840(3, ALL_6840, 0);
    bench.put_6840(3, ALL_6840, 0);
    assert_eq!(bench.go_6840(10), (5, 4));
    assert_eq!(bench.answers_6840, [256, 43981]);
}

#[test]
fn the_wire_gives_the_level_after_the_cycle_before() {
    for wire in 1..=3 {
        let mut bench = Bench::new(wire, u32::MAX - 20);
        bench.levels_6846 &= !CTG;
        bench.set_latch(0, 1);
        bench.low_6840(0);
        bench.levels_6840 = ALL_6840 & !(4 << wire);
        bench.set_latch(wire, 2);
        // Continuous, external clock: counts the falls of CTO; the wired bit is ignored.
        bench.release(wire, 0xc0);
        bench.release(0, OUT);
        // CTO falls at clocks 4, 8, 12; the 6840 sees them one cycle later, in any order of moves.
        let mut other = Board::start(0, 1, 0, 0, wire, 0).0;
        std::mem::swap(&mut other, &mut bench.board);
        bench.board = other.clone();
        assert_eq!(bench.first_irq(40), Some(13));
        bench.board = other;
        assert_eq!(bench.go_6846(40), (0, 40));
        assert_eq!(bench.board.stamps().2, 20);
        assert_eq!(bench.go_6840(39), (0, 39));
        // The change of the last cycle waits on.
        assert_eq!(bench.board.stamps().2, 1);
        assert_eq!(bench.go_6840(9), (6, 2));
        assert_eq!(bench.board.stamps().2, 0);
    }
}

#[test]
fn without_a_wire_nothing_waits() {
    let mut bench = Bench::timer(0, 0, OUT);
    assert_eq!(bench.go_6846(1000), (0, 1000));
    assert_eq!(bench.board.stamps().2, 0);
}

#[test]
fn before_the_first_cycle() {
    let (board, number) = Board::start(2, 3, 2, 10, 3, 99);
    assert_eq!(number, 0);
    assert_eq!(board.report(), (0, 0x21ff));
    assert_eq!(board.stamps(), (99, 99, 0));
}

#[test]
fn refused_starts() {
    let (plain, _) = Board::start(0, 1, 0, 0, 0, 0);
    for options in [
        [4, 1, 0, 0, 0],
        [0, 4, 0, 0, 0],
        [2, 2, 0, 0, 0],
        [0, 1, 3, 0, 0],
        [0, 1, 0, 1, 0],
        [0, 1, 0, 6, 0],
        [0, 1, 0, 11, 0],
        [0, 1, 0, 0, 4],
        [u32::MAX; 5],
    ] {
        let [rom, io, a6, extra, wire] = options;
        let (board, number) = Board::start(rom, io, a6, extra, wire, 55);
        assert_eq!(number, 1);
        assert_eq!(board, plain);
    }
}

#[test]
fn refusals_in_their_order_do_nothing() {
    let mut bench = Bench::new(1, 10);
    bench.put_6846(11, ALL_6846, 0);
    bench.put_6840(11, ALL_6840, 0);
    let good = bench.board.clone();
    let rom = bench.rom.clone();
    let events = [11, ALL_6846, 0];
    let mut places = [7u16; 1];
    assert_eq!(
        bench.board.move_6846(&rom[..100], &events[..2], &mut [], 0),
        (2, 0)
    );
    assert_eq!(
        bench.board.move_6846(&rom, &events[..2], &mut [], 0),
        (3, 0)
    );
    assert_eq!(bench.board.move_6846(&rom, &events, &mut [], 0), (4, 0));
    assert_eq!(bench.board.move_6840(&[11, ALL_6840], &mut [], 5), (3, 0));
    assert_eq!(
        bench.board.move_6840(&[11, ALL_6840, 0], &mut [], 5),
        (4, 0)
    );
    assert_eq!(bench.board, good);
    assert_eq!(bench.board.move_6846(&rom, &events, &mut places, 1), (0, 1));
    assert_eq!(places, [256]);
    // Fewer events than were done.
    assert_eq!(bench.board.move_6846(&rom, &[], &mut places, 1), (3, 0));
    assert_eq!(bench.board.report(), (8, 0));
}

#[test]
fn records_outside_their_ranges() {
    let spoils: [fn(&mut Board); 14] = [
        |b| b.select.rom_code = 4,
        |b| b.select.io_code = b.select.rom_code,
        |b| b.select.a6 = 3,
        |b| b.select.extra = 6,
        |b| b.wire = 4,
        |b| b.chip_6846.timer.divider = 8,
        |b| b.chip_6840.timers[2].divider = 8,
        |b| b.book.waiting = 65,
        |b| b.stamp_6840 = b.stamp_6846.wrapping_add(2),
        |b| b.stamp_6846 = b.stamp_6840.wrapping_add(65_537),
        |b| {
            b.book.waiting = 1;
            b.book.cycles[b.book.first as usize] = b.stamp_6840.wrapping_sub(1);
        },
        |b| {
            b.book.waiting = 1;
            b.book.cycles[b.book.first as usize] = b.stamp_6846.wrapping_add(1);
        },
        |b| {
            b.stamp_6846 = b.stamp_6840.wrapping_add(9);
            b.book.waiting = 2;
            b.book.first = 63;
            b.book.cycles[63] = b.stamp_6840.wrapping_add(3);
            b.book.cycles[0] = b.stamp_6840.wrapping_add(3);
        },
        |b| {
            b.wire = 0;
            b.book.waiting = 1;
            b.book.cycles[b.book.first as usize] = b.stamp_6840;
        },
    ];
    for (i, spoil) in spoils.into_iter().enumerate() {
        let (mut board, _) = Board::start(0, 1, 0, 0, 1, 3);
        spoil(&mut board);
        let before = board.clone();
        assert_eq!(board.report(), (9, 0), "spoil {i}");
        assert_eq!(board.move_6846(&[], &[1], &mut [], 0), (9, 0));
        assert_eq!(board.move_6840(&[1], &mut [], 0), (9, 0));
        assert_eq!(board, before);
    }
    // Both ends of a change's range, and the ends of the lead, are good.
    let (mut board, _) = Board::start(0, 1, 0, 0, 1, u32::MAX);
    board.stamp_6846 = 5;
    board.book.waiting = 2;
    board.book.cycles[0] = u32::MAX;
    board.book.cycles[1] = 5;
    assert_eq!(board.report().0, 8);
    let (mut board, _) = Board::start(0, 1, 0, 0, 0, 0);
    board.stamp_6840 = 65_536;
    assert_eq!(board.report().0, 8);
    board.stamp_6840 = 65_537;
    assert_eq!(board.report().0, 9);
}

#[test]
fn what_an_access_reaches() {
    // A6 must be 1 and A9 must be 1.
    let (mut board, _) = Board::start(3, 2, 1, 9, 0, 0);
    let rom: Vec<u8> = (0..2048u32).map(|i| (i ^ i >> 3) as u8).collect();
    let mut ask = |code: u32, address: u32, read: bool| {
        let stamp = board.stamps().0;
        let mut places = vec![0u16; board.done_6846 + 1];
        let mut events = vec![0; board.done_6846 * 3];
        let access = 1 | (read as u32) << 1 | code << 2 | address << 4;
        events.extend([stamp + 1, ALL_6846, access]);
        assert_eq!(board.move_6846(&rom, &events, &mut places, 1), (0, 1));
        *places.last().unwrap()
    };
    assert_eq!(ask(3, 2047, true), rom[2047] as u16);
    assert_eq!(ask(3, 2047, false), 256);
    assert_eq!(ask(2, 0x241, true), 128);
    assert_eq!(ask(2, 0x7c1 & !0x38, true), 128);
    assert_eq!(ask(2, 0x201, true), 256);
    assert_eq!(ask(2, 0x041, true), 256);
    for line in 3..=5 {
        assert_eq!(ask(2, 0x241 | 1 << line, true), 256);
    }
    assert_eq!(ask(0, 0x241, true), 256);
    assert_eq!(ask(1, 0x241, true), 256);
}
