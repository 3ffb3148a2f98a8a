//! The numbered runs 1 to 13.

mod common;
use common::*;

/// Output enabled, internal clock.
const OUT: u32 = 0x82;
/// The same with the interrupt enabled.
const OUT_IRQ: u32 = 0xc2;
const SINGLE_001: u32 = 1 << 5;
const SINGLE_011: u32 = 1 << 5 | 1 << 4;

#[test]
fn run_1_sixteen_bit() {
    for which in TIMERS {
        assert_eq!(Bench::timer(which, 3, OUT).changes(which, 11), [4, 8]);
        assert_eq!(Bench::timer(which, 3, OUT_IRQ).first_irq(20), Some(4));
    }
}

#[test]
fn run_2_latch_zero() {
    for which in TIMERS {
        assert_eq!(
            Bench::timer(which, 0, OUT).changes(which, 5),
            [1, 2, 3, 4, 5]
        );
    }
}

#[test]
fn run_3_divided() {
    assert_eq!(Bench::timer(0, 3, OUT | 4).changes(0, 70), [32, 64]);
    assert_eq!(Bench::timer(3, 3, OUT | 1).changes(3, 70), [32, 64]);
}

#[test]
fn run_4_dual() {
    for which in [1, 2, 3] {
        let mut bench = Bench::timer(which, 0x0304, OUT_IRQ | 4);
        let wave = bench.wave(which, 45);
        for clock in 1..=45u32 {
            let high = (16..=19).contains(&(clock % 20));
            assert_eq!(
                wave[clock as usize - 1],
                high,
                "timer {which} clock {clock}"
            );
        }
        assert_eq!(
            Bench::timer(which, 0x0304, OUT_IRQ | 4).first_irq(40),
            Some(20)
        );
    }
}

#[test]
fn run_5_same_latch_sixteen_bit() {
    for which in TIMERS {
        assert_eq!(Bench::timer(which, 0x0304, OUT).changes(which, 800), [773]);
    }
}

#[test]
fn run_6_dual_low_byte_zero() {
    for which in [1, 2, 3] {
        assert_eq!(
            Bench::timer(which, 0x0300, OUT | 4).changes(which, 11),
            [4, 8]
        );
        assert_eq!(
            Bench::timer(which, 0x0300, OUT_IRQ | 4).first_irq(20),
            Some(4)
        );
    }
}

#[test]
fn run_7_single_shot() {
    for which in TIMERS {
        for mode in [SINGLE_001, SINGLE_011] {
            // On the 6846, 001 is cascaded.
            if which == 0 && mode == SINGLE_001 {
                continue;
            }
            let wave = Bench::timer(which, 3, OUT | mode).wave(which, 20);
            for (i, high) in wave.into_iter().enumerate() {
                assert_eq!(high, i < 3);
            }
            let never = Bench::timer(which, 0, OUT | mode).wave(which, 20);
            assert!(never.into_iter().all(|high| !high));
        }
    }
}

#[test]
fn run_8_port() {
    let mut bench = Bench::new(0, 0);
    bench.a6846(write_6846(1, 0));
    bench.a6846(write_6846(2, 15));
    bench.a6846(write_6846(3, 165));
    bench.levels_6846 = ALL_6846 & !P | 60;
    assert_eq!(bench.a6846(read_6846(3)), 53);
    assert_eq!(bench.report() & 255, 53);
}

#[test]
fn run_9_flag_cleared_by_the_armed_sequence() {
    for which in TIMERS {
        let mut bench = Bench::timer(which, 3, 194);
        bench.both(4);
        assert!(!bench.irq());
        let bit = if which == 0 { 1 } else { 1 << (which - 1) };
        assert_eq!(bench.read_status(which), 128 | bit);
        assert!(!bench.irq());
        assert_eq!(bench.read_msb(which), 0);
        assert!(bench.irq());
        assert_eq!(bench.read_lsb(which), 1);
    }
}

#[test]
fn run_10_flag_stays_without_the_status_read() {
    for which in TIMERS {
        let mut bench = Bench::timer(which, 3, 194);
        bench.both(5);
        assert_eq!(bench.read_msb(which), 0);
        assert!(!bench.irq());
        assert_eq!(bench.read_lsb(which), 1);
        assert!(!bench.irq());
    }
}

#[test]
fn run_11_how_far_an_event_may_be_ahead() {
    for stamp in [0u32, 5, 0x7fff_fff0, 0x8000_0000, u32::MAX] {
        for (ahead, good) in [
            (1, true),
            (2_147_483_647, true),
            (0, false),
            (2_147_483_648u32, false),
        ] {
            let mut bench = Bench::new(0, stamp);
            bench.put_6846(stamp.wrapping_add(ahead), ALL_6846, 0);
            bench.put_6840(stamp.wrapping_add(ahead), ALL_6840, 0);
            let expected = if good { (0, 1) } else { (5, 0) };
            assert_eq!(bench.go_6846(1), expected);
            assert_eq!(bench.go_6840(1), expected);
            let place = if ahead == 1 { 256 } else { 43981 };
            assert_eq!(
                (bench.answers_6846[0], bench.answers_6840[0]),
                (place, place)
            );
        }
    }
}

#[test]
fn run_12_the_longest_lead() {
    for stamp in [0, u32::MAX - 100] {
        for wire in 0..=3 {
            let mut bench = Bench::new(wire, stamp);
            assert_eq!(bench.go_6846(65_535), (0, 65_535));
            assert_eq!(bench.go_6846(1), (0, 1));
            assert_eq!(bench.go_6846(1), (6, 0));
            assert_eq!(bench.go_6840(1), (0, 1));
            assert_eq!(bench.go_6846(2), (6, 1));
        }
        let mut bench = Bench::new(0, stamp);
        assert_eq!(bench.go_6840(70_000), (6, 65_536));
        assert_eq!(bench.go_6846(1), (0, 1));
        assert_eq!(bench.go_6840(2), (6, 1));
    }
    for wire in 1..=3 {
        let mut bench = Bench::new(wire, 9);
        assert_eq!(bench.go_6840(5), (6, 1));
    }
}

/// A wired bench whose CTO changes every cycle of the 6846 from the next on.
fn fast(wire: u32, latch: u32) -> Bench {
    let mut bench = Bench::new(wire, u32::MAX - 40);
    bench.gate(0, false);
    bench.set_latch(0, latch);
    bench.release(0, OUT);
    bench
}

#[test]
fn run_13_the_full_book() {
    for wire in 1..=3 {
        let mut bench = fast(wire, 0);
        assert_eq!(bench.go_6846(100), (7, 64));
        assert_eq!(bench.board.stamps().2, 64);
        assert_eq!(bench.go_6846(1), (7, 0));
        // A change of cycle c leaves when the 6840 has done cycle c+1.
        assert_eq!(bench.go_6840(1), (0, 1));
        assert_eq!(bench.go_6846(1), (7, 0));
        assert_eq!(bench.go_6840(1), (0, 1));
        assert_eq!(bench.go_6846(5), (7, 1));

        // Every second cycle changes: the one between is done with 64 waiting.
        let mut bench = fast(wire, 1);
        assert_eq!(bench.go_6846(1000), (7, 129));
        assert_eq!(bench.board.stamps().2, 64);
    }
}

#[test]
fn run_13_an_event_whose_cycle_stops_stays_undone() {
    let mut bench = fast(1, 0);
    assert_eq!(bench.go_6846(64), (0, 64));
    let stamp = bench.board.stamps().0;
    bench.put_6846(stamp.wrapping_add(1), bench.levels_6846, read_6846(5));
    let before = bench.board.clone();
    assert_eq!(bench.go_6846(1), (7, 0));
    assert_eq!(bench.board, before);
    assert_eq!(*bench.answers_6846.last().unwrap(), 43981);
    bench.go_6840(2);
    assert_eq!(bench.go_6846(1), (0, 1));
    assert_eq!(*bench.answers_6846.last().unwrap(), OUT as u16);
}
