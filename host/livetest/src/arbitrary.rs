//! Arbitrary input: any record, slices, lengths and counts. Each call returns, twice the same, and a refusal changes nothing.

use crate::traffic;
use crate::twin;
use second::rng::Rng;
use vindoshaka::raw::{self, Board as Record};
use vindoshaka::{Board, Moved, Number};

/// What a move can return: 1 is start's, 8 the report's.
const OF_A_MOVE: [usize; 8] = [0, 2, 3, 4, 5, 6, 7, 9];

#[derive(Default)]
pub struct Tally {
    pub calls: u64,
    pub numbers: [u64; 10],
    /// Calls that were held against the second emulator too; those that went on from a record that no cycle leaves were not.
    pub compared: u64,
    pub skipped: u64,
    /// Those that were held against it, by their numbers.
    pub compared_of: [u64; 10],
}

impl Tally {
    /// A full run compares every number that a move can return.
    pub fn check(&self) {
        for number in OF_A_MOVE {
            assert!(
                self.compared_of[number] > 0,
                "number {number} was never compared"
            );
        }
    }
}

fn timer(rng: &mut Rng) -> raw::Timer {
    raw::Timer {
        latch: rng.word() as u16,
        counter: rng.word() as u16,
        control: rng.word() as u8,
        divider: rng.word() as u8,
        flag: rng.chance(50),
        armed: rng.chance(50),
        level: rng.chance(50),
        running: rng.chance(50),
        counted: rng.chance(50),
        lapsed: rng.chance(50),
        gate: rng.chance(50),
        clock: rng.chance(50),
    }
}

fn record(rng: &mut Rng) -> Record {
    Record {
        select: raw::Select {
            rom: rng.word() as u8,
            io: rng.word() as u8,
            a6: rng.word() as u8,
            extra: rng.word() as u8,
        },
        wire: rng.word() as u8,
        combo: raw::Combo {
            timer: timer(rng),
            msb: rng.word() as u8,
            lsb: rng.word() as u8,
            pcr: rng.word() as u8,
            ddr: rng.word() as u8,
            pdr: rng.word() as u8,
            capture: rng.word() as u8,
            pins: rng.word() as u8,
            flag1: rng.chance(50),
            armed1: rng.chance(50),
            flag2: rng.chance(50),
            armed2: rng.chance(50),
            captured: rng.chance(50),
            touched: rng.chance(50),
            strobed: rng.chance(50),
            raised: rng.chance(50),
            cp1: rng.chance(50),
            cp2: rng.chance(50),
            before1: rng.chance(50),
            before2: rng.chance(50),
            driven: rng.chance(50),
        },
        ptm: raw::Ptm {
            timers: [timer(rng), timer(rng), timer(rng)],
            msb: rng.word() as u8,
            lsb: rng.word() as u8,
        },
        levels6846: rng.word(),
        levels6840: rng.word(),
        stamp6846: rng.word(),
        stamp6840: rng.word(),
        ends: raw::Ends {
            first: rng.word(),
            waiting: rng.word(),
        },
        done6846: rng.next() as usize,
        done6840: rng.next() as usize,
        places: [(); 64].map(|_| rng.word()),
    }
}

/// A word of levels.
struct Lines(u32);

impl Lines {
    fn high(&self, bit: usize) -> bool {
        self.0 >> bit & 1 != 0
    }
}

/// Puts one part of the record into its range, or near its edge.
fn tame(rng: &mut Rng, record: &mut Record) {
    let options = traffic::options(rng);
    record.select = raw::Select {
        rom: options.rom_code as u8,
        io: options.io_code as u8,
        a6: options.a6 as u8,
        extra: options.extra as u8,
    };
    record.wire = options.wire as u8;
    record.combo.timer.divider = if rng.chance(2) { 8 } else { rng.below(8) as u8 };
    for timer in &mut record.ptm.timers {
        timer.divider %= 8;
    }
    let lead = match rng.below(4) {
        0 => rng.between(0, 100),
        1 => rng.between(65_530, 65_537),
        2 if record.wire == 0 => rng.between(0, 65_537).wrapping_neg(),
        _ => rng.pick(&[0, 1, u32::MAX, u32::MAX - 1]),
    };
    record.stamp6846 = record.stamp6840.wrapping_add(lead);
    // Waiting changes in order, mostly.
    let room = (lead as i32).max(0) as u32;
    let waiting = rng.below(room.min(64) + 2).min(64);
    record.ends.waiting = if record.wire == 0 { 0 } else { waiting };
    if rng.chance(2) {
        record.ends.waiting = rng.pick(&[1, 64, 65, u32::MAX]);
    }
    if rng.chance(80) {
        record.ends.first %= 64;
    }
    let mut at = record.stamp6840;
    for place in 0..record.ends.waiting.min(64) {
        let slot = (record.ends.first % 64 + place) % 64;
        record.places[slot as usize] = at;
        at = at.wrapping_add(if rng.chance(90) { 1 } else { rng.between(1, 3) });
    }
    record.done6846 = rng.below(6) as usize;
    record.done6840 = rng.below(6) as usize;
    // The levels as the last cycle sampled them, so that the second emulator has such a board.
    if rng.chance(70) {
        record.levels6846 %= 1 << 13;
        record.levels6840 %= 1 << 7;
        let (c, l) = (&mut record.combo, Lines(record.levels6846));
        (c.pins, c.cp1, c.cp2) = (record.levels6846 as u8, l.high(8), l.high(9));
        (c.timer.gate, c.timer.clock) = (l.high(10), l.high(11));
        let l = Lines(record.levels6840);
        for (i, timer) in record.ptm.timers.iter_mut().enumerate() {
            (timer.clock, timer.gate) = (l.high(i), l.high(i + 3));
        }
    }
}

/// A timer as a cycle leaves it: held clear by internal reset, divider 0 while off, no arm without a flag, no level or
/// mark of another mode.
fn settle_timer(timer: &mut raw::Timer, held: bool, divided: bool) {
    let interval = timer.control & 8 != 0;
    if held {
        timer.counter = timer.latch;
        timer.flag = false;
        timer.counted = false;
        timer.lapsed = false;
    }
    timer.divider *= (divided && !held) as u8;
    timer.level &= !held && !interval;
    timer.running &= !held && interval;
    timer.armed &= timer.flag;
}

/// Puts the record into a state that cycles leave: in others that are in ranges the second emulator may go another way.
fn settle(record: &mut Record) {
    let tcr = record.combo.timer.control;
    settle_timer(&mut record.combo.timer, tcr & 1 != 0, tcr & 4 != 0);
    let held = record.ptm.timers[0].control & 1 != 0;
    let divided = record.ptm.timers[2].control & 1 != 0;
    let [one, two, three] = &mut record.ptm.timers;
    settle_timer(one, held, false);
    settle_timer(two, held, false);
    settle_timer(three, held, divided);
    let c = &mut record.combo;
    c.pcr &= !64;
    if c.pcr & 128 != 0 {
        (c.ddr, c.pdr) = (0, 0);
        (c.flag1, c.flag2, c.captured) = (false, false, false);
    }
    c.armed1 &= c.flag1;
    c.armed2 &= c.flag2;
    c.captured &= c.pcr & 4 != 0;
    c.raised |= c.flag1;
    c.driven = twin::driven(c);
}

pub fn is_settled(record: &Record) -> bool {
    let mut settled = *record;
    settle(&mut settled);
    settled == *record
}

/// A list: any words, or events that the chip may well take.
fn words(rng: &mut Rng, stamp: u32, done: usize, first: bool) -> Vec<u32> {
    if rng.chance(20) {
        let length = rng.pick(&[0, 1, 2, 3, 4, 17, 30]);
        return (0..length).map(|_| rng.word()).collect();
    }
    let mut at = stamp;
    let mut words = Vec::new();
    let events = (done as u32 % 8 + rng.below(6)) as usize;
    for event in 0..events {
        if event >= done {
            at = at.wrapping_add(rng.between(1, 9));
        }
        let options = Default::default();
        let (levels, access) = if first {
            (rng.word() & 0x1fff, traffic::access_6846(rng, &options))
        } else {
            (rng.word() & 0x7f, traffic::access_6840(rng))
        };
        let good = [at, levels, access];
        words.extend(if rng.chance(10) {
            traffic::spoiled(rng, good)
        } else {
            good
        });
    }
    if rng.chance(5) {
        words.push(rng.word());
    }
    words
}

/// One call, twice from the same input.
fn twice(
    board: &Board,
    places: &[u16],
    call: impl Fn(&mut Board, &mut [u16]) -> Moved,
) -> (Moved, Board, Vec<u16>) {
    let (mut a, mut b) = (board.clone(), board.clone());
    let (mut xs, mut ys) = (places.to_vec(), places.to_vec());
    let moved = call(&mut a, &mut xs);
    assert_eq!(call(&mut b, &mut ys), moved, "twice the same");
    assert_eq!((&a, &xs), (&b, &ys), "twice the same");
    if !matches!(moved.number, Number::Done) && !moved.number.is_stop() {
        assert_eq!(moved.count, 0);
        assert_eq!(&a, board, "a refusal changes the record");
        assert_eq!(xs, places, "a refusal changes the answers");
    }
    (moved, a, xs)
}

pub fn run(seed: u64, calls: u64) -> Tally {
    let mut rng = Rng::new(seed);
    let mut tally = Tally::default();
    while tally.calls < calls {
        let mut record = record(&mut rng);
        if rng.chance(90) {
            tame(&mut rng, &mut record);
            if rng.chance(70) {
                settle(&mut record);
            }
        }
        let board = Board::from_record(record);
        let first = rng.chance(50);
        let (stamp, done) = if first {
            (record.stamp6846, record.done6846)
        } else {
            (record.stamp6840, record.done6840)
        };
        let words = words(&mut rng, stamp, done, first);
        let rom_length = rng.pick(&[2048, 2048, 2048, 2048, 0, 1, 2047, 2049]);
        let rom: Vec<u8> = (0..rom_length).map(|_| rng.word() as u8).collect();
        let events = words.len() / 3;
        let places = match rng.below(8) {
            0 => rng.below(4) as usize,
            1 => events + 3,
            2 => events.saturating_sub(1),
            _ => events,
        };
        let places: Vec<u16> = (0..places).map(|_| rng.word() as u16).collect();
        let cycles = match rng.below(100) {
            0..=9 => 0,
            10..=29 => 1,
            30..=98 => rng.between(2, 60),
            _ => u32::MAX,
        };
        let (moved, after, answers) = twice(&board, &places, |board, places| {
            if first {
                board.move_6846_by(&rom, &words, places, cycles)
            } else {
                board.move_6840_by(&words, places, cycles)
            }
        });
        tally.calls += 1;
        tally.numbers[moved.number as usize] += 1;
        let report = board.report();
        assert_eq!(report, board.report());
        // A refusal goes by the ranges alone, so any record can be held against the second emulator then.
        let refused = moved.number != Number::Done && !moved.number.is_stop();
        let comparable = is_settled(&record) && twin::has_twin(&record);
        if !refused && !comparable {
            tally.skipped += 1;
            continue;
        }
        tally.compared += 1;
        tally.compared_of[moved.number as usize] += 1;
        let mut theirs = twin::twin(&record);
        let mut places = places;
        if comparable || report.is_err() {
            let ours = report.map_or_else(|number| (number as u32, 0), |levels| (0, levels.0));
            assert_eq!(ours, theirs.report(), "report of {record:?}");
        }
        let other = if first {
            theirs.move_6846(&rom, &words, &mut places, cycles)
        } else {
            theirs.move_6840(&words, &mut places, cycles)
        };
        assert_eq!(
            (moved.number as u32, moved.count),
            other,
            "{record:?}\n{words:x?} {cycles}"
        );
        assert_eq!(answers, places, "{record:?}\n{words:x?} {cycles}");
        if refused {
            continue;
        }
        if let Some(why) = twin::differ(after.record(), &theirs) {
            panic!("after {cycles} cycles of {record:?}\nby {words:x?}\nthe boards differ:\n{why}");
        }
        // Only a cycle of the 6846 drives CP2 anew.
        let combo = &after.record().combo;
        let drives = if first && moved.count > 0 {
            twin::driven(combo)
        } else {
            record.combo.driven
        };
        assert_eq!(
            combo.driven, drives,
            "CP2 after {cycles} cycles of {record:?}"
        );
    }
    tally
}
