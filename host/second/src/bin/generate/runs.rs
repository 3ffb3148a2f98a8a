//! What one run is made of.

use crate::maker::{Chip, Maker};
use crate::traffic::{Focus, Phase};
use second::rng::Rng;

/// One of so many runs goes to the longest lead; the other program must run them too.
const LONG_EVERY: u32 = 1000;
const LONG_AT: u32 = 7;
/// And one is a row of small boards with one event each, for every bit that may make it bad.
const ROW_AT: u32 = 8;

/// The text of the run of that index; now and then with other line ends or gaps between words.
pub fn run(seed: u64, index: u32, rom: &str) -> String {
    let text = format!("# run {index}\n{}", made(seed, index, rom));
    match index % 50 {
        11 => text.replace('\n', "\r\n"),
        12 => text.replace(' ', "\t "),
        13 => text.replace('\n', "# so\n\n"),
        _ => text,
    }
}

/// Each run has a stream of numbers of its own.
fn made(seed: u64, index: u32, rom: &str) -> String {
    let mut mix = Rng::new(seed);
    let first = mix.next();
    let mut rng = Rng::new(first ^ (index as u64 + 1).wrapping_mul(0xd134_2543_de82_ef95));
    if index % LONG_EVERY == LONG_AT {
        return long(rng, (seed as u32).wrapping_add(1 + index / LONG_EVERY) % 3);
    }
    if index % LONG_EVERY == ROW_AT {
        return row(rng);
    }
    match rng.below(100) {
        0..=5 => book(rng),
        6..=8 => ordinary(rng, true, rom),
        9..=34 => lockstep(rng),
        _ => ordinary(rng, false, rom),
    }
}

/// Stretches of random traffic, moved in any order and size.
fn ordinary(mut rng: Rng, refused: bool, rom: &str) -> String {
    let quiet_start = rng.chance(8);
    let mut maker = Maker::start(rng, refused, None);
    maker.look(if quiet_start { 90 } else { 10 });
    maker.set_up_6846();
    maker.set_up_6840();
    for _ in 0..maker.rng.between(1, 3) {
        let phase_6846 = Phase::random(&mut maker.rng);
        let phase_6840 = Phase::random(&mut maker.rng);
        let length = maker.rng.pick(&[10, 30, 60, 100]);
        maker.traffic(Chip::C6846, &phase_6846, length);
        maker.traffic(Chip::C6840, &phase_6840, length);
        if maker.rng.chance(4) {
            short_rom(&mut maker, rom);
        }
        moves(&mut maker);
    }
    if maker.rng.chance(80) {
        maker.level_up();
        maker.look(60);
    }
    if maker.rng.chance(30) {
        edge_event(&mut maker);
    }
    maker.end()
}

/// Both chips cycle by cycle, looked at all the time.
fn lockstep(rng: Rng) -> String {
    let mut maker = Maker::start(rng, false, None);
    maker.set_up_6846();
    maker.set_up_6840();
    let mut phase = Phase::random(&mut maker.rng);
    phase.gap = maker.rng.pick(&[1, 1, 1, 2]);
    for _ in 0..maker.rng.between(60, 170) {
        for chip in [Chip::C6846, Chip::C6840] {
            if maker.left(chip, maker.front(chip)) == 0 && maker.rng.chance(75) {
                maker.traffic(chip, &phase, 1);
            }
            maker.go(chip, 1);
        }
        if maker.rng.chance(70) {
            maker.line("report");
        }
    }
    maker.end()
}

/// Moves both chips past all that is queued, as far as they can go.
fn moves(maker: &mut Maker) {
    let ends = [maker.front(Chip::C6846), maker.front(Chip::C6840)];
    let later = if (ends[0].wrapping_sub(ends[1]) as i32) < 0 {
        ends[1]
    } else {
        ends[0]
    };
    let target = later.wrapping_add(maker.rng.below(12));
    let style = maker.rng.below(4);
    let mut stuck = 0;
    while stuck < 4 {
        let left = [
            maker.left(Chip::C6846, target),
            maker.left(Chip::C6840, target),
        ];
        if left == [0, 0] {
            return;
        }
        let first = if left[1] == 0 {
            0
        } else if left[0] == 0 {
            1
        } else {
            maker.rng.below(2) as usize
        };
        let chip = [Chip::C6846, Chip::C6840][first];
        let cycles = match style {
            0 => left[first],
            1 => maker.rng.between(0, 12).min(left[first] + 1),
            2 => maker.rng.pick(&[0, 1, 1, 2, 3, 5, 20, 40]),
            _ => maker.rng.between(0, left[first]),
        };
        let (_, count) = maker.go(chip, cycles);
        stuck = if count == 0 && cycles > 0 {
            stuck + 1
        } else {
            0
        };
        maker.look(20);
    }
    // A wired 6840 may only wait for the 6846.
    maker.level_up();
}

/// A ROM of another length: number 2, also with zero cycles asked.
fn short_rom(maker: &mut Maker, rom: &str) {
    maker.line(&format!("rom {rom}.short"));
    for cycles in [0, 1, 20] {
        maker.line(&format!("move 6846 {cycles}"));
    }
    maker.line("stamps");
    maker.line(&format!("rom {rom}"));
}

/// Ends a list with a bad event, or with a good one as far ahead as can be.
fn edge_event(maker: &mut Maker) {
    let chip = maker.rng.pick(&[Chip::C6846, Chip::C6840]);
    let front = maker.front(chip);
    let gap = maker.rng.pick(&[1, 1, 2, 5, 40]);
    let (levels, unnamed_levels, unnamed_access) = match chip {
        Chip::C6846 => (maker.levels_6846, 0xffff_e000u32, 0xff00_8000u32),
        Chip::C6840 => (maker.levels_6840, 0xffff_ff80, 0xff00_ffe0),
    };
    let good = match chip {
        Chip::C6846 => maker.access_6846(Focus::All),
        Chip::C6840 => maker.access_6840(),
    };
    let rng = &mut maker.rng;
    let mut bad = true;
    let (ahead, levels, access) = match rng.below(12) {
        0 => (gap, levels | one_of(rng, unnamed_levels), good),
        1 => (gap, levels, good | one_of(rng, unnamed_access)),
        2 => (
            gap,
            levels,
            (good | 2) & 0xff_ffff | 1 << rng.between(16, 23),
        ),
        3 => (gap, levels, 2),
        4 => (gap, levels, rng.between(1, 255) << 16),
        5 => (gap, levels, 1 << rng.between(2, 4)),
        6 => (0, levels, good),
        7 => (0x8000_0000, levels, good),
        8 => (0x8000_0000 + rng.between(1, 1000), levels, good),
        9 => (rng.between(1, 50).wrapping_neg(), levels, good),
        _ => {
            bad = false;
            (0x7fff_ffff, levels, good)
        }
    };
    maker.event(chip, front.wrapping_add(ahead), levels, access);
    if bad {
        // Behind a bad event nothing is reached, however much is asked.
        maker.after(chip, 1, 0);
        maker.go(chip, 0);
        let cycles = maker.rng.pick(&[1, 60, 0xffff_ffff]);
        maker.go(chip, cycles);
        maker.go(chip, 1);
    } else {
        for cycles in [0, 1, 7] {
            maker.go(chip, cycles);
        }
    }
    let other = if chip == Chip::C6846 {
        Chip::C6840
    } else {
        Chip::C6846
    };
    let cycles = maker.rng.between(0, 9);
    maker.go(other, cycles);
    maker.level_up();
}

/// Every single bit beside a plain read, write and absent access, and every distance of note.
fn row(mut rng: Rng) -> String {
    let mut text = String::new();
    for (chip, levels) in [(Chip::C6846, 0x1fff), (Chip::C6840, 0x7f)] {
        for bit in 0..32 {
            let turned = 1 << bit;
            for (levels, access) in [
                (levels | turned, 0),
                (levels, 1 | turned),
                (levels, 3 | turned),
                (levels, turned),
            ] {
                text += &one_event(rng.next(), chip, 2, levels, access);
            }
        }
        for ahead in [
            0,
            1,
            2,
            0x7fff_fffe,
            0x7fff_ffff,
            0x8000_0000,
            0x8000_0001,
            0xffff_ffff,
        ] {
            text += &one_event(rng.next(), chip, ahead, levels, 3);
        }
    }
    text
}

/// A board whose chip has done one cycle and then meets that event.
fn one_event(seed: u64, chip: Chip, ahead: u32, levels: u32, access: u32) -> String {
    let mut maker = Maker::start(Rng::new(seed), false, Some(0));
    maker.go(chip, 1);
    let stamp = maker.stamp(chip).wrapping_add(ahead);
    maker.event(chip, stamp, levels, access);
    maker.go(chip, 3);
    maker.end()
}

fn one_of(rng: &mut Rng, bits: u32) -> u32 {
    loop {
        let bit = 1 << rng.below(32);
        if bits & bit != 0 {
            return bit;
        }
    }
}

/// Fills the book of 64: CTO changes in every cycle, or in every second or third.
fn book(mut rng: Rng) -> String {
    let wire = rng.between(1, 3);
    let mut maker = Maker::start(rng, false, Some(wire));
    let latch = maker.rng.pick(&[0, 0, 0, 0, 1, 2]);
    maker.levels_6846 &= !(1 << 10);
    let tcr = maker.rng.pick(&[0x82, 0xc2, 0x92, 0xd2]);
    for (register, data) in [(6, 0), (7, latch), (5, tcr)] {
        let access = maker.write_6846(register, data);
        maker.after(Chip::C6846, 1, access);
    }
    maker.set_up_6840();
    if maker.rng.chance(50) {
        let phase = Phase::random(&mut maker.rng);
        maker.traffic(Chip::C6840, &phase, 60);
    }
    // Something waits in the cycle that the full book stops, and may change CTO, or not, by itself.
    let full = 3 + 65 * (latch + 1);
    let at = full - maker.rng.below(3);
    let stamp = maker.stamp(Chip::C6846).wrapping_add(at);
    let access = match maker.rng.below(7) {
        0 => maker.read_6846(5),
        1 => maker.write_6846(5, tcr & 0x7f),
        2 => maker.write_6846(5, tcr | 1),
        3 => maker.write_6846(7, 3),
        4 => maker.write_6846(5, tcr | 0x20),
        5 => {
            maker.levels_6846 &= !(1 << 12);
            0
        }
        _ => {
            maker.levels_6846 |= 1 << 10;
            0
        }
    };
    let levels = maker.levels_6846;
    maker.event(Chip::C6846, stamp, levels, access);
    for _ in 0..maker.rng.between(2, 5) {
        maker.go(Chip::C6846, 250);
        maker.look(50);
        let cycles = maker.rng.pick(&[0, 1, 1]);
        maker.go(Chip::C6846, cycles);
        let cycles = maker.rng.between(0, 6);
        maker.go(Chip::C6840, cycles);
        maker.look(50);
        let cycles = maker.rng.between(0, 4);
        maker.go(Chip::C6846, cycles);
    }
    maker.level_up();
    maker.end()
}

/// Goes to the longest lead: the 6846 first, the 6840 first, or the 6846 first with a wire.
fn long(mut rng: Rng, kind: u32) -> String {
    let wire = if kind == 2 { rng.between(1, 3) } else { 0 };
    let mut maker = Maker::start(rng, false, Some(wire));
    maker.set_up_6840();
    let chip = if kind == 1 { Chip::C6840 } else { Chip::C6846 };
    if kind == 2 {
        // About forty changes of CTO over the lead, all of them waiting.
        maker.levels_6846 &= !(1 << 10);
        for (register, data) in [(6, 6), (7, 100), (5, 0x82)] {
            let access = maker.write_6846(register, data);
            maker.after(Chip::C6846, 1, access);
        }
    } else {
        maker.set_up_6846();
    }
    let cycles = 65_535 - maker.rng.below(100);
    maker.go(chip, cycles);
    let left = 65_535 - maker.board.lead().unsigned_abs();
    maker.go(chip, left);
    maker.line("stamps");
    for cycles in [1, 1, 0, 0xffff_ffff] {
        maker.go(chip, cycles);
    }
    let other = if chip == Chip::C6846 {
        Chip::C6840
    } else {
        Chip::C6846
    };
    let cycles = maker.rng.between(1, 40);
    maker.go(other, cycles);
    maker.go(chip, 100);
    let cycles = maker.rng.between(1, 40);
    maker.go(other, cycles);
    maker.end()
}
