//! The library and the second emulator side by side: random lists, call sequences and batch sizes.

use crate::traffic::{self, Feed};
use crate::twin;
use second::rng::Rng;
use vindoshaka::{level, raw, Board, Moved, Number, Options};

/// What a comparison went through.
#[derive(Default)]
pub struct Tally {
    pub boards: u64,
    pub calls: u64,
    pub cycles: u64,
    pub numbers: [u64; 10],
}

impl Tally {
    fn count(&mut self, moved: Moved) {
        self.calls += 1;
        self.cycles += moved.count as u64;
        self.numbers[moved.number as usize] += 1;
    }
}

struct Pair {
    options: Options,
    ours: Board,
    theirs: second::Board,
    rom: Vec<u8>,
    feed_6846: Feed,
    feed_6840: Feed,
}

/// A start in both: the library's whole answer, as the safe start drops the board of a refused one. The boards are the same in
/// every field, and so are the numbers.
fn start(options: Options, stamp: u32) -> (raw::Started, second::Board) {
    let Options {
        rom_code,
        io_code,
        a6,
        extra,
        wire,
    } = options;
    // SAFETY: numbers in, a struct by value out.
    let ours = unsafe { raw::vindoshaka_start(rom_code, io_code, a6, extra, wire, stamp) };
    let (theirs, number) = second::Board::start(rom_code, io_code, a6, extra, wire, stamp);
    assert_eq!(ours.number, number, "start of {options:?}");
    assert!(twin::has_twin(&ours.board), "start of {options:?}");
    assert_eq!(twin::twin(&ours.board), theirs, "start of {options:?}");
    (ours, theirs)
}

impl Pair {
    fn new(rng: &mut Rng) -> Pair {
        let options = traffic::options(rng);
        let stamp = rng.pick(&[0, 1, 0x7fff_ff00, 0xffff_f000, 0xffff_fff0, 77]);
        let (started, theirs) = start(options, stamp);
        let ours = Board::start(options, stamp).expect("a legal start");
        assert_eq!(*ours.record(), started.board);
        Pair {
            options,
            ours,
            theirs,
            rom: traffic::rom(rng),
            feed_6846: Feed::new(level::ALL_6846, stamp),
            feed_6840: Feed::new(level::ALL_6840, stamp),
        }
    }

    fn same(&self, what: &str) {
        if let Some(why) = twin::differ(self.ours.record(), &self.theirs) {
            panic!("after {what} the boards differ:\n{why}");
        }
        let combo = &self.ours.record().combo;
        assert_eq!(combo.driven, twin::driven(combo), "CP2 after {what}");
        let (number, levels) = self.theirs.report();
        let (our_number, our_levels) = match self.ours.report() {
            Ok(levels) => (Number::Done, levels.0),
            Err(number) => (number, 0),
        };
        assert_eq!((our_number as u32, our_levels), (number, levels), "report");
    }

    /// Moves one chip by the lists given, in both, and compares all that comes of it.
    fn go(
        &mut self,
        first: bool,
        rom: &[u8],
        words: &[u32],
        places: &[u16],
        cycles: u32,
    ) -> (Moved, Vec<u16>) {
        let (mut ours, mut theirs) = (places.to_vec(), places.to_vec());
        let (moved, other) = if first {
            (
                self.ours.move_6846_by(rom, words, &mut ours, cycles),
                self.theirs.move_6846(rom, words, &mut theirs, cycles),
            )
        } else {
            (
                self.ours.move_6840_by(words, &mut ours, cycles),
                self.theirs.move_6840(words, &mut theirs, cycles),
            )
        };
        let what = format!("{} by {cycles}", if first { "6846" } else { "6840" });
        assert_eq!((moved.number as u32, moved.count), other, "{what}");
        assert_eq!(ours, theirs, "answers of {what}");
        self.same(&what);
        (moved, ours)
    }

    fn feed(&mut self, rng: &mut Rng, events: u32) {
        let gap = rng.pick(&[1, 1, 2, 3, 8, 40]);
        self.feed_6846.pace(gap);
        self.feed_6840.pace(gap);
        for _ in 0..events {
            traffic::push_6846(
                rng,
                &mut self.feed_6846,
                &self.options,
                self.ours.stamp_6846(),
            );
            traffic::push_6840(rng, &mut self.feed_6840, self.ours.stamp_6840());
        }
    }

    /// A move by its own list.
    fn advance(&mut self, first: bool, cycles: u32) -> Moved {
        let rom = std::mem::take(&mut self.rom);
        let feed = if first {
            &mut self.feed_6846
        } else {
            &mut self.feed_6840
        };
        let words = std::mem::take(&mut feed.words);
        let places = std::mem::take(&mut feed.answers);
        let (moved, answers) = self.go(first, &rom, &words, &places, cycles);
        self.rom = rom;
        let feed = if first {
            &mut self.feed_6846
        } else {
            &mut self.feed_6840
        };
        feed.words = words;
        feed.answers = answers;
        moved
    }

    /// A move that is refused, or stops at a bad event: the list goes back to what it was.
    fn misuse(&mut self, rng: &mut Rng, tally: &mut Tally) {
        let first = rng.chance(50);
        let feed = if first {
            &self.feed_6846
        } else {
            &self.feed_6840
        };
        let done = if first {
            self.ours.record().done6846
        } else {
            self.ours.record().done6840
        };
        let (mut words, mut places, mut rom) =
            (feed.words.clone(), feed.answers.clone(), self.rom.clone());
        let cycles = rng.pick(&[0, 1, 7, u32::MAX]);
        match rng.below(5) {
            0 => rom.truncate(rng.below(2048) as usize),
            1 => words.push(rng.word()),
            2 if done > 0 => words.truncate(3 * (done - 1)),
            3 if !places.is_empty() => places.truncate(rng.below(places.len() as u32) as usize),
            _ if done < feed.events() => {
                let at = 3 * done;
                let event = traffic::spoiled(rng, [words[at], words[at + 1], words[at + 2]]);
                words[at..at + 3].copy_from_slice(&event);
                // Only the event itself is reached, so that the list can go on as it was.
                let (ours, theirs) = (self.ours.clone(), self.theirs.clone());
                let (moved, _) = self.go(first, &rom, &words, &places, cycles);
                tally.count(moved);
                (self.ours, self.theirs) = (ours, theirs);
                return;
            }
            _ => return,
        }
        let (ours, theirs) = (self.ours.clone(), self.theirs.clone());
        let (moved, _) = self.go(first, &rom, &words, &places, cycles);
        tally.count(moved);
        (self.ours, self.theirs) = (ours, theirs);
    }

    /// A record outside its ranges: both refuse.
    fn spoil(&mut self, rng: &mut Rng, tally: &mut Tally) {
        let (ours, theirs) = (self.ours.clone(), self.theirs.clone());
        let mut record = *self.ours.record();
        match rng.below(4) {
            0 => record.combo.timer.divider = rng.between(8, 255) as u8,
            1 => record.ptm.timers[rng.below(3) as usize].divider = rng.between(8, 255) as u8,
            2 => record.select.a6 = rng.between(3, 255) as u8,
            _ => record.stamp6840 = record.stamp6846.wrapping_add(rng.between(65_537, 1 << 31)),
        }
        self.ours = Board::from_record(record);
        self.theirs = twin::twin(&record);
        let moved = self.advance(rng.chance(50), 5);
        tally.count(moved);
        assert_eq!(moved.number, Number::BadRecord);
        (self.ours, self.theirs) = (ours, theirs);
    }
}

fn refused_start(rng: &mut Rng, tally: &mut Tally) {
    let mut options = traffic::options(rng);
    match rng.below(5) {
        0 => options.rom_code = rng.between(4, u32::MAX - 1),
        1 => options.io_code = options.rom_code,
        2 => options.a6 = rng.between(3, u32::MAX - 1),
        3 => options.extra = rng.pick(&[1, 6, 11, 256, 263, u32::MAX]),
        _ => options.wire = rng.pick(&[4, 256, u32::MAX]),
    }
    let stamp = rng.word();
    let (refused, _) = start(options, stamp);
    let refusal = Board::start(options, stamp).expect_err("an illegal start");
    assert_eq!(refusal as u32, refused.number);
    // What the second emulator has no field for is as the start that document 01 names leaves it.
    let (named, _) = start(
        Options {
            io_code: 1,
            ..Options::default()
        },
        0,
    );
    assert_eq!(refused.board, named.board);
    tally.numbers[refusal as usize] += 1;
}

/// At least so many cycles of each pair's chips, over many boards.
pub fn run(seed: u64, cycles: u64) -> Tally {
    let mut tally = Tally::default();
    let mut rng = Rng::new(seed);
    while tally.cycles < cycles {
        tally.boards += 1;
        refused_start(&mut rng, &mut tally);
        let mut pair = Pair::new(&mut rng);
        for _ in 0..rng.between(5, 120) {
            let events = rng.pick(&[0, 1, 5, 20]);
            pair.feed(&mut rng, events);
            let batch = match rng.below(1000) {
                0..=199 => rng.between(0, 3),
                200..=699 => rng.between(1, 60),
                700..=991 => rng.between(50, 2_000),
                992..=995 => 20_000,
                996..=997 => 70_000,
                _ => u32::MAX,
            };
            // Mostly both go, so that a wire is heard; sometimes one goes on alone.
            let moved = pair.advance(true, batch);
            tally.count(moved);
            if rng.chance(80) {
                let moved = pair.advance(false, batch);
                tally.count(moved);
            }
            match rng.below(30) {
                0..=7 => pair.misuse(&mut rng, &mut tally),
                8 => pair.spoil(&mut rng, &mut tally),
                _ => {}
            }
            let report = pair.ours.report();
            tally.numbers[report.err().map_or(0, |number| number as usize)] += 1;
        }
    }
    tally
}
