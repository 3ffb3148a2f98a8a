//! A batch against its single cycles, on the library alone: same board, same answers, same count.

use crate::traffic::{self, Feed};
use second::rng::Rng;
use vindoshaka::{level, Board, Moved, Number};

fn one_by_one(cycles: u32, mut step: impl FnMut() -> Moved) -> Moved {
    let mut count = 0;
    while count < cycles {
        let moved = step();
        count += moved.count;
        if moved.number != Number::Done {
            return Moved {
                number: moved.number,
                count,
            };
        }
    }
    Moved {
        number: Number::Done,
        count,
    }
}

/// Gives the cycles done twice.
pub fn run(seed: u64, cycles: u64) -> u64 {
    let mut rng = Rng::new(seed);
    let mut done = 0;
    while done < cycles {
        let options = traffic::options(&mut rng);
        let stamp = if rng.chance(30) {
            0xffff_fff0
        } else {
            rng.word()
        };
        let rom = traffic::rom(&mut rng);
        let mut batch = Board::start(options, stamp).expect("a legal start");
        let mut single = batch.clone();
        let mut first = Feed::new(level::ALL_6846, stamp);
        let mut other = Feed::new(level::ALL_6840, stamp);
        for _ in 0..20 {
            for _ in 0..rng.below(10) {
                traffic::push_6846(&mut rng, &mut first, &options, batch.stamp_6846());
                traffic::push_6840(&mut rng, &mut other, batch.stamp_6840());
            }
            let asked = rng.between(1, 400);
            let mut places = first.answers.clone();
            let moved = batch.move_6846_by(&rom, &first.words, &mut first.answers, asked);
            let steps = one_by_one(asked, || {
                single.move_6846_by(&rom, &first.words, &mut places, 1)
            });
            assert_eq!(moved, steps);
            assert_eq!(places, first.answers);
            done += moved.count as u64;
            let mut places = other.answers.clone();
            let moved = batch.move_6840_by(&other.words, &mut other.answers, asked);
            let steps = one_by_one(asked, || single.move_6840_by(&other.words, &mut places, 1));
            assert_eq!(moved, steps);
            assert_eq!(places, other.answers);
            done += moved.count as u64;
            assert_eq!(batch, single);
        }
    }
    done
}
