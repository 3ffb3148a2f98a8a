//! Writes the commands of one run, and plays them on a board of its own so that it knows the stamps.

use second::rng::Rng;
use second::Board;
use std::fmt::Write;

/// One chip's list, as the run file has it so far.
struct List {
    words: Vec<u32>,
    answers: Vec<u16>,
}

impl List {
    fn new() -> List {
        List {
            words: Vec::new(),
            answers: Vec::new(),
        }
    }
}

#[derive(Clone, Copy, PartialEq, Eq)]
pub enum Chip {
    C6846,
    C6840,
}

/// The start options as the board has them.
#[derive(Clone, Copy)]
pub struct Options {
    pub rom: u32,
    pub io: u32,
    pub a6: u32,
    pub extra: u32,
    pub wire: u32,
}

pub struct Maker {
    pub rng: Rng,
    pub options: Options,
    pub board: Board,
    /// The levels of the last event queued.
    pub levels_6846: u32,
    pub levels_6840: u32,
    /// What was last written to registers whose value steers the next choice.
    pub tcr: u32,
    pub cr1: u32,
    pub cr2: u32,
    list_6846: List,
    list_6840: List,
    rom: Vec<u8>,
    pub text: String,
}

impl Maker {
    /// Writes the start line; a refused start goes on with the fixed board.
    pub fn start(mut rng: Rng, refused: bool, wire: Option<u32>) -> Maker {
        let rom = rng.below(4);
        let mut line = [
            rom,
            (rom + rng.between(1, 3)) % 4,
            rng.below(3),
            rng.pick(&[0, 0, 0, 0, 7, 8, 9, 10]),
            wire.unwrap_or_else(|| rng.pick(&[0, 0, 1, 2, 3])),
            start_stamp(&mut rng),
        ];
        if refused {
            spoil(&mut rng, &mut line);
        }
        let [r, i, a, e, w, s] = line;
        let (board, _) = Board::start(r, i, a, e, w, s);
        let options = Options {
            rom: board.select.rom_code,
            io: board.select.io_code,
            a6: board.select.a6,
            extra: board.select.extra,
            wire: board.wire,
        };
        let mut maker = Maker {
            rng,
            options,
            board,
            levels_6846: 0x1fff,
            levels_6840: 0x7f,
            tcr: 1,
            cr1: 1,
            cr2: 0,
            list_6846: List::new(),
            list_6840: List::new(),
            rom: vec![0; 2048],
            text: String::new(),
        };
        maker.line(&format!("start {r} {i} {a} {e} {w} {}", number(s)));
        maker
    }

    pub fn line(&mut self, line: &str) {
        self.text.push_str(line);
        self.text.push('\n');
    }

    pub fn stamp(&self, chip: Chip) -> u32 {
        let (s6846, s6840, _) = self.board.stamps();
        if chip == Chip::C6846 {
            s6846
        } else {
            s6840
        }
    }

    /// Where the chip will stand when all queued events are done.
    pub fn front(&self, chip: Chip) -> u32 {
        let (list, done) = match chip {
            Chip::C6846 => (&self.list_6846, self.board.done_6846),
            Chip::C6840 => (&self.list_6840, self.board.done_6840),
        };
        if list.answers.len() > done {
            list.words[list.words.len() - 3]
        } else {
            self.stamp(chip)
        }
    }

    pub fn event(&mut self, chip: Chip, stamp: u32, levels: u32, access: u32) {
        let (name, list) = match chip {
            Chip::C6846 => ("6846", &mut self.list_6846),
            Chip::C6840 => ("6840", &mut self.list_6840),
        };
        list.words.extend([stamp, levels, access]);
        list.answers.push(43981);
        writeln!(
            self.text,
            "{name} {} 0x{levels:x} 0x{access:X}",
            number(stamp)
        )
        .unwrap();
    }

    /// An event `gap` cycles after the last one queued, with the levels as they stand.
    pub fn after(&mut self, chip: Chip, gap: u32, access: u32) {
        let stamp = self.front(chip).wrapping_add(gap);
        let levels = match chip {
            Chip::C6846 => self.levels_6846,
            Chip::C6840 => self.levels_6840,
        };
        self.event(chip, stamp, levels, access);
    }

    /// Writes a move and plays it.
    pub fn go(&mut self, chip: Chip, cycles: u32) -> (u32, u32) {
        match chip {
            Chip::C6846 => {
                self.line(&format!("move 6846 {}", number(cycles)));
                let list = &mut self.list_6846;
                self.board
                    .move_6846(&self.rom, &list.words, &mut list.answers, cycles)
            }
            Chip::C6840 => {
                self.line(&format!("move 6840 {}", number(cycles)));
                let list = &mut self.list_6840;
                self.board.move_6840(&list.words, &mut list.answers, cycles)
            }
        }
    }

    /// How far the chip has to go to a stamp; 0 if it is there or past it.
    pub fn left(&self, chip: Chip, target: u32) -> u32 {
        (target.wrapping_sub(self.stamp(chip)) as i32).max(0) as u32
    }

    /// Now and then one of the commands that only look.
    pub fn look(&mut self, percent: u32) {
        if self.rng.chance(percent) {
            let what = self.rng.pick(&[
                "report", "report", "report", "report", "stamps", "stamps", "answers",
            ]);
            self.line(what);
        }
    }

    /// Moves the chip that lags until both stand alike, as far as it can.
    pub fn level_up(&mut self) {
        for _ in 0..6 {
            let lead = self.board.lead();
            if lead == 0 {
                return;
            }
            let chip = if lead > 0 { Chip::C6840 } else { Chip::C6846 };
            if self.go(chip, lead.unsigned_abs()).0 == 5 {
                return;
            }
        }
    }

    pub fn end(mut self) -> String {
        for what in ["answers", "stamps", "report"] {
            self.line(what);
        }
        self.text
    }
}

/// Decimal while it is short, hex else: the reader must take both.
fn number(value: u32) -> String {
    if value < 1_000_000 {
        value.to_string()
    } else {
        format!("0x{value:08x}")
    }
}

/// Often near the place where stamps go round, or where their sign changes.
fn start_stamp(rng: &mut Rng) -> u32 {
    match rng.below(10) {
        0..=2 => rng.between(1, 150).wrapping_neg(),
        3 => 0x8000_0000 - rng.between(1, 150),
        4 => rng.below(3),
        5 => u32::MAX,
        _ => rng.word(),
    }
}

/// Makes one option wrong.
fn spoil(rng: &mut Rng, line: &mut [u32; 6]) {
    let far = rng.pick(&[0, 0, 0x100, 0x8000_0000]);
    match rng.below(6) {
        0 => line[0] = far + rng.between(4, 7),
        1 => line[1] = far + rng.between(4, 7),
        2 => line[1] = line[0],
        3 => line[2] = far + rng.between(3, 5),
        4 => line[3] = far + rng.pick(&[1, 2, 3, 4, 5, 6, 11, 12]),
        _ => line[4] = far + rng.between(4, 6),
    }
}
