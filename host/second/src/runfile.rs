//! Replays a run file: text, one command a line.

use crate::board::Board;
use crate::watch::Watch;
use std::fs::File;
use std::io::{self, Read, Write};

/// What an answer place holds until it is written.
pub const UNWRITTEN: u16 = 43_981;
/// Events a list may hold.
pub const MOST_EVENTS: usize = 65_536;
/// Bytes a line may hold before its LF.
pub const LONGEST_LINE: usize = 4_096;
/// Bytes a lent ROM file may hold.
pub const LONGEST_ROM: usize = 65_536;

/// What a replay tells beside its output.
pub trait Listen: Watch {
    /// The options of a start and its number.
    fn started(&mut self, _options: &[u32; 6], _number: u32) {}
    /// A move ended with that number and count.
    fn moved(&mut self, _is_6840: bool, _number: u32, _count: u32, _board: &Board) {}
    fn reported(&mut self, _number: u32) {}
}

impl Listen for crate::watch::Nobody {}

/// Why a replay stopped.
pub enum Stop {
    /// A line's number, from 1, and the cause.
    Line(usize, String),
    /// The output could not be written.
    Output(io::Error),
}

impl From<io::Error> for Stop {
    fn from(error: io::Error) -> Stop {
        Stop::Output(error)
    }
}

/// One chip's list with its answer places.
#[derive(Default)]
struct List {
    words: Vec<u32>,
    answers: Vec<u16>,
}

impl List {
    fn clear(&mut self) {
        self.words.clear();
        self.answers.clear();
    }

    fn add(&mut self, event: &[u32]) -> Result<(), String> {
        if self.answers.len() == MOST_EVENTS {
            return Err(format!("more than {MOST_EVENTS} events on a list"));
        }
        self.words.extend_from_slice(event);
        self.answers.push(UNWRITTEN);
        Ok(())
    }
}

/// The state between two lines.
#[derive(Default)]
struct Replay {
    board: Option<Board>,
    rom: Vec<u8>,
    list_6846: List,
    list_6840: List,
}

/// Replays the whole text; ends at the first line that is an error.
pub fn replay<L: Listen>(text: &[u8], out: &mut impl Write, listener: &mut L) -> Result<(), Stop> {
    let mut replay = Replay::default();
    let mut rest = text;
    let mut at = 0;
    while !rest.is_empty() {
        at += 1;
        let line = take_line(&mut rest);
        let words = match line {
            Ok(line) => words_of(line),
            Err(cause) => return Err(Stop::Line(at, cause)),
        };
        let (&command, operands) = match words.split_first() {
            Some(split) => split,
            None => continue,
        };
        match replay.command(command, operands, out, listener) {
            Ok(()) => {}
            Err(Trouble::Cause(cause)) => return Err(Stop::Line(at, cause)),
            Err(Trouble::Output(error)) => return Err(Stop::Output(error)),
        }
    }
    Ok(())
}

/// Cuts one line off the text: a CR directly before the LF is dropped; the last line may lack its LF.
fn take_line<'t>(rest: &mut &'t [u8]) -> Result<&'t [u8], String> {
    let end = rest.iter().position(|&byte| byte == b'\n');
    let (line, after) = match end {
        Some(end) => (&rest[..end], &rest[end + 1..]),
        None => (*rest, &rest[rest.len()..]),
    };
    *rest = after;
    if line.len() > LONGEST_LINE {
        return Err(format!("line of more than {LONGEST_LINE} bytes"));
    }
    match line.split_last() {
        Some((b'\r', front)) if end.is_some() => Ok(front),
        _ => Ok(line),
    }
}

/// Words parted by spaces or tabs; `#` anywhere starts a comment.
fn words_of(line: &[u8]) -> Vec<&[u8]> {
    let code = line.split(|&byte| byte == b'#').next().unwrap_or(line);
    code.split(|&byte| byte == b' ' || byte == b'\t')
        .filter(|word| !word.is_empty())
        .collect()
}

/// Decimal, or hex with the prefix `0x`, up to 4,294,967,295; leading zeros allowed.
fn number_of(word: &[u8]) -> Result<u32, String> {
    let bad = || format!("bad number `{}`", shown(word));
    let (digits, radix) = match word.strip_prefix(b"0x") {
        Some(digits) => (digits, 16),
        None => (word, 10),
    };
    if digits.is_empty() {
        return Err(bad());
    }
    let mut value: u32 = 0;
    for &byte in digits {
        let digit = (byte as char).to_digit(radix).ok_or_else(bad)?;
        value = value
            .checked_mul(radix)
            .and_then(|value| value.checked_add(digit))
            .ok_or_else(bad)?;
    }
    Ok(value)
}

/// Exactly `N` numbers.
fn numbers<const N: usize>(words: &[&[u8]]) -> Result<[u32; N], String> {
    if words.len() != N {
        return Err(wrong_count());
    }
    let mut values = [0; N];
    for (value, word) in values.iter_mut().zip(words) {
        *value = number_of(word)?;
    }
    Ok(values)
}

fn none(words: &[&[u8]]) -> Result<(), String> {
    numbers::<0>(words).map(|_| ())
}

fn wrong_count() -> String {
    "wrong number of words".to_string()
}

/// A word as one line of text, whatever its bytes.
fn shown(word: &[u8]) -> String {
    word.escape_ascii().to_string()
}

/// Why one command failed.
enum Trouble {
    Cause(String),
    Output(io::Error),
}

impl From<String> for Trouble {
    fn from(cause: String) -> Trouble {
        Trouble::Cause(cause)
    }
}

impl From<io::Error> for Trouble {
    fn from(error: io::Error) -> Trouble {
        Trouble::Output(error)
    }
}

impl Replay {
    fn command<L: Listen>(
        &mut self,
        command: &[u8],
        words: &[&[u8]],
        out: &mut impl Write,
        listener: &mut L,
    ) -> Result<(), Trouble> {
        match command {
            b"start" => self.start(numbers(words)?, out, listener)?,
            b"rom" => self.lend(words)?,
            b"6846" => {
                self.started()?;
                self.list_6846.add(&numbers::<3>(words)?)?;
            }
            b"6840" => {
                self.started()?;
                self.list_6840.add(&numbers::<3>(words)?)?;
            }
            b"move" => self.step(words, out, listener)?,
            b"report" => {
                none(words)?;
                let (number, levels) = self.started()?.report();
                listener.reported(number);
                writeln!(out, "report {number} {}", level_text(levels))?;
            }
            b"stamps" => {
                none(words)?;
                let (s6846, s6840, waiting) = self.started()?.stamps();
                writeln!(out, "stamps {s6846} {s6840} {waiting}")?;
            }
            b"answers" => {
                none(words)?;
                self.started()?;
                write_answers(out, "6846", &self.list_6846.answers)?;
                write_answers(out, "6840", &self.list_6840.answers)?;
            }
            _ => return Err(format!("unknown word `{}`", shown(command)).into()),
        }
        Ok(())
    }

    fn started(&mut self) -> Result<&mut Board, String> {
        self.board
            .as_mut()
            .ok_or_else(|| "no start before this line".to_string())
    }

    /// Starts a board and empties both lists; a refused start leaves the fixed board and goes on.
    fn start<L: Listen>(
        &mut self,
        options: [u32; 6],
        out: &mut impl Write,
        listener: &mut L,
    ) -> io::Result<()> {
        let [rom, io, a6, extra, wire, stamp] = options;
        let (board, number) = Board::start(rom, io, a6, extra, wire, stamp);
        self.board = Some(board);
        self.list_6846.clear();
        self.list_6840.clear();
        listener.started(&options, number);
        writeln!(out, "start {number}")
    }

    fn lend(&mut self, words: &[&[u8]]) -> Result<(), String> {
        let path = match words {
            [path] => path,
            _ => return Err(wrong_count()),
        };
        let path = std::str::from_utf8(path)
            .map_err(|_| format!("cannot read `{}`: not a name", shown(path)))?;
        let mut rom = Vec::new();
        File::open(path)
            .and_then(|file| file.take(LONGEST_ROM as u64 + 1).read_to_end(&mut rom))
            .map_err(|error| format!("cannot read `{path}`: {error}"))?;
        if rom.len() > LONGEST_ROM {
            return Err(format!("`{path}` is longer than {LONGEST_ROM} bytes"));
        }
        self.rom = rom;
        Ok(())
    }

    fn step<L: Listen>(
        &mut self,
        words: &[&[u8]],
        out: &mut impl Write,
        listener: &mut L,
    ) -> Result<(), Trouble> {
        let (chip, cycles) = match words {
            [chip, cycles] => (chip, cycles),
            _ => return Err(wrong_count().into()),
        };
        let cycles = number_of(cycles)?;
        let board = match self.board.as_mut() {
            Some(board) => board,
            None => return Err("no start before this line".to_string().into()),
        };
        let (number, count) = match *chip {
            b"6846" => {
                let list = &mut self.list_6846;
                board.move_6846_watched(&self.rom, &list.words, &mut list.answers, cycles, listener)
            }
            b"6840" => {
                let list = &mut self.list_6840;
                board.move_6840_watched(&list.words, &mut list.answers, cycles, listener)
            }
            _ => return Err(format!("unknown word `{}`", shown(chip)).into()),
        };
        listener.moved(*chip == b"6840", number, count, board);
        writeln!(
            out,
            "{} {number} {count}",
            if *chip == b"6840" { "6840" } else { "6846" }
        )?;
        Ok(())
    }
}

/// Fourteen characters: P0 to P7, CP2, CTO, O1, O2, O3, IRQ.
fn level_text(levels: u32) -> String {
    (0..14)
        .map(|bit| if levels >> bit & 1 == 1 { '1' } else { '0' })
        .collect()
}

fn write_answers(out: &mut impl Write, chip: &str, answers: &[u16]) -> io::Result<()> {
    write!(out, "answers {chip}")?;
    for answer in answers {
        write!(out, " {answer}")?;
    }
    writeln!(out)
}
