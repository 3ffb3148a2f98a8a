//! `coverage FILE`: replays a run file and prints what it reached, one line per group.

use second::runfile::{replay, Listen, Stop};
use second::{Board, Place, Watch};
use std::fmt::Write as _;
use std::io::Write as _;
use std::process::ExitCode;

/// The modes by control bits 3, 4, 5 in that order; bit 3 is the number's lowest.
const MODES: [(usize, &str); 8] = [
    (0, "000"),
    (2, "010"),
    (4, "001"),
    (6, "011"),
    (1, "100"),
    (5, "101"),
    (3, "110"),
    (7, "111"),
];

/// Per mode; index 0 the 6846's timer, 1 to 3 the 6840's.
type PerMode = [[u64; 8]; 4];

#[derive(Default)]
struct Seen {
    clocks: PerMode,
    time_outs: PerMode,
    gate_starts: PerMode,
    interval_flags: PerMode,
    /// Time-outs of dual and of divided timers.
    dual: [u64; 4],
    divided: [u64; 4],
    external: [u64; 4],
    reads_6846: [u64; 8],
    writes_6846: [u64; 8],
    reads_6840: [u64; 8],
    /// CR1 and CR3 share register 0: 8 counts CR1.
    writes_6840: [u64; 9],
    rom_reads: u64,
    misses: u64,
    reset_cycles: [u64; 2],
    reset_accesses: [u64; 2],
    held: [u64; 2],
    released: [u64; 2],
    captures: u64,
    capture_reads: u64,
    /// By setting, low and high.
    cp2: [[u64; 2]; 4],
    armed_clears: [u64; 2],
    booked: u64,
    book_full: u64,
    wraps: [u64; 2],
    numbers: [u64; 10],
    stops: [[u64; 10]; 2],
    cycles: [u64; 2],
    starts: u64,
    wires: [u64; 4],
    a6: [u64; 3],
    extra: [u64; 5],
    codes: [u64; 16],
    longest_lead: [i32; 2],
}

fn index(place: Place) -> usize {
    match place {
        Place::Of6846 => 0,
        Place::One => 1,
        Place::Two => 2,
        Place::Three => 3,
    }
}

fn mode(control: u8) -> usize {
    (control >> 3 & 7) as usize
}

impl Watch for Seen {
    fn time_out(&mut self, place: Place, control: u8) {
        let at = index(place);
        self.time_outs[at][mode(control)] += 1;
        let bit_2 = control & 4 != 0;
        self.dual[at] += (at != 0 && bit_2) as u64;
        self.divided[at] += (at == 0 && bit_2 || at == 3 && control & 1 != 0) as u64;
    }

    fn clocked(&mut self, place: Place, control: u8) {
        self.clocks[index(place)][mode(control)] += 1;
        self.external[index(place)] += (control & 2 == 0) as u64;
    }

    fn gate_started(&mut self, place: Place, control: u8) {
        self.gate_starts[index(place)][mode(control)] += 1;
    }

    fn interval_flag(&mut self, place: Place, control: u8) {
        self.interval_flags[index(place)][mode(control)] += 1;
    }

    fn register_6846(&mut self, register: u32, read: bool) {
        let counts = if read {
            &mut self.reads_6846
        } else {
            &mut self.writes_6846
        };
        counts[register as usize] += 1;
    }

    fn register_6840(&mut self, register: u32, read: bool, cr20: bool) {
        if read {
            self.reads_6840[register as usize] += 1;
        } else if register == 0 && cr20 {
            self.writes_6840[8] += 1;
        } else {
            self.writes_6840[register as usize] += 1;
        }
    }

    fn rom_read(&mut self) {
        self.rom_reads += 1;
    }

    fn missed_6846(&mut self) {
        self.misses += 1;
    }

    fn reset_cycle(&mut self, is_6840: bool, access: bool) {
        self.reset_cycles[is_6840 as usize] += 1;
        self.reset_accesses[is_6840 as usize] += access as u64;
    }

    fn internal_reset(&mut self, is_6840: bool, set: bool) {
        let counts = if set {
            &mut self.held
        } else {
            &mut self.released
        };
        counts[is_6840 as usize] += 1;
    }

    fn capture(&mut self) {
        self.captures += 1;
    }

    fn capture_read(&mut self) {
        self.capture_reads += 1;
    }

    fn cp2_out(&mut self, setting: u8, level: bool) {
        self.cp2[setting as usize][level as usize] += 1;
    }

    fn armed_clear(&mut self, is_6840: bool) {
        self.armed_clears[is_6840 as usize] += 1;
    }

    fn booked(&mut self, waiting: u32) {
        self.booked += 1;
        self.book_full += (waiting == second::ROOM) as u64;
    }

    fn wrapped(&mut self, is_6840: bool) {
        self.wraps[is_6840 as usize] += 1;
    }
}

impl Listen for Seen {
    fn started(&mut self, options: &[u32; 6], number: u32) {
        self.numbers[number as usize] += 1;
        self.starts += 1;
        if number != 0 {
            return;
        }
        let [rom, io, a6, extra, wire, _] = options.map(|option| option as usize);
        self.codes[rom * 4 + io] += 1;
        self.a6[a6] += 1;
        self.extra[if extra == 0 { 0 } else { extra - 6 }] += 1;
        self.wires[wire] += 1;
    }

    fn moved(&mut self, is_6840: bool, number: u32, count: u32, board: &Board) {
        let chip = is_6840 as usize;
        self.numbers[number as usize] += 1;
        self.stops[chip][number as usize] += 1;
        self.cycles[chip] += count as u64;
        let lead = if is_6840 { -board.lead() } else { board.lead() };
        self.longest_lead[chip] = self.longest_lead[chip].max(lead);
    }

    fn reported(&mut self, number: u32) {
        self.numbers[number as usize] += 1;
    }
}

/// The counts with a name each.
fn named<'n>(names: impl IntoIterator<Item = &'n str>, counts: &[u64]) -> String {
    let mut line = String::new();
    for (name, count) in names.into_iter().zip(counts) {
        write!(line, " {name}={count}").unwrap();
    }
    line
}

fn by_mode(counts: &[u64; 8], wanted: impl Fn(usize) -> bool) -> String {
    let mut line = String::new();
    for (at, name) in MODES {
        if wanted(at) {
            write!(line, " {name}={}", counts[at]).unwrap();
        }
    }
    line
}

impl Seen {
    /// One line per group.
    fn lines(&self) -> String {
        let mut out = String::new();
        self.write(&mut out).expect("a string takes all");
        out
    }

    fn write(&self, out: &mut String) -> std::fmt::Result {
        let any = |_: usize| true;
        let interval = |mode: usize| mode & 1 == 1;
        let cycles = self.cycles[0] + self.cycles[1];
        writeln!(
            out,
            "starts {} cycles 6846={} 6840={} a run={}",
            self.starts,
            self.cycles[0],
            self.cycles[1],
            cycles / self.starts.max(1)
        )?;
        for (at, name) in ["6846 timer", "6840 timer 1", "6840 timer 2", "6840 timer 3"]
            .iter()
            .enumerate()
        {
            writeln!(
                out,
                "{name} clocks in mode{}",
                by_mode(&self.clocks[at], any)
            )?;
            writeln!(
                out,
                "{name} time-outs in mode{}",
                by_mode(&self.time_outs[at], any)
            )?;
            writeln!(
                out,
                "{name} gate starts in mode{}",
                by_mode(&self.gate_starts[at], any)
            )?;
            writeln!(
                out,
                "{name} interval flags{}",
                by_mode(&self.interval_flags[at], interval)
            )?;
        }
        let timers = ["6846", "1", "2", "3"];
        writeln!(out, "external clocks{}", named(timers, &self.external))?;
        writeln!(
            out,
            "dual time-outs{}",
            named(["1", "2", "3"], &self.dual[1..])
        )?;
        writeln!(
            out,
            "divided time-outs 6846={} 3={}",
            self.divided[0], self.divided[3]
        )?;
        writeln!(out, "cascaded time-outs {}", self.time_outs[0][4])?;
        writeln!(
            out,
            "6846 reads{}",
            named(
                ["status0", "PCR", "DDR", "PDR", "status4", "TCR", "MSB", "LSB"],
                &self.reads_6846
            )
        )?;
        writeln!(
            out,
            "6846 writes{}",
            named(
                ["status0", "PCR", "DDR", "PDR", "status4", "TCR", "MSB", "W"],
                &self.writes_6846
            )
        )?;
        writeln!(
            out,
            "6846 ROM reads {} misses {}",
            self.rom_reads, self.misses
        )?;
        writeln!(
            out,
            "6840 reads{}",
            named(
                ["0", "status", "MSB1", "LSB1", "MSB2", "LSB2", "MSB3", "LSB3"],
                &self.reads_6840
            )
        )?;
        writeln!(
            out,
            "6840 writes{}",
            named(
                ["CR3", "CR2", "MSB1", "W1", "MSB2", "W2", "MSB3", "W3", "CR1"],
                &self.writes_6840
            )
        )?;
        writeln!(
            out,
            "numbers{}",
            named(
                ["0", "1", "2", "3", "4", "5", "6", "7", "8", "9"],
                &self.numbers
            )
        )?;
        for (chip, name) in ["6846", "6840"].iter().enumerate() {
            let stops = &self.stops[chip];
            writeln!(
                out,
                "{name} moves 0={} 2={} 5={} 6={} 7={} longest lead {}",
                stops[0], stops[2], stops[5], stops[6], stops[7], self.longest_lead[chip]
            )?;
        }
        writeln!(out, "book changes {} at 64 {}", self.booked, self.book_full)?;
        let chips = ["6846", "6840"];
        writeln!(out, "stamp wraps{}", named(chips, &self.wraps))?;
        writeln!(
            out,
            "captures {} read {}",
            self.captures, self.capture_reads
        )?;
        for (setting, name) in ["0,0", "0,1", "1,0", "1,1"].iter().enumerate() {
            writeln!(
                out,
                "CP2 out {name}{}",
                named(["low", "high"], &self.cp2[setting])
            )?;
        }
        writeln!(out, "armed clears{}", named(chips, &self.armed_clears))?;
        writeln!(out, "internal reset set{}", named(chips, &self.held))?;
        writeln!(
            out,
            "internal reset released{}",
            named(chips, &self.released)
        )?;
        writeln!(out, "RESET cycles{}", named(chips, &self.reset_cycles))?;
        writeln!(out, "RESET accesses{}", named(chips, &self.reset_accesses))?;
        writeln!(
            out,
            "wired to{}",
            named(["none", "C1", "C2", "C3"], &self.wires)
        )?;
        writeln!(out, "A6 option{}", named(["0", "1", "either"], &self.a6))?;
        writeln!(
            out,
            "extra line{}",
            named(["none", "7", "8", "9", "10"], &self.extra)
        )?;
        let pairs = self.codes.iter().filter(|&&count| count > 0).count();
        writeln!(out, "code pairs {pairs} of 12")
    }
}

fn main() -> ExitCode {
    let arguments: Vec<_> = std::env::args_os().skip(1).collect();
    let path = match arguments.as_slice() {
        [path] => path,
        _ => {
            eprintln!("usage: coverage FILE");
            return ExitCode::from(2);
        }
    };
    let text = match std::fs::read(path) {
        Ok(text) => text,
        Err(error) => {
            eprintln!("cannot read {}: {error}", path.to_string_lossy());
            return ExitCode::from(2);
        }
    };
    let mut seen = Seen::default();
    let result = replay(&text, &mut std::io::sink(), &mut seen);
    // A reader that leaves early is no fault.
    let _ = std::io::stdout().write_all(seen.lines().as_bytes());
    match result {
        Ok(()) => ExitCode::SUCCESS,
        Err(Stop::Line(line, cause)) => {
            eprintln!("line {line}: {cause}");
            ExitCode::FAILURE
        }
        Err(Stop::Output(error)) => {
            eprintln!("cannot write: {error}");
            ExitCode::from(2)
        }
    }
}
